/* set.c: the library's functions on two sets, of any kinds. */
#include "set.h"

/* ---- Assignments ---- */

hibitset_status set_assign(Set *set, Set *other) {
    if (set->is_sparse) {
        return other->is_sparse ? hibitset_sparse_assign(&set->sparse, &other->sparse)
                                : hibitset_sparse_assign_dense(&set->sparse, &other->dense);
    }
    return other->is_sparse ? hibitset_assign_sparse(&set->dense, &other->sparse)
                            : hibitset_assign(&set->dense, &other->dense);
}

hibitset_status set_or_assign(Set *set, Set *other) {
    if (set->is_sparse) {
        return other->is_sparse ? hibitset_sparse_or_assign(&set->sparse, &other->sparse)
                                : hibitset_sparse_or_assign_dense(&set->sparse, &other->dense);
    }
    return other->is_sparse ? hibitset_or_assign_sparse(&set->dense, &other->sparse)
                            : hibitset_or_assign(&set->dense, &other->dense);
}

hibitset_status set_xor_assign(Set *set, Set *other) {
    if (set->is_sparse) {
        return other->is_sparse ? hibitset_sparse_xor_assign(&set->sparse, &other->sparse)
                                : hibitset_sparse_xor_assign_dense(&set->sparse, &other->dense);
    }
    return other->is_sparse ? hibitset_xor_assign_sparse(&set->dense, &other->sparse)
                            : hibitset_xor_assign(&set->dense, &other->dense);
}

hibitset_status set_and_assign(Set *set, Set *other) {
    if (set->is_sparse && other->is_sparse) {
        hibitset_sparse_and_assign(&set->sparse, &other->sparse);
    } else if (set->is_sparse) {
        hibitset_sparse_and_assign_dense(&set->sparse, &other->dense);
    } else if (other->is_sparse) {
        hibitset_and_assign_sparse(&set->dense, &other->sparse);
    } else {
        hibitset_and_assign(&set->dense, &other->dense);
    }
    return HIBITSET_OK;
}

hibitset_status set_andnot_assign(Set *set, Set *other) {
    if (set->is_sparse && other->is_sparse) {
        hibitset_sparse_andnot_assign(&set->sparse, &other->sparse);
    } else if (set->is_sparse) {
        hibitset_sparse_andnot_assign_dense(&set->sparse, &other->dense);
    } else if (other->is_sparse) {
        hibitset_andnot_assign_sparse(&set->dense, &other->sparse);
    } else {
        hibitset_andnot_assign(&set->dense, &other->dense);
    }
    return HIBITSET_OK;
}

/* ---- New sets ---- */

static bool are_dense(const Set *a, const Set *b) { return !a->is_sparse && !b->is_sparse; }

static bool are_sparse(const Set *a, const Set *b) { return a->is_sparse && b->is_sparse; }

/* Makes `out` a copy of a set, and changes it by another one. */
static hibitset_status copy_and(hibitset_status (*assign)(Set *set, Set *other), Set *a, Set *b, Set *out) {
    hibitset_status status = set_assign(out, a);
    return hibitset_failed(status) ? status : assign(out, b);
}

hibitset_status set_and(Set *a, Set *b, Set *out) {
    return are_dense(a, b) ? hibitset_and(&a->dense, &b->dense, &out->dense) : copy_and(set_and_assign, a, b, out);
}

hibitset_status set_or(Set *a, Set *b, Set *out) {
    return are_dense(a, b) ? hibitset_or(&a->dense, &b->dense, &out->dense) : copy_and(set_or_assign, a, b, out);
}

hibitset_status set_xor(Set *a, Set *b, Set *out) {
    return are_dense(a, b) ? hibitset_xor(&a->dense, &b->dense, &out->dense) : copy_and(set_xor_assign, a, b, out);
}

hibitset_status set_andnot(Set *a, Set *b, Set *out) {
    return are_dense(a, b) ? hibitset_andnot(&a->dense, &b->dense, &out->dense)
                           : copy_and(set_andnot_assign, a, b, out);
}

/* ---- Counts ---- */

/* Leaves how many members both have. A copy of a sparse one is made for it: so one of the two is sparse. */
static hibitset_status common_len(Set *a, Set *b, size_t *len) {
    Set both = set_new(true);
    hibitset_status status = a->is_sparse ? copy_and(set_and_assign, a, b, &both)
                                          : copy_and(set_and_assign, b, a, &both);
    if (!hibitset_failed(status)) *len = set_len(&both);
    set_free(&both);
    return status;
}

hibitset_status set_and_len(Set *a, Set *b, size_t *len) {
    if (!are_dense(a, b)) return common_len(a, b, len);
    *len = hibitset_and_len(&a->dense, &b->dense);
    return HIBITSET_OK;
}

hibitset_status set_or_len(Set *a, Set *b, size_t *len) {
    if (are_dense(a, b)) {
        *len = hibitset_or_len(&a->dense, &b->dense);
        return HIBITSET_OK;
    }
    size_t both;
    hibitset_status status = common_len(a, b, &both);
    if (!hibitset_failed(status)) *len = set_len(a) + set_len(b) - both;
    return status;
}

hibitset_status set_xor_len(Set *a, Set *b, size_t *len) {
    if (are_dense(a, b)) {
        *len = hibitset_xor_len(&a->dense, &b->dense);
        return HIBITSET_OK;
    }
    size_t both;
    hibitset_status status = common_len(a, b, &both);
    if (!hibitset_failed(status)) *len = set_len(a) - both + set_len(b) - both;
    return status;
}

hibitset_status set_andnot_len(Set *a, Set *b, size_t *len) {
    if (are_dense(a, b)) {
        *len = hibitset_andnot_len(&a->dense, &b->dense);
        return HIBITSET_OK;
    }
    size_t both;
    hibitset_status status = common_len(a, b, &both);
    if (!hibitset_failed(status)) *len = set_len(a) - both;
    return status;
}

/* ---- Comparisons ---- */

hibitset_status set_is_disjoint(Set *a, Set *b, bool *holds) {
    if (are_sparse(a, b)) {
        *holds = hibitset_sparse_is_disjoint(&a->sparse, &b->sparse);
        return HIBITSET_OK;
    }
    if (are_dense(a, b)) {
        *holds = hibitset_is_disjoint(&a->dense, &b->dense);
        return HIBITSET_OK;
    }
    size_t both;
    hibitset_status status = common_len(a, b, &both);
    if (!hibitset_failed(status)) *holds = both == 0;
    return status;
}

hibitset_status set_is_subset(Set *a, Set *b, bool *holds) {
    if (are_sparse(a, b)) {
        *holds = hibitset_sparse_is_subset(&a->sparse, &b->sparse);
        return HIBITSET_OK;
    }
    if (are_dense(a, b)) {
        *holds = hibitset_is_subset(&a->dense, &b->dense);
        return HIBITSET_OK;
    }
    size_t both;
    hibitset_status status = common_len(a, b, &both);
    if (!hibitset_failed(status)) *holds = both == set_len(a);
    return status;
}

hibitset_status set_equals(Set *a, Set *b, bool *holds) {
    if (are_sparse(a, b)) {
        *holds = hibitset_sparse_equals(&a->sparse, &b->sparse);
        return HIBITSET_OK;
    }
    if (are_dense(a, b)) {
        *holds = hibitset_equals(&a->dense, &b->dense);
        return HIBITSET_OK;
    }
    *holds = false;
    return set_len(a) == set_len(b) ? set_is_subset(a, b, holds) : HIBITSET_OK;
}
