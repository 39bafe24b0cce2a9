/* set.h: a set of one of the library's two kinds, and the library's functions on one and on two of them. */
#ifndef HIBITSET_CORE_SET_H
#define HIBITSET_CORE_SET_H

#include "hibitset.h"

/* A dense set, or a sparse one. */
typedef struct {
    bool is_sparse;
    union {
        hibitset_t dense;
        hibitset_sparse_t sparse;
    };
} Set;

static inline Set set_new(bool is_sparse) {
    Set set = {.is_sparse = is_sparse};
    if (is_sparse) {
        set.sparse = hibitset_sparse_new();
    } else {
        set.dense = hibitset_new();
    }
    return set;
}

/* ---- One set: each is the function of the library with its name, of the set's kind ---- */

static inline void set_free(Set *set) {
    if (set->is_sparse) {
        hibitset_sparse_free(&set->sparse);
    } else {
        hibitset_free(&set->dense);
    }
}

static inline size_t set_memory(Set *set) {
    return set->is_sparse ? hibitset_sparse_memory(&set->sparse) : hibitset_memory(&set->dense);
}

static inline hibitset_status set_add(Set *set, uint32_t index) {
    return set->is_sparse ? hibitset_sparse_add(&set->sparse, index) : hibitset_add(&set->dense, index);
}

static inline hibitset_status set_add_many(Set *set, const uint32_t *indices, size_t len, size_t *added) {
    return set->is_sparse ? hibitset_sparse_add_many(&set->sparse, indices, len, added)
                          : hibitset_add_many(&set->dense, indices, len, added);
}

static inline hibitset_status set_add_range(Set *set, uint32_t start, uint32_t bound) {
    return set->is_sparse ? hibitset_sparse_add_range(&set->sparse, start, bound)
                          : hibitset_add_range(&set->dense, start, bound);
}

static inline hibitset_status set_flip_range(Set *set, uint32_t start, uint32_t bound) {
    return set->is_sparse ? hibitset_sparse_flip_range(&set->sparse, start, bound)
                          : hibitset_flip_range(&set->dense, start, bound);
}

static inline bool set_remove(Set *set, uint32_t index) {
    return set->is_sparse ? hibitset_sparse_remove(&set->sparse, index) : hibitset_remove(&set->dense, index);
}

static inline size_t set_remove_many(Set *set, const uint32_t *indices, size_t len) {
    return set->is_sparse ? hibitset_sparse_remove_many(&set->sparse, indices, len)
                          : hibitset_remove_many(&set->dense, indices, len);
}

static inline void set_remove_range(Set *set, uint32_t start, uint32_t bound) {
    if (set->is_sparse) {
        hibitset_sparse_remove_range(&set->sparse, start, bound);
    } else {
        hibitset_remove_range(&set->dense, start, bound);
    }
}

static inline bool set_pop_first(Set *set, uint32_t *index) {
    return set->is_sparse ? hibitset_sparse_pop_first(&set->sparse, index) : hibitset_pop_first(&set->dense, index);
}

static inline bool set_pop_last(Set *set, uint32_t *index) {
    return set->is_sparse ? hibitset_sparse_pop_last(&set->sparse, index) : hibitset_pop_last(&set->dense, index);
}

static inline bool set_contains(Set *set, uint32_t index) {
    return set->is_sparse ? hibitset_sparse_contains(&set->sparse, index) : hibitset_contains(&set->dense, index);
}

static inline size_t set_contains_many(Set *set, const uint32_t *indices, size_t len, uint8_t *found,
                                       size_t found_len) {
    return set->is_sparse ? hibitset_sparse_contains_many(&set->sparse, indices, len, found, found_len)
                          : hibitset_contains_many(&set->dense, indices, len, found, found_len);
}

static inline size_t set_len(Set *set) {
    return set->is_sparse ? hibitset_sparse_len(&set->sparse) : hibitset_len(&set->dense);
}

static inline bool set_is_empty(Set *set) {
    return set->is_sparse ? hibitset_sparse_is_empty(&set->sparse) : hibitset_is_empty(&set->dense);
}

static inline bool set_first(Set *set, uint32_t *index) {
    return set->is_sparse ? hibitset_sparse_first(&set->sparse, index) : hibitset_first(&set->dense, index);
}

static inline bool set_last(Set *set, uint32_t *index) {
    return set->is_sparse ? hibitset_sparse_last(&set->sparse, index) : hibitset_last(&set->dense, index);
}

static inline bool set_last_before(Set *set, uint32_t bound, uint32_t *index) {
    return set->is_sparse ? hibitset_sparse_last_before(&set->sparse, bound, index)
                          : hibitset_last_before(&set->dense, bound, index);
}

static inline size_t set_rank(Set *set, uint32_t bound) {
    return set->is_sparse ? hibitset_sparse_rank(&set->sparse, bound) : hibitset_rank(&set->dense, bound);
}

static inline size_t set_rank_many(Set *set, const uint32_t *bounds, size_t len, uint64_t *ranks, size_t ranks_len) {
    return set->is_sparse ? hibitset_sparse_rank_many(&set->sparse, bounds, len, ranks, ranks_len)
                          : hibitset_rank_many(&set->dense, bounds, len, ranks, ranks_len);
}

static inline bool set_select(Set *set, size_t at, uint32_t *index) {
    return set->is_sparse ? hibitset_sparse_select(&set->sparse, at, index) : hibitset_select(&set->dense, at, index);
}

static inline size_t set_len_range(Set *set, uint32_t start, uint32_t bound) {
    return set->is_sparse ? hibitset_sparse_len_range(&set->sparse, start, bound)
                          : hibitset_len_range(&set->dense, start, bound);
}

static inline size_t set_next_many(Set *set, uint32_t start, uint32_t *buffer, size_t len) {
    return set->is_sparse ? hibitset_sparse_next_many(&set->sparse, start, buffer, len)
                          : hibitset_next_many(&set->dense, start, buffer, len);
}

static inline size_t set_prev_many(Set *set, uint32_t bound, uint32_t *buffer, size_t len) {
    return set->is_sparse ? hibitset_sparse_prev_many(&set->sparse, bound, buffer, len)
                          : hibitset_prev_many(&set->dense, bound, buffer, len);
}

static inline size_t set_next_many_u64(Set *set, uint32_t start, uint64_t base, uint64_t *buffer, size_t len) {
    return set->is_sparse ? hibitset_sparse_next_many_u64(&set->sparse, start, base, buffer, len)
                          : hibitset_next_many_u64(&set->dense, start, base, buffer, len);
}

static inline size_t set_roaring_len(Set *set) {
    return set->is_sparse ? hibitset_sparse_roaring_len(&set->sparse) : hibitset_roaring_len(&set->dense);
}

static inline hibitset_status set_roaring_write(Set *set, uint8_t *buffer, size_t len, size_t *taken) {
    return set->is_sparse ? hibitset_sparse_roaring_write(&set->sparse, buffer, len, taken)
                          : hibitset_roaring_write(&set->dense, buffer, len, taken);
}

static inline hibitset_status set_roaring_read_below(Set *set, const uint8_t *bytes, size_t len, uint32_t keys,
                                                     hibitset_fault *fault, size_t *at) {
    return set->is_sparse ? hibitset_sparse_roaring_read_below(&set->sparse, bytes, len, keys, fault, at)
                          : hibitset_roaring_read_below(&set->dense, bytes, len, keys, fault, at);
}

/* ---- Two sets of any kinds (set.c) ---- */

/* Each changes `set` as the library's function of this name. HIBITSET_NO_MEMORY: its members are unchanged. */
hibitset_status set_assign(Set *set, Set *other);
hibitset_status set_or_assign(Set *set, Set *other);
hibitset_status set_xor_assign(Set *set, Set *other);
hibitset_status set_and_assign(Set *set, Set *other);
hibitset_status set_andnot_assign(Set *set, Set *other);

/* Each makes `out`, an empty set of the kind of `a`, one of members of the two. HIBITSET_NO_MEMORY: `out` has any. */
hibitset_status set_and(Set *a, Set *b, Set *out);
hibitset_status set_or(Set *a, Set *b, Set *out);
hibitset_status set_xor(Set *a, Set *b, Set *out);
hibitset_status set_andnot(Set *a, Set *b, Set *out);

/* Each leaves what it is asked for. HIBITSET_NO_MEMORY (never of two dense sets): nothing is left. */
hibitset_status set_is_disjoint(Set *a, Set *b, bool *holds);
hibitset_status set_is_subset(Set *a, Set *b, bool *holds);
hibitset_status set_equals(Set *a, Set *b, bool *holds);
hibitset_status set_and_len(Set *a, Set *b, size_t *len);
hibitset_status set_or_len(Set *a, Set *b, size_t *len);
hibitset_status set_xor_len(Set *a, Set *b, size_t *len);
hibitset_status set_andnot_len(Set *a, Set *b, size_t *len);

#endif
