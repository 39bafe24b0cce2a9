/* pairs.c: methods on two sets, of any kinds, and copies. */
#include "core.h"

/* ---- Assignments ---- */

static PyObject *assign_by(PyObject *object, PyObject *argument,
                           hibitset_status (*assign)(Set *set, Set *other)) {
    Core *self = (Core *)object, *other = core_of(argument);
    Call call = {.changed = self, .read = {other}};
    if (other == NULL || !begin_walk(&call)) return NULL;
    hibitset_status status = assign(&self->set, &other->set);
    call.unchanged = hibitset_failed(status);
    end(&call);
    return none_or_error(status);
}

/* Makes a set that of the members of another one. */
static PyObject *core_assign(PyObject *self, PyObject *other) { return assign_by(self, other, set_assign); }

static PyObject *core_or_assign(PyObject *self, PyObject *other) {
    return assign_by(self, other, set_or_assign);
}

static PyObject *core_xor_assign(PyObject *self, PyObject *other) {
    return assign_by(self, other, set_xor_assign);
}

static PyObject *core_and_assign(PyObject *self, PyObject *other) { return assign_by(self, other, set_and_assign); }

static PyObject *core_andnot_assign(PyObject *self, PyObject *other) {
    return assign_by(self, other, set_andnot_assign);
}

/* ---- New sets ---- */

static PyObject *combine_by(PyObject *object, PyObject *argument,
                            hibitset_status (*combine)(Set *a, Set *b, Set *out)) {
    Core *self = (Core *)object, *other = core_of(argument);
    Call call = {.read = {self, other}};
    if (other == NULL) return NULL;
    Core *made = new_set(self->set.is_sparse);
    if (made == NULL) return NULL;
    begin_walk(&call);
    hibitset_status status = combine(&self->set, &other->set, &made->set);
    end(&call);
    return set_or_error(made, status);
}

static PyObject *core_and(PyObject *self, PyObject *other) { return combine_by(self, other, set_and); }

static PyObject *core_or(PyObject *self, PyObject *other) { return combine_by(self, other, set_or); }

static PyObject *core_xor(PyObject *self, PyObject *other) { return combine_by(self, other, set_xor); }

static PyObject *core_andnot(PyObject *self, PyObject *other) { return combine_by(self, other, set_andnot); }

static PyObject *core_copy(PyObject *object, PyObject *unused) {
    Core *self = (Core *)object, *made = new_set(self->set.is_sparse);
    Call call = {.read = {self}};
    (void)unused;
    if (made == NULL) return NULL;
    begin_walk(&call);
    hibitset_status status = set_assign(&made->set, &self->set);
    end(&call);
    return set_or_error(made, status);
}

/* ---- Questions ---- */

static PyObject *compare_by(PyObject *object, PyObject *argument,
                            hibitset_status (*compare)(Set *a, Set *b, bool *holds)) {
    Core *self = (Core *)object, *other = core_of(argument);
    Call call = {.read = {self, other}};
    if (other == NULL) return NULL;
    bool holds = false;
    begin_walk(&call);
    hibitset_status status = compare(&self->set, &other->set, &holds);
    end(&call);
    return hibitset_failed(status) ? none_or_error(status) : PyBool_FromLong(holds);
}

static PyObject *core_equals(PyObject *self, PyObject *other) { return compare_by(self, other, set_equals); }

static PyObject *core_is_subset(PyObject *self, PyObject *other) { return compare_by(self, other, set_is_subset); }

static PyObject *core_is_disjoint(PyObject *self, PyObject *other) {
    return compare_by(self, other, set_is_disjoint);
}

static PyObject *count_by(PyObject *object, PyObject *argument,
                          hibitset_status (*count)(Set *a, Set *b, size_t *len)) {
    Core *self = (Core *)object, *other = core_of(argument);
    Call call = {.read = {self, other}};
    if (other == NULL) return NULL;
    size_t len = 0;
    begin_walk(&call);
    hibitset_status status = count(&self->set, &other->set, &len);
    end(&call);
    return hibitset_failed(status) ? none_or_error(status) : PyLong_FromSize_t(len);
}

static PyObject *core_and_len(PyObject *self, PyObject *other) { return count_by(self, other, set_and_len); }

static PyObject *core_or_len(PyObject *self, PyObject *other) { return count_by(self, other, set_or_len); }

static PyObject *core_xor_len(PyObject *self, PyObject *other) { return count_by(self, other, set_xor_len); }

static PyObject *core_andnot_len(PyObject *self, PyObject *other) { return count_by(self, other, set_andnot_len); }

PyDoc_STRVAR(copy_text, "copy($self, /)\n--\n\n"
"Return a set with the same members.");

const PyMethodDef pair_methods[] = {
    METHOD("_assign", core_assign, METH_O, NULL),
    METHOD("_or_assign", core_or_assign, METH_O, NULL),
    METHOD("_xor_assign", core_xor_assign, METH_O, NULL),
    METHOD("_and_assign", core_and_assign, METH_O, NULL),
    METHOD("_andnot_assign", core_andnot_assign, METH_O, NULL),
    METHOD("_and", core_and, METH_O, NULL),
    METHOD("_or", core_or, METH_O, NULL),
    METHOD("_xor", core_xor, METH_O, NULL),
    METHOD("_andnot", core_andnot, METH_O, NULL),
    METHOD("copy", core_copy, METH_NOARGS, copy_text),
    METHOD("_equals", core_equals, METH_O, NULL),
    METHOD("_is_subset", core_is_subset, METH_O, NULL),
    METHOD("_is_disjoint", core_is_disjoint, METH_O, NULL),
    METHOD("_and_len", core_and_len, METH_O, NULL),
    METHOD("_or_len", core_or_len, METH_O, NULL),
    METHOD("_xor_len", core_xor_len, METH_O, NULL),
    METHOD("_andnot_len", core_andnot_len, METH_O, NULL),
    END_OF_METHODS,
};
