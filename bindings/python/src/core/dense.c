/* dense.c: methods that dense sets have alone: on capacity, on the first gap, and on a hash of all members. */
#include "core.h"

/* Makes the set an empty one with capacity for each index below a bound. */
static PyObject *dense_with_capacity(PyObject *object, PyObject *item) {
    Core *self = (Core *)object;
    Call call = {.changed = self};
    uint32_t bound;
    if (bound_of(item, true, &bound) < 0 || !begin_range(&call, 0, bound)) return NULL;
    hibitset_status status = hibitset_with_capacity(&self->set.dense, bound);
    end(&call);
    return none_or_error(status);
}

static PyObject *dense_reserve(PyObject *object, PyObject *item) {
    Core *self = (Core *)object;
    Call call = {.changed = self, .unchanged = true};
    uint32_t bound;
    if (bound_of(item, true, &bound) < 0 || !begin_range(&call, 0, bound)) return NULL;
    hibitset_status status = hibitset_reserve(&self->set.dense, bound);
    end(&call);
    return none_or_error(status);
}

static PyObject *dense_capacity(PyObject *object, PyObject *unused) {
    Core *self = (Core *)object;
    Call call = {.read = {self}};
    (void)unused;
    begin(&call, 0);
    size_t capacity = hibitset_capacity(&self->set.dense);
    end(&call);
    return PyLong_FromSize_t(capacity);
}

static PyObject *dense_first_gap(PyObject *object, PyObject *item) {
    Core *self = (Core *)object;
    Call call = {.read = {self}};
    uint32_t start, index;
    if (bound_of(item, false, &start) < 0) return NULL;
    begin_walk(&call);
    bool found = hibitset_first_gap(&self->set.dense, start, &index);
    end(&call);
    return index_or_none(found, index);
}

static PyObject *dense_fingerprint(PyObject *object, PyObject *unused) {
    Core *self = (Core *)object;
    Call call = {.read = {self}};
    (void)unused;
    begin_walk(&call);
    uint64_t hash = hibitset_hash(&self->set.dense);
    end(&call);
    return PyLong_FromUnsignedLongLong(hash);
}

PyDoc_STRVAR(reserve_text, "reserve($self, end, /)\n--\n\n"
"Make room, so that the indices below end can be added without an allocation, and keep the members.");

PyDoc_STRVAR(capacity_text, "capacity($self, /)\n--\n\n"
"Return a number below which each index can be added without an allocation.");

PyDoc_STRVAR(first_gap_text, "first_gap($self, start, /)\n--\n\n"
"Return the least index from start on that is no member, or None.\n\n"
">>> from hibitset import BitSet\n"
">>> BitSet([5, 6, 8]).first_gap(5)\n"
"7");

PyDoc_STRVAR(fingerprint_text, "fingerprint($self, /)\n--\n\n"
"Return a number of 64 bits that sets with the same members share. Other sets may have it too.\n\n"
">>> from hibitset import BitSet\n"
">>> BitSet([5, 6]).fingerprint() == BitSet([6, 5]).fingerprint()\n"
"True");

const PyMethodDef dense_methods[] = {
    METHOD("_with_capacity", dense_with_capacity, METH_O, NULL),
    METHOD("reserve", dense_reserve, METH_O, reserve_text),
    METHOD("capacity", dense_capacity, METH_NOARGS, capacity_text),
    METHOD("first_gap", dense_first_gap, METH_O, first_gap_text),
    METHOD("fingerprint", dense_fingerprint, METH_NOARGS, fingerprint_text),
    END_OF_METHODS,
};
