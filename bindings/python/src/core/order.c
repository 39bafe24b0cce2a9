/* order.c: methods that count members, or find them by their order. */
#include "core.h"

Py_ssize_t core_length(PyObject *object) {
    Core *self = (Core *)object;
    Call call = {.read = {self}};
    begin_walk(&call);
    size_t len = set_len(&self->set);
    end(&call);
    return (Py_ssize_t)len;
}

int core_bool(PyObject *object) {
    Core *self = (Core *)object;
    Call call = {.read = {self}};
    begin(&call, 0);
    bool is_empty = set_is_empty(&self->set);
    end(&call);
    return !is_empty;
}

/* Returns a member, the least or the greatest one. */
static PyObject *member_at_end(PyObject *object, bool (*find)(Set *set, uint32_t *index), const char *empty) {
    Core *self = (Core *)object;
    Call call = {.read = {self}};
    uint32_t index;
    begin(&call, 0);
    bool found = find(&self->set, &index);
    end(&call);
    if (found) return PyLong_FromUnsignedLong(index);
    PyErr_SetString(PyExc_ValueError, empty);
    return NULL;
}

static PyObject *core_min(PyObject *self, PyObject *unused) {
    (void)unused;
    return member_at_end(self, set_first, "min of an empty set");
}

static PyObject *core_max(PyObject *self, PyObject *unused) {
    (void)unused;
    return member_at_end(self, set_last, "max of an empty set");
}

static PyObject *core_first_from(PyObject *object, PyObject *item) {
    Core *self = (Core *)object;
    Call call = {.read = {self}};
    uint32_t start, index;
    if (bound_of(item, false, &start) < 0) return NULL;
    begin(&call, 0);
    size_t count = set_next_many(&self->set, start, &index, 1);
    end(&call);
    return index_or_none(count == 1, index);
}

static PyObject *core_last_before(PyObject *object, PyObject *item) {
    Core *self = (Core *)object;
    Call call = {.read = {self}};
    uint32_t bound, index;
    if (bound_of(item, false, &bound) < 0) return NULL;
    begin(&call, 0);
    bool found = set_last_before(&self->set, bound, &index);
    end(&call);
    return index_or_none(found, index);
}

static PyObject *core_rank(PyObject *object, PyObject *item) {
    Core *self = (Core *)object;
    Call call = {.read = {self}};
    uint32_t bound;
    if (bound_of(item, false, &bound) < 0) return NULL;
    begin_walk(&call);
    size_t rank = set_rank(&self->set, bound);
    end(&call);
    return PyLong_FromSize_t(rank);
}

/* Returns the member at a position of the ascending list, or None. */
static PyObject *core_select(PyObject *object, PyObject *item) {
    Core *self = (Core *)object;
    Call call = {.read = {self}};
    uint32_t at, index;
    if (bound_of(item, false, &at) < 0) return NULL;
    begin_walk(&call);
    bool found = set_select(&self->set, at, &index);
    end(&call);
    return index_or_none(found, index);
}

static PyObject *core_len_range(PyObject *object, PyObject *const *arguments, Py_ssize_t count) {
    Core *self = (Core *)object;
    Call call = {.read = {self}};
    uint32_t start, bound;
    if (bounds_of(arguments, count, false, &start, &bound) < 0) return NULL;
    begin_walk(&call);
    size_t len = set_len_range(&self->set, start, bound);
    end(&call);
    return PyLong_FromSize_t(len);
}

/* Writes the ranks of the bounds in one buffer into another. */
static PyObject *core_rank_many(PyObject *object, PyObject *const *arguments, Py_ssize_t count) {
    Core *self = (Core *)object;
    Call call = {.read = {self}};
    Items bounds, ranks;
    if (check_count(count, 2) < 0 || items_of(arguments[0], 4, false, &bounds) < 0) return NULL;
    if (items_of(arguments[1], 8, true, &ranks) < 0) {
        PyBuffer_Release(&bounds.view);
        return NULL;
    }
    bool fits = bounds.len <= ranks.len;
    if (fits) {
        begin_walk_and(&call, bounds.len);
        set_rank_many(&self->set, bounds.items, bounds.len, ranks.items, ranks.len);
        end(&call);
    }
    PyBuffer_Release(&bounds.view);
    PyBuffer_Release(&ranks.view);
    return none_or_error(fits ? HIBITSET_OK : HIBITSET_SHORT_BUFFER);
}

PyDoc_STRVAR(min_text, "min($self, /)\n--\n\n"
"Return the least member. ValueError if there is none.");

PyDoc_STRVAR(max_text, "max($self, /)\n--\n\n"
"Return the greatest member. ValueError if there is none.");

PyDoc_STRVAR(first_from_text, "first_from($self, start, /)\n--\n\n"
"Return the least member from start on, or None.\n\n"
">>> from hibitset import BitSet\n"
">>> BitSet([5, 70_000]).first_from(6)\n"
"70000");

PyDoc_STRVAR(last_before_text, "last_before($self, end, /)\n--\n\n"
"Return the greatest member before end, or None.\n\n"
">>> from hibitset import BitSet\n"
">>> BitSet([5, 70_000]).last_before(70_000)\n"
"5");

PyDoc_STRVAR(rank_text, "rank($self, end, /)\n--\n\n"
"Return how many members are less than end: the position of end, if it is a member.\n\n"
">>> from hibitset import BitSet\n"
">>> BitSet([5, 6, 8]).rank(8)\n"
"2");

PyDoc_STRVAR(len_range_text, "len_range($self, start, end, /)\n--\n\n"
"Return how many members lie in range(start, end).");

const PyMethodDef order_methods[] = {
    METHOD("min", core_min, METH_NOARGS, min_text),
    METHOD("max", core_max, METH_NOARGS, max_text),
    METHOD("first_from", core_first_from, METH_O, first_from_text),
    METHOD("last_before", core_last_before, METH_O, last_before_text),
    METHOD("rank", core_rank, METH_O, rank_text),
    METHOD("_select", core_select, METH_O, NULL),
    METHOD("len_range", core_len_range, METH_FASTCALL, len_range_text),
    METHOD("_rank_many", core_rank_many, METH_FASTCALL, NULL),
    END_OF_METHODS,
};
