/* ranges.c: methods on ranges of indices, on all of them, and on memory. */
#include "core.h"

/* Changes the indices in a range by a function of the library. */
static PyObject *change_range(PyObject *object, PyObject *const *arguments, Py_ssize_t count,
                              hibitset_status (*change)(Set *set, uint32_t start, uint32_t end)) {
    Core *self = (Core *)object;
    Call call = {.changed = self};
    uint32_t start, bound;
    if (bounds_of(arguments, count, true, &start, &bound) < 0 || !begin_range(&call, start, bound)) return NULL;
    hibitset_status status = change(&self->set, start, bound);
    call.unchanged = hibitset_failed(status);
    end(&call);
    return none_or_error(status);
}

static PyObject *core_add_range(PyObject *self, PyObject *const *arguments, Py_ssize_t count) {
    return change_range(self, arguments, count, set_add_range);
}

static PyObject *core_flip_range(PyObject *self, PyObject *const *arguments, Py_ssize_t count) {
    return change_range(self, arguments, count, set_flip_range);
}

static PyObject *core_remove_range(PyObject *object, PyObject *const *arguments, Py_ssize_t count) {
    Core *self = (Core *)object;
    Call call = {.changed = self};
    uint32_t start, bound;
    if (bounds_of(arguments, count, false, &start, &bound) < 0 || !begin_walk(&call)) return NULL;
    set_remove_range(&self->set, start, bound);
    end(&call);
    Py_RETURN_NONE;
}

static PyObject *core_clear(PyObject *object, PyObject *unused) {
    Core *self = (Core *)object;
    Call call = {.changed = self};
    (void)unused;
    if (!begin_walk(&call)) return NULL;
    call.unchanged = set_is_empty(&self->set);
    set_free(&self->set);
    end(&call);
    Py_RETURN_NONE;
}

/* Returns how many bytes the words and their tables take. */
static PyObject *core_memory(PyObject *object, PyObject *unused) {
    Core *self = (Core *)object;
    Call call = {.read = {self}};
    (void)unused;
    begin(&call, 0);
    size_t memory = set_memory(&self->set);
    end(&call);
    return PyLong_FromSize_t(memory);
}

PyDoc_STRVAR(add_range_text, "add_range($self, start, end, /)\n--\n\n"
"Add the indices in range(start, end). OverflowError if a bound is not in range(2**30 + 1).\n\n"
">>> from hibitset import BitSet\n"
">>> pages = BitSet()\n"
">>> pages.add_range(5, 8)\n"
">>> pages\n"
"BitSet([5, 6, 7])");

PyDoc_STRVAR(flip_range_text, "flip_range($self, start, end, /)\n--\n\n"
"Remove the members in range(start, end) and add the other indices there. OverflowError as add_range.\n\n"
">>> from hibitset import BitSet\n"
">>> pages = BitSet([5])\n"
">>> pages.flip_range(4, 8)\n"
">>> pages\n"
"BitSet([4, 6, 7])");

PyDoc_STRVAR(remove_range_text, "remove_range($self, start, end, /)\n--\n\n"
"Remove the members in range(start, end).");

PyDoc_STRVAR(clear_text, "clear($self, /)\n--\n\n"
"Remove all members and free their memory.");

const PyMethodDef range_methods[] = {
    METHOD("add_range", core_add_range, METH_FASTCALL, add_range_text),
    METHOD("flip_range", core_flip_range, METH_FASTCALL, flip_range_text),
    METHOD("remove_range", core_remove_range, METH_FASTCALL, remove_range_text),
    METHOD("clear", core_clear, METH_NOARGS, clear_text),
    METHOD("_memory", core_memory, METH_NOARGS, NULL),
    END_OF_METHODS,
};
