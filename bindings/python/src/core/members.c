/* members.c: methods on one index. */
#include "core.h"

/* Adds an index. Returns whether it is new, or -1 with an error. */
static int add_one(PyObject *object, PyObject *item) {
    Core *self = (Core *)object;
    Call call = {.changed = self};
    uint32_t index;
    if (index_of(item, &index) < 0 || !begin_range(&call, index, index + 1)) return -1;
    hibitset_status status = set_add(&self->set, index);
    call.unchanged = status != HIBITSET_OK;
    end(&call);
    if (!hibitset_failed(status)) return status == HIBITSET_OK;
    none_or_error(status);
    return -1;
}

static PyObject *core_add(PyObject *self, PyObject *item) {
    if (add_one(self, item) < 0) return NULL;
    Py_RETURN_NONE;
}

static PyObject *core_add_new(PyObject *self, PyObject *item) {
    int is_new = add_one(self, item);
    return is_new < 0 ? NULL : PyBool_FromLong(is_new);
}

/* Removes the member that an item is equal to. Returns whether there was one, or -1 with an error. */
static int remove_one(PyObject *object, PyObject *item) {
    Core *self = (Core *)object;
    Call call = {.changed = self};
    uint32_t index;
    int found = equal_index(item, &index);
    if (found <= 0) return found;
    if (!begin(&call, 0)) return -1;
    bool was_member = set_remove(&self->set, index);
    call.unchanged = !was_member;
    end(&call);
    return was_member;
}

static PyObject *core_discard(PyObject *self, PyObject *item) {
    if (remove_one(self, item) < 0) return NULL;
    Py_RETURN_NONE;
}

static PyObject *core_remove(PyObject *self, PyObject *item) {
    int was_member = remove_one(self, item);
    if (was_member < 0) return NULL;
    if (was_member) Py_RETURN_NONE;
    PyObject *arguments = PyTuple_Pack(1, item);
    if (arguments == NULL) return NULL;
    PyErr_SetObject(PyExc_KeyError, arguments);
    Py_DECREF(arguments);
    return NULL;
}

int core_contains(PyObject *object, PyObject *item) {
    Core *self = (Core *)object;
    Call call = {.read = {self}};
    uint32_t index;
    int found = equal_index(item, &index);
    if (found <= 0) return found;
    begin(&call, 0);
    bool is_member = set_contains(&self->set, index);
    end(&call);
    return is_member;
}

/* Removes and returns a member, the least or the greatest one. */
static PyObject *pop_by(PyObject *object, bool (*pop)(Set *set, uint32_t *index)) {
    Core *self = (Core *)object;
    Call call = {.changed = self};
    uint32_t index;
    if (!begin(&call, 0)) return NULL;
    bool found = pop(&self->set, &index);
    call.unchanged = !found;
    end(&call);
    if (found) return PyLong_FromUnsignedLong(index);
    PyErr_SetString(PyExc_KeyError, "pop from an empty set");
    return NULL;
}

static PyObject *core_pop(PyObject *self, PyObject *unused) {
    (void)unused;
    return pop_by(self, set_pop_first);
}

static PyObject *core_pop_last(PyObject *self, PyObject *unused) {
    (void)unused;
    return pop_by(self, set_pop_last);
}

PyDoc_STRVAR(add_text, "add($self, index, /)\n--\n\n"
"Add an index. TypeError if it is no integer, OverflowError if it is not in range(2**30).");

PyDoc_STRVAR(add_new_text, "add_new($self, index, /)\n--\n\n"
"Add an index, as add does, and return whether it is new.\n\n"
">>> from hibitset import BitSet\n"
">>> pages = BitSet([5])\n"
">>> pages.add_new(5), pages.add_new(6)\n"
"(False, True)");

PyDoc_STRVAR(discard_text, "discard($self, index, /)\n--\n\n"
"Remove an index if it is a member.");

PyDoc_STRVAR(remove_text, "remove($self, index, /)\n--\n\n"
"Remove a member. KeyError if it is none.");

PyDoc_STRVAR(pop_text, "pop($self, /)\n--\n\n"
"Remove and return the least member. KeyError if there is none.");

PyDoc_STRVAR(pop_last_text, "pop_last($self, /)\n--\n\n"
"Remove and return the greatest member. KeyError if there is none.");

const PyMethodDef member_methods[] = {
    METHOD("add", core_add, METH_O, add_text),
    METHOD("add_new", core_add_new, METH_O, add_new_text),
    METHOD("discard", core_discard, METH_O, discard_text),
    METHOD("remove", core_remove, METH_O, remove_text),
    METHOD("pop", core_pop, METH_NOARGS, pop_text),
    METHOD("pop_last", core_pop_last, METH_NOARGS, pop_last_text),
    END_OF_METHODS,
};
