/* many.c: methods on many indices in memory of other objects. */
#include "core.h"

/* Adds the indices of a buffer, up to the first that is out of range. */
static PyObject *core_add_many(PyObject *object, PyObject *buffer) {
    Core *self = (Core *)object;
    Call call = {.changed = self};
    Items indices;
    size_t added = 0;
    if (items_of(buffer, 4, false, &indices) < 0) return NULL;
    if (!begin(&call, indices.len)) {
        PyBuffer_Release(&indices.view);
        return NULL;
    }
    hibitset_status status = set_add_many(&self->set, indices.items, indices.len, &added);
    call.unchanged = added == 0;
    end(&call);
    PyBuffer_Release(&indices.view);
    if (status != HIBITSET_OUT_OF_RANGE) return none_or_error(status);
    PyErr_Format(PyExc_OverflowError, "the item at position %zu is not an index: these lie in range(2**30)", added);
    return NULL;
}

/* Removes the indices of a buffer, and returns how many members that takes out. */
static PyObject *core_remove_many(PyObject *object, PyObject *buffer) {
    Core *self = (Core *)object;
    Call call = {.changed = self};
    Items indices;
    if (items_of(buffer, 4, false, &indices) < 0) return NULL;
    if (!begin(&call, indices.len)) {
        PyBuffer_Release(&indices.view);
        return NULL;
    }
    size_t removed = set_remove_many(&self->set, indices.items, indices.len);
    call.unchanged = removed == 0;
    end(&call);
    PyBuffer_Release(&indices.view);
    return PyLong_FromSize_t(removed);
}

/* Adds those indices of a list that are members of another set. `*all` becomes whether all are. */
static hibitset_status add_members(Set *set, Set *other, const uint32_t *indices, size_t len,
                                   bool *all) {
    for (size_t i = 0; i < len; i++) {
        bool is_member = set_contains(other, indices[i]);
        hibitset_status status = is_member ? set_add(set, indices[i]) : HIBITSET_OK;
        if (hibitset_failed(status)) return status;
        *all = *all && is_member;
    }
    return HIBITSET_OK;
}

/* Adds those indices of a buffer that are members of another set, and returns whether all are. */
static PyObject *core_add_common(PyObject *object, PyObject *const *arguments, Py_ssize_t count) {
    if (check_count(count, 2) < 0) return NULL;
    Core *self = (Core *)object, *other = core_of(arguments[0]);
    Call call = {.changed = self, .read = {other}};
    Items indices;
    bool all = true;
    if (other == NULL || items_of(arguments[1], 4, false, &indices) < 0) return NULL;
    if (!begin(&call, indices.len)) {
        PyBuffer_Release(&indices.view);
        return NULL;
    }
    hibitset_status status = add_members(&self->set, &other->set, indices.items, indices.len, &all);
    end(&call);
    PyBuffer_Release(&indices.view);
    return hibitset_failed(status) ? none_or_error(status) : PyBool_FromLong(all);
}

/* Writes for each index of a buffer whether it is a member into another. */
static PyObject *core_contains_many(PyObject *object, PyObject *const *arguments, Py_ssize_t count) {
    Core *self = (Core *)object;
    Call call = {.read = {self}};
    Items indices, found;
    if (check_count(count, 2) < 0 || items_of(arguments[0], 4, false, &indices) < 0) return NULL;
    if (items_of(arguments[1], 1, true, &found) < 0) {
        PyBuffer_Release(&indices.view);
        return NULL;
    }
    bool fits = indices.len <= found.len;
    if (fits) {
        begin(&call, indices.len);
        set_contains_many(&self->set, indices.items, indices.len, found.items, found.len);
        end(&call);
    }
    PyBuffer_Release(&indices.view);
    PyBuffer_Release(&found.view);
    return none_or_error(fits ? HIBITSET_OK : HIBITSET_SHORT_BUFFER);
}

/* Writes the members from a number on into a buffer, and returns how many. */
static PyObject *core_next_many(PyObject *object, PyObject *const *arguments, Py_ssize_t count) {
    Core *self = (Core *)object;
    Call call = {.read = {self}};
    Items members;
    uint32_t start;
    if (check_count(count, 2) < 0 || bound_of(arguments[0], false, &start) < 0) return NULL;
    if (items_of(arguments[1], 4, true, &members) < 0) return NULL;
    begin(&call, members.len);
    size_t written = set_next_many(&self->set, start, members.items, members.len);
    end(&call);
    PyBuffer_Release(&members.view);
    return PyLong_FromSize_t(written);
}

const PyMethodDef many_methods[] = {
    METHOD("_add_many", core_add_many, METH_O, NULL),
    METHOD("_remove_many", core_remove_many, METH_O, NULL),
    METHOD("_add_common", core_add_common, METH_FASTCALL, NULL),
    METHOD("_contains_many", core_contains_many, METH_FASTCALL, NULL),
    METHOD("_next_many", core_next_many, METH_FASTCALL, NULL),
    END_OF_METHODS,
};
