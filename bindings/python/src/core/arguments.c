/* arguments.c: what methods are given, and what they return. */
#include "core.h"

#include <string.h>

/* Reads an integer and brings it between `least` and `most`; `*outside` becomes whether it was not between them. */
static int integer_of(PyObject *object, long long least, long long most, long long *value, bool *outside) {
    int overflow;
    long long found;
    if (PyLong_Check(object)) {
        found = PyLong_AsLongLongAndOverflow(object, &overflow);
    } else {
        PyObject *number = PyNumber_Index(object);
        if (number == NULL) return -1;
        found = PyLong_AsLongLongAndOverflow(number, &overflow);
        Py_DECREF(number);
    }
    if (found == -1 && overflow == 0 && PyErr_Occurred()) return -1;
    *outside = overflow != 0 || found < least || found > most;
    if (*outside) found = overflow < 0 || (overflow == 0 && found < least) ? least : most;
    *value = found;
    return 0;
}

int index_of(PyObject *object, uint32_t *index) {
    long long value;
    bool outside;
    if (integer_of(object, 0, HIBITSET_MAX_EID - 1, &value, &outside) < 0) return -1;
    if (outside) {
        PyErr_Format(PyExc_OverflowError, "%R is not an index: these lie in range(2**30)", object);
        return -1;
    }
    *index = (uint32_t)value;
    return 0;
}

int equal_index(PyObject *object, uint32_t *index) {
    if (PyLong_CheckExact(object)) {
        long long value;
        bool outside;
        if (integer_of(object, 0, HIBITSET_MAX_EID - 1, &value, &outside) < 0) return -1;
        *index = (uint32_t)value;
        return !outside;
    }
    /* What is equal to an integer in range has its hash, which is the integer. */
    Py_hash_t hash = PyObject_Hash(object);
    if (hash == -1) return -1;
    if (hash < 0 || hash >= (Py_hash_t)HIBITSET_MAX_EID) return 0;
    PyObject *number = PyLong_FromSsize_t(hash);
    if (number == NULL) return -1;
    int equal = PyObject_RichCompareBool(number, object, Py_EQ);
    Py_DECREF(number);
    *index = (uint32_t)hash;
    return equal;
}

int bound_of(PyObject *object, bool strict, uint32_t *bound) {
    long long value;
    bool outside;
    if (integer_of(object, 0, HIBITSET_MAX_EID, &value, &outside) < 0) return -1;
    if (outside && strict) {
        PyErr_Format(PyExc_OverflowError, "%R bounds no range of indices: these lie in range(2**30)", object);
        return -1;
    }
    *bound = (uint32_t)value;
    return 0;
}

int check_count(Py_ssize_t count, Py_ssize_t wanted) {
    if (count == wanted) return 0;
    PyErr_Format(PyExc_TypeError, "expected %zd arguments, got %zd", wanted, count);
    return -1;
}

int bounds_of(PyObject *const *arguments, Py_ssize_t count, bool strict, uint32_t *start, uint32_t *bound) {
    if (check_count(count, 2) < 0 || bound_of(arguments[0], strict, start) < 0) return -1;
    return bound_of(arguments[1], strict, bound);
}

Core *core_of(PyObject *object) {
    if (PyObject_TypeCheck(object, core_type)) return (Core *)object;
    PyErr_SetString(PyExc_TypeError, "expected a BitSet or a SparseBitSet");
    return NULL;
}

/* Returns whether a format is that of unsigned integers in the machine's order. */
static bool is_unsigned(const char *format) {
    if (format == NULL) return false;
    if (*format == '<' || *format == '=' || *format == '@') format++;
    return format[0] != '\0' && strchr("IKLQ", format[0]) != NULL && format[1] == '\0';
}

int items_of(PyObject *object, size_t size, bool written, Items *items) {
    Py_buffer *view = &items->view;
    if (PyObject_GetBuffer(object, view, (written ? PyBUF_CONTIG : PyBUF_CONTIG_RO) | PyBUF_FORMAT) < 0) return -1;
    if (size > 1 && ((size_t)view->itemsize != size || !is_unsigned(view->format))) {
        PyErr_Format(PyExc_TypeError, "expected unsigned integers of %zu bytes", size);
    } else if (view->len > 0 && (uintptr_t)view->buf % size != 0) {
        PyErr_SetString(PyExc_ValueError, "the items are not aligned");
    } else {
        /* A buffer without items may have any address. */
        items->items = view->len > 0 ? view->buf : NULL;
        items->len = (size_t)view->len / size;
        return 0;
    }
    PyBuffer_Release(view);
    return -1;
}

PyObject *index_or_none(bool found, uint32_t index) {
    if (!found) Py_RETURN_NONE;
    return PyLong_FromUnsignedLong(index);
}

PyObject *none_or_error(hibitset_status status) {
    if (!hibitset_failed(status)) Py_RETURN_NONE;
    if (status == HIBITSET_NO_MEMORY) return PyErr_NoMemory();
    if (status == HIBITSET_SHORT_BUFFER) {
        PyErr_SetString(PyExc_ValueError, hibitset_status_text(status));
    } else {
        PyErr_SetString(PyExc_OverflowError, "indices lie in range(2**30)");
    }
    return NULL;
}
