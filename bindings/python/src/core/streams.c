/* streams.c: sets as streams in the portable Roaring format. */
#include "core.h"

static PyObject *core_serialized_len(PyObject *object, PyObject *unused) {
    Core *self = (Core *)object;
    Call call = {.read = {self}};
    (void)unused;
    begin_walk(&call);
    size_t len = set_roaring_len(&self->set);
    end(&call);
    return PyLong_FromSize_t(len);
}

static PyObject *core_serialize_into(PyObject *object, PyObject *buffer) {
    Core *self = (Core *)object;
    Call call = {.read = {self}};
    Items bytes;
    size_t taken = 0;
    if (items_of(buffer, 1, true, &bytes) < 0) return NULL;
    begin_walk(&call);
    hibitset_status status = set_roaring_write(&self->set, bytes.items, bytes.len, &taken);
    end(&call);
    PyBuffer_Release(&bytes.view);
    return hibitset_failed(status) ? none_or_error(status) : PyLong_FromSize_t(taken);
}

/* Returns the stream if it has at most `len` bytes, as it has unless another thread has changed the set. If not,
 * returns NULL and leaves how many it has, or sets an error. */
static PyObject *stream_of(Core *self, size_t *len) {
    Call call = {.read = {self}};
    size_t taken = 0;
    PyObject *bytes = PyBytes_FromStringAndSize(NULL, (Py_ssize_t)*len), *stream;
    if (bytes == NULL) return NULL;
    begin_walk(&call);
    hibitset_status status = set_roaring_write(&self->set, (uint8_t *)PyBytes_AsString(bytes), *len, &taken);
    end(&call);
    if (status == HIBITSET_OK && taken == *len) return bytes;
    stream = status == HIBITSET_OK ? PyBytes_FromStringAndSize(PyBytes_AsString(bytes), (Py_ssize_t)taken) : NULL;
    Py_DECREF(bytes);
    if (status == HIBITSET_NO_MEMORY) return none_or_error(status);
    *len = taken;
    return stream;
}

static PyObject *core_serialize(PyObject *object, PyObject *unused) {
    Core *self = (Core *)object;
    Call call = {.read = {self}};
    PyObject *bytes;
    (void)unused;
    begin_walk(&call);
    size_t len = set_roaring_len(&self->set);
    end(&call);
    do bytes = stream_of(self, &len);
    while (bytes == NULL && !PyErr_Occurred());
    return bytes;
}

/* Makes the set that of a stream whose keys are below a number. Returns None, or the stream's fault and where it is. */
static PyObject *core_deserialize(PyObject *object, PyObject *const *arguments, Py_ssize_t count) {
    Core *self = (Core *)object;
    Call call = {.changed = self};
    Items bytes;
    uint32_t keys;
    hibitset_fault fault = HIBITSET_FAULT_TOO_SHORT;
    size_t at = 0;
    if (check_count(count, 2) < 0 || bound_of(arguments[1], true, &keys) < 0) return NULL;
    if (items_of(arguments[0], 1, false, &bytes) < 0) return NULL;
    /* A short stream may have a member near 2^30. */
    if (!begin_range(&call, 0, HIBITSET_MAX_EID)) {
        PyBuffer_Release(&bytes.view);
        return NULL;
    }
    hibitset_status status = set_roaring_read_below(&self->set, bytes.items, bytes.len, keys, &fault, &at);
    call.unchanged = hibitset_failed(status);
    end(&call);
    PyBuffer_Release(&bytes.view);
    if (status != HIBITSET_MALFORMED) return none_or_error(status);
    return Py_BuildValue("in", (int)fault, (Py_ssize_t)at);
}

PyDoc_STRVAR(serialized_len_text, "serialized_len($self, /)\n--\n\n"
"Return how many bytes serialize makes.");

PyDoc_STRVAR(serialize_text, "serialize($self, /)\n--\n\n"
"Return the members as bytes in the portable Roaring format, without runs. Equal sets give equal bytes.\n\n"
">>> from hibitset import BitSet\n"
">>> len(BitSet([5, 70_000]).serialize())\n"
"28");

PyDoc_STRVAR(serialize_into_text, "serialize_into($self, buffer, /)\n--\n\n"
"Write what serialize returns into a buffer, and return how many bytes it takes. ValueError if the buffer is shorter.");

const PyMethodDef stream_methods[] = {
    METHOD("serialized_len", core_serialized_len, METH_NOARGS, serialized_len_text),
    METHOD("serialize", core_serialize, METH_NOARGS, serialize_text),
    METHOD("serialize_into", core_serialize_into, METH_O, serialize_into_text),
    METHOD("_deserialize", core_deserialize, METH_FASTCALL, NULL),
    END_OF_METHODS,
};
