/* ids.c: ids of 64 bits, each a shard's number above an index of the shard. */
#include "core.h"

/* Writes the members from a number on, each plus a base, into a buffer, and returns how many. */
static PyObject *core_next_many_u64(PyObject *object, PyObject *const *arguments, Py_ssize_t count) {
    Core *self = (Core *)object;
    Call call = {.read = {self}};
    Items ids;
    uint32_t start;
    if (check_count(count, 3) < 0 || bound_of(arguments[0], false, &start) < 0) return NULL;
    uint64_t base = PyLong_AsUnsignedLongLong(arguments[1]);
    if (PyErr_Occurred() || items_of(arguments[2], 8, true, &ids) < 0) return NULL;
    begin(&call, ids.len);
    size_t written = set_next_many_u64(&self->set, start, base, ids.items, ids.len);
    end(&call);
    PyBuffer_Release(&ids.view);
    return PyLong_FromSize_t(written);
}

/* Writes the shard and the index of each of `ids`, with or without the GIL. Returns false if not all are written. */
static bool split(const Items *ids, uint32_t bits, uint32_t shards, const Items *highs, const Items *lows) {
    Call call = {.changed = NULL};
    begin(&call, ids->len);
    size_t written = hibitset_split_ids(ids->items, ids->len, bits, shards, highs->items, highs->len, lows->items, lows->len);
    end(&call);
    return written == ids->len;
}

/* Writes the shards and the indices of the ids in a buffer into two others, by the bits of an index and the number of
 * shards, which an id past the last one has as its shard. */
PyObject *split_ids(PyObject *module, PyObject *const *arguments, Py_ssize_t count) {
    Items ids, highs, lows;
    uint32_t bits, shards;
    bool done = false;
    (void)module;
    if (check_count(count, 5) < 0 || bound_of(arguments[1], true, &bits) < 0) return NULL;
    if (bound_of(arguments[2], true, &shards) < 0 || items_of(arguments[0], 8, false, &ids) < 0) return NULL;
    bool has_highs = items_of(arguments[3], 4, true, &highs) == 0;
    bool has_lows = has_highs && items_of(arguments[4], 4, true, &lows) == 0;
    if (has_lows) done = split(&ids, bits, shards, &highs, &lows);
    PyBuffer_Release(&ids.view);
    if (has_highs) PyBuffer_Release(&highs.view);
    if (!has_lows) return NULL;
    PyBuffer_Release(&lows.view);
    return none_or_error(done ? HIBITSET_OK : HIBITSET_SHORT_BUFFER);
}

const PyMethodDef id_methods[] = {
    METHOD("_next_many_u64", core_next_many_u64, METH_FASTCALL, NULL),
    END_OF_METHODS,
};
