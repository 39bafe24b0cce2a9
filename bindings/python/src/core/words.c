/* words.c: the words of a set: copied in and out, and a view of them. */
#include "core.h"

PyTypeObject *words_type;

/* A view of the words of a set. No call changes the set while a buffer of it is held. */
typedef struct {
    PyObject_HEAD
    Core *of;
    Py_ssize_t len; /* How many words there are while a buffer is held. */
} Words;

/* Makes the set that of the words in a buffer. */
static PyObject *core_assign_words(PyObject *object, PyObject *buffer) {
    Core *self = (Core *)object;
    Call call = {.changed = self};
    Items words;
    if (items_of(buffer, 8, false, &words) < 0) return NULL;
    if (!begin(&call, words.len)) {
        PyBuffer_Release(&words.view);
        return NULL;
    }
    hibitset_status status = hibitset_assign_words(&self->set.dense, words.items, words.len);
    call.unchanged = hibitset_failed(status);
    end(&call);
    PyBuffer_Release(&words.view);
    return none_or_error(status);
}

/* Fills a buffer with the words, and with 0 behind them. */
static PyObject *core_copy_words(PyObject *object, PyObject *buffer) {
    Core *self = (Core *)object;
    Call call = {.read = {self}};
    Items words;
    if (items_of(buffer, 8, true, &words) < 0) return NULL;
    begin(&call, words.len);
    hibitset_copy_words(&self->set.dense, 0, words.items, words.len);
    end(&call);
    PyBuffer_Release(&words.view);
    Py_RETURN_NONE;
}

static PyObject *core_words(PyObject *object, PyObject *unused) {
    allocfunc alloc = (allocfunc)PyType_GetSlot(words_type, Py_tp_alloc);
    Words *words = (Words *)alloc(words_type, 0);
    (void)unused;
    if (words == NULL) return NULL;
    Py_INCREF(object);
    words->of = (Core *)object;
    words->len = 0;
    return (PyObject *)words;
}

static int words_traverse(PyObject *object, visitproc visit, void *arg) {
    Py_VISIT(Py_TYPE(object));
    Py_VISIT((PyObject *)((Words *)object)->of);
    return 0;
}

static void words_dealloc(PyObject *object) {
    PyTypeObject *type = Py_TYPE(object);
    PyObject_GC_UnTrack(object);
    Py_XDECREF((PyObject *)((Words *)object)->of);
    ((freefunc)PyType_GetSlot(type, Py_tp_free))(object);
    Py_DECREF(type);
}

static int words_getbuffer(PyObject *object, Py_buffer *view, int flags) {
    static Py_ssize_t stride = sizeof(uint64_t);
    Words *self = (Words *)object;
    Call call = {.read = {self->of}};
    size_t len;
    view->obj = NULL;
    if (flags & PyBUF_WRITABLE) {
        PyErr_SetString(PyExc_BufferError, "the words of a set are read only");
        return -1;
    }
    begin(&call, 0);
    const uint64_t *words = hibitset_words(&self->of->set.dense, &len);
    self->of->views++;
    end(&call);
    self->len = (Py_ssize_t)len;
    view->buf = (void *)words;
    view->len = (Py_ssize_t)(len * sizeof(uint64_t));
    view->readonly = 1;
    view->itemsize = sizeof(uint64_t);
    view->format = flags & PyBUF_FORMAT ? "L" : NULL;
    view->ndim = 1;
    view->shape = flags & PyBUF_ND ? &self->len : NULL;
    view->strides = (flags & PyBUF_STRIDES) == PyBUF_STRIDES ? &stride : NULL;
    view->suboffsets = NULL;
    view->internal = NULL;
    Py_INCREF(object);
    view->obj = object;
    return 0;
}

static void words_releasebuffer(PyObject *object, Py_buffer *view) {
    (void)view;
    ((Words *)object)->of->views--;
}

static PyType_Slot words_slots[] = {
    {Py_tp_doc, "A view of the words of a set: a buffer of unsigned integers of 64 bits."},
    {Py_tp_traverse, words_traverse},
    {Py_tp_dealloc, words_dealloc},
    {Py_bf_getbuffer, words_getbuffer},
    {Py_bf_releasebuffer, words_releasebuffer},
    {0, NULL},
};

PyType_Spec words_spec = {"hibitset._core.Words", sizeof(Words), 0,
                          Py_TPFLAGS_DEFAULT | Py_TPFLAGS_HAVE_GC | Py_TPFLAGS_DISALLOW_INSTANTIATION, words_slots};

const PyMethodDef word_methods[] = {
    METHOD("_assign_words", core_assign_words, METH_O, NULL),
    METHOD("_copy_words", core_copy_words, METH_O, NULL),
    METHOD("_words", core_words, METH_NOARGS, NULL),
    END_OF_METHODS,
};
