/* iterate.c: iterators over the members of a set, in both directions. */
#include "core.h"

#include <string.h>

PyTypeObject *iterator_type;

enum { MEMBERS_AT_ONCE = 256 };

/* An iterator. It reads some members at once, and gives none after the set has changed. */
typedef struct {
    PyObject_HEAD
    Core *of;       /* NULL once it has ended. */
    size_t changes; /* Those of the set when the iteration began. */
    bool descends;
    uint32_t from; /* Ascending, where the next members begin; descending, the bound of the next ones. */
    uint32_t given, len;
    uint32_t members[MEMBERS_AT_ONCE];
} Iterator;

static PyObject *new_iterator(PyObject *object, bool descends) {
    allocfunc alloc = (allocfunc)PyType_GetSlot(iterator_type, Py_tp_alloc);
    Iterator *self = (Iterator *)alloc(iterator_type, 0);
    if (self == NULL) return NULL;
    Call call = {.read = {(Core *)object}};
    Py_INCREF(object);
    self->of = (Core *)object;
    begin(&call, 0);
    self->changes = self->of->changes;
    end(&call);
    self->descends = descends;
    self->from = descends ? HIBITSET_MAX_EID : 0;
    self->given = self->len = 0;
    return (PyObject *)self;
}

PyObject *core_iter(PyObject *self) { return new_iterator(self, false); }

PyObject *core_reversed(PyObject *self, PyObject *unused) {
    (void)unused;
    return new_iterator(self, true);
}

/* Reads the next members of a set that is as it was. */
static void read_members(Iterator *self, Set *set) {
    self->given = 0;
    if (self->descends) {
        self->len = (uint32_t)set_prev_many(set, self->from, self->members, MEMBERS_AT_ONCE);
        if (self->len > 0) self->from = self->members[self->len - 1];
    } else {
        self->len = (uint32_t)set_next_many(set, self->from, self->members, MEMBERS_AT_ONCE);
        if (self->len > 0) self->from = self->members[self->len - 1] + 1;
    }
}

/* Reads the next members if none is left and the set is as it was. */
static void refill(Iterator *self) {
    Core *of = self->of;
    Call call = {.read = {of}};
    Py_INCREF((PyObject *)of); /* While the call waits, another thread may go on with the iterator. */
    begin(&call, 0);
    if (self->of != NULL && self->given == self->len && of->changes == self->changes) read_members(self, &of->set);
    end(&call);
    Py_DECREF((PyObject *)of);
}

static PyObject *iterator_next(PyObject *object) {
    Iterator *self = (Iterator *)object;
    if (self->of != NULL && self->given == self->len) refill(self);
    if (self->of == NULL) return NULL;
    if (self->of->changes != self->changes) {
        PyErr_SetString(PyExc_RuntimeError, "the set changed during the iteration");
        return NULL;
    }
    if (self->given < self->len) return PyLong_FromUnsignedLong(self->members[self->given++]);
    PyObject *of = (PyObject *)self->of;
    self->of = NULL;
    Py_DECREF(of);
    return NULL;
}

static PyObject *iterator_length_hint(PyObject *object, PyObject *unused) {
    Iterator *self = (Iterator *)object;
    Core *of = self->of;
    Call call = {.read = {of}};
    (void)unused;
    if (of == NULL || of->changes != self->changes) return PyLong_FromLong(0);
    uint32_t from = self->from, left = self->len - self->given;
    Py_INCREF((PyObject *)of); /* As in refill. */
    begin_walk(&call);
    size_t behind = self->descends ? set_rank(&of->set, from)
                                   : set_len_range(&of->set, from, HIBITSET_MAX_EID);
    end(&call);
    Py_DECREF((PyObject *)of);
    return PyLong_FromSize_t(left + behind);
}

/* Returns an iterator that goes on where another one is, which has not ended. */
static PyObject *copied_iterator(const Iterator *other) {
    PyObject *object = new_iterator((PyObject *)other->of, other->descends);
    Iterator *self = (Iterator *)object;
    if (self == NULL) return NULL;
    self->changes = other->changes;
    self->from = other->from;
    self->given = other->given;
    self->len = other->len;
    memcpy(self->members, other->members, sizeof self->members);
    return object;
}

/* Pickles an iterator as one over the list of the members that are left. */
static PyObject *iterator_reduce(PyObject *object, PyObject *unused) {
    Iterator *self = (Iterator *)object;
    PyObject *left = NULL;
    (void)unused;
    if (self->of == NULL) {
        left = PyList_New(0);
    } else {
        PyObject *copy = copied_iterator(self);
        if (copy != NULL) left = PySequence_List(copy);
        Py_XDECREF(copy);
    }
    PyObject *builtins = PyEval_GetBuiltins(); /* Borrowed. */
    PyObject *iter = left == NULL ? NULL : PyDict_GetItemString(builtins, "iter");
    if (iter == NULL) {
        Py_XDECREF(left);
        return NULL;
    }
    return Py_BuildValue("O(N)", iter, left);
}

static int iterator_traverse(PyObject *object, visitproc visit, void *arg) {
    Py_VISIT(Py_TYPE(object));
    Py_VISIT((PyObject *)((Iterator *)object)->of);
    return 0;
}

static void iterator_dealloc(PyObject *object) {
    PyTypeObject *type = Py_TYPE(object);
    PyObject_GC_UnTrack(object);
    Py_XDECREF((PyObject *)((Iterator *)object)->of);
    ((freefunc)PyType_GetSlot(type, Py_tp_free))(object);
    Py_DECREF(type);
}

static PyMethodDef iterator_methods[] = {
    METHOD("__length_hint__", iterator_length_hint, METH_NOARGS, NULL),
    METHOD("__reduce__", iterator_reduce, METH_NOARGS, NULL),
    END_OF_METHODS,
};

static PyType_Slot iterator_slots[] = {
    {Py_tp_doc, "An iterator over the members of a set."},
    {Py_tp_iter, PyObject_SelfIter},
    {Py_tp_iternext, iterator_next},
    {Py_tp_methods, iterator_methods},
    {Py_tp_traverse, iterator_traverse},
    {Py_tp_dealloc, iterator_dealloc},
    {0, NULL},
};

PyType_Spec iterator_spec = {"hibitset._core.Iterator", sizeof(Iterator), 0,
                             Py_TPFLAGS_DEFAULT | Py_TPFLAGS_HAVE_GC | Py_TPFLAGS_DISALLOW_INSTANTIATION,
                             iterator_slots};
