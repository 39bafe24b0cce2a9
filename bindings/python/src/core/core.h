/* core.h: what the files of `_core` share: a set as an object, calls on sets, arguments, results, tables of methods. */
#ifndef HIBITSET_CORE_H
#define HIBITSET_CORE_H

#define PY_SSIZE_T_CLEAN
#define Py_LIMITED_API 0x030B0000
#include <Python.h>

#include "set.h"

/* ---- Sets (module.c) ---- */

/* A set as an object. Calls read and change `set`; the other fields are read and written under the GIL alone. */
typedef struct {
    PyObject_HEAD
    Set set;
    Py_ssize_t readers; /* How many calls without the GIL share the set; -1 if one has taken it. */
    Py_ssize_t views;   /* How many views of its words are held: then no call changes it. */
    size_t changes;     /* How many calls may have changed its members. */
} Core;

/* The type of all sets, and those of its two kinds. */
extern PyTypeObject *core_type, *dense_type, *sparse_type;

/* Returns an empty set of the type that methods return of sets of a kind, or NULL with an error. */
Core *new_set(bool is_sparse);

/* Returns a set that a call has made, or drops it and returns NULL with the error of its status. */
PyObject *set_or_error(Core *set, hibitset_status status);

/* ---- Calls on sets (calls.c) ---- */

/* A call: the set that it changes, and the sets that it reads. */
typedef struct Call {
    Core *changed, *read[2];
    bool unchanged;        /* It has left the members as they were. */
    PyThreadState *thread; /* The thread's state while it is without the GIL. */
    struct Call *next;     /* While it waits, the one that began to wait after it. */
} Call;

/* Is called once, before all calls. Returns false with an error. */
bool calls_begin(void);

/* Begins a call that goes over `work` words or indices. Waits until it meets no other call; gives the GIL up if the
 * work is long. Returns false with BufferError if a view holds the set that it changes. A call that reads alone always
 * begins. */
bool begin(Call *call, size_t work);

/* Begins a call that may go over all words of its sets. */
bool begin_walk(Call *call);

/* The same, of a call that goes over `work` indices too. */
bool begin_walk_and(Call *call, size_t work);

/* Begins a call that changes the indices from `start` on and below `bound`. */
bool begin_range(Call *call, uint32_t start, uint32_t bound);

/* Ends a call. */
void end(Call *call);

/* ---- Arguments and results (arguments.c) ---- */

/* Reads an index. Returns -1 with TypeError if it is no integer, and with OverflowError if it is out of range. */
int index_of(PyObject *object, uint32_t *index);

/* Finds the index that is equal to an object, as Python's sets find a member. Returns 1 and leaves it, 0 if there is
 * none, or -1 with an error. */
int equal_index(PyObject *object, uint32_t *index);

/* Reads a bound, from 0 to 2^30. One that is out of range is brought to the nearer end, or is an error if `strict`. */
int bound_of(PyObject *object, bool strict, uint32_t *bound);

/* Reads two bounds, which are all arguments. */
int bounds_of(PyObject *const *arguments, Py_ssize_t count, bool strict, uint32_t *start, uint32_t *bound);

/* Returns -1 with TypeError if there are not `wanted` arguments. */
int check_count(Py_ssize_t count, Py_ssize_t wanted);

/* Returns the set that an object is, or NULL with TypeError. */
Core *core_of(PyObject *object);

/* A list of items in memory of another object's. */
typedef struct {
    Py_buffer view;
    void *items;
    size_t len;
} Items;

/* Gets the items of a buffer: unsigned integers of 4 or 8 bytes, or bytes of any kind, to be read or `written`. */
int items_of(PyObject *object, size_t size, bool written, Items *items);

/* Returns the index, or None if none was found. */
PyObject *index_or_none(bool found, uint32_t index);

/* Returns None, or NULL with the error of a status. */
PyObject *none_or_error(hibitset_status status);

/* ---- Methods, by subject ---- */

#define METHOD(name, function, flags, text) {name, (PyCFunction)(void (*)(void))(function), flags, text}
#define END_OF_METHODS {NULL, NULL, 0, NULL}

/* Of both kinds. */
extern const PyMethodDef member_methods[], range_methods[], order_methods[], many_methods[], id_methods[],
    stream_methods[], pair_methods[];

/* Of one kind. */
extern const PyMethodDef dense_methods[], word_methods[], sparse_methods[];

PyObject *split_ids(PyObject *module, PyObject *const *arguments, Py_ssize_t count); /* ids.c */

int core_contains(PyObject *self, PyObject *item); /* members.c */
Py_ssize_t core_length(PyObject *self);            /* order.c */
int core_bool(PyObject *self);                     /* order.c */

/* ---- Iteration (iterate.c) and views of words (words.c) ---- */

extern PyType_Spec iterator_spec, words_spec;
extern PyTypeObject *iterator_type, *words_type;

PyObject *core_iter(PyObject *self);
PyObject *core_reversed(PyObject *self, PyObject *unused);

/* ---- The processor (processor.c) ---- */

/* Returns whether the processor has what the library is compiled for; if not, sets ImportError. */
bool processor_fits(void);

#endif
