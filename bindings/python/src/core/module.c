/* module.c: the module `_core` and the types of its sets. */
#include "core.h"

PyTypeObject *core_type, *dense_type, *sparse_type;

/* The types of the dense and the sparse sets that methods return, as Python's sets return no set of a derived type. */
static PyTypeObject *result_types[2];

static Core *set_of_type(PyTypeObject *type, bool is_sparse) {
    allocfunc alloc = (allocfunc)PyType_GetSlot(type, Py_tp_alloc);
    Core *self = (Core *)alloc(type, 0); /* Its other fields are 0. */
    if (self != NULL) self->set = set_new(is_sparse);
    return self;
}

Core *new_set(bool is_sparse) { return set_of_type(result_types[is_sparse], is_sparse); }

/* Makes a type that of the sets that methods return of sets of its kind. */
static PyObject *return_sets_of(PyObject *module, PyObject *type) {
    (void)module;
    bool is_type = PyType_Check(type);
    bool is_sparse = is_type && PyType_IsSubtype((PyTypeObject *)type, sparse_type);
    if (!is_sparse && (!is_type || !PyType_IsSubtype((PyTypeObject *)type, dense_type))) {
        PyErr_SetString(PyExc_TypeError, "expected a type of sets");
        return NULL;
    }
    PyObject *old = (PyObject *)result_types[is_sparse];
    Py_INCREF(type);
    result_types[is_sparse] = (PyTypeObject *)type;
    Py_DECREF(old);
    Py_RETURN_NONE;
}

PyObject *set_or_error(Core *set, hibitset_status status) {
    if (!hibitset_failed(status)) return (PyObject *)set;
    Py_DECREF((PyObject *)set);
    return none_or_error(status);
}

/* Returns an empty set of the kind of another one. */
static PyObject *core_empty(PyObject *self, PyObject *unused) {
    (void)unused;
    return (PyObject *)new_set(((Core *)self)->set.is_sparse);
}

static PyObject *dense_new(PyTypeObject *type, PyObject *arguments, PyObject *keywords) {
    (void)arguments;
    (void)keywords;
    return (PyObject *)set_of_type(type, false);
}

static PyObject *sparse_new(PyTypeObject *type, PyObject *arguments, PyObject *keywords) {
    (void)arguments;
    (void)keywords;
    return (PyObject *)set_of_type(type, true);
}

static void core_dealloc(PyObject *object) {
    PyTypeObject *type = Py_TYPE(object);
    set_free(&((Core *)object)->set);
    ((freefunc)PyType_GetSlot(type, Py_tp_free))(object);
    Py_DECREF(type);
}

PyDoc_STRVAR(reversed_text, "__reversed__($self, /)\n--\n\n"
"Return an iterator over the members, descending.");

static const PyMethodDef own_methods[] = {
    METHOD("__reversed__", core_reversed, METH_NOARGS, reversed_text),
    METHOD("_empty", core_empty, METH_NOARGS, NULL),
    {"__class_getitem__", Py_GenericAlias, METH_O | METH_CLASS, NULL}, /* Types are checked by parameters. */
    END_OF_METHODS,
};

/* The methods of all subjects, one after the other in `joined`, which has place for `places`. */
static PyMethodDef *joined_methods(PyMethodDef *joined, size_t places, const PyMethodDef *const *subjects) {
    size_t count = 0;
    for (; *subjects != NULL; subjects++) {
        for (const PyMethodDef *method = *subjects; method->ml_name != NULL; method++) {
            if (count + 1 == places) Py_FatalError("hibitset: the table of methods is full");
            joined[count++] = *method;
        }
    }
    return joined;
}

/* Makes a type, derived from a base if there is one, and puts it into the module. NULL with an error. */
static PyTypeObject *added_type(PyObject *module, PyType_Spec *spec, PyTypeObject *base) {
    PyTypeObject *type = (PyTypeObject *)PyType_FromSpecWithBases(spec, (PyObject *)base);
    if (type != NULL && PyModule_AddType(module, type) < 0) {
        Py_DECREF((PyObject *)type);
        return NULL;
    }
    return type;
}

/* Makes the types of sets. */
static bool add_types_of_sets(PyObject *module) {
    static PyMethodDef methods[64], methods_of_dense[16];
    const PyMethodDef *const all[] = {own_methods, member_methods, range_methods,  order_methods, many_methods,
                                      id_methods,  stream_methods, pair_methods, NULL};
    const PyMethodDef *const of_dense[] = {dense_methods, word_methods, NULL};
    const size_t size = sizeof *methods;
    PyType_Slot core_slots[] = {
        {Py_tp_doc, "The functions of the library on one set: what BitSet and SparseBitSet are made of."},
        {Py_tp_dealloc, core_dealloc},
        {Py_tp_iter, core_iter},
        {Py_tp_methods, joined_methods(methods, sizeof methods / size, all)},
        {Py_sq_contains, core_contains},
        {Py_sq_length, core_length},
        {Py_nb_bool, core_bool},
        {0, NULL},
    };
    PyType_Slot dense_slots[] = {
        {Py_tp_doc, "A dense set."},
        {Py_tp_new, dense_new},
        {Py_tp_methods, joined_methods(methods_of_dense, sizeof methods_of_dense / size, of_dense)},
        {0, NULL},
    };
    PyType_Slot sparse_slots[] = {
        {Py_tp_doc, "A sparse set."},
        {Py_tp_new, sparse_new},
        {Py_tp_methods, (void *)sparse_methods},
        {0, NULL},
    };
    /* Objects of the two kinds are longer than the base says: no type is derived from both, and no set changes its. */
    const unsigned flags = Py_TPFLAGS_DEFAULT | Py_TPFLAGS_BASETYPE;
    const unsigned flags_of_core = flags | Py_TPFLAGS_DISALLOW_INSTANTIATION;
    PyType_Spec core = {"hibitset._core.Core", sizeof(PyObject), 0, flags_of_core, core_slots};
    PyType_Spec dense = {"hibitset._core.DenseCore", sizeof(Core), 0, flags, dense_slots};
    PyType_Spec sparse = {"hibitset._core.SparseCore", sizeof(Core), 0, flags, sparse_slots};
    core_type = added_type(module, &core, NULL);
    if (core_type == NULL) return false;
    dense_type = result_types[false] = added_type(module, &dense, core_type);
    sparse_type = result_types[true] = added_type(module, &sparse, core_type);
    Py_XINCREF((PyObject *)dense_type);
    Py_XINCREF((PyObject *)sparse_type);
    return dense_type != NULL && sparse_type != NULL;
}

static bool fill(PyObject *module) {
    iterator_type = added_type(module, &iterator_spec, NULL);
    words_type = added_type(module, &words_spec, NULL);
    return iterator_type != NULL && words_type != NULL && add_types_of_sets(module) &&
           PyModule_AddIntConstant(module, "MAX_INDEX", HIBITSET_MAX_EID - 1) == 0 &&
           PyModule_AddStringConstant(module, "LIBRARY_VERSION", hibitset_version()) == 0;
}

static PyMethodDef functions[] = {
    METHOD("return_sets_of", return_sets_of, METH_O, NULL),
    METHOD("split_ids", split_ids, METH_FASTCALL, NULL),
    END_OF_METHODS,
};

static struct PyModuleDef definition = {
    PyModuleDef_HEAD_INIT, "_core", "The proved sets of hibitset.h as objects.", -1, functions, NULL, NULL, NULL, NULL,
};

PyMODINIT_FUNC PyInit__core(void) {
    if (!processor_fits() || !calls_begin()) return NULL;
    PyObject *module = PyModule_Create(&definition);
    if (module != NULL && !fill(module)) {
        Py_DECREF(module);
        return NULL;
    }
    return module;
}
