/* sparse.c: what sparse sets have alone. */
#include "core.h"

static PyObject *sparse_shrink(PyObject *object, PyObject *unused) {
    Core *self = (Core *)object;
    Call call = {.changed = self, .unchanged = true};
    (void)unused;
    if (!begin_walk(&call)) return NULL;
    hibitset_sparse_shrink_to_fit(&self->set.sparse);
    end(&call);
    Py_RETURN_NONE;
}

PyDoc_STRVAR(shrink_text, "shrink($self, /)\n--\n\n"
"Give back the memory that no member needs, as far as allocations succeed.");

const PyMethodDef sparse_methods[] = {
    METHOD("shrink", sparse_shrink, METH_NOARGS, shrink_text),
    END_OF_METHODS,
};
