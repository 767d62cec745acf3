/* The call of a type without a tuple of its arguments. The stable interface has it from Python 3.14 on alone; before that its place in a type is one for
   all releases that have this interface, so it is set for these, and the others make the tuple. */
#include <Python.h>
#include <stddef.h>
#include <stdlib.h>

#include "_vectorcall.h"

_Static_assert(INIT_PLACE == offsetof(PyTypeObject, tp_init) && NEW_PLACE == offsetof(PyTypeObject, tp_new), "where a type has them");

void call_quickly(PyTypeObject *type, Vectorcall call, destructor free_it)
{
    long minor = strtol(Py_GetVersion() + sizeof "3." - 1, NULL, 10);
    if (minor >= 14)
        return;
    type->tp_vectorcall = call;
    type->tp_dealloc = free_it;
    /* before 3.12 a class of types does not inherit that its types have such calls */
    if (Py_TYPE(type) != &PyType_Type)
        Py_TYPE(type)->tp_flags |= Py_TPFLAGS_HAVE_VECTORCALL;
}
