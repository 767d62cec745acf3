/* What _vectorcall.c has, for _core.c, to which the stable interface does not show it. */
typedef PyObject *(*Vectorcall)(PyObject *, PyObject *const *, size_t, PyObject *);

/* Has a class called so, and its instances freed so; those of subclasses are not called by this. */
void call_quickly(PyTypeObject *type, Vectorcall call, destructor free_it);

/* Where a type has its `__init__` and its `__new__`. */
enum { INIT_PLACE = 37 * sizeof(void *), NEW_PLACE = 39 * sizeof(void *) };
