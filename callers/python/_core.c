/* What the package asks of the proved library (callers/c/pep440.h), and the types that hold what it made of a string: a version, a specifier
   and a set of specifiers.

   Nothing here is proved, so it only carries: strings to the library, its results back, a status into an exception. Where a list is split, when a
   pre-release is allowed, and what a requirement consists of stands here too, as `packaging` has it. */
#define Py_LIMITED_API 0x030A0000
#include <Python.h>
#include <stddef.h>
#include <stdlib.h>
#include <string.h>
#include <structmember.h>

#include "pep440.h"

#include "_vectorcall.h"

/* Headers of 3.12 and 3.13 return these without a reference of their own, and an older Python that runs what was compiled so ends by that. */
#undef Py_RETURN_NONE
#undef Py_RETURN_TRUE
#undef Py_RETURN_FALSE
#undef Py_RETURN_NOTIMPLEMENTED
#define Py_RETURN_NONE return Py_NewRef(Py_None)
#define Py_RETURN_TRUE return Py_NewRef(Py_True)
#define Py_RETURN_FALSE return Py_NewRef(Py_False)
#define Py_RETURN_NOTIMPLEMENTED return Py_NewRef(Py_NotImplemented)

/* What they share comes first; each is included here alone. */
#include "_strings.h"
#include "_versions.h"
#include "_specifiers.h"
#include "_sets.h"
#include "_batches.h"
#include "_requirements.h"

/* ---- the types of specifiers, and the module */

/* What the call writes of a list of specifiers. */
static PyObject *made_of_list(Writer call, PyObject *list, Maker make)
{
    pep440_string text;
    uint8_t status;
    PyObject *made;
    if (view(list, &text) < 0)
        return NULL;
    made = written_by(call, text, make, &status);
    return made ? made : raise_by(status, NULL, list);
}

static PyObject *ranges(PyObject *module, PyObject *list) { return made_of_list(pep440_ranges, list, PyUnicode_FromStringAndSize); }

/* The bytes of a compiled list without its set. */
static PyObject *without_set(const char *compiled, Py_ssize_t length)
{
    size_t start = list_start((const uint8_t *)compiled);
    return PyBytes_FromStringAndSize(compiled + start, length - (Py_ssize_t)start);
}

static PyObject *compile_list(PyObject *module, PyObject *list) { return made_of_list(pep440_compile_list, list, without_set); }

/* behave(follows_26, follows_26_3) */
static PyObject *behave(PyObject *module, PyObject *const *args, Py_ssize_t count)
{
    int follows, follows_newer;
    if (!has_count("behave", count, 2) || (follows = PyObject_IsTrue(args[0])) < 0 || (follows_newer = PyObject_IsTrue(args[1])) < 0)
        return NULL;
    follows_26 = follows, follows_26_3 = follows_newer;
    Py_RETURN_NONE;
}

static PyObject *get_behaviour(PyObject *module, PyObject *unused) { return PyBool_FromLong(follows_26); }

static PyObject *get_newer_behaviour(PyObject *module, PyObject *unused) { return PyBool_FromLong(follows_26_3); }

#define CALL(function) (PyCFunction)(void (*)(void))function
#define CONTAINS_HEAD(more) "contains($self, /, item, prereleases=None" more ")\n--\n\n"

#define FILTERED \
    {"_filtered", CALL(filter_contained), METH_FASTCALL, "_filtered(items, prereleases, key): an iterator over those that are contained; None where Python is to compare"}

#define KEPT \
    {"_kept", CALL(keep_contained), METH_FASTCALL, \
     "_kept(items, prereleases, skip_invalid, places=None): those that are contained, or what stands in their places; None where Python is to compare"}

/* ---- copies and pickles, in the form of `packaging` 26.2: what is read, (operator, version) or members, and what was said of pre-releases */

/* What a copy of a specifier or a set is made of; Python says it of a subclass, and by 25. */
static PyObject *state_of(Specifiers *self, PyObject *unused)
{
    PyObject *class = (PyObject *)Py_TYPE((PyObject *)self), *read;
    if (!follows_26 || (class != member_class && class != set_class))
        return PyObject_CallMethod((PyObject *)self, "_state_by_python", NULL);
    read = is_specifier(self) ? spec_of(self) : listed_members(self);
    return read ? PyTuple_Pack(2, read, self->said) : NULL;
}

/* Whether it has a tuple of so many strings, or of any number of specifiers where these are fewer than none. */
static int is_state(PyObject *state, Py_ssize_t strings)
{
    PyObject *read = PyTuple_CheckExact(state) && PyTuple_Size(state) == 2 ? PyTuple_GetItem(state, 0) : NULL;
    Py_ssize_t count = read && PyTuple_CheckExact(read) ? PyTuple_Size(read) : -1, place = 0;
    if (count < 0 || (strings >= 0 && count != strings))
        return 0;
    while (place < count && (strings < 0 ? (PyObject *)Py_TYPE(PyTuple_GetItem(read, place)) == member_class : PyUnicode_CheckExact(PyTuple_GetItem(read, place))))
        place++;
    return place == count;
}

/* Reads what a copy is made of; Python reads that of a subclass, or of another form. */
static PyObject *restore(Specifiers *self, PyObject *state)
{
    PyObject *class = (PyObject *)Py_TYPE((PyObject *)self), *read, *given;
    int is_member = class == member_class, done;
    if ((!is_member && class != set_class) || !is_state(state, is_member ? 2 : -1))
        return PyObject_CallMethod((PyObject *)self, "_restore_by_python", "(O)", state);
    read = PyTuple_GetItem(state, 0);
    given = is_member ? PyUnicode_Concat(PyTuple_GetItem(read, 0), PyTuple_GetItem(read, 1)) : Py_NewRef(read);
    done = !given ? -1 : (is_member ? read_specifier : read_set)(self, given, PyTuple_GetItem(state, 1));
    Py_XDECREF(given);
    if (done < 0)
        return NULL;
    Py_RETURN_NONE;
}

/* What copy.deepcopy makes. */
static PyObject *copied_by_python(PyObject *it, PyObject *memo)
{
    PyObject *module = PyImport_ImportModule("copy"), *made = module ? PyObject_CallMethod(module, "deepcopy", "OO", it, memo) : NULL;
    Py_XDECREF(module);
    return made;
}

/* A copy of a specifier, or of a set with copies of its members. */
static PyObject *deep_copy(Specifiers *self, PyObject *memo)
{
    Specifiers *made = (Specifiers *)specifiers_copy(self, NULL);
    Py_ssize_t count = made && !is_specifier(made) && made->members && PyTuple_Check(made->members) ? PyTuple_Size(made->members) : 0;
    PyObject *members = count ? PyTuple_New(count) : NULL;
    if (made && !is_specifier(made) && made->members && !PyTuple_Check(made->members) && !kept_in(&made->members, copied_by_python(made->members, memo)))
        Py_CLEAR(made); /* a frozenset, by 25 */
    for (Py_ssize_t place = 0; members && place < count; place++) {
        PyObject *each = PyTuple_GetItem(made->members, place);
        each = (PyObject *)Py_TYPE(each) == member_class ? specifiers_copy((Specifiers *)each, NULL) : copied_by_python(each, memo);
        if (!each || PyTuple_SetItem(members, place, each) < 0)
            Py_CLEAR(members);
    }
    if (count && !kept_in(&made->members, members))
        Py_CLEAR(made);
    return (PyObject *)made;
}

#define STATES \
    {"__copy__", CALL(specifiers_copy), METH_NOARGS, "A copy, of a set with the same members."}, \
    {"__deepcopy__", CALL(deep_copy), METH_O, "A copy, of a set with copies of its members."}, \
    {"__getstate__", CALL(state_of), METH_NOARGS, "What a copy is made of, as `packaging` has it."}, \
    {"__setstate__", CALL(restore), METH_O, "Reads what a copy is made of."}

static PyMethodDef specifier_calls[] = {
    STATES,
    {"contains", CALL(specifier_contains), METH_FASTCALL | METH_KEYWORDS,
     CONTAINS_HEAD("") "Whether the version is contained; a pre-release only where `prereleases`, or else the attribute of that name, allows it."},
    KEPT,
    FILTERED,
    {NULL, NULL, 0, NULL}};

/* Whether a set is unsatisfiable, which Python finds, and of one of no subclass once. */
static PyObject *is_unsatisfiable(Specifiers *self, PyObject *unused)
{
    long asked_at = times_set;
    PyObject *found;
    if (self->unsatisfiable >= 0 && self->asked_at == asked_at)
        return PyBool_FromLong(self->unsatisfiable);
    found = PyObject_CallMethod((PyObject *)self, "_has_no_member", NULL);
    ask_again(self);
    if (found && asked_at == times_set && (PyObject *)Py_TYPE((PyObject *)self) == set_class)
        self->unsatisfiable = found == Py_True;
    return found;
}

static PyMethodDef set_calls[] = {
    {"is_unsatisfiable", CALL(is_unsatisfiable), METH_NOARGS,
     "is_unsatisfiable($self, /)\n--\n\n"
     "Whether no version is contained, nor with `===` a string; where pre-releases are forbidden, whether none but these is.\n\n"
     ">>> SpecifierSet(\">=2,<1\").is_unsatisfiable(), SpecifierSet(\"==1a1\", prereleases=False).is_unsatisfiable()\n(True, True)"},
    STATES,
    {"contains", CALL(set_contains), METH_FASTCALL | METH_KEYWORDS,
     CONTAINS_HEAD(", installed=None")
     "Whether each member contains the version; a pre-release only where `prereleases`, or else the attribute of that name, allows it.\n\n"
     "Where `installed` is true, an allowed pre-release is asked for by its base version."},
    KEPT,
    FILTERED,
    {NULL, NULL, 0, NULL}};

/* Gives a class the calls of its base as its own: CPython calls these in fewer steps than those that a class inherits. 0, or -1 with an error. */
static int have_own(PyObject *class, PyMethodDef *calls)
{
    int done = 0;
    for (; done == 0 && calls->ml_name; calls++) {
        PyObject *own = PyDescr_NewMethod((PyTypeObject *)class, calls);
        done = own ? PyObject_SetAttrString(class, calls->ml_name, own) : -1;
        Py_XDECREF(own);
    }
    return done;
}

/* use(member_class, set_class, reader_of_others, reader_of_twins, sorter_of_members) */
static PyObject *use(PyObject *module, PyObject *const *args, Py_ssize_t count)
{
    if (!has_count("use", count, 5) || have_own(args[0], specifier_calls) < 0 || have_own(args[1], set_calls) < 0)
        return NULL;
    call_quickly((PyTypeObject *)kept_in(&member_class, Py_NewRef(args[0])), specifier_call, (destructor)specifiers_free);
    call_quickly((PyTypeObject *)kept_in(&set_class, Py_NewRef(args[1])), set_call, (destructor)specifiers_free);
    kept_in(&reader_of_others, Py_NewRef(args[2]));
    kept_in(&reader_of_twins, Py_NewRef(args[3]));
    kept_in(&sorter_of_members, Py_NewRef(args[4]));
    Py_RETURN_NONE;
}

#define PRERELEASES \
    {"prereleases", (getter)get_prereleases, (setter)set_prereleases, "Whether pre-releases are allowed. May be set.", NULL}, \
    {"_prereleases", (getter)get_said, (setter)set_prereleases, "What was said of pre-releases, or None.", NULL}, \
    {"_compiled", (getter)get_compiled, NULL, "The compiled list, of all but what Python is to compare.", NULL}

static PyGetSetDef specifier_values[] = {
    PRERELEASES,
    {"operator", (getter)get_half, NULL, "The operator.", (void *)0},
    {"version", (getter)get_half, NULL, "The version as it was written, with its star.", (void *)1},
    {"_spec", (getter)get_spec, (setter)assign_spec, "(operator, version)", NULL},
    {"_canonical_spec", (getter)get_canonical, NULL, "What equal specifiers share.", NULL},
    {NULL, NULL, NULL, NULL, NULL}};

static PyGetSetDef set_values[] = {
    PRERELEASES,
    {"_specs", (getter)get_members, (setter)assign_members, "The members.", NULL},
    {"_sorted_specs", (getter)get_sorted, NULL, "The members as they are compared.", NULL},
    {NULL, NULL, NULL, NULL, NULL}};

/* Their weak references. */
static PyMemberDef places[] = {{"__weaklistoffset__", T_PYSSIZET, offsetof(Specifiers, references), READONLY, NULL}, {NULL, 0, 0, 0, NULL}};

/* None has a `tp_new` of its own, so that `object.__new__` makes one, as copyreg does for pickles. */
static PyType_Slot specifier_slots[] = {{Py_tp_init, specifier_init},
                                        {Py_tp_dealloc, specifiers_free},
                                        {Py_tp_traverse, specifiers_traverse},
                                        {Py_tp_clear, specifiers_clear},
                                        {Py_tp_hash, specifier_hash},
                                        {Py_tp_richcompare, specifier_compare},
                                        {Py_tp_str, specifier_str},
                                        {Py_sq_contains, has},
                                        {Py_tp_methods, specifier_calls},
                                        {Py_tp_getset, specifier_values},
                                        {Py_tp_members, places},
                                        {Py_tp_doc, "HeldSpecifier(spec='', prereleases=None)\n--\n\nA specifier, compiled."},
                                        {0, NULL}};

static PyType_Slot set_slots[] = {{Py_tp_init, set_init},
                                  {Py_tp_dealloc, specifiers_free},
                                  {Py_tp_traverse, specifiers_traverse},
                                  {Py_tp_clear, specifiers_clear},
                                  {Py_tp_hash, set_hash},
                                  {Py_tp_richcompare, set_compare},
                                  {Py_tp_iter, set_iterator},
                                  {Py_tp_str, set_str},
                                  {Py_nb_and, set_and},
                                  {Py_sq_length, set_length},
                                  {Py_sq_contains, has},
                                  {Py_tp_methods, set_calls},
                                  {Py_tp_getset, set_values},
                                  {Py_tp_members, places},
                                  {Py_tp_doc, "HeldSet(specifiers='', prereleases=None)\n--\n\nSpecifiers, compiled as one list."},
                                  {0, NULL}};

enum { TYPE_FLAGS = Py_TPFLAGS_DEFAULT | Py_TPFLAGS_BASETYPE };

static PyType_Spec specifier_spec = {"pep440_rattle._core.HeldSpecifier", sizeof(Specifiers), 0, TYPE_FLAGS | Py_TPFLAGS_HAVE_GC, specifier_slots};

static PyType_Spec set_spec = {"pep440_rattle._core.HeldSet", sizeof(Specifiers), 0, TYPE_FLAGS | Py_TPFLAGS_HAVE_GC, set_slots};

static PyMethodDef name_call = {
    "canonicalize_name", CALL(canonicalize_name), METH_FASTCALL | METH_KEYWORDS,
    "canonicalize_name($module, name, *, validate=False)\n--\n\n"
    "The normalized name of a project (PEP 503). With `validate`, raises `InvalidName` where it is none.\n\n"
    ">>> canonicalize_name(\"Some.-_Name\")\n'some-name'"};

/* The call as one of a module. */
static PyObject *make_name_call(PyObject *module, PyObject *of)
{
    PyObject *name = PyObject_GetAttrString(of, "__name__"), *made = name ? PyCFunction_NewEx(&name_call, of, name) : NULL;
    Py_XDECREF(name);
    return made;
}

static PyMethodDef calls[] = {
    {"make_name_call", make_name_call, METH_O, "make_name_call(module): `canonicalize_name`, as a call of this module."},
    {"ranges", ranges, METH_O, "The range of a list, a segment a line."},
    {"complement", complement, METH_O, "The versions that are not in the set."},
    {"intersection", CALL(intersection), METH_FASTCALL, "The versions that are in both sets, or of both compiled lists."},
    {"union", CALL(union_of), METH_FASTCALL, "The versions that are in one of both."},
    {"is_subset", CALL(is_subset), METH_FASTCALL, "Whether each version of the first set is in the second."},
    {"compile_list", compile_list, METH_O, "The compiled list, of the string at once."},
    {"use", CALL(use), METH_FASTCALL,
     "use(member, set, reader, twins, sorter): the classes of members and of sets, what gives the strings of other libraries' versions, what reads their "
     "objects as these types, and the order of members."},
    {"behave", CALL(behave), METH_FASTCALL, "behave(by_26, by_26_3): has all of these types behave as those of packaging 26, or else of 25, and of 26.3, or else of 26.2."},
    {"follows_26", get_behaviour, METH_NOARGS, "Whether these types behave as those of packaging 26, or else of 25."},
    {"follows_26_3", get_newer_behaviour, METH_NOARGS, "Whether these types behave as those of packaging 26.3."},
    {"read_requirement", CALL(read_requirement), METH_FASTCALL, "The parts of a requirement, or None where its tokens are to be read."},
    {"read_marker", CALL(read_marker), METH_FASTCALL, "The comparisons of a marker, or None where its tokens are to be read."},
    {"evaluate_marker", CALL(evaluate_marker), METH_FASTCALL, "evaluate_marker(markers, environment, tools): whether it holds, by the rule of 26."},
    {"split_wheel", split_wheel, METH_O, "The normalized name, version, build and tags in the name of a wheel, or None where Python is to read it."},
    {"is_normal_name", is_normal_name, METH_O, "Whether it is the normalized name of a project by 26.3, or None where Python is to say it."},
    {"normal_name", normal_name, METH_O, "The normalized name of a project, or None where Python is to make it."},
    {"sort", sort, METH_O, "The items in the order of their versions."},
    {"sort_keys", sort_keys, METH_O, "The sort key of each item."},
    {NULL, NULL, 0, NULL}};

static int add_type(PyObject *module, PyTypeObject **type, PyType_Spec *spec)
{
    if (!*type)
        *type = (PyTypeObject *)PyType_FromSpec(spec);
    return *type ? PyModule_AddObjectRef(module, strrchr(spec->name, '.') + 1, (PyObject *)*type) : -1;
}

static int add_error(PyObject *module, PyObject **error, const char *name, const char *says)
{
    if (!*error)
        *error = PyErr_NewExceptionWithDoc(name, says, PyExc_ValueError, NULL);
    return *error ? PyModule_AddObjectRef(module, strrchr(name, '.') + 1, *error) : -1;
}

/* The types and the exceptions are held by static variables, so that there is one interpreter for them. */
static int execute(PyObject *module)
{
    if (PyInterpreterState_GetID(PyInterpreterState_Get()) != 0) {
        PyErr_SetString(PyExc_ImportError, "pep440_rattle can be imported in the main interpreter alone");
        return -1;
    }
    if (add_type(module, &HeldType, &held_spec) < 0 || add_type(module, &HeldSpecifierType, &specifier_spec) < 0 ||
        add_type(module, &HeldSetType, &set_spec) < 0 || add_type(module, &FilterType, &filter_spec) < 0 ||
        add_error(module, &InvalidVersion, "pep440_rattle.version.InvalidVersion", "A string is no version.") < 0)
        return -1;
    call_quickly(HeldType, held_call, (destructor)held_free);
    first_new = PyType_GetSlot(HeldType, Py_tp_new);
    return add_error(module, &InvalidSpecifier, "pep440_rattle.specifiers.InvalidSpecifier", "A string is no specifier.");
}

static PyModuleDef_Slot slots[] = {{Py_mod_exec, execute}, {0, NULL}};

static struct PyModuleDef definition = {PyModuleDef_HEAD_INIT, "pep440_rattle._core", "The proved library.", 0, calls, slots, NULL, NULL, NULL};

PyMODINIT_FUNC PyInit__core(void) { return PyModuleDef_Init(&definition); }
