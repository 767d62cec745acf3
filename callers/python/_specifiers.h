/* What specifiers and sets of them hold, and the type of specifiers. */

/* The class of the members that a set makes of its string, `Specifier`, and that of the sets that are made of two, once their module has named them. */
static PyObject *member_class, *set_class;

/* A specifier, or a set of them, and once it was asked for its compiled list. */
typedef struct {
    PyObject_HEAD
    PyObject *references; /* the weak ones */
    PyObject *text;       /* of a specifier as it prints, else NULL */
    PyObject *members;    /* once asked for: of a set a tuple, and by 25 then a frozenset; of a specifier (operator, version) */
    union {
        PyObject *canonical; /* of a specifier, once asked for: what equal ones share */
        PyObject *source;    /* of a set whose members are not made yet: the string of them, each known to be a specifier */
    };
    PyObject *said;       /* of pre-releases; NULL until `__init__` has read a string */
    uint8_t *compiled;    /* `few`, or a block of its own; with its set once 26 was to match by it */
    size_t length;
    long asked_at;       /* `times_set` when `allows` was found */
    signed char allows;  /* whether it allows pre-releases where nobody says so, or UNKNOWN; -1: not asked yet */
    signed char changed; /* whether Python is to compare (`is_changed`); -1: not asked yet */
    signed char unsatisfiable; /* of a set: whether it is unsatisfiable, found at `asked_at`; -1: not asked yet */
    char is_sorted;      /* of a set: its members are as 26 compares them, in the order of their strings, each one once */
    Words words;         /* of what is compiled with its set */
    uint8_t few[48];
} Specifiers;

/* How often `prereleases` of some specifier was set, so that a set knows when to ask its members again. */
static long times_set;

/* How many characters `===` has, alone of all operators. */
enum { ARBITRARY = 3 };

/* Whether a specifier allows pre-releases, of one with `===` and no version. */
enum { UNKNOWN = 2 };

static int is_specifier(const Specifiers *self) { return self->text != NULL; }

/* Whether it is a specifier with `===`, of which nothing is compiled. */
static int is_arbitrary(const Specifiers *self) { return is_specifier(self) && self->length == LIST_HEAD; }

/* Whether `__init__` has read a string; else an exception is set. */
static int is_read(const Specifiers *self)
{
    if (!self->said)
        PyErr_Format(PyExc_AttributeError, "%R was made without its __init__", Py_TYPE((PyObject *)self));
    return self->said != NULL;
}

/* Whether the string of a set whose members are not made yet has a `===`, which the library would compile as a comparison of versions. */
static int has_arbitrary(const Specifiers *self)
{
    const char *text = is_specifier(self) || self->members ? NULL : PyUnicode_AsUTF8AndSize(self->source, NULL);
    return text && strstr(text, "===");
}

static PyObject *made_members(Specifiers *self);

static int is_empty_set(const Specifiers *self) { return !is_specifier(self) && self->members && PyObject_Size(self->members) == 0; }

/* The list in what was compiled, behind its set. */
static inline pep440_string list_of(const Specifiers *self)
{
    size_t start = list_start(self->compiled);
    return (pep440_string){self->compiled + start, self->length - start};
}

/* Drops what was compiled. */
static inline void drop_list(Specifiers *self)
{
    if (self->compiled && self->compiled != self->few)
        free(self->compiled);
    self->compiled = NULL;
    self->length = 0;
    self->words.count = -1;
}

/* Drops what was read, and what was made of it; whom this wakes finds nothing read, and may read another string. */
static void drop_read(Specifiers *self)
{
    PyObject *said = self->said, *text = self->text, *members = self->members, *canonical = self->canonical;
    drop_list(self);
    self->said = self->text = self->members = self->canonical = NULL;
    Py_XDECREF(said);
    Py_XDECREF(text);
    Py_XDECREF(members);
    Py_XDECREF(canonical);
}

/* Holds a copy of what was compiled, and drops this. 0, or -1 with an error. */
static int hold(Specifiers *self, Compiled *compiled)
{
    self->compiled = keep(compiled->bytes, compiled->length, self->few, sizeof self->few);
    self->length = self->compiled ? compiled->length : 0;
    drop_compiled(compiled);
    if (!self->compiled)
        PyErr_NoMemory();
    return self->compiled ? 0 : -1;
}

/* Takes these references in place of those that it had. */
static inline void take(Specifiers *self, PyObject *text, PyObject *members, PyObject *said)
{
    while (self->said)
        drop_read(self);
    self->text = text, self->members = members, self->said = Py_NewRef(said);
    self->asked_at = -1, self->allows = -1, self->changed = -1, self->unsatisfiable = -1, self->is_sorted = 0, self->words.count = -1;
}

static int specifiers_traverse(Specifiers *self, visitproc visit, void *arg)
{
    Py_VISIT(Py_TYPE((PyObject *)self));
    Py_VISIT(self->members);
    Py_VISIT(self->said);
    return 0;
}

static int specifiers_clear(Specifiers *self)
{
    drop_read(self);
    return 0;
}

/* Freed specifiers, and sets of them. */
static Spare spare_specifiers;

static void specifiers_free(Specifiers *self)
{
    PyTypeObject *type = Py_TYPE((PyObject *)self);
    PyObject_GC_UnTrack(self);
    if (self->references)
        PyObject_ClearWeakRefs((PyObject *)self);
    /* one by one, which is quicker: nobody has it any more */
    drop_list(self);
    Py_CLEAR(self->said);
    Py_CLEAR(self->text);
    Py_CLEAR(self->members);
    Py_CLEAR(self->canonical);
    /* one of a subclass may be longer */
    if (((PyObject *)type != member_class && (PyObject *)type != set_class) || !is_kept(&spare_specifiers, (PyObject *)self))
        PyObject_GC_Del(self);
    Py_DECREF(type);
}

/* One of a class without fields of its own, of which nothing is read yet. */
static inline Specifiers *new_specifiers(PyObject *class)
{
    Specifiers *made = (Specifiers *)taken_of(&spare_specifiers);
    if (made)
        Py_SET_TYPE((PyObject *)made, (PyTypeObject *)Py_NewRef(class));
    else if ((made = PyObject_GC_New(Specifiers, (PyTypeObject *)class)))
        memset(&made->references, 0, offsetof(Specifiers, few) - offsetof(Specifiers, references));
    if (made)
        PyObject_GC_Track(made);
    return made;
}

/* Reads what is given, in place of what was read before, which stays where this fails; with what is said of pre-releases. 0, or -1 with an error. */
typedef int (*Reader)(Specifiers *, PyObject *, PyObject *);

/* Specifier(spec) or SpecifierSet(specifiers) without a tuple; subclasses are not called by this. */
static inline PyObject *call_with(PyObject *type, PyObject *const *args, size_t flagged_count, PyObject *names, void *init, Reader read)
{
    Specifiers *made;
    if (!takes_one(type, flagged_count, names, init))
        return call_type(type, args, flagged_count, names);
    made = new_specifiers(type);
    if (made && read(made, args[0], Py_None) < 0)
        Py_CLEAR(made);
    return (PyObject *)made;
}

/* Reads the arguments of an `__init__`: the first one, by this name, and `prereleases`. */
static int init_with(Specifiers *self, PyObject *args, PyObject *named, char *first, const char *form, Reader read)
{
    char *names[] = {first, "prereleases", NULL};
    PyObject *given = NULL, *said = Py_None, *nothing = NULL;
    int done = -1;
    if (PyArg_ParseTupleAndKeywords(args, named, form, names, &given, &said) && (given || (nothing = PyUnicode_FromString(""))))
        done = read(self, given ? given : nothing, said);
    Py_XDECREF(nothing);
    return done;
}

/* A character, or 0 behind the end. */
static Py_UCS4 char_at(PyObject *text, Py_ssize_t at) { return at < PyUnicode_GetLength(text) ? PyUnicode_ReadChar(text, at) : 0; }

/* How many characters the operator in front has; of one to three, all but `<` and `>` have a `=` at their ends. */
static Py_ssize_t operator_width(PyObject *text)
{
    if (char_at(text, 1) != '=')
        return PyUnicode_GetLength(text) > 0;
    return char_at(text, 0) == '=' && char_at(text, 2) == '=' ? ARBITRARY : 2;
}

/* The specifier as it prints: without white space behind its operator. This stays where there is no operator, which a `=` behind it makes longer. */
static PyObject *joined(PyObject *text, Py_ssize_t width)
{
    pep440_string behind;
    PyObject *operator, *rest, *version, *made = NULL;
    if (char_at(text, width) > ' ' && char_at(text, width) < 127)
        return Py_NewRef(text);
    operator = PyUnicode_Substring(text, 0, width);
    rest = PyUnicode_Substring(text, width, PY_SSIZE_T_MAX);
    version = rest ? stripped(rest, &behind) : NULL;
    if (operator && version)
        made = width < ARBITRARY && char_at(version, 0) == '=' ? Py_NewRef(text) : PyUnicode_Concat(operator, version);
    Py_XDECREF(operator);
    Py_XDECREF(rest);
    Py_XDECREF(version);
    return made;
}

/* Whether white space of ASCII, `;` or `)` stands there. */
static int is_end_of_text(uint8_t it) { return (it >= '\t' && it <= '\r') || (it >= 0x1C && it <= ' ') || it == ';' || it == ')'; }

/* Whether the text behind `===` has no white space, `;` or `)`, and so is any that may stand there. 1, 0, or -1 with an error. */
static int is_any_text(PyObject *print)
{
    Py_ssize_t length = 0;
    const char *at = PyUnicode_AsUTF8AndSize(print, &length);
    PyObject *words;
    int found;
    if (at && length == PyUnicode_GetLength(print)) {
        while (length && !is_end_of_text((uint8_t)*at))
            at++, length--;
        return !length;
    }
    PyErr_Clear();
    words = PyUnicode_Split(print, NULL, 1);
    found = !words ? -1 : PyList_Size(words) == 1;
    for (const char *each = ";)"; found > 0 && *each; each++)
        found = PyUnicode_FindChar(print, (Py_UCS4)*each, 0, PY_SSIZE_T_MAX, 1) == -1;
    Py_XDECREF(words);
    return found;
}

static inline int is_digit(uint8_t it) { return it >= '0' && it <= '9'; }

/* How many bytes `.*` takes at the end of the version of `==` or `!=`, behind digits and dots alone; 0 where it does not stand there. */
static inline size_t star_length(const uint8_t *operator, pep440_string version)
{
    const uint8_t *at = version.bytes;
    size_t end = version.length < 3 ? 0 : version.length - 2, place = 0;
    if (!end || at[end] != '.' || at[end + 1] != '*' || operator[1] != '=' || (operator[0] != '=' && operator[0] != '!'))
        return 0;
    while (place < end && (is_digit(at[place]) || at[place] == '.'))
        place++;
    return place == end ? 2 : 0;
}

/* Whether two numbers of a release come first, as behind `~=` they must. */
static int has_two_numbers(pep440_string version)
{
    size_t at = 0;
    while (at < version.length && is_digit(version.bytes[at]))
        at++;
    return at + 1 < version.length && version.bytes[at] == '.' && is_digit(version.bytes[at + 1]);
}

/* How many bytes a specifier has that is known to be one by its version, at most: so many are compiled in place. */
enum { MOST_KNOWN = 256 };

/* Whether a string with a local part is a version: it is compiled, which takes less than to see that it has no word. */
__attribute__((noinline)) static int is_local_version(pep440_string version)
{
    uint8_t few[PEP440_COMPILED_BOUND(MOST_KNOWN)];
    size_t length;
    return pep440_compile(version.bytes, version.length, few, sizeof few, &length) == PEP440_OK;
}

/* Whether the version behind an operator is one, and has no local part unless it may. */
static inline int is_version(pep440_string version, int may_be_local)
{
    uint64_t word;
    uint8_t status;
    if (may_be_local && memchr(version.bytes, '+', version.length))
        return is_local_version(version);
    status = pep440_word(version.bytes, version.length, &word);
    return status == PEP440_OK || (status == PEP440_NOT_PACKED && !memchr(version.bytes, '+', version.length));
}

/* Whether it is a specifier by its version: any version may stand behind `==` and `!=`, and a release with a star; behind `<`, `<=`, `>` and `>=` one without
   a local part, and behind `~=` one that has two numbers, too. One of a set may have blanks behind its operator. */
static inline int is_known(pep440_string text, int is_of_set)
{
    const uint8_t *at = text.bytes;
    size_t width = text.length > 2 && at[1] == '=' ? 2 : 1;
    pep440_string version;
    while (is_of_set && width < text.length && at[width] == ' ')
        width++;
    if (text.length <= width || text.length > MOST_KNOWN || at[width] <= ' ' || at[width] > '~' || at[width] == '=')
        return 0;
    version = (pep440_string){at + width, text.length - width};
    if (at[0] == '>' || at[0] == '<')
        return is_version(version, 0);
    if (at[1] != '=')
        return 0;
    if (at[0] == '~')
        return has_two_numbers(version) && is_version(version, 0);
    version.length -= star_length(at, version);
    return (at[0] == '=' || at[0] == '!') && is_version(version, 1);
}

/* Whether a piece of a set is `===` with characters of ASCII behind it that may stand there, so that it is a specifier. */
static int is_known_arbitrary(pep440_string text)
{
    size_t at = ARBITRARY;
    if (text.length <= ARBITRARY || memcmp(text.bytes, "===", ARBITRARY))
        return 0;
    while (at < text.length && text.bytes[at] > ' ' && text.bytes[at] <= '~' && text.bytes[at] != ';' && text.bytes[at] != ')')
        at++;
    return at == text.length;
}

/* Compiles a specifier as the list of it alone, and one with `===` as the list of nothing, since any text may stand there: Python compares it. */
static uint8_t compile_specifier(PyObject *print, Compiled *compiled)
{
    pep440_string text;
    size_t start;
    uint8_t status = PEP440_OK;
    int is_any = operator_width(print) == ARBITRARY ? is_any_text(print) : 0;
    if (is_any < 0 || view_str(print, &text) < 0)
        return PEP440_OUT_OF_MEMORY;
    if (is_any) {
        compiled->bytes = memcpy(compiled->few, EMPTY_LIST, LIST_HEAD);
        compiled->length = LIST_HEAD;
    } else if ((status = compile(pep440_compile_specifier, text, compiled)) == PEP440_OK) {
        start = list_start(compiled->bytes);
        compiled->length -= start;
        memmove(compiled->bytes, compiled->bytes + start, compiled->length);
    }
    return status;
}

/* The number of the operator of a specifier that is known to be one. */
static uint8_t operator_of(const uint8_t *at)
{
    int has_equal = at[1] == '=';
    if (at[0] == '<')
        return has_equal ? PEP440_LESS_EQUAL : PEP440_LESS;
    if (at[0] == '>')
        return has_equal ? PEP440_GREATER_EQUAL : PEP440_GREATER;
    if (at[0] == '~')
        return PEP440_COMPATIBLE;
    return at[0] == '!' ? PEP440_NOT_EQUAL : PEP440_EQUAL;
}

/* Compiles a specifier that is known to be one: its version, which takes few bytes then, behind the head of the list of it alone. */
static uint8_t compile_known(PyObject *print, Compiled *compiled)
{
    pep440_string text, version;
    size_t width, star;
    uint8_t status;
    if (view_str(print, &text) < 0)
        return PEP440_OUT_OF_MEMORY;
    width = text.bytes[1] == '=' ? 2 : 1;
    version = (pep440_string){text.bytes + width, text.length - width};
    star = star_length(text.bytes, version);
    version.length -= star;
    status = compile(pep440_compile, version, compiled);
    if (status != PEP440_OK)
        return status;
    memmove(compiled->bytes + MEMBER_HEAD, compiled->bytes + 1, compiled->length - 1);
    compiled->bytes[0] = LIST;
    compiled->bytes[1] = (uint8_t)(OPERATOR + operator_of(text.bytes) + (star != 0)); /* the star forms come next */
    compiled->length++;
    return PEP440_OK;
}

/* Reads a specifier of a string without white space at its ends, and compiles it. */
static int read_compiled(Specifiers *self, PyObject *given, PyObject *text, PyObject *said)
{
    PyObject *print = joined(text, operator_width(text));
    pep440_string string;
    Compiled compiled;
    uint8_t status;
    if (print && print != text && view_str(print, &string) == 0 && is_known(string, 0)) {
        take(self, print, NULL, said);
        return 0;
    }
    status = print ? compile_specifier(print, &compiled) : PEP440_OUT_OF_MEMORY;
    if (status == PEP440_OK) {
        take(self, print, NULL, said);
        return hold(self, &compiled);
    }
    Py_XDECREF(print);
    if (status == PEP440_INVALID_LIST)
        raise_invalid(InvalidSpecifier, given, text, pep440_specifier_error);
    else
        raise_by(status, NULL, NULL);
    return -1;
}

/* Reads a specifier. One that is known to be one is compiled when it is asked for. */
static inline int read_specifier(Specifiers *self, PyObject *given, PyObject *said)
{
    pep440_string string;
    PyObject *text;
    int done;
    if (!PyUnicode_CheckExact(given) && !PyUnicode_Check(given))
        return raise_no_str(given);
    text = stripped(given, &string);
    if (text && is_known(string, 0)) {
        take(self, text, NULL, said);
        return 0;
    }
    done = text ? read_compiled(self, given, text, said) : -1;
    Py_XDECREF(text);
    return done;
}

static int specifier_init(Specifiers *self, PyObject *args, PyObject *named)
{
    return init_with(self, args, named, "spec", "|OO:Specifier", read_specifier);
}

static PyObject *specifier_call(PyObject *type, PyObject *const *args, size_t flagged_count, PyObject *names)
{
    return call_with(type, args, flagged_count, names, specifier_init, read_specifier);
}

static int compile_members(Specifiers *self);

/* Compiles a specifier or a set, where it has not been yet. 0, or -1 with an error. */
static int compile_list_of(Specifiers *self)
{
    Compiled compiled;
    uint8_t status;
    if (self->compiled || !is_read(self))
        return self->compiled ? 0 : -1;
    if (!is_specifier(self))
        return compile_members(self);
    status = compile_known(self->text, &compiled);
    if (status == PEP440_OK)
        return hold(self, &compiled);
    raise_by(status, NULL, NULL);
    return -1;
}

/* The same for matching: 26 matches by the set, which one with `===` does not have. */
static int compile_set_of(Specifiers *self)
{
    Compiled compiled;
    uint8_t status;
    if (compile_list_of(self) < 0)
        return -1;
    if (!follows_26 || self->words.count >= 0 || is_arbitrary(self))
        return 0;
    if (self->compiled[0] != SET) {
        status = compile(pep440_compile_list, (pep440_string){self->compiled, self->length}, &compiled);
        if (status != PEP440_OK) {
            raise_by(status, NULL, NULL);
            return -1;
        }
        drop_list(self);
        if (hold(self, &compiled) < 0)
            return -1;
    }
    self->words = words_in(self->compiled);
    return 0;
}

/* ---- what is asked of a specifier */

static PyObject *specifier_str(Specifiers *self) { return is_read(self) ? Py_NewRef(self->text) : NULL; }

/* (operator, version), borrowed. */
static PyObject *spec_of(Specifiers *self)
{
    Py_ssize_t width;
    if (self->members || !is_read(self))
        return self->members;
    width = operator_width(self->text);
    return kept_in(&self->members, Py_BuildValue("NN", PyUnicode_Substring(self->text, 0, width),
                                                 PyUnicode_Substring(self->text, width, PY_SSIZE_T_MAX)));
}

static PyObject *get_spec(Specifiers *self, void *unused) { return Py_XNewRef(spec_of(self)); }

static PyObject *get_half(Specifiers *self, void *place)
{
    PyObject *spec = spec_of(self);
    return spec ? Py_NewRef(PyTuple_GetItem(spec, (Py_ssize_t)(intptr_t)place)) : NULL;
}

/* Compiles the text behind `===`, which need not be a version. To be dropped where the status is PEP440_OK. */
static uint8_t compile_behind(Specifiers *self, Compiled *compiled)
{
    PyObject *spec = spec_of(self);
    pep440_string text;
    if (!spec || view_str(PyTuple_GetItem(spec, 1), &text) < 0)
        return PEP440_OUT_OF_MEMORY;
    return compile(pep440_compile, text, compiled);
}

/* The sort key of the version behind `===`, or the text where it is none. */
static PyObject *key_or_text(Specifiers *self, PyObject *text)
{
    Compiled compiled;
    uint8_t status = compile_behind(self, &compiled);
    PyObject *key;
    if (status != PEP440_OK)
        return status == PEP440_INVALID_VERSION ? Py_NewRef(text) : raise_by(status, NULL, NULL);
    key = key_in(compiled.bytes, compiled.length);
    drop_compiled(&compiled);
    return key;
}

/* Reads other strings or members, with what was said of pre-releases. */
static int assign(Specifiers *self, PyObject *given, Reader read)
{
    PyObject *said = Py_NewRef(self->said ? self->said : Py_None);
    int done = given ? read(self, given, said) : -1;
    Py_DECREF(said);
    return done;
}

static int assign_spec(Specifiers *self, PyObject *value, void *unused)
{
    PyObject *nothing = PyUnicode_FromString(""), *text = nothing && value ? PyUnicode_Join(nothing, value) : NULL;
    int done = assign(self, text, read_specifier);
    if (!value)
        PyErr_SetString(PyExc_AttributeError, "_spec cannot be deleted");
    Py_XDECREF(nothing);
    Py_XDECREF(text);
    return done;
}

/* What tells two specifiers apart: versions that are equal are one, but for `~=`, where zeros at the end count, and those with a star. */
static PyObject *canonical_of(Specifiers *self)
{
    PyObject *spec, *version;
    pep440_string list;
    size_t length;
    if (self->canonical)
        return self->canonical;
    spec = spec_of(self);
    if (!spec || compile_list_of(self) < 0)
        return NULL;
    version = PyTuple_GetItem(spec, 1);
    list = list_of(self);
    length = list.length - MEMBER_HEAD;
    if (is_arbitrary(self))
        version = follows_26 ? Py_NewRef(version) : key_or_text(self, version);
    else if (PyUnicode_ReadChar(version, PyUnicode_GetLength(version) - 1) == '*')
        version = Py_NewRef(version);
    else {
        if (PyUnicode_ReadChar(self->text, 0) != '~')
            length = key_length(list.bytes + MEMBER_HEAD, length);
        version = PyBytes_FromStringAndSize((const char *)list.bytes + MEMBER_HEAD, (Py_ssize_t)length);
    }
    return version ? kept_in(&self->canonical, Py_BuildValue("ON", PyTuple_GetItem(spec, 0), version)) : NULL;
}

static PyObject *get_canonical(Specifiers *self, void *unused) { return Py_XNewRef(canonical_of(self)); }

static Py_hash_t specifier_hash(Specifiers *self)
{
    PyObject *canonical = canonical_of(self);
    return canonical ? PyObject_Hash(canonical) : -1;
}

/* Whether both are equal: a string is read as a specifier, and equals none where it is none. */
static PyObject *specifier_compare(PyObject *left, PyObject *right, int operation)
{
    PyObject *other, *one, *two, *answer = NULL;
    int is_same = Py_TYPE(left) == Py_TYPE(right);
    if (operation != Py_EQ && operation != Py_NE)
        Py_RETURN_NOTIMPLEMENTED;
    if (!is_same && PyObject_TypeCheck(right, HeldSpecifierType) && (is_same = PyObject_IsInstance(right, (PyObject *)Py_TYPE(left))) < 0)
        return NULL;
    if (!is_same && !PyUnicode_Check(right))
        return compare_with_twin(member_class, left, right, operation);
    other = is_same ? Py_NewRef(right) : PyObject_CallFunctionObjArgs((PyObject *)Py_TYPE(left), right, NULL);
    if (!other && PyErr_ExceptionMatches(InvalidSpecifier)) {
        PyErr_Clear();
        Py_RETURN_NOTIMPLEMENTED;
    }
    one = other ? canonical_of((Specifiers *)left) : NULL;
    if (one && !PyObject_TypeCheck(other, HeldSpecifierType)) /* a subclass may make anything */
        answer = Py_NewRef(Py_NotImplemented);
    else if (one && (two = canonical_of((Specifiers *)other)))
        answer = PyObject_RichCompare(one, two, operation);
    Py_XDECREF(other);
    return answer;
}

/* Whether the version behind any operator but `!=` is a pre-release: who excludes one does not ask for any. 1, 0, or where the text behind `===` is no
   version by 26 UNKNOWN and by 25 -1 with an error. */
static int names_prerelease(Specifiers *self)
{
    uint8_t status = PEP440_OK;
    int early = 0;
    Compiled compiled;
    if (self->allows >= 0)
        return self->allows;
    if (compile_list_of(self) < 0)
        return -1;
    if (is_arbitrary(self)) {
        if ((status = compile_behind(self, &compiled)) == PEP440_OK) {
            early = view_key(compiled.bytes + 1).is_early;
            drop_compiled(&compiled);
        } else if (status == PEP440_INVALID_VERSION && follows_26)
            early = UNKNOWN, status = PEP440_OK;
    } else if (PyUnicode_ReadChar(self->text, 0) != '!')
        early = view_key(list_of(self).bytes + MEMBER_HEAD).is_early;
    if (status != PEP440_OK) {
        raise_by(status, self->members ? PyTuple_GetItem(self->members, 1) : NULL, NULL);
        return -1;
    }
    return self->allows = (signed char)early;
}

/* Whether the compiled list asks for pre-releases; -1 with an error set. */
static int list_requests_prereleases(pep440_string list)
{
    uint8_t requests;
    if (pep440_requests_prereleases(list.bytes, list.length, &requests) == PEP440_OK)
        return requests;
    PyErr_NoMemory();
    return -1;
}

/* Forgets what was found before `prereleases` of any specifier was set. */
static void ask_again(Specifiers *self)
{
    if (self->asked_at != times_set)
        self->allows = self->unsatisfiable = -1, self->asked_at = times_set;
}

/* Whether some member allows pre-releases, asked again once `prereleases` of any specifier was set. */
static int some_allows(Specifiers *self)
{
    PyObject *each, *members, *all;
    int found = 0;
    long asked_at = times_set;
    if (self->allows >= 0 && self->asked_at == asked_at)
        return self->allows;
    if (!self->members && compile_list_of(self) < 0) /* which makes members with `===` */
        return -1;
    if (!self->members) {
        found = list_requests_prereleases(list_of(self));
        if (found >= 0)
            ask_again(self), self->allows = (signed char)found;
        return found;
    }
    members = Py_NewRef(self->members);
    all = PyObject_GetIter(members);
    while (all && found == 0 && (each = PyIter_Next(all))) {
        PyObject *allows = PyObject_GetAttrString(each, "prereleases");
        found = allows ? PyObject_IsTrue(allows) : -1;
        Py_XDECREF(allows);
        Py_DECREF(each);
    }
    if (PyErr_Occurred())
        found = -1;
    else if (self->members == members)
        ask_again(self), self->asked_at = asked_at, self->allows = (signed char)found;
    Py_XDECREF(all);
    Py_DECREF(members);
    return found;
}

/* Whether pre-releases are allowed where nobody says so at the call. */
static int allows_prereleases(Specifiers *self)
{
    PyObject *said;
    int allows;
    if (self->said == Py_None)
        return is_specifier(self) ? names_prerelease(self) : some_allows(self);
    said = Py_NewRef(self->said);
    allows = PyObject_IsTrue(said);
    Py_DECREF(said);
    return allows;
}

static PyObject *get_prereleases(Specifiers *self, void *unused)
{
    int allows;
    if (!is_read(self))
        return NULL;
    if (self->said != Py_None)
        return Py_NewRef(self->said);
    if (is_empty_set(self))
        return Py_NewRef(Py_None);
    allows = allows_prereleases(self);
    if (allows == UNKNOWN || (allows == 0 && follows_26 && !is_specifier(self)))
        Py_RETURN_NONE;
    return allows < 0 ? NULL : PyBool_FromLong(allows);
}

static PyObject *get_compiled(Specifiers *self, void *unused)
{
    pep440_string list;
    if (compile_list_of(self) < 0)
        return NULL;
    list = list_of(self);
    return PyBytes_FromStringAndSize((const char *)list.bytes, (Py_ssize_t)list.length);
}

/* A copy of one that is of no subclass; of a set with the same members. */
static PyObject *specifiers_copy(Specifiers *self, PyObject *unused)
{
    PyObject *class = (PyObject *)Py_TYPE((PyObject *)self);
    Specifiers *made = is_read(self) ? new_specifiers(class) : NULL;
    if (!made)
        return NULL;
    take(made, Py_XNewRef(self->text), Py_XNewRef(self->members), self->said);
    if (!is_specifier(self))
        made->source = Py_XNewRef(self->source);
    else if (self->compiled) { /* one whose text is not enough to compile it */
        made->compiled = keep(self->compiled, self->length, made->few, sizeof made->few);
        made->length = self->length;
        if (!made->compiled) {
            Py_DECREF((PyObject *)made);
            return PyErr_NoMemory();
        }
    }
    return (PyObject *)made;
}

static PyObject *get_said(Specifiers *self, void *unused) { return is_read(self) ? Py_NewRef(self->said) : NULL; }

static int set_prereleases(Specifiers *self, PyObject *value, void *unused)
{
    PyObject *old = self->said;
    if (!value)
        PyErr_SetString(PyExc_AttributeError, "prereleases cannot be deleted");
    if (!value || !is_read(self))
        return -1;
    self->said = Py_NewRef(value);
    self->unsatisfiable = -1;
    times_set += is_specifier(self);
    Py_DECREF(old);
    return 0;
}
