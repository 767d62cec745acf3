/* The type of versions. */

/* Whether anything was made of the string: `prints` is made of `normal`. */
static inline int has_made(const Held *self)
{
    return ((uintptr_t)self->key | (uintptr_t)self->parts | (uintptr_t)self->normal | (uintptr_t)self->compiled) != 0;
}

/* Drops what was made of the string. */
__attribute__((noinline)) static void drop_made(Held *self)
{
    PyObject *old[] = {self->key, self->parts, self->normal, self->prints};
    if (self->compiled && self->compiled != self->few)
        free(self->compiled);
    self->compiled = NULL;
    self->key = self->parts = self->normal = self->prints = NULL;
    for (int each = 0; each < 4; each++)
        Py_XDECREF(old[each]);
}

static int raise_no_str(PyObject *given)
{
    PyErr_Format(PyExc_TypeError, "expected a str, not %R", Py_TYPE(given));
    return -1;
}

/* The same of what is given for a version, in place of which `packaging` 26.3 has an error of its own. */
static int raise_no_version(PyObject *given)
{
    if (!follows_26_3)
        return raise_no_str(given);
    PyErr_Format(InvalidVersion, "Invalid version: %R", given);
    return -1;
}

/* Reads the string. What is not new may have read one before, which stays where this one is no version. */
static inline int read_version(Held *self, PyObject *given, int is_new)
{
    PyObject *text, *old;
    pep440_string string;
    uint8_t status;
    if (!PyUnicode_CheckExact(given) && !PyUnicode_Check(given))
        return raise_no_version(given);
    text = stripped(given, &string);
    if (!text)
        return -1;
    status = pep440_word(string.bytes, string.length, &self->word); /* where it fails, the word stays */
    if (status != PEP440_OK && status != PEP440_NOT_PACKED) {
        Py_DECREF(text);
        raise_by(status, given, NULL);
        return -1;
    }
    old = is_new ? NULL : self->text;
    self->text = text;
    self->is_by_word = status == PEP440_OK;
    self->has_hash = 0;
    self->has_own_key = 0;
    if (old) {
        drop_made(self);
        Py_DECREF(old);
    }
    return 0;
}

static int held_init(Held *self, PyObject *args, PyObject *named)
{
    static char *names[] = {"version", NULL};
    PyObject *given = NULL;
    if (!named && PyTuple_Size(args) == 1)
        given = PyTuple_GetItem(args, 0);
    else if (!PyArg_ParseTupleAndKeywords(args, named, "O:Version", names, &given))
        return -1;
    return read_version(self, given, 0);
}

/* The highest bit of a count of arguments is the caller's. */
static const size_t COUNT = SIZE_MAX >> 1;

/* `__new__` of a class that has none of its own. */
static void *first_new;

/* Whether a type is called with one argument alone, and by its call this `__init__` is all that runs. */
static inline int takes_one(PyObject *type, size_t flagged_count, PyObject *names, void *init)
{
    const char *start = (const char *)type;
    return (flagged_count & COUNT) == 1 && !names && *(void *const *)(start + INIT_PLACE) == init && *(void *const *)(start + NEW_PLACE) == first_new;
}

/* Calls what takes a tuple and a dict. */
__attribute__((noinline)) static PyObject *call_by(ternaryfunc call, PyObject *called, PyObject *const *args, size_t flagged_count, PyObject *names)
{
    Py_ssize_t count = (Py_ssize_t)(flagged_count & COUNT), more = names ? PyTuple_Size(names) : 0;
    PyObject *given = PyTuple_New(count), *named = more ? PyDict_New() : NULL, *made = NULL;
    int done = given && (named || !more) ? 0 : -1;
    for (Py_ssize_t at = 0; done == 0 && at < count; at++)
        done = PyTuple_SetItem(given, at, Py_NewRef(args[at]));
    for (Py_ssize_t at = 0; done == 0 && at < more; at++)
        done = PyDict_SetItem(named, PyTuple_GetItem(names, at), args[count + at]);
    if (done == 0)
        made = call(called, given, named);
    Py_XDECREF(given);
    Py_XDECREF(named);
    return made;
}

/* Calls a type as all are called. */
__attribute__((noinline)) static PyObject *call_type(PyObject *type, PyObject *const *args, size_t flagged_count, PyObject *names)
{
    return call_by((ternaryfunc)PyType_GetSlot(&PyType_Type, Py_tp_call), type, args, flagged_count, names);
}

/* Freed versions, none of a subclass. */
static Spare spare_versions;

__attribute__((noinline)) static Held *empty_version(PyObject *type)
{
    Held *made = PyObject_New(Held, (PyTypeObject *)type);
    if (made)
        memset(&made->text, 0, offsetof(Held, few) - offsetof(Held, text));
    return made;
}

/* Version(string) without a tuple; subclasses are not called by this. */
static PyObject *held_call(PyObject *type, PyObject *const *args, size_t flagged_count, PyObject *names)
{
    Held *made;
    if (!takes_one(type, flagged_count, names, held_init))
        return call_type(type, args, flagged_count, names);
    made = (Held *)taken_of(&spare_versions);
    if (!made && !(made = empty_version(type)))
        return NULL;
    if (read_version(made, args[0], 1) < 0)
        Py_CLEAR(made);
    return (PyObject *)made;
}

/* Compiles it where it has not been yet; of its word nothing else can be made. 0, or -1 with an error. */
static int compile_held(Held *self)
{
    pep440_string string;
    Compiled compiled;
    uint8_t status = PEP440_OUT_OF_MEMORY;
    if (self->compiled)
        return 0;
    if (!is_initialised(self))
        return -1;
    if (view_str(self->text, &string) == 0)
        status = compile(pep440_compile, string, &compiled);
    if (status == PEP440_OK) {
        self->compiled = keep(compiled.bytes, compiled.length, self->few, sizeof self->few);
        self->length = compiled.length;
        drop_compiled(&compiled);
    }
    if (!self->compiled)
        raise_by(status == PEP440_OK ? PEP440_OUT_OF_MEMORY : status, NULL, NULL);
    return self->compiled ? 0 : -1;
}

/* Frees one of any class, of which anything may have been made. One that is kept keeps its class. */
__attribute__((noinline)) static void free_version(Held *self)
{
    PyTypeObject *type = Py_TYPE((PyObject *)self);
    if (has_made(self))
        drop_made(self);
    Py_XDECREF(self->text);
    if (type != HeldType)
        ((freefunc)PyType_GetSlot(type, Py_tp_free))(self);
    else if (is_kept(&spare_versions, (PyObject *)self))
        return;
    else
        PyObject_Free(self);
    Py_DECREF(type);
}

/* Each call is the last thing done, so that no register is saved. */
static void held_free(Held *self)
{
    PyObject *text = self->text;
    if (has_made(self) || Py_TYPE((PyObject *)self) != HeldType || !is_kept(&spare_versions, (PyObject *)self))
        free_version(self);
    else
        Py_XDECREF(text);
}

/* Keeps what was made where nothing is kept yet, and gives what is kept, borrowed. */
static PyObject *kept_in(PyObject **where, PyObject *made)
{
    PyObject *old = *where;
    if (made) {
        *where = made;
        Py_XDECREF(old);
    }
    return made;
}

static PyObject *key_of(Held *self)
{
    if (self->key || compile_held(self) < 0)
        return self->key;
    return kept_in(&self->key, key_in(self->compiled, self->length));
}

/* Compares what both have of this name. */
static PyObject *compare_by(const char *name, PyObject *left, PyObject *right, int operation)
{
    PyObject *one = PyObject_GetAttrString(left, name), *other = one ? PyObject_GetAttrString(right, name) : NULL;
    PyObject *answer = other ? PyObject_RichCompare(one, other, operation) : NULL;
    Py_XDECREF(one);
    Py_XDECREF(other);
    return answer;
}

/* Compares where words are not all that counts. Of its own, so that what most comparisons run saves no registers. */
__attribute__((noinline)) static PyObject *compare_held(PyObject *left, PyObject *right, int operation)
{
    Held *one = (Held *)left, *other = (Held *)right; /* the left one is a version, since its type has this call */
    int order;
    if (Py_TYPE(right) != Py_TYPE(left) && !PyObject_TypeCheck(right, HeldType))
        return compare_with_twin((PyObject *)HeldType, left, right, operation);
    if (!is_initialised(one) || !is_initialised(other))
        return NULL;
    if (one->has_own_key || other->has_own_key)
        return compare_by("_key", left, right, operation);
    if (compile_held(one) < 0 || compile_held(other) < 0)
        return NULL;
    order = compare_forms(one->compiled, one->length, other->compiled, other->length);
    Py_RETURN_RICHCOMPARE(order, 0, operation);
}

static PyObject *held_compare(PyObject *left, PyObject *right, int operation)
{
    const Held *one = (Held *)left, *other = (Held *)right;
    if (Py_TYPE(right) != Py_TYPE(left) || !one->is_by_word || !other->is_by_word)
        return compare_held(left, right, operation);
    Py_RETURN_RICHCOMPARE(one->word, other->word, operation);
}

/* The word of an equal version with fewer zeros at the end of its release. 1, 0 where none has one, or -1 with an error. */
static int equal_word(Held *self, uint64_t *word)
{
    const uint8_t *key;
    uint8_t status;
    if (compile_held(self) < 0)
        return -1;
    key = self->compiled + 1;
    /* a release of zeros keeps one */
    status = pep440_word(self->compiled, 1 + key_length(key, self->length - 1) + !view_key(key).numbers, word);
    if (status != PEP440_OK && status != PEP440_NOT_PACKED)
        raise_by(status, NULL, NULL);
    return PyErr_Occurred() ? -1 : status == PEP440_OK;
}

static Py_hash_t hash_of_word(uint64_t word)
{
    word = (word ^ word >> 32) * 0x9E3779B97F4A7C15u;
    word ^= word >> 32;
    return word == (uint64_t)-1 ? -2 : (Py_hash_t)word;
}

static Py_hash_t hash_of_key(Held *self)
{
    PyObject *key = Py_XNewRef(key_of(self));
    Py_hash_t hash = key ? PyObject_Hash(key) : -1;
    Py_XDECREF(key);
    return hash;
}

/* The hash of a version without a word, which is kept in its place: of one that is equal to one with a word it is the hash of this. */
static Py_hash_t find_hash(Held *self)
{
    uint64_t word;
    int is_by_word = equal_word(self, &word);
    Py_hash_t hash = is_by_word < 0 ? -1 : is_by_word ? hash_of_word(word) : hash_of_key(self);
    if (hash != -1) {
        self->word = (uint64_t)hash;
        self->has_hash = 1;
    }
    return hash;
}

static Py_hash_t held_hash(Held *self)
{
    if (self->has_own_key)
        return hash_of_key(self);
    if (self->is_by_word)
        return hash_of_word(self->word);
    return self->has_hash ? (Py_hash_t)self->word : find_hash(self);
}

/* The normalized form, borrowed: the string that was given, where it is the same. */
static PyObject *normal_of(Held *self)
{
    pep440_string text;
    PyObject *normal = NULL;
    if (self->normal || !is_initialised(self) || view_str(self->text, &text) < 0)
        return self->normal;
    /* of the string it takes a third of what it takes of the compiled form */
    normal = made_of(pep440_normalize, text.bytes, text.length, PyUnicode_FromStringAndSize);
    if (normal && PyUnicode_Compare(normal, self->text) == 0) {
        Py_DECREF(normal);
        normal = Py_NewRef(self->text);
    }
    return kept_in(&self->normal, normal);
}

/* A segment of a local part: a number, or a string in lower case. */
static PyObject *make_segment(const char *start, Py_ssize_t length)
{
    PyObject *text = PyUnicode_FromStringAndSize(start, length), *number;
    const char *digits = text ? PyUnicode_AsUTF8AndSize(text, NULL) : NULL;
    if (digits && strspn(digits, "0123456789") < (size_t)length)
        return text;
    number = digits ? PyLong_FromString(digits, NULL, 10) : NULL;
    Py_XDECREF(text);
    return number;
}

/* The segments of a normalized local part. */
static PyObject *segments_of(PyObject *local)
{
    Py_ssize_t length = 0, count = 1, place = 0;
    const char *at = PyUnicode_AsUTF8AndSize(local, &length), *end, *point;
    PyObject *made, *segment;
    if (!at)
        return NULL;
    end = at + length;
    for (point = at; (point = memchr(point, '.', (size_t)(end - point))); point++)
        count++;
    made = PyTuple_New(count);
    for (; made && place < count; place++, at = point + 1) {
        point = memchr(at, '.', (size_t)(end - at));
        segment = make_segment(at, (point ? point : end) - at);
        if (!segment || PyTuple_SetItem(made, place, segment) < 0)
            Py_CLEAR(made);
    }
    return made;
}

enum { PUBLIC, BASE, LOCAL, SEGMENTS };

/* (public, base, local, its segments) of a normalized form, or None where all of it is the base: before the first `+` stands the public one, behind it the local
   part; epoch and release end before the first letter, and before the point of a `.post` or a `.dev`. */
static PyObject *prints_of(PyObject *normal)
{
    Py_ssize_t size = 0;
    const char *bytes = PyUnicode_AsUTF8AndSize(normal, &size), *plus;
    Py_ssize_t public_length, base = 0;
    PyObject *public, *local, *segments;
    if (!bytes)
        return NULL;
    plus = memchr(bytes, '+', (size_t)size);
    public_length = plus ? plus - bytes : size;
    while (base < public_length && (bytes[base] == '.' || bytes[base] == '!' || (bytes[base] >= '0' && bytes[base] <= '9')))
        base++;
    if (base == size)
        return Py_NewRef(Py_None);
    while (base && bytes[base - 1] == '.')
        base--;
    public = plus ? PyUnicode_FromStringAndSize(bytes, public_length) : Py_NewRef(normal);
    local = plus ? PyUnicode_FromStringAndSize(plus + 1, size - public_length - 1) : Py_NewRef(Py_None);
    segments = local && plus ? segments_of(local) : Py_NewRef(Py_None);
    /* no format with a `#`: before 3.13 Python takes it only of headers that rename this call, as those of 3.13 do not */
    return Py_BuildValue("NNNN", public, PyUnicode_FromStringAndSize(bytes, base), local, segments);
}

static PyObject *get_print(Held *self, void *place)
{
    PyObject *normal = normal_of(self);
    if (!normal || !(self->prints || kept_in(&self->prints, prints_of(normal))))
        return NULL;
    if (self->prints != Py_None)
        return Py_XNewRef(PyTuple_GetItem(self->prints, (Py_ssize_t)(intptr_t)place));
    return Py_NewRef((intptr_t)place == LOCAL ? Py_None : normal);
}

static PyObject *held_str(Held *self) { return Py_XNewRef(normal_of(self)); }

static PyObject *held_repr(PyObject *self)
{
    PyObject *name, *print, *made = NULL;
    if (!follows_26)
        return PyUnicode_FromFormat("<Version('%S')>", self);
    name = PyObject_GetAttrString((PyObject *)Py_TYPE(self), "__name__");
    print = name ? PyObject_Str(self) : NULL;
    if (print)
        made = PyUnicode_FromFormat("<%U(%R)>", name, print);
    Py_XDECREF(name);
    Py_XDECREF(print);
    return made;
}

static PyObject *number_or_none(uint8_t is_there, uint64_t number)
{
    return is_there ? PyLong_FromUnsignedLongLong(number) : Py_NewRef(Py_None);
}

/* (epoch, release, pre, post, dev) */
static PyObject *tuple_of(const pep440_parts *parts, const uint64_t *release)
{
    static const char *const KINDS[] = {NULL, "a", "b", "rc"};
    Py_ssize_t count = (Py_ssize_t)parts->release_length;
    PyObject *numbers = PyTuple_New(count), *pre;
    for (Py_ssize_t place = 0; numbers && place < count; place++) {
        PyObject *number = PyLong_FromUnsignedLongLong(release[place]);
        if (!number || PyTuple_SetItem(numbers, place, number) < 0)
            Py_CLEAR(numbers);
    }
    if (!numbers)
        return NULL;
    pre = parts->pre_kind == PEP440_NO_PRE ? Py_NewRef(Py_None) : Py_BuildValue("sK", KINDS[parts->pre_kind], (unsigned long long)parts->pre);
    return Py_BuildValue("KNNNN", (unsigned long long)parts->epoch, numbers, pre, number_or_none(parts->has_post, parts->post),
                         number_or_none(parts->has_dev, parts->dev));
}

static PyObject *read_parts(Held *self)
{
    pep440_string text;
    pep440_parts parts;
    uint64_t few[16], *more = NULL;
    uint8_t status = PEP440_OUT_OF_MEMORY;
    PyObject *made = NULL;
    if (view_str(self->text, &text) == 0)
        status = pep440_parts_of(text.bytes, text.length, &parts, few, 16);
    if (status == PEP440_NO_ROOM) {
        more = PyMem_Calloc(parts.release_length, sizeof *more);
        status = more ? pep440_parts_of(text.bytes, text.length, &parts, more, parts.release_length) : PEP440_OUT_OF_MEMORY;
    }
    if (status == PEP440_OK)
        made = tuple_of(&parts, more ? more : few);
    PyMem_Free(more);
    return made ? made : raise_by(status, NULL, NULL);
}

enum { EPOCH, RELEASE, PRE, POST, DEV };

/* A part, borrowed; NULL with an error set. */
static PyObject *part_of(Held *self, Py_ssize_t place)
{
    if (!self->parts && !(is_initialised(self) && kept_in(&self->parts, read_parts(self))))
        return NULL;
    return PyTuple_GetItem(self->parts, place);
}

static PyObject *get_part(Held *self, void *place) { return Py_XNewRef(part_of(self, (Py_ssize_t)(intptr_t)place)); }

static PyObject *get_parts(Held *self, void *unused) { return part_of(self, EPOCH) ? Py_NewRef(self->parts) : NULL; }

static PyObject *get_has_part(Held *self, void *place)
{
    PyObject *part = part_of(self, (Py_ssize_t)(intptr_t)place);
    return part ? PyBool_FromLong(part != Py_None) : NULL;
}

static PyObject *get_is_prerelease(Held *self, void *unused)
{
    PyObject *pre = part_of(self, PRE);
    return pre ? PyBool_FromLong(pre != Py_None || part_of(self, DEV) != Py_None) : NULL;
}

static PyObject *get_number(Held *self, void *place)
{
    PyObject *release = part_of(self, RELEASE);
    if (!release)
        return NULL;
    return (intptr_t)place < PyTuple_Size(release) ? Py_NewRef(PyTuple_GetItem(release, (Py_ssize_t)(intptr_t)place)) : PyLong_FromLong(0);
}

static PyObject *get_key(Held *self, void *unused)
{
    if (self->has_own_key)
        return compile_held(self) < 0 ? NULL : key_in(self->compiled, self->length);
    return Py_XNewRef(key_of(self));
}

static PyObject *get_own_key(Held *self, void *unused) { return Py_NewRef(self->has_own_key ? self->key : Py_None); }

/* From now on it is compared by this, and hashed. */
static int set_own_key(Held *self, PyObject *value, void *unused)
{
    if (!value)
        PyErr_SetString(PyExc_AttributeError, "_key cannot be deleted");
    if (!value || !is_initialised(self))
        return -1;
    self->has_own_key = 1;
    self->is_by_word = 0;
    self->has_hash = 0;
    kept_in(&self->key, Py_NewRef(value));
    return 0;
}

/* ---- copies and pickles, in the form of `packaging` 26.2: (epoch, release, pre, ("post", number), ("dev", number), local) */

/* The part behind its name, or None. */
static PyObject *named_part(PyObject **name, const char *text, PyObject *part)
{
    if (part == Py_None)
        Py_RETURN_NONE;
    return *name || (*name = PyUnicode_InternFromString(text)) ? PyTuple_Pack(2, *name, part) : NULL;
}

static PyObject *local_segments(Held *self)
{
    pep440_string text;
    if (view_str(self->text, &text) < 0)
        return NULL;
    if (!memchr(text.bytes, '+', text.length))
        Py_RETURN_NONE;
    return get_print(self, (void *)SEGMENTS);
}

/* What a copy is made of; Python says it of a subclass, of one with a key of its own, and by 25. */
static PyObject *held_state(Held *self, PyObject *unused)
{
    static PyObject *post_name, *dev_name;
    PyObject *parts, *post, *dev, *local, *made = NULL;
    if (!follows_26 || Py_TYPE((PyObject *)self) != HeldType || self->has_own_key)
        return PyObject_CallMethod((PyObject *)self, "_state_by_python", NULL);
    if (!part_of(self, EPOCH))
        return NULL;
    parts = Py_NewRef(self->parts);
    post = named_part(&post_name, "post", PyTuple_GetItem(parts, POST));
    dev = named_part(&dev_name, "dev", PyTuple_GetItem(parts, DEV));
    local = local_segments(self);
    if (post && dev && local)
        made = PyTuple_Pack(6, PyTuple_GetItem(parts, EPOCH), PyTuple_GetItem(parts, RELEASE), PyTuple_GetItem(parts, PRE), post, dev, local);
    Py_XDECREF(post);
    Py_XDECREF(dev);
    Py_XDECREF(local);
    Py_DECREF(parts);
    return made;
}

/* The string of a version that is written, in so many bytes at most. */
typedef struct {
    char bytes[256];
    size_t length;
    int is_left; /* it is left to Python */
} Text;

static inline void add_bytes(Text *text, const char *bytes, size_t length)
{
    text->is_left |= length > sizeof text->bytes - text->length;
    if (text->is_left)
        return;
    memcpy(text->bytes + text->length, bytes, length);
    text->length += length;
}

/* Adds what is no small number. */
__attribute__((noinline)) static void add_great_number(Text *text, PyObject *given)
{
    char digits[24];
    size_t at = sizeof digits;
    unsigned long long number = PyLong_CheckExact(given) ? PyLong_AsUnsignedLongLong(given) : 0;
    text->is_left |= !PyLong_CheckExact(given) || PyErr_Occurred() != NULL;
    PyErr_Clear();
    do
        digits[--at] = (char)('0' + number % 10);
    while (number /= 10);
    add_bytes(text, digits + at, sizeof digits - at);
}

static inline void add_number(Text *text, PyObject *given)
{
    long number = PyLong_CheckExact(given) ? PyLong_AsLong(given) : -1;
    if (number < 0 || number > 9 || text->length == sizeof text->bytes) {
        PyErr_Clear();
        add_great_number(text, given);
    } else
        text->bytes[text->length++] = (char)('0' + number);
}

/* Adds an epoch, which most have not. */
static inline void add_epoch(Text *text, PyObject *given)
{
    add_number(text, given);
    if (text->length == 1 && text->bytes[0] == '0')
        text->length = 0;
    else
        add_bytes(text, "!", 1);
}

static void add_str(Text *text, PyObject *given)
{
    Py_ssize_t length = 0;
    const char *bytes = PyUnicode_CheckExact(given) ? PyUnicode_AsUTF8AndSize(given, &length) : NULL;
    text->is_left |= !bytes;
    PyErr_Clear();
    add_bytes(text, bytes ? bytes : "", (size_t)length);
}

/* Adds numbers, or as well strings where they are segments, with points between them. */
static void add_numbers(Text *text, PyObject *given, int are_segments)
{
    Py_ssize_t count = PyTuple_CheckExact(given) ? PyTuple_Size(given) : 0;
    text->is_left |= !count;
    for (Py_ssize_t place = 0; place < count; place++) {
        PyObject *each = PyTuple_GetItem(given, place);
        if (place)
            add_bytes(text, ".", 1);
        if (are_segments && PyUnicode_CheckExact(each))
            add_str(text, each);
        else
            add_number(text, each);
    }
}

/* Adds a name and its number behind what stands between, if they are there. */
static void add_named(Text *text, const char *between, PyObject *given)
{
    if (given == Py_None)
        return;
    text->is_left |= !PyTuple_CheckExact(given) || PyTuple_Size(given) != 2;
    if (text->is_left)
        return;
    add_bytes(text, between, strlen(between));
    add_str(text, PyTuple_GetItem(given, 0));
    add_number(text, PyTuple_GetItem(given, 1));
}

/* Writes the version of a state in the form of 26.2, or leaves it to Python. */
static void write_state(Text *text, PyObject *state)
{
    enum { OF_POST = 3, OF_DEV, OF_LOCAL, PARTS };
    text->length = 0;
    text->is_left = !PyTuple_CheckExact(state) || PyTuple_Size(state) != PARTS;
    if (text->is_left)
        return;
    add_epoch(text, PyTuple_GetItem(state, EPOCH));
    add_numbers(text, PyTuple_GetItem(state, RELEASE), 0);
    add_named(text, "", PyTuple_GetItem(state, PRE));
    add_named(text, ".", PyTuple_GetItem(state, OF_POST));
    add_named(text, ".", PyTuple_GetItem(state, OF_DEV));
    if (PyTuple_GetItem(state, OF_LOCAL) == Py_None)
        return;
    add_bytes(text, "+", 1);
    add_numbers(text, PyTuple_GetItem(state, OF_LOCAL), 1);
}

/* Reads the version of a state; Python reads that of a subclass, or of another form. */
static PyObject *held_restore(Held *self, PyObject *state)
{
    Text text;
    PyObject *given;
    int done;
    text.is_left = 1;
    if (Py_TYPE((PyObject *)self) == HeldType)
        write_state(&text, state);
    if (text.is_left)
        return PyObject_CallMethod((PyObject *)self, "_restore_by_python", "(O)", state);
    given = PyUnicode_FromStringAndSize(text.bytes, (Py_ssize_t)text.length);
    done = given ? read_version(self, given, 0) : -1;
    Py_XDECREF(given);
    if (done < 0)
        return NULL;
    Py_RETURN_NONE;
}

/* A copy of one that is of no subclass. */
static PyObject *held_copy(Held *self, PyObject *unused)
{
    Held *made = is_initialised(self) ? empty_version((PyObject *)HeldType) : NULL;
    if (!made)
        return NULL;
    made->text = Py_NewRef(self->text);
    made->key = self->has_own_key ? Py_NewRef(self->key) : NULL;
    made->parts = Py_XNewRef(self->parts);
    made->normal = Py_XNewRef(self->normal);
    made->prints = Py_XNewRef(self->prints);
    made->word = self->word;
    made->is_by_word = self->is_by_word, made->has_hash = self->has_hash, made->has_own_key = self->has_own_key;
    return (PyObject *)made;
}

/* ---- versions of parts */

enum { LOCAL_PART = DEV + 1, ALL_PARTS };
static const char *const PART_NAMES[] = {"epoch", "release", "pre", "post", "dev", "local"};

/* Adds a name and its number behind a point. */
static void add_suffix(Text *text, const char *name, PyObject *number)
{
    if (number == Py_None)
        return;
    add_bytes(text, name, strlen(name));
    add_number(text, number);
}

/* Adds a local part that is written as it prints. */
static void add_local(Text *text, PyObject *given)
{
    size_t start = text->length + 1;
    if (given == Py_None)
        return;
    add_bytes(text, "+", 1);
    add_str(text, given);
    for (size_t at = start; !text->is_left && at < text->length; at++) {
        char it = text->bytes[at], next = at + 1 < text->length ? text->bytes[at + 1] : '.';
        text->is_left |= !(normal_byte(it) == it && is_letter_or_digit(it)) && (it != '.' || next == '.' || at == start);
        text->is_left |= it == '0' && next != '.' && (at == start || text->bytes[at - 1] == '.');
    }
}

/* Writes the version of these parts, or leaves it to Python, which says which one is none. */
static void write_parts(Text *text, PyObject *const *parts)
{
    Py_ssize_t length = 0;
    const char *kind = "a";
    text->length = 0;
    text->is_left = 0;
    add_epoch(text, parts[EPOCH]);
    add_numbers(text, parts[RELEASE], 0);
    if (parts[PRE] != Py_None) {
        kind = PyTuple_CheckExact(parts[PRE]) && PyTuple_Size(parts[PRE]) == 2 && PyUnicode_CheckExact(PyTuple_GetItem(parts[PRE], 0))
                   ? PyUnicode_AsUTF8AndSize(PyTuple_GetItem(parts[PRE], 0), &length) : NULL;
        PyErr_Clear();
    }
    text->is_left |= !kind || (strcmp(kind, "a") && strcmp(kind, "b") && strcmp(kind, "rc"));
    add_named(text, "", parts[PRE]);
    add_suffix(text, ".post", parts[POST]);
    add_suffix(text, ".dev", parts[DEV]);
    add_local(text, parts[LOCAL_PART]);
}

/* The version of a text that is not left, or NULL without an error. */
static PyObject *made_of_text(const Text *text)
{
    PyObject *given = PyUnicode_FromStringAndSize(text->bytes, (Py_ssize_t)text->length);
    Held *made = given ? empty_version((PyObject *)HeldType) : NULL;
    if (made && read_version(made, given, 1) < 0)
        Py_CLEAR(made);
    Py_XDECREF(given);
    return (PyObject *)made;
}

/* Places the named arguments among the parts. Whether each is one. */
static int place_parts(PyObject *const *args, PyObject *names, PyObject **parts)
{
    for (Py_ssize_t turn = 0; names && turn < PyTuple_Size(names); turn++) {
        int place = 0;
        while (place < ALL_PARTS && PyUnicode_CompareWithASCIIString(PyTuple_GetItem(names, turn), PART_NAMES[place]))
            place++;
        if (place == ALL_PARTS)
            return 0;
        parts[place] = args[turn];
    }
    return 1;
}

/* Calls what Python has of a call. */
static PyObject *by_python(PyObject *of, const char *name, PyObject *const *args, Py_ssize_t count, PyObject *names)
{
    PyObject *call = PyObject_GetAttrString(of, name), *made = call ? call_by(PyObject_Call, call, args, (size_t)count, names) : NULL;
    Py_XDECREF(call);
    return made;
}

/* from_parts(*, epoch=0, release, pre=None, post=None, dev=None, local=None) */
static PyObject *held_from_parts(PyObject *type, PyObject *const *args, Py_ssize_t count, PyObject *names)
{
    PyObject *zero = PyLong_FromLong(0), *parts[ALL_PARTS] = {zero, NULL, Py_None, Py_None, Py_None, Py_None}, *made = NULL;
    Text text;
    text.is_left = !zero || count || type != (PyObject *)HeldType || !place_parts(args, names, parts) || !parts[RELEASE];
    if (!text.is_left)
        write_parts(&text, parts);
    if (!text.is_left && !(made = made_of_text(&text)))
        PyErr_Clear();
    Py_XDECREF(zero);
    return made ? made : by_python(type, "_from_parts_by_python", args, count, names);
}

/* __replace__(**parts): the same version where they are its own. */
static PyObject *held_replace(Held *self, PyObject *const *args, Py_ssize_t count, PyObject *names)
{
    PyObject *parts[ALL_PARTS], *old[ALL_PARTS], *held, *made = NULL;
    int is_new = 0;
    Text text;
    text.is_left = 1;
    if (count || Py_TYPE((PyObject *)self) != HeldType || self->has_own_key || !part_of(self, EPOCH))
        return PyErr_Occurred() ? NULL : by_python((PyObject *)self, "_replace_by_python", args, count, names);
    held = Py_NewRef(self->parts);
    for (int place = 0; place < LOCAL_PART; place++)
        parts[place] = PyTuple_GetItem(held, place);
    parts[LOCAL_PART] = get_print(self, (void *)LOCAL);
    memcpy(old, parts, sizeof old);
    if (parts[LOCAL_PART] && place_parts(args, names, parts))
        write_parts(&text, parts);
    for (int place = 0; !text.is_left && is_new == 0 && place < ALL_PARTS; place++)
        is_new = parts[place] == old[place] ? 0 : PyObject_RichCompareBool(parts[place], old[place], Py_NE);
    if (!text.is_left && is_new >= 0 && !(made = is_new ? made_of_text(&text) : Py_NewRef((PyObject *)self)))
        PyErr_Clear();
    Py_XDECREF(old[LOCAL_PART]);
    Py_DECREF(held);
    return made || PyErr_Occurred() ? made : by_python((PyObject *)self, "_replace_by_python", args, count, names);
}

#define HELD_CALL(function) (PyCFunction)(void (*)(void))function

static PyMethodDef held_calls[] = {
    {"__getstate__", HELD_CALL(held_state), METH_NOARGS, "What a copy is made of, as `packaging` has it."},
    {"__setstate__", HELD_CALL(held_restore), METH_O, "Reads what a copy is made of."},
    {"__copy__", HELD_CALL(held_copy), METH_NOARGS, "A copy."},
    {"__deepcopy__", HELD_CALL(held_copy), METH_O, "A copy."},
    {"__replace__", HELD_CALL(held_replace), METH_FASTCALL | METH_KEYWORDS,
     "__replace__($self, /, **parts)\n--\n\n"
     "The version with other parts in place of its own: `epoch`, `release`, `pre`, `post`, `dev` and `local`; None is no such part.\n\n"
     ">>> Version(\"1.2.3\").__replace__(pre=(\"a\", 1))\n<Version('1.2.3a1')>\n\nRaises `InvalidVersion` where one of them is none."},
    {"from_parts", HELD_CALL(held_from_parts), METH_FASTCALL | METH_KEYWORDS | METH_CLASS,
     "from_parts($type, /, *, epoch=0, release, pre=None, post=None, dev=None, local=None)\n--\n\nThe version of these parts.\n\n"
     ">>> Version.from_parts(release=(1, 2), pre=(\"alpha\", 1))\n<Version('1.2a1')>\n\nRaises `InvalidVersion` where one of them is none."},
    {NULL, NULL, 0, NULL}};

static PyObject *get_text(Held *self, void *unused) { return is_initialised(self) ? Py_NewRef(self->text) : NULL; }

static PyGetSetDef held_values[] = {
    {"_text", (getter)get_text, NULL, "The string as it was given.", NULL},
    {"_parts", (getter)get_parts, NULL, "(epoch, release, pre, post, dev)", NULL},
    {"_own_key", (getter)get_own_key, (setter)set_own_key, "What was set to compare it by, or None.", NULL},
    {"sort_key", (getter)get_key, NULL,
     "Bytes that stand as the versions do: less, equal or greater. They may be stored, and compared by whatever compares bytes.", NULL},
    {"epoch", (getter)get_part, NULL, "The epoch, 0 where there is none.", (void *)EPOCH},
    {"release", (getter)get_part, NULL, "The numbers of the release, zeros at its end included.", (void *)RELEASE},
    {"pre", (getter)get_part, NULL, "The kind of pre-release (`a`, `b` or `rc`) and its number, or None.", (void *)PRE},
    {"post", (getter)get_part, NULL, "The number of the post-release, or None.", (void *)POST},
    {"dev", (getter)get_part, NULL, "The number of the developmental release, or None.", (void *)DEV},
    {"local", (getter)get_print, NULL, "The local part, or None.", (void *)LOCAL},
    {"public", (getter)get_print, NULL, "The version without its local part, as a string.", (void *)PUBLIC},
    {"base_version", (getter)get_print, NULL, "Epoch and release, as a string.", (void *)BASE},
    {"is_prerelease", (getter)get_is_prerelease, NULL, "Whether it is a pre-release or a developmental release.", NULL},
    {"is_postrelease", (getter)get_has_part, NULL, "Whether it is a post-release.", (void *)POST},
    {"is_devrelease", (getter)get_has_part, NULL, "Whether it is a developmental release.", (void *)DEV},
    {"major", (getter)get_number, NULL, "The first number of the release.", (void *)0},
    {"minor", (getter)get_number, NULL, "The second number of the release, 0 where there is none.", (void *)1},
    {"micro", (getter)get_number, NULL, "The third number of the release, 0 where there is none.", (void *)2},
    {NULL, NULL, NULL, NULL, NULL}};

static PyType_Slot held_slots[] = {{Py_tp_init, held_init},       {Py_tp_dealloc, held_free},        {Py_tp_hash, held_hash},
                                   {Py_tp_str, held_str},         {Py_tp_repr, held_repr},           {Py_tp_richcompare, held_compare},
                                   {Py_tp_getset, held_values},   {Py_tp_methods, held_calls},       {Py_tp_doc, "Version(version)\n--\n\nA version, compiled."}, {0, NULL}};

/* It holds nothing that may hold it, so the garbage collector need not see it. What Python has of it, its module sets. */
static PyType_Spec held_spec = {"pep440_rattle.version.Version", sizeof(Held), 0, Py_TPFLAGS_DEFAULT | Py_TPFLAGS_BASETYPE, held_slots};

