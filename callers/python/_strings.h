/* Strings to the library and its results back: bytes of a str, compiled forms, exceptions of a status; and sets by words. */

static PyObject *InvalidVersion, *InvalidSpecifier;
static PyTypeObject *HeldType, *HeldSpecifierType, *HeldSetType;

/* Whether these types behave as those of `packaging` 26, and not as those of 25, and whether as those of 26.3: the default, which `behave` changes for the
   whole process. */
static int follows_26 = 1, follows_26_3 = 1;

/* A version: its string as it was given, its word or, where it has none, once it was asked for its hash, and what was asked for before: its sort key,
   its parts, its normalized form, what is cut from this, and its compiled form. `text` is NULL until `__init__` has read a string. */
typedef struct {
    PyObject_HEAD
    PyObject *text;
    PyObject *key; /* its sort key, or what was set in its place */
    PyObject *parts;
    PyObject *normal;
    PyObject *prints; /* (public, base, local, its segments), or None where all of it is the base */
    uint8_t *compiled; /* `few`, or a block of its own */
    size_t length;
    uint64_t word;    /* or its hash */
    char is_by_word;  /* it is compared and hashed by its word */
    char has_hash;    /* `word` is its hash */
    char has_own_key; /* a key was set */
    uint8_t few[29];  /* so that it takes 112 bytes */
} Held;

/* The forms (crates/pep440_compiled/src/lib.rt): a version is a byte, its sort key, and a byte 1 for each zero that ends its release; a list is a
   byte, and for each member its operator, and key and zeros of its version. The library writes a set before the list, which is not kept here. */
enum { VERSION = 4, LIST = 5, SET = 6, SET_ALONE = 7, LIST_HEAD = 1, OPERATOR = 16, MEMBER_HEAD = 2 };

/* ---- objects that are used again */

/* Freed objects of one size, kept for the next ones; each has the address of another one behind its head. Under the sanitizer none is kept, so that it
   sees uses of what was freed. */
typedef struct {
    PyObject *first;
    int count;
} Spare;

#ifdef __SANITIZE_ADDRESS__
enum { MOST_SPARE = 0 };
#else
enum { MOST_SPARE = 2000 }; /* as CPython keeps tuples of each length */
#endif

/* Where a kept object has the address of another one. */
static inline PyObject **behind_head(PyObject *object) { return (PyObject **)(object + 1); }

/* Whether a freed object is kept. */
static inline int is_kept(Spare *spare, PyObject *object)
{
    if (spare->count >= MOST_SPARE)
        return 0;
    *behind_head(object) = spare->first;
    spare->first = object;
    spare->count++;
    return 1;
}

/* A kept object, or NULL. It is as it was freed, with its class, but for the first pointer behind its head, which is NULL. Without PyObject_Init, which
   takes some 20 instructions, tracemalloc sees where its block was allocated first. */
static inline PyObject *taken_of(Spare *spare)
{
    PyObject *object = spare->first;
    if (!object)
        return NULL;
    spare->first = *behind_head(object);
    spare->count--;
    *behind_head(object) = NULL;
    Py_SET_REFCNT(object, 1);
    return object;
}

/* ---- texts in, answers out */

/* What stands for a str with a lone surrogate, which has no UTF-8, or with one of the bytes in front that compiled forms begin with, which the library
   would take for one: no version and no list has this character. */
static const uint8_t NO_TEXT[] = "\xEF\xBF\xBD";

static PyObject *str_of(PyObject *given)
{
    return PyObject_TypeCheck(given, HeldType) ? ((Held *)given)->text : given;
}

/* Whether `__init__` has read a string; else an exception is set. A subclass may ask before it has called it. */
static int is_initialised(const Held *self)
{
    if (!self->text)
        PyErr_Format(PyExc_AttributeError, "%R was made without Version.__init__", Py_TYPE((PyObject *)self));
    return self->text != NULL;
}

/* The bytes of a str, which live as long as it does. */
static int view_str(PyObject *given, pep440_string *text)
{
    Py_ssize_t length = 0;
    const char *bytes = PyUnicode_AsUTF8AndSize(given, &length);
    if (!bytes) {
        if (!PyErr_ExceptionMatches(PyExc_UnicodeEncodeError))
            return -1;
        PyErr_Clear();
    }
    if (!bytes || (*bytes >= VERSION && *bytes <= SET_ALONE)) {
        bytes = (const char *)NO_TEXT;
        length = sizeof NO_TEXT - 1;
    }
    text->bytes = (const uint8_t *)bytes;
    text->length = (size_t)length;
    return 0;
}

/* Whether at both ends stand characters of ASCII that are no white space, or none at all: then the first byte is the zero behind the end. */
static inline int has_plain_ends(const char *bytes, Py_ssize_t length)
{
    return ((unsigned char)(bytes[0] - '!') < 94 && (unsigned char)(bytes[length - 1] - '!') < 94) || !length;
}

/* The str without white space at its ends, as str.strip has it, and its bytes. */
static PyObject *strip(PyObject *given, pep440_string *view)
{
    PyObject *text, *made;
    PyErr_Clear();
    text = PyUnicode_FromObject(given); /* of a subclass of str the plain str */
    made = text ? PyObject_CallMethod(text, "strip", NULL) : NULL;
    Py_XDECREF(text);
    if (made && view_str(made, view) < 0)
        Py_CLEAR(made);
    return made;
}

/* The same, quick where there is none. */
static inline PyObject *stripped(PyObject *given, pep440_string *view)
{
    Py_ssize_t length = 0;
    const char *bytes = PyUnicode_CheckExact(given) ? PyUnicode_AsUTF8AndSize(given, &length) : NULL;
    pep440_string found = {(const uint8_t *)bytes, (size_t)length}; /* so that the view can be held in registers */
    PyObject *text = bytes && has_plain_ends(bytes, length) ? Py_NewRef(given) : strip(given, &found);
    *view = found;
    return text;
}

/* What gives the string of another library's version, or raises TypeError: set by the module of versions. */
static PyObject *reader_of_others;

/* What reads one of these types of the text of one of another library, (type, object), or gives NotImplemented: set by the module of versions. */
static PyObject *reader_of_twins;

/* Whether it may be an object of another library: its type is made by Python, and none of these. */
static int may_be_of_other(PyObject *it)
{
    return PyType_GetFlags(Py_TYPE(it)) & Py_TPFLAGS_HEAPTYPE && !PyObject_TypeCheck(it, HeldType) && !PyObject_TypeCheck(it, HeldSpecifierType) &&
           !PyObject_TypeCheck(it, HeldSetType);
}

/* Compares by `==` or `!=` one of this type with one of another library, as of what is read of its text. */
static PyObject *compare_with_twin(PyObject *type, PyObject *left, PyObject *right, int operation)
{
    PyObject *twin, *answer;
    if ((operation != Py_EQ && operation != Py_NE) || !may_be_of_other(right) || !reader_of_twins)
        Py_RETURN_NOTIMPLEMENTED;
    twin = PyObject_CallFunctionObjArgs(reader_of_twins, type, right, NULL);
    if (!twin || twin == Py_NotImplemented)
        return twin;
    answer = PyObject_RichCompare(left, twin, operation);
    Py_DECREF(twin);
    return answer;
}

/* What is given for a version as a str or a version of these: after this, reading it runs no code of the caller. */
static inline PyObject *item_of(PyObject *given)
{
    if (PyUnicode_CheckExact(given) || PyUnicode_Check(given) || PyObject_TypeCheck(given, HeldType))
        return Py_NewRef(given);
    return PyObject_CallFunctionObjArgs(reader_of_others, given, NULL);
}

/* The string that is read of what is given for a version, and its bytes. */
static inline PyObject *text_of(PyObject *given, pep440_string *view)
{
    PyObject *item = item_of(given), *text = NULL;
    if (item && PyUnicode_Check(item))
        text = stripped(item, view);
    else if (item && is_initialised((Held *)item) && view_str(((Held *)item)->text, view) == 0)
        text = Py_NewRef(((Held *)item)->text);
    Py_XDECREF(item);
    return text;
}

/* The same of a str or of a version's text. */
static int view(PyObject *given, pep440_string *text)
{
    if (PyUnicode_Check(given))
        return view_str(given, text);
    if (PyObject_TypeCheck(given, HeldType))
        return is_initialised((Held *)given) ? view_str(((Held *)given)->text, text) : -1;
    PyErr_Format(PyExc_TypeError, "expected a str or a Version, not %R", Py_TYPE(given));
    return -1;
}

typedef uint8_t (*Writer)(const uint8_t *, size_t, uint8_t *, size_t, size_t *);
typedef PyObject *(*Maker)(const char *, Py_ssize_t);

/* What the call writes, made into a bytes or a str. NULL where the status is not PEP440_OK, or with an error set. */
static PyObject *written_by(Writer call, pep440_string text, Maker make, uint8_t *status)
{
    uint8_t few[256], *more;
    size_t written = 0;
    PyObject *made = NULL;
    *status = call(text.bytes, text.length, few, sizeof few, &written);
    if (*status == PEP440_OK)
        return make((const char *)few, (Py_ssize_t)written);
    if (*status != PEP440_NO_ROOM)
        return NULL;
    more = PyMem_Malloc(written);
    *status = more ? call(text.bytes, text.length, more, written, &written) : PEP440_OUT_OF_MEMORY;
    if (*status == PEP440_OK)
        made = make((const char *)more, (Py_ssize_t)written);
    PyMem_Free(more);
    return made;
}

/* Why a list is none, without the list again, which stands behind that with a mark below. */
static PyObject *first_line_of(const char *bytes, Py_ssize_t length)
{
    const char *end = memchr(bytes, '\n', (size_t)length);
    length = end ? end - bytes : length;
    return PyUnicode_FromStringAndSize(bytes, length > 0 && bytes[length - 1] == ':' ? length - 1 : length);
}

/* The reason in one line: it may quote any character of what was read. Takes the reference. */
static PyObject *shown_in_line(PyObject *reason)
{
    PyObject *answer = PyObject_CallMethod(reason, "isprintable", NULL), *bytes, *made = NULL;
    int is_printable = answer ? PyObject_IsTrue(answer) : -1;
    Py_XDECREF(answer);
    if (is_printable > 0)
        return reason;
    bytes = is_printable == 0 ? PyUnicode_AsUnicodeEscapeString(reason) : NULL;
    if (bytes)
        made = PyUnicode_FromEncodedObject(bytes, "ascii", NULL);
    Py_XDECREF(bytes);
    Py_DECREF(reason);
    return made;
}

/* Raises the exception, which quotes one string and says behind it why the other one, that was read, is invalid. */
static PyObject *raise_invalid(PyObject *error, PyObject *quoted, PyObject *given, Writer why)
{
    Maker make = why == pep440_list_error ? first_line_of : PyUnicode_FromStringAndSize;
    pep440_string text;
    uint8_t status = PEP440_OK;
    PyObject *reason;
    if (view(given, &text) < 0)
        return NULL;
    reason = text.bytes == NO_TEXT ? PyUnicode_FromString("it has a character that none has")
                                   : written_by(why, text, make, &status);
    if (reason && (reason = shown_in_line(reason)))
        PyErr_Format(error, error == InvalidVersion ? "Invalid version: %R: %U" : "Invalid specifier: %R: %U", str_of(quoted), reason);
    else if (!PyErr_Occurred())
        PyErr_NoMemory();
    Py_XDECREF(reason);
    return NULL;
}

/* Raises the exception of the status, unless one is set already; the version or the list that no such status is about may be NULL. */
static PyObject *raise_by(uint8_t status, PyObject *version, PyObject *list)
{
    if (PyErr_Occurred())
        return NULL;
    if (status == PEP440_INVALID_VERSION && version)
        return raise_invalid(InvalidVersion, version, version, pep440_version_error);
    if ((status == PEP440_INVALID_LIST || status == PEP440_NO_LIST) && list)
        return raise_invalid(InvalidSpecifier, list, list, pep440_list_error);
    if (status == PEP440_NUMBER_AT_MAX && list)
        return PyErr_Format(PyExc_OverflowError, "no ranges of %R: a bound lies above 18446744073709551615", str_of(list));
    if (status == PEP440_OUT_OF_MEMORY)
        return PyErr_NoMemory();
    return PyErr_Format(PyExc_SystemError, "pep440: no such status here: %d", (int)status);
}

static int is_letter_or_digit(char it) { return (it >= 'a' && it <= 'z') || (it >= '0' && it <= '9') || (it >= 'A' && it <= 'Z'); }

/* A byte of a normalized name: letters are small, and `_` and `.` are `-`. */
static char normal_byte(char it)
{
    if (it >= 'A' && it <= 'Z')
        return (char)(it - 'A' + 'a');
    return it == '_' || it == '.' ? '-' : it;
}

/* ---- arguments of calls */

/* Sets each of the named arguments of a call; 0, or -1 with an error. */
static int arguments_of(const char *call, PyObject *const *args, Py_ssize_t count, PyObject *named, const char *const *names, PyObject **given, Py_ssize_t most)
{
    Py_ssize_t more = named ? PyTuple_Size(named) : 0;
    for (Py_ssize_t place = 0; place < count && place < most; place++)
        given[place] = args[place];
    for (Py_ssize_t turn = 0; turn < more; turn++) {
        Py_ssize_t place = 0;
        while (place < most && PyUnicode_CompareWithASCIIString(PyTuple_GetItem(named, turn), names[place]))
            place++;
        if (place == most || place < count) {
            PyErr_Format(PyExc_TypeError, "%s() got an unexpected or a second argument %R", call, PyTuple_GetItem(named, turn));
            return -1;
        }
        given[place] = args[count + turn];
    }
    if (count > most || !given[0])
        PyErr_Format(PyExc_TypeError, count > most ? "%s() takes fewer arguments" : "%s() needs an argument 'item'", call);
    return count > most || !given[0] ? -1 : 0;
}

static int has_count(const char *call, Py_ssize_t count, Py_ssize_t wanted)
{
    if (count != wanted)
        PyErr_Format(PyExc_TypeError, "%s() takes %zd arguments", call, wanted);
    return count == wanted;
}

/* ---- compiled forms */

static const uint8_t EMPTY_LIST[LIST_HEAD] = {LIST};

/* The order of two versions by their forms, or by what follows the first byte: no key is a prefix of another one, so what follows it counts for
   nothing. */
static int compare_forms(const uint8_t *left, size_t left_length, const uint8_t *right, size_t right_length)
{
    return memcmp(left, right, left_length < right_length ? left_length : right_length);
}

/* The length of the sort key in what follows a form's first byte: without the bytes that stand for zeros at the end of the release. */
static size_t key_length(const uint8_t *key, size_t length)
{
    while (key[length - 1] == 1)
        length--;
    return length;
}

static PyObject *key_in(const uint8_t *compiled, size_t length)
{
    return PyBytes_FromStringAndSize((const char *)compiled + 1, (Py_ssize_t)key_length(compiled + 1, length - 1));
}

/* What is read in a sort key: how many numbers the release has without the zeros at its end, where the local part lies, and whether it is of a
   pre-release or a developmental release. */
typedef struct {
    size_t numbers;
    size_t local;
    int is_early;
} KeyView;

static KeyView view_key(const uint8_t *key)
{
    size_t at = 1 + key[0] % 16, numbers = 0;
    int is_early;
    for (; key[at]; numbers++)
        at += key[at];
    at++;
    is_early = key[at] / 16 < 5; /* the stage */
    at += 1 + key[at] % 16;
    at += 1 + key[at] % 16;
    is_early |= key[at] / 16 == 0; /* the developmental part */
    return (KeyView){numbers, at + 1 + key[at] % 16, is_early};
}

/* Bytes that the library compiled, in `few` where these are enough. */
typedef struct {
    uint8_t *bytes;
    size_t length;
    uint8_t few[1024];
} Compiled;

static void drop_compiled(Compiled *compiled)
{
    if (compiled->bytes != compiled->few)
        free(compiled->bytes);
}

/* Compiles a string. To be dropped where the status is PEP440_OK. */
static uint8_t compile(Writer call, pep440_string text, Compiled *compiled)
{
    uint8_t status = call(text.bytes, text.length, compiled->few, sizeof compiled->few, &compiled->length);
    compiled->bytes = status == PEP440_NO_ROOM ? malloc(compiled->length) : compiled->few;
    if (status == PEP440_NO_ROOM)
        status = compiled->bytes ? call(text.bytes, text.length, compiled->bytes, compiled->length, &compiled->length) : PEP440_OUT_OF_MEMORY;
    if (status != PEP440_OK)
        drop_compiled(compiled);
    return status;
}

/* Reads a number behind the byte that says how many bytes it takes, and moves behind it. */
static size_t take_number(const uint8_t **at)
{
    const uint8_t *end = *at + 1 + **at;
    size_t number = 0;
    while (++*at < end)
        number = number << 8 | **at;
    return number;
}

/* Where the list begins in what the library compiled: after a byte, how many bytes the set takes, and the set, if there is one. */
static size_t list_start(const uint8_t *compiled)
{
    const uint8_t *at = compiled + 1;
    size_t length = compiled[0] == SET ? take_number(&at) : 0;
    return compiled[0] == SET ? (size_t)(at - compiled) + length : 0;
}

/* Room for bytes: `few`, or where they are more than `room`, a block of its own. NULL where there is no memory. */
static uint8_t *room_for(size_t length, uint8_t *few, size_t room) { return length <= room ? few : malloc(length); }

/* A copy of the bytes. NULL where there is no memory. */
static uint8_t *keep(const uint8_t *bytes, size_t length, uint8_t *few, size_t room)
{
    uint8_t *kept = room_for(length, few, room);
    return kept ? memcpy(kept, bytes, length) : NULL;
}

/* What the call writes of compiled bytes, made into a bytes or a str. */
static PyObject *made_of(Writer call, const uint8_t *compiled, size_t length, Maker make)
{
    pep440_string bytes = {compiled, length};
    uint8_t status;
    PyObject *made = written_by(call, bytes, make, &status);
    return made ? made : raise_by(status, NULL, NULL);
}


/* ---- sets by words */

/* Where each end of a set's intervals is a version with a word, a version with a word is looked for among numbers alone. By the header words
   have the order of their versions, and so have the sort keys that pep440_boundaries has of a set. */

enum { FEW_INTERVALS = 2, MOST_OF_KEY = 40 };

/* Intervals of words, each from its first one to its last. */
typedef struct {
    uint64_t first[FEW_INTERVALS];
    uint64_t last[FEW_INTERVALS];
    signed char count; /* 0 where some end has no word, or they are more; -1 where nobody asked yet */
} Words;

/* Reads the word of an end of an interval, which is 0 where it has no end, and moves behind it. Whether there is one. */
static int take_end(const uint8_t **at, uint64_t *word)
{
    uint8_t form[1 + MOST_OF_KEY] = {VERSION};
    size_t length = take_number(at);
    const uint8_t *key = *at;
    *at += length;
    *word = 0;
    if (length > MOST_OF_KEY)
        return 0;
    memcpy(form + 1, key, length);
    return !length || pep440_word(form, 1 + length, word) == PEP440_OK;
}

/* The intervals of the set in what the library compiled of a list. */
static Words words_in(const uint8_t *compiled)
{
    Words words = {.count = 0};
    const uint8_t *at = compiled + 1, *end = compiled + list_start(compiled);
    take_number(&at);
    for (uint64_t low, high; at < end; words.count++) {
        if (words.count == FEW_INTERVALS || !take_end(&at, &low) || !take_end(&at, &high))
            return (Words){.count = 0};
        words.first[words.count] = low;
        words.last[words.count] = high - 1; /* the greatest one where it has no end */
    }
    return words;
}

static inline int contains_word(const Words *words, uint64_t word)
{
    for (int each = 0; each < words->count; each++)
        if (words->first[each] <= word && word <= words->last[each])
            return 1;
    return 0;
}

/* Whether the string of a version has digits and dots alone: then it is no pre-release. */
static inline int is_plain(pep440_string text)
{
    size_t at = 0;
    while (at < text.length && (text.bytes[at] == '.' || (text.bytes[at] >= '0' && text.bytes[at] <= '9')))
        at++;
    return at == text.length;
}

/* What stands for a mark where the word does not say it: a version that the set has may be a pre-release. */
enum { NO_MARK = 255 };

/* The mark of a version by its string and its word. */
static inline uint8_t mark_word(const Words *words, pep440_string text, uint64_t word)
{
    if (!contains_word(words, word))
        return PEP440_NO_MATCH;
    return is_plain(text) ? PEP440_MATCH : NO_MARK;
}
