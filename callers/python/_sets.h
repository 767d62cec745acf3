/* What specifiers and sets of them contain, and the type of sets: how one is made of its members, and what of these is asked. */

/* Whether Python is to compare: it is or has a specifier with `===`, or the class or a member's class has a comparison or properties of its own. */
static int is_changed(Specifiers *self)
{
    PyObject *flag, *each, *all;
    int changed;
    if (self->changed >= 0 || !is_read(self))
        return self->changed;
    flag = PyObject_GetAttrString((PyObject *)Py_TYPE((PyObject *)self), "_is_changed");
    changed = flag ? PyObject_IsTrue(flag) : -1;
    Py_XDECREF(flag);
    if (changed == 0 && is_arbitrary(self))
        changed = 1;
    if (changed == 0 && has_arbitrary(self) && !made_members(self))
        changed = -1;
    if (changed == 0 && !is_specifier(self) && self->members) {
        all = PyObject_GetIter(self->members);
        while (all && changed == 0 && (each = PyIter_Next(all))) {
            changed = is_changed((Specifiers *)each);
            Py_DECREF(each);
        }
        Py_XDECREF(all);
        if (PyErr_Occurred())
            changed = -1;
    }
    return self->changed = (signed char)changed;
}

/* Whether a compiled version is contained. */
static uint8_t match_form(const Specifiers *self, pep440_string form, uint8_t which, uint8_t *contained)
{
    uint8_t early, status;
    if (follows_26)
        return pep440_allows(self->compiled, self->length, form.bytes, form.length, which, contained);
    status = pep440_contains(self->compiled, self->length, form.bytes, form.length, contained, &early);
    *contained &= which == PEP440_ALL_PRERELEASES || !early;
    return status;
}

/* Whether the version of a string is contained: it is compiled first, since of two compiled forms the library answers in place. */
static uint8_t contains_text(const Specifiers *self, PyObject *item, uint8_t which, uint8_t *contained)
{
    pep440_string string;
    PyObject *text = stripped(item, &string);
    Compiled compiled;
    uint8_t status = PEP440_OUT_OF_MEMORY;
    if (text)
        status = compile(pep440_compile, string, &compiled);
    if (status == PEP440_OK) {
        status = match_form(self, (pep440_string){compiled.bytes, compiled.length}, which, contained);
        drop_compiled(&compiled);
    }
    Py_XDECREF(text);
    return status;
}

/* Whether the version of a str, or this version, is contained, where its word says it: 1 or 0, or -1 where it does not. In line, which is quicker. */
__attribute__((always_inline)) static inline int contains_by_word(const Specifiers *self, PyObject *item)
{
    const Held *version = (const Held *)item;
    Py_ssize_t length;
    const char *bytes;
    uint64_t word;
    if (Py_TYPE(item) == HeldType)
        return version->is_by_word ? contains_word(&self->words, version->word) : -1;
    bytes = PyUnicode_CheckExact(item) ? PyUnicode_AsUTF8AndSize(item, &length) : NULL;
    if (!bytes)
        PyErr_Clear();
    if (!bytes || !has_plain_ends(bytes, length) || pep440_word((const uint8_t *)bytes, (size_t)length, &word) != PEP440_OK)
        return -1;
    return contains_word(&self->words, word);
}

/* Whether pre-releases are left out: by 26 where this is said, by 25 unless they are asked for. 1, 0, or -1 with an error. */
static int excludes_prereleases(Specifiers *self, PyObject *prereleases)
{
    int allows;
    if (follows_26)
        return prereleases == Py_False || (prereleases == Py_None && self->said == Py_False);
    allows = prereleases == Py_None ? allows_prereleases(self) : prereleases == Py_True;
    return allows < 0 ? -1 : !allows;
}

/* Whether the version of a str, or this version, is contained: 1, 0, or -1 with an error. By 26 what is no version is in the empty set alone. */
static int contains(Specifiers *self, PyObject *item, int excludes)
{
    Held *version = (Held *)item;
    uint8_t which = excludes ? PEP440_NO_PRERELEASES : PEP440_ALL_PRERELEASES, contained = 0, status = PEP440_OUT_OF_MEMORY;
    if (!PyObject_TypeCheck(item, HeldType))
        status = contains_text(self, item, which, &contained);
    else if (version->compiled || compile_held(version) == 0)
        status = match_form(self, (pep440_string){version->compiled, version->length}, which, &contained);
    if (status == PEP440_INVALID_VERSION && follows_26)
        return is_empty_set(self);
    if (status != PEP440_OK) {
        raise_by(status, item, NULL);
        return -1;
    }
    return contained;
}

/* Whether it stands for what `asked_item` was given. */
static int is_no_version(PyObject *item) { return PyUnicode_Check(item) && PyUnicode_GetLength(item) == 0; }

/* What is asked for, as `item_of` has it; by 26.3 what is of another type is the empty string, which is no version. */
static PyObject *asked_item(PyObject *given)
{
    PyObject *item = item_of(given);
    if (item || !follows_26_3 || !PyErr_ExceptionMatches(PyExc_TypeError))
        return item;
    PyErr_Clear();
    return PyUnicode_FromString("");
}

/* Reads (item, prereleases, installed): an installed version is by 26 asked for with pre-releases. Returns whether Python is to compare for this. */
static int read_flags(PyObject **given)
{
    int installed = given[2] == Py_None ? 0 : PyObject_IsTrue(given[2]), allows;
    if (installed < 0 || follows_26) {
        if (installed > 0)
            given[1] = Py_True;
        return installed < 0 ? -1 : 0;
    }
    if (given[1] != Py_None && (allows = PyObject_IsTrue(given[1])) >= 0)
        given[1] = allows ? Py_True : Py_False;
    return PyErr_Occurred() ? -1 : installed;
}

static PyObject *contains_of(Specifiers *self, PyObject *const *args, Py_ssize_t count, PyObject *named, Py_ssize_t most)
{
    static const char *const NAMES[] = {"item", "prereleases", "installed"};
    PyObject *given[] = {NULL, Py_None, Py_None}, *item, *answer = NULL;
    int by_python, excludes = 0, contained;
    if (count == 1 && !named)
        given[0] = args[0];
    else if (arguments_of("contains", args, count, named, NAMES, given, most) < 0)
        return NULL;
    if (self->words.count > 0 && self->changed == 0 && follows_26 && given[2] == Py_None && !excludes_prereleases(self, given[1]) &&
        (contained = contains_by_word(self, given[0])) >= 0)
        return Py_NewRef(contained ? Py_True : Py_False);
    /* the caller's code first, since this may have the specifiers read again */
    item = asked_item(given[0]);
    by_python = item ? read_flags(given) : -1;
    if (by_python == 0 && !is_read(self))
        by_python = -1;
    if (by_python == 0 && self->changed)
        by_python = is_changed(self);
    if (by_python == 0 && (excludes = excludes_prereleases(self, given[1])) >= 0 && self->changed)
        by_python = is_changed(self);
    if (by_python > 0)
        answer = PyObject_CallMethod((PyObject *)self, "_contains", "OOO", is_no_version(item) ? given[0] : item, given[1], given[2]);
    else if (by_python == 0 && excludes >= 0 && compile_set_of(self) == 0 && (contained = contains(self, item, excludes)) >= 0)
        answer = PyBool_FromLong(contained);
    Py_XDECREF(item);
    return answer;
}

/* The same of the item alone with nothing said of pre-releases, which most calls ask for: 1 or 0, or -1 where its word does not say it. */
static inline int contains_quickly(const Specifiers *self, PyObject *item)
{
    return self->words.count > 0 && self->changed == 0 && follows_26 && self->said != Py_False ? contains_by_word(self, item) : -1;
}

static PyObject *specifier_contains(PyObject *self, PyObject *const *args, Py_ssize_t count, PyObject *named)
{
    int contained = count == 1 && !named ? contains_quickly((Specifiers *)self, args[0]) : -1;
    return contained < 0 ? contains_of((Specifiers *)self, args, count, named, 2) : Py_NewRef(contained ? Py_True : Py_False);
}

static PyObject *set_contains(PyObject *self, PyObject *const *args, Py_ssize_t count, PyObject *named)
{
    int contained = count == 1 && !named ? contains_quickly((Specifiers *)self, args[0]) : -1;
    return contained < 0 ? contains_of((Specifiers *)self, args, count, named, 3) : Py_NewRef(contained ? Py_True : Py_False);
}

/* `item in self` */
static int has(PyObject *self, PyObject *item)
{
    int found = contains_quickly((Specifiers *)self, item);
    PyObject *answer = found < 0 ? contains_of((Specifiers *)self, &item, 1, NULL, 1) : NULL;
    if (answer)
        found = PyObject_IsTrue(answer);
    Py_XDECREF(answer);
    return found;
}

/* ---- sets of their members */

/* The list of a member of a set, and which one it is. */
typedef struct {
    pep440_string list;
    size_t place;
} Placed;

/* By version, and those of equal ones as they came. */
static int compare_placed(const void *left, const void *right)
{
    const Placed *one = left, *other = right;
    int order = compare_forms(one->list.bytes + MEMBER_HEAD, one->list.length - MEMBER_HEAD, other->list.bytes + MEMBER_HEAD,
                              other->list.length - MEMBER_HEAD);
    return order ? order : (one->place > other->place) - (one->place < other->place);
}

enum { FEW_MEMBERS = 8 };

/* Places the members in the order of their versions, but for those with `===`, and finds the length of their list. -1 with an error. */
static Py_ssize_t place_members(PyObject *members, Placed *placed, size_t *length)
{
    size_t count = 0, in_order = 1, all = (size_t)PyTuple_Size(members);
    *length = LIST_HEAD;
    for (size_t place = 0; place < all; place++) {
        Specifiers *member = (Specifiers *)PyTuple_GetItem(members, (Py_ssize_t)place);
        if (compile_list_of(member) < 0)
            return -1;
        if (is_arbitrary(member))
            continue;
        placed[count++] = (Placed){list_of(member), place};
        *length += placed[count - 1].list.length - LIST_HEAD;
    }
    while (in_order < count && compare_placed(placed + in_order - 1, placed + in_order) < 0)
        in_order++;
    if (in_order < count)
        qsort(placed, count, sizeof *placed, compare_placed);
    return (Py_ssize_t)count;
}

/* The compiled list of members that are placed: theirs, one after the other. */
static int join_lists(Specifiers *self, const Placed *placed, size_t count, size_t length)
{
    uint8_t *end = room_for(length, self->few, sizeof self->few);
    if (!end) {
        PyErr_NoMemory();
        return -1;
    }
    self->compiled = end;
    self->length = length;
    *end = LIST;
    end += LIST_HEAD;
    for (size_t turn = 0; turn < count; turn++) {
        size_t size = placed[turn].list.length - LIST_HEAD;
        memcpy(end, placed[turn].list.bytes + LIST_HEAD, size);
        end += size;
    }
    return 0;
}

/* Compiles the string of a set. */
static int compile_source(Specifiers *self)
{
    pep440_string text;
    Compiled compiled;
    uint8_t status = PEP440_OUT_OF_MEMORY;
    if (view_str(self->source, &text) == 0)
        status = compile(pep440_compile_list, text, &compiled);
    if (status == PEP440_OK)
        return hold(self, &compiled);
    raise_by(status, NULL, self->source);
    return -1;
}

static int compile_members(Specifiers *self)
{
    PyObject *given = has_arbitrary(self) ? made_members(self) : self->members, *members = given ? PySequence_Tuple(given) : NULL;
    size_t all = members ? (size_t)PyTuple_Size(members) : 0, length;
    Placed few[FEW_MEMBERS], *placed = all <= FEW_MEMBERS ? few : PyMem_Calloc(all, sizeof *placed);
    Py_ssize_t count = -1;
    if (!given)
        return PyErr_Occurred() ? -1 : compile_source(self);
    if (!placed)
        PyErr_NoMemory();
    else if (members)
        count = place_members(members, placed, &length);
    if (count >= 0 && join_lists(self, placed, (size_t)count, length) < 0)
        count = -1;
    if (placed != few)
        PyMem_Free(placed);
    Py_XDECREF(members);
    return count < 0 ? -1 : 0;
}

/* The specifier of a str. */
static PyObject *make_member(PyObject *text)
{
    Specifiers *made = new_specifiers(member_class);
    if (made && read_specifier(made, text, Py_None) < 0)
        Py_CLEAR(made);
    return (PyObject *)made;
}

/* The same of a specifier that is given, which is a member as it is. */
static PyObject *member_of(PyObject *given)
{
    if (PyObject_TypeCheck(given, HeldSpecifierType))
        return is_read((Specifiers *)given) ? Py_NewRef(given) : NULL;
    return PyUnicode_Check(given) ? make_member(given) : PyObject_CallFunctionObjArgs(member_class, given, NULL);
}

/* Adds the member of a piece of a string, unless this is empty. */
static int add_piece(PyObject *list, PyObject *given)
{
    pep440_string string;
    PyObject *piece = stripped(given, &string), *member = NULL;
    int done = piece ? 0 : -1;
    if (piece && PyUnicode_GetLength(piece) && (!(member = make_member(piece)) || PyList_Append(list, member) < 0))
        done = -1;
    Py_XDECREF(piece);
    Py_XDECREF(member);
    return done;
}

/* Adds the members of a string, between its commas. */
static int add_pieces(PyObject *list, PyObject *given)
{
    PyObject *comma, *pieces;
    int done;
    if (PyUnicode_FindChar(given, ',', 0, PY_SSIZE_T_MAX, 1) == -1)
        return add_piece(list, given);
    comma = PyUnicode_FromString(",");
    pieces = comma ? PyUnicode_Split(given, comma, -1) : NULL;
    done = pieces ? 0 : -1;
    for (Py_ssize_t place = 0; done == 0 && place < PyList_Size(pieces); place++)
        done = add_piece(list, PyList_GetItem(pieces, place));
    Py_XDECREF(comma);
    Py_XDECREF(pieces);
    return done;
}

static int add_members(PyObject *list, PyObject *given)
{
    PyObject *all = PyObject_GetIter(given), *each;
    while (all && (each = PyIter_Next(all))) {
        PyObject *member = member_of(each);
        if (member && PyList_Append(list, member) < 0)
            Py_CLEAR(member);
        Py_DECREF(each);
        Py_XDECREF(member);
        if (!member)
            break;
    }
    Py_XDECREF(all);
    return PyErr_Occurred() ? -1 : 0;
}

/* Whether a str of ASCII has one piece or more between commas, and each is known to be a specifier, maybe with blanks before it. */
static int has_known_pieces(PyObject *given)
{
    Py_ssize_t length = 0;
    const char *at = PyUnicode_CheckExact(given) ? PyUnicode_AsUTF8AndSize(given, &length) : NULL, *end, *comma;
    pep440_string piece;
    if (!at || length != PyUnicode_GetLength(given)) {
        PyErr_Clear();
        return 0;
    }
    end = at + length;
    do {
        while (*at == ' ')
            at++;
        comma = memchr(at, ',', (size_t)(end - at));
        piece = (pep440_string){(const uint8_t *)at, (size_t)((comma ? comma : end) - at)};
        if (!is_known(piece, 1) && !is_known_arbitrary(piece))
            return 0;
        at = comma ? comma + 1 : end;
    } while (comma);
    return 1;
}

/* Reads a string with commas, or members. */
static int read_set(Specifiers *self, PyObject *given, PyObject *said)
{
    int is_empty = PyUnicode_CheckExact(given) && PyUnicode_GetLength(given) == 0;
    PyObject *list = NULL, *members = is_empty ? PyTuple_New(0) : NULL;
    if (!is_empty && has_known_pieces(given)) {
        take(self, NULL, NULL, said);
        self->source = Py_NewRef(given);
        return 0;
    }
    if (!is_empty)
        list = PyList_New(0);
    if (list && (PyUnicode_Check(given) ? add_pieces(list, given) : add_members(list, given)) == 0)
        members = PyList_AsTuple(list);
    Py_XDECREF(list);
    if (members)
        take(self, NULL, members, said);
    return members ? 0 : -1;
}

static int set_init(Specifiers *self, PyObject *args, PyObject *named)
{
    return init_with(self, args, named, "specifiers", "|OO:SpecifierSet", read_set);
}

static PyObject *set_call(PyObject *type, PyObject *const *args, size_t flagged_count, PyObject *names)
{
    return call_with(type, args, flagged_count, names, set_init, read_set);
}

/* The members, borrowed: those of a string are made when they are first asked for. NULL with an error. */
static PyObject *made_members(Specifiers *self)
{
    while (is_read(self) && !self->members) {
        PyObject *source = Py_NewRef(self->source), *list = PyList_New(0), *made = list && add_pieces(list, source) == 0 ? PyList_AsTuple(list) : NULL;
        if (made && self->source == source && !self->members) {
            self->members = Py_NewRef(made);
            Py_CLEAR(self->source);
        }
        Py_XDECREF(list);
        Py_DECREF(source);
        if (!made)
            return NULL;
        Py_DECREF(made);
    }
    return self->said ? self->members : NULL;
}

/* The string of both, where their members are not made yet and it is short; else NULL, maybe with an error. */
static PyObject *joined_source(const Specifiers *one, const Specifiers *two)
{
    char both[256];
    Py_ssize_t length = 0, more = 0;
    const char *left = one->members ? NULL : PyUnicode_AsUTF8AndSize(one->source, &length);
    const char *right = !left || two->members ? NULL : PyUnicode_AsUTF8AndSize(two->source, &more);
    if (!right || length + 1 + more > (Py_ssize_t)sizeof both)
        return NULL;
    memcpy(both, left, (size_t)length);
    both[length] = ',';
    memcpy(both + length + 1, right, (size_t)more);
    return PyUnicode_FromStringAndSize(both, length + 1 + more);
}

/* The members of both, equal ones too. */
static PyObject *joined_members(Specifiers *one, Specifiers *two)
{
    PyObject *mine = Py_XNewRef(made_members(one)), *theirs = mine ? Py_XNewRef(made_members(two)) : NULL, *both = NULL;
    PyObject *left = theirs ? PySequence_Tuple(mine) : NULL, *right = left ? PySequence_Tuple(theirs) : NULL;
    Py_XDECREF(mine);
    Py_XDECREF(theirs);
    if (right)
        both = PySequence_Concat(left, right);
    Py_XDECREF(left);
    Py_XDECREF(right);
    return both;
}

/* The members of both sets, or of a set and a string, as a plain set: with what one of them says of pre-releases, which the other may not gainsay. */
static PyObject *set_and(PyObject *left, PyObject *right)
{
    PyObject *other, *said, *theirs, *source = NULL, *members = NULL;
    Specifiers *one = (Specifiers *)left, *two, *made = NULL;
    int differ;
    if (Py_TYPE(left) != Py_TYPE(right) && /* of two of one type both are sets, since it has this call */
        (!PyObject_TypeCheck(left, HeldSetType) || !(PyUnicode_Check(right) || PyObject_TypeCheck(right, HeldSetType))))
        Py_RETURN_NOTIMPLEMENTED;
    other = PyUnicode_Check(right) ? PyObject_CallFunctionObjArgs(set_class, right, NULL) : Py_NewRef(right);
    two = (Specifiers *)other;
    if (!other || !is_read(one) || !is_read(two)) {
        Py_XDECREF(other);
        return NULL;
    }
    theirs = Py_NewRef(two->said);
    said = Py_NewRef(one->said == Py_None ? theirs : one->said);
    differ = theirs == Py_None ? 0 : PyObject_RichCompareBool(said, theirs, Py_NE);
    if (differ > 0)
        PyErr_SetString(PyExc_ValueError, "Cannot combine SpecifierSets with True and False prerelease overrides.");
    else if (differ == 0 && !(source = joined_source(one, two)) && !PyErr_Occurred())
        members = joined_members(one, two);
    if ((source || members) && (made = new_specifiers(set_class))) {
        take(made, NULL, Py_XNewRef(members), said);
        made->source = Py_XNewRef(source);
    }
    Py_XDECREF(source);
    Py_XDECREF(members);
    Py_DECREF(theirs);
    Py_DECREF(said);
    Py_DECREF(other);
    return (PyObject *)made;
}

static int assign_members(Specifiers *self, PyObject *value, void *unused)
{
    if (!value)
        PyErr_SetString(PyExc_AttributeError, "_specs cannot be deleted");
    return assign(self, value, read_set);
}

/* The members as a frozenset, borrowed: of equal ones the first. A member's own hash may have the set read again. */
static PyObject *members_of(Specifiers *self)
{
    while (made_members(self) && PyTuple_Check(self->members)) {
        PyObject *members = Py_NewRef(self->members), *made = PyFrozenSet_New(members);
        if (made && self->members == members)
            kept_in(&self->members, Py_NewRef(made));
        Py_DECREF(members);
        if (!made)
            return NULL;
        Py_DECREF(made);
    }
    return self->said ? self->members : NULL;
}

/* What gives members in the order of their strings, of equal ones the first: set by the module of specifiers. */
static PyObject *sorter_of_members;

/* The members as both releases compare them, borrowed: a frozenset, or by 26 a tuple in the order of their strings. */
static PyObject *compared_members(Specifiers *self)
{
    if (!follows_26)
        return members_of(self);
    while (made_members(self) && !self->is_sorted) {
        PyObject *members = Py_NewRef(self->members);
        PyObject *made = PyObject_Size(members) > 1 ? PyObject_CallFunctionObjArgs(sorter_of_members, members, NULL) : PySequence_Tuple(members);
        if (made && self->members == members) {
            kept_in(&self->members, Py_NewRef(made));
            self->is_sorted = 1;
        }
        Py_DECREF(members);
        if (!made)
            return NULL;
        Py_DECREF(made);
    }
    return self->said ? self->members : NULL;
}

/* The members as they are listed: by 26 as they were given, until they were compared. */
static PyObject *listed_members(Specifiers *self)
{
    if (!follows_26)
        return members_of(self);
    return made_members(self);
}

static PyObject *get_members(Specifiers *self, void *unused) { return Py_XNewRef(listed_members(self)); }

static PyObject *get_sorted(Specifiers *self, void *unused) { return Py_XNewRef(compared_members(self)); }

static Py_ssize_t set_length(Specifiers *self)
{
    PyObject *members = listed_members(self);
    return members ? PyObject_Size(members) : -1;
}

static PyObject *set_iterator(Specifiers *self)
{
    PyObject *members = listed_members(self);
    return members ? PyObject_GetIter(members) : NULL;
}

/* The members in the order of their strings, with commas alone between them. */
static PyObject *set_str(Specifiers *self)
{
    PyObject *members = Py_XNewRef(compared_members(self)), *each, *all = members ? PyObject_GetIter(members) : NULL, *texts = all ? PyList_New(0) : NULL;
    PyObject *comma = NULL, *made = NULL;
    while (texts && (each = PyIter_Next(all))) {
        PyObject *text = PyObject_Str(each);
        if (!text || PyList_Append(texts, text) < 0)
            Py_CLEAR(texts);
        Py_XDECREF(text);
        Py_DECREF(each);
    }
    if (texts && !PyErr_Occurred() && (follows_26 || PyList_Sort(texts) == 0) && (comma = PyUnicode_FromString(",")))
        made = PyUnicode_Join(comma, texts);
    Py_XDECREF(comma);
    Py_XDECREF(texts);
    Py_XDECREF(all);
    Py_XDECREF(members);
    return made;
}

static Py_hash_t set_hash(Specifiers *self)
{
    PyObject *members = compared_members(self);
    return members ? PyObject_Hash(members) : -1;
}

/* Whether both have equal members; of a string or a specifier a set is made. */
static PyObject *set_compare(PyObject *left, PyObject *right, int operation)
{
    int is_set = PyObject_TypeCheck(right, HeldSetType), is_text = PyUnicode_Check(right) || PyObject_TypeCheck(right, HeldSpecifierType);
    PyObject *text, *other, *one, *two, *answer = NULL;
    if (operation != Py_EQ && operation != Py_NE)
        Py_RETURN_NOTIMPLEMENTED;
    if (!is_set && !is_text)
        return compare_with_twin(set_class, left, right, operation);
    text = is_set ? Py_NewRef(right) : PyObject_Str(right);
    other = is_set || !text ? Py_XNewRef(text) : PyObject_CallFunctionObjArgs((PyObject *)HeldSetType, text, NULL);
    one = other ? Py_XNewRef(compared_members((Specifiers *)left)) : NULL;
    two = one ? Py_XNewRef(compared_members((Specifiers *)other)) : NULL;
    if (two)
        answer = PyObject_RichCompare(one, two, operation);
    Py_XDECREF(text);
    Py_XDECREF(other);
    Py_XDECREF(one);
    Py_XDECREF(two);
    return answer;
}

/* ---- sets as bytes */

typedef uint8_t (*Joiner)(const uint8_t *, size_t, const uint8_t *, size_t, uint8_t *, size_t, size_t *);

/* The bytes of a set by itself or of a compiled list. 0, or -1 with an error. */
static int view_set(PyObject *given, pep440_string *set)
{
    char *bytes;
    Py_ssize_t length;
    if (PyBytes_AsStringAndSize(given, &bytes, &length) < 0)
        return -1;
    *set = (pep440_string){(const uint8_t *)bytes, (size_t)length};
    return 0;
}

/* Raises the exception of what is no set. */
static PyObject *raise_no_set(uint8_t status)
{
    if (status == PEP440_OUT_OF_MEMORY || PyErr_Occurred())
        return raise_by(PEP440_OUT_OF_MEMORY, NULL, NULL);
    PyErr_SetString(PyExc_ValueError, "these bytes have no set");
    return NULL;
}

/* What the call writes of two sets. */
static PyObject *joined_sets(const char *name, Joiner call, PyObject *const *args, Py_ssize_t count)
{
    pep440_string one, two;
    uint8_t few[1024], *bytes = few, status;
    size_t written = 0;
    PyObject *made;
    if (!has_count(name, count, 2) || view_set(args[0], &one) < 0 || view_set(args[1], &two) < 0)
        return NULL;
    status = call(one.bytes, one.length, two.bytes, two.length, few, sizeof few, &written);
    if (status == PEP440_NO_ROOM) {
        bytes = PyMem_Malloc(written);
        status = bytes ? call(one.bytes, one.length, two.bytes, two.length, bytes, written, &written) : PEP440_OUT_OF_MEMORY;
    }
    made = status == PEP440_OK ? PyBytes_FromStringAndSize((const char *)bytes, (Py_ssize_t)written) : raise_no_set(status);
    if (bytes != few)
        PyMem_Free(bytes);
    return made;
}

static PyObject *intersection(PyObject *module, PyObject *const *args, Py_ssize_t count)
{
    return joined_sets("intersection", pep440_intersection, args, count);
}

static PyObject *union_of(PyObject *module, PyObject *const *args, Py_ssize_t count) { return joined_sets("union", pep440_union, args, count); }

static PyObject *complement(PyObject *module, PyObject *given)
{
    pep440_string set;
    uint8_t status;
    PyObject *made;
    if (view_set(given, &set) < 0)
        return NULL;
    made = written_by(pep440_complement, set, PyBytes_FromStringAndSize, &status);
    return made ? made : raise_no_set(status);
}

static PyObject *is_subset(PyObject *module, PyObject *const *args, Py_ssize_t count)
{
    pep440_string one, two;
    uint8_t inside, status;
    if (!has_count("is_subset", count, 2) || view_set(args[0], &one) < 0 || view_set(args[1], &two) < 0)
        return NULL;
    status = pep440_is_subset(one.bytes, one.length, two.bytes, two.length, &inside);
    return status == PEP440_OK ? PyBool_FromLong(inside) : raise_no_set(status);
}
