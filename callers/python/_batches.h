/* Many items: how they are sorted, asked at once, and filtered. */

/* ---- the sort of words, or of keys by their bytes, eight at a time: by radix, equal ones in the order given */

/* A key of which no other one is a prefix. */
typedef struct {
    const uint8_t *bytes;
    size_t length;
} Key;

/* An item by its index, and what it is sorted by: its word, or eight bytes of its key. */
typedef struct {
    uint64_t part;
    size_t index;
} Keyed;

/* Keyed items that are equal up to a byte. */
typedef struct {
    size_t start;
    size_t count;
    size_t depth;
} Run;

enum { PART = sizeof(uint64_t), FEW_KEYS = 24, MANY_KEYS = 1 << 16, FEW_BITS = 8, MANY_BITS = 11 };

/* Whether a long sort is to end, -1 or 0; asked now and then. */
typedef int (*Pause)(void *);

/* The bytes of the key from the depth on, the first one highest, with zeros behind its end. */
static uint64_t load_part(const Key *key, size_t depth)
{
    uint64_t part = 0;
    size_t length = key->length - depth < PART ? key->length - depth : PART;
    for (size_t at = 0; at < length; at++)
        part |= (uint64_t)key->bytes[depth + at] << (8 * (PART - 1 - at));
    return part;
}

static void insert_by_part(Keyed *keyed, size_t count)
{
    for (size_t turn = 1; turn < count; turn++) {
        Keyed moved = keyed[turn];
        size_t at = turn;
        for (; at && keyed[at - 1].part > moved.part; at--)
            keyed[at] = keyed[at - 1];
        keyed[at] = moved;
    }
}

/* Moves all into the order of some bits of their parts. */
static void distribute(const Keyed *from, Keyed *to, size_t count, int shift, int bits)
{
    size_t starts[(1 << MANY_BITS) + 1], mask = ((size_t)1 << bits) - 1;
    memset(starts, 0, (mask + 2) * sizeof *starts);
    for (size_t at = 0; at < count; at++)
        starts[(from[at].part >> shift & mask) + 1]++;
    for (size_t value = 1; value <= mask; value++)
        starts[value] += starts[value - 1];
    for (size_t at = 0; at < count; at++)
        to[starts[from[at].part >> shift & mask]++] = from[at];
}

/* Sorts by parts: by all bits that are not the same in all, from the last one on. Returns which of both has the sorted ones, or NULL where it is to end. */
static Keyed *sort_by_part(Keyed *keyed, Keyed *spare, size_t count, Pause pause, void *with)
{
    uint64_t varying = 0;
    Keyed *from = keyed, *to = spare, *moved;
    int bits = count < MANY_KEYS / 16 ? FEW_BITS : MANY_BITS;
    if (count <= FEW_KEYS) {
        insert_by_part(keyed, count);
        return keyed;
    }
    for (size_t at = 1; at < count; at++)
        varying |= keyed[at].part ^ keyed[0].part;
    for (int shift = 0; shift < 64 && varying >> shift; shift += bits) {
        while (!(varying >> shift & 1))
            shift++;
        distribute(from, to, count, shift, bits);
        moved = from, from = to, to = moved;
        if (count >= MANY_KEYS && pause(with))
            return NULL;
    }
    return from;
}

/* Puts the runs of equal parts that are to be sorted further behind the others. */
static size_t add_runs(const Keyed *keyed, const Key *keys, Run sorted, Run *runs, size_t pending)
{
    size_t end = sorted.start + sorted.count;
    for (size_t start = sorted.start, next; start < end; start = next) {
        for (next = start + 1; next < end && keyed[next].part == keyed[start].part;)
            next++;
        if (next - start > 1 && keys[keyed[start].index].length > sorted.depth + PART)
            runs[pending++] = (Run){start, next - start, sorted.depth + PART};
    }
    return pending;
}

/* Sorts the items by their keys, with as much room beside them. Returns the sorted ones, or NULL where it is to end or there is no memory. */
static Keyed *sort_by_keys(Keyed *keyed, Keyed *spare, const Key *keys, size_t count, Pause pause, void *with)
{
    Run *runs = malloc((count / 2 + 1) * sizeof *runs); /* those that wait have two items or more each */
    size_t pending = count > 1, work = 0;
    int is_done = runs != NULL;
    if (runs)
        runs[0] = (Run){0, count, 0};
    while (is_done && pending) {
        Run run = runs[--pending];
        Keyed *start = keyed + run.start, *sorted;
        for (size_t at = 0; at < run.count; at++)
            start[at].part = load_part(&keys[start[at].index], run.depth);
        sorted = sort_by_part(start, spare, run.count, pause, with);
        if (sorted == spare)
            memcpy(start, spare, run.count * sizeof *start);
        pending = add_runs(keyed, keys, run, runs, pending);
        work += run.count;
        is_done = sorted && (work < MANY_KEYS || pause(with) == 0);
        work %= MANY_KEYS;
    }
    free(runs);
    return is_done ? keyed : NULL;
}

/* ---- batches */

/* What they read is held by objects of their own, so that other threads may run meanwhile, and change what was given. Now and then they
   look whether the process was sent a signal, as by Ctrl-C, whose handler may raise an exception. */

enum { CHUNK = 1 << 12, AHEAD = 16 };

/* Looks for signals at some of the items; -1 with an exception. */
static int look_at(size_t place) { return place % CHUNK ? 0 : PyErr_CheckSignals(); }

/* The same while other threads run. */
static int look_between(void *state)
{
    PyThreadState **saved = state;
    int found;
    PyEval_RestoreThread(*saved);
    found = PyErr_CheckSignals();
    *saved = PyEval_SaveThread();
    return found;
}

typedef struct {
    PyObject *tuple; /* it holds the items */
    PyObject *held;  /* the strings that are not items */
    size_t count;
    PyObject **items;
    pep440_string *texts;
    uint8_t *forms; /* what `copy_forms` copies */
} Batch;

static void drop(Batch *batch)
{
    PyMem_Free(batch->forms);
    PyMem_Free(batch->texts);
    PyMem_Free(batch->items);
    Py_XDECREF(batch->tuple);
    Py_XDECREF(batch->held);
}

/* Lets the texts be those of the items, which are held where they are others. */
static int hold_texts(Batch *batch)
{
    batch->held = PyList_New(0);
    for (size_t place = 0; batch->held && place < batch->count; place++) {
        PyObject *item = batch->items[place] = PyTuple_GetItem(batch->tuple, (Py_ssize_t)place);
        PyObject *text = text_of(item, &batch->texts[place]);
        int done = text ? look_at(place) : -1;
        if (done == 0 && text != item)
            done = PyList_Append(batch->held, text);
        Py_XDECREF(text);
        if (done < 0)
            return -1;
    }
    return batch->held ? 0 : -1;
}

static int gather(PyObject *given, Batch *batch)
{
    memset(batch, 0, sizeof *batch);
    batch->tuple = PySequence_Tuple(given);
    if (!batch->tuple)
        return -1;
    batch->count = (size_t)PyTuple_Size(batch->tuple);
    batch->items = PyMem_New(PyObject *, batch->count);
    batch->texts = PyMem_New(pep440_string, batch->count); /* never a null pointer, also of no text */
    if (!batch->items || !batch->texts)
        PyErr_NoMemory();
    else if (hold_texts(batch) == 0)
        return 0;
    drop(batch);
    return -1;
}

/* Lets the texts of versions be copies of their compiled forms, which they have made once. 0, or -1 with an error. No code of the caller runs here. */
static int copy_forms(Batch *batch)
{
    size_t length = 0;
    uint8_t *end;
    for (size_t place = 0; place < batch->count; place++) {
        Held *version = (Held *)batch->items[place];
        if (PyUnicode_Check(batch->items[place]) || !PyObject_TypeCheck(batch->items[place], HeldType))
            continue;
        if (!version->compiled && compile_held(version) < 0)
            return -1;
        batch->texts[place].bytes = NULL; /* until it is copied */
        length += version->length;
    }
    batch->forms = end = length ? PyMem_Malloc(length) : NULL;
    if (length && !end)
        PyErr_NoMemory();
    for (size_t place = 0; end && place < batch->count; place++)
        if (!batch->texts[place].bytes) {
            const Held *version = (const Held *)batch->items[place];
            batch->texts[place] = (pep440_string){memcpy(end, version->compiled, version->length), version->length};
            end += version->length;
        }
    return end || !length ? 0 : -1;
}

/* The mark of a compiled version, as pep440_filter has it, by the rule of the release that is followed. */
static uint8_t mark_form(pep440_string list, pep440_string form, uint8_t *mark)
{
    uint8_t contained, early, status;
    if (follows_26)
        status = pep440_allows(list.bytes, list.length, form.bytes, form.length, PEP440_ALL_PRERELEASES, &contained);
    else
        status = pep440_contains(list.bytes, list.length, form.bytes, form.length, &contained, &early);
    if (status == PEP440_OK)
        *mark = !contained ? PEP440_NO_MATCH : view_key(form.bytes + 1).is_early ? PEP440_PRERELEASE_MATCH : PEP440_MATCH;
    return status;
}

/* The same of a string or a compiled version. */
static uint8_t mark_text(pep440_string list, const Words *words, pep440_string text, uint8_t *mark)
{
    Compiled compiled;
    uint8_t status;
    uint64_t word;
    if (text.length && text.bytes[0] == VERSION)
        return mark_form(list, text, mark);
    if (words->count > 0 && pep440_word(text.bytes, text.length, &word) == PEP440_OK && (*mark = mark_word(words, text, word)) != NO_MARK)
        return PEP440_OK;
    status = compile(pep440_compile, text, &compiled);
    if (status == PEP440_OK) {
        status = mark_form(list, (pep440_string){compiled.bytes, compiled.length}, mark);
        drop_compiled(&compiled);
    } else if (status == PEP440_INVALID_VERSION) {
        *mark = PEP440_NOT_A_VERSION;
        status = PEP440_OK;
    }
    return status;
}

/* What a filter gives of the pre-releases that are contained: all, none, or all where nothing else is contained. */
typedef enum { ALL_EARLY, NO_EARLY, EARLY_ALONE } Early;

/* Has the marks of pre-releases say what is given of them. */
static void drop_early(uint8_t *marks, size_t count, Early early)
{
    if (early == ALL_EARLY || (early == EARLY_ALONE && !memchr(marks, PEP440_MATCH, count)))
        return;
    for (size_t place = 0; place < count; place++)
        if (marks[place] == PEP440_PRERELEASE_MATCH)
            marks[place] = PEP440_NO_MATCH;
}

/* The marks of the batch. */
static uint8_t mark(const Batch *batch, const pep440_string *list, const Words *words, uint8_t *marks)
{
    PyThreadState *state = PyEval_SaveThread();
    uint8_t status = PEP440_OK;
    for (size_t start = 0; status == PEP440_OK && start < batch->count; start += CHUNK) {
        size_t end = batch->count - start < CHUNK ? batch->count : start + CHUNK;
        for (size_t place = start; status == PEP440_OK && place < end; place++)
            status = mark_text(*list, words, batch->texts[place], &marks[place]);
        if (status == PEP440_OK && look_between(&state) < 0)
            status = PEP440_OUT_OF_MEMORY;
    }
    PyEval_RestoreThread(state);
    return status;
}

/* The items, or what stands in their places, that are marked as contained. */
static PyObject *marked(const Batch *batch, PyObject *places, const uint8_t *marks, int skip)
{
    PyObject *kept = PyList_New(0);
    for (size_t place = 0; kept && place < batch->count; place++) {
        if (marks[place] == PEP440_NOT_A_VERSION && !skip)
            raise_by(PEP440_INVALID_VERSION, batch->items[place], NULL);
        else if (look_at(place) == 0 && (marks[place] == PEP440_NO_MATCH || marks[place] == PEP440_NOT_A_VERSION ||
                                         PyList_Append(kept, PyTuple_GetItem(places, (Py_ssize_t)place)) == 0))
            continue;
        Py_CLEAR(kept);
    }
    return kept;
}

/* Copies the compiled list for a batch. To be freed. */
static uint8_t *copy_list(const Specifiers *self, pep440_string *list)
{
    uint8_t *copy = PyMem_Malloc(self->length);
    if (!copy)
        PyErr_NoMemory();
    else
        memcpy(copy, self->compiled, self->length);
    *list = (pep440_string){copy, self->length};
    return copy;
}

/* Those of the batch that are contained, or what stands in their places. */
static PyObject *kept_of(Batch *batch, PyObject *places, const Specifiers *self, Early early, int skip)
{
    pep440_string list;
    Words words = follows_26 ? self->words : (Words){.count = 0}; /* a copy, since other threads run meanwhile */
    uint8_t *marks = NULL, *copy = copy_list(self, &list), status = PEP440_OUT_OF_MEMORY;
    PyObject *kept;
    if (copy && copy_forms(batch) == 0 && (marks = PyMem_Calloc(batch->count + 1, 1)))
        status = mark(batch, &list, &words, marks);
    if (status == PEP440_OK)
        drop_early(marks, batch->count, early);
    kept = status == PEP440_OK ? marked(batch, places, marks, skip) : raise_by(status, NULL, NULL);
    PyMem_Free(marks);
    PyMem_Free(copy);
    return kept;
}

/* What a filter gives of pre-releases where the call says this of them: all that the specifiers ask for, and of a set by 25 no others, but of the empty
   one. -1 with an error. */
static int early_of(Specifiers *self, PyObject *prereleases)
{
    int allows;
    if (prereleases == Py_None && follows_26 && self->said != Py_None)
        prereleases = self->said;
    if (prereleases != Py_None)
        return prereleases == Py_False ? NO_EARLY : ALL_EARLY;
    allows = allows_prereleases(self);
    if (allows == 1)
        return ALL_EARLY;
    return allows < 0 ? -1 : follows_26 || is_specifier(self) || (is_empty_set(self) && self->said == Py_None) ? EARLY_ALONE : NO_EARLY;
}

/* Those of the items that are contained, or what stands in their places in another tuple. */
static PyObject *keep_of(Specifiers *self, PyObject *items, PyObject *places, PyObject *prereleases, int skip)
{
    Batch batch;
    PyObject *kept = NULL;
    int by_python, early;
    if (gather(items, &batch) < 0)
        return NULL;
    /* from here on no code of the caller runs: this may have had the specifiers read again */
    by_python = is_read(self) ? is_changed(self) : -1;
    if (by_python > 0)
        kept = Py_NewRef(Py_None);
    else if (by_python == 0 && (early = early_of(self, prereleases)) >= 0 && compile_set_of(self) == 0)
        kept = kept_of(&batch, places ? places : batch.tuple, self, (Early)early, skip);
    drop(&batch);
    return kept;
}

/* _kept(items, prereleases, skip_invalid, places=None), or None where Python is to compare; `prereleases` is True, False or None. */
static PyObject *keep_contained(PyObject *given, PyObject *const *args, Py_ssize_t count)
{
    PyObject *places = NULL, *kept;
    int skip;
    if (!has_count("_kept", count == 4 ? 3 : count, 3) || (skip = PyObject_IsTrue(args[2])) < 0 || (count == 4 && !(places = PySequence_Tuple(args[3]))))
        return NULL;
    if (places && PyTuple_Size(places) != PyObject_Size(args[0])) {
        PyErr_SetString(PyExc_ValueError, "_kept() takes a place for each item");
        kept = NULL;
    } else
        kept = keep_of((Specifiers *)given, args[0], places, args[1], skip);
    Py_XDECREF(places);
    return kept;
}

/* Room for the items of a batch twice, where the sorted ones begin, and their keys, whose bytes are in blocks. */
typedef struct {
    Keyed *keyed;
    Keyed *sorted;
    Key *keys;
    uint8_t **blocks;
} Keys;

static void drop_keys(Keys *keys, size_t count)
{
    for (size_t chunk = 0; keys->blocks && chunk <= count / CHUNK; chunk++)
        free(keys->blocks[chunk]);
    free(keys->blocks);
    free(keys->keys);
    free(keys->keyed);
}

/* Sets the words of some strings, which are in the order of their versions. PEP440_NOT_PACKED where one has none. */
static uint8_t read_words(const Batch *batch, size_t start, size_t end, Keyed *keyed, size_t *at)
{
    uint8_t status = PEP440_OK;
    for (*at = start; *at < end; ++*at) {
        status = pep440_word(batch->texts[*at].bytes, batch->texts[*at].length, &keyed[*at].part);
        if (status != PEP440_OK)
            return status;
    }
    return status;
}

/* Makes the keys of some strings, in a block of their own; the first one is that of `start`. */
static uint8_t read_keys(const Batch *batch, size_t start, size_t end, Key *keys, uint8_t **block, size_t *at)
{
    size_t room = 0, length;
    uint8_t *bytes, status = PEP440_OK;
    for (size_t place = start; place < end; place++)
        room += PEP440_COMPILED_BOUND(batch->texts[place].length);
    *block = bytes = malloc(room);
    for (*at = start; bytes && *at < end; ++*at) {
        status = pep440_compile(batch->texts[*at].bytes, batch->texts[*at].length, bytes, room, &length);
        if (status != PEP440_OK)
            return status;
        keys[*at - start] = (Key){bytes + 1, key_length(bytes + 1, length - 1)};
        bytes += length;
        room -= length;
    }
    return bytes ? status : PEP440_OUT_OF_MEMORY;
}

/* Reads the words of all items, or where there are blocks their keys. */
static uint8_t read_all(const Batch *batch, Keys *keys, size_t *at, PyThreadState **state)
{
    uint8_t status = PEP440_OK;
    for (size_t start = 0; status == PEP440_OK && start < batch->count; start += CHUNK) {
        size_t end = batch->count - start < CHUNK ? batch->count : start + CHUNK;
        if (keys->blocks)
            status = read_keys(batch, start, end, keys->keys + start, &keys->blocks[start / CHUNK], at);
        else
            status = read_words(batch, start, end, keys->keyed, at);
        if (status == PEP440_OK && look_between(state) < 0)
            status = PEP440_OUT_OF_MEMORY;
    }
    return status;
}

/* Sorts the items by words, or where there are blocks by keys. `at` is that of the first string that is no version, with PEP440_INVALID_VERSION. */
static uint8_t sort_read(const Batch *batch, Keys *keys, size_t *at, PyThreadState **state)
{
    Keyed *keyed = keys->keyed, *spare = keyed + batch->count;
    uint8_t status = read_all(batch, keys, at, state);
    for (size_t place = 0; status == PEP440_OK && place < batch->count; place++)
        keyed[place].index = place;
    if (status == PEP440_OK)
        keys->sorted = keys->blocks ? sort_by_keys(keyed, spare, keys->keys, batch->count, look_between, state)
                                    : sort_by_part(keyed, spare, batch->count, look_between, state);
    return status == PEP440_OK && !keys->sorted ? PEP440_OUT_OF_MEMORY : status;
}

/* Sorts the items, by words if each string has one: reading these takes half as long. */
static uint8_t sort_batch(const Batch *batch, Keys *keys, size_t *at)
{
    PyThreadState *state = PyEval_SaveThread();
    uint8_t status = PEP440_OUT_OF_MEMORY;
    keys->keyed = malloc((2 * batch->count + 1) * sizeof *keys->keyed);
    if (keys->keyed)
        status = sort_read(batch, keys, at, &state);
    if (status == PEP440_NOT_PACKED) {
        keys->keys = malloc(batch->count * sizeof *keys->keys);
        keys->blocks = calloc(batch->count / CHUNK + 1, sizeof *keys->blocks);
        status = keys->keys && keys->blocks ? sort_read(batch, keys, at, &state) : PEP440_OUT_OF_MEMORY;
    }
    PyEval_RestoreThread(state);
    return status;
}

/* Each item's memory is asked for before its turn, since the next one may lie anywhere: this halves the time that a million take. */
static PyObject *in_order(const Batch *batch, const Keyed *sorted)
{
    PyObject *list = PyList_New((Py_ssize_t)batch->count);
    for (size_t turn = 0; list && turn < batch->count; turn++) {
        if (turn + AHEAD < batch->count)
            __builtin_prefetch(batch->items[sorted[turn + AHEAD].index], 1);
        if (look_at(turn) < 0 || PyList_SetItem(list, (Py_ssize_t)turn, Py_NewRef(batch->items[sorted[turn].index])) < 0)
            Py_CLEAR(list);
    }
    return list;
}

static PyObject *sort(PyObject *module, PyObject *given)
{
    Batch batch;
    Keys keys = {0};
    size_t at = 0;
    uint8_t status;
    PyObject *sorted;
    if (gather(given, &batch) < 0)
        return NULL;
    status = sort_batch(&batch, &keys, &at);
    sorted = status == PEP440_OK ? in_order(&batch, keys.sorted)
                                 : raise_by(status, status == PEP440_INVALID_VERSION ? batch.items[at] : NULL, NULL);
    drop_keys(&keys, batch.count);
    drop(&batch);
    return sorted;
}

/* Adds the keys of some strings to the list; `keys` has room for them. */
static int add_keys(PyObject *list, const Batch *batch, size_t start, size_t end, Key *keys)
{
    uint8_t *block = NULL, status;
    size_t at = start;
    int done;
    Py_BEGIN_ALLOW_THREADS
    status = read_keys(batch, start, end, keys, &block, &at);
    Py_END_ALLOW_THREADS
    if (status != PEP440_OK)
        raise_by(status, status == PEP440_INVALID_VERSION ? batch->items[at] : NULL, NULL);
    done = status == PEP440_OK ? PyErr_CheckSignals() : -1;
    for (size_t place = 0; done == 0 && place < end - start; place++) {
        PyObject *key = PyBytes_FromStringAndSize((const char *)keys[place].bytes, (Py_ssize_t)keys[place].length);
        done = key ? PyList_Append(list, key) : -1;
        Py_XDECREF(key);
    }
    free(block);
    return done;
}

static PyObject *sort_keys(PyObject *module, PyObject *given)
{
    Batch batch;
    Key *keys;
    PyObject *list;
    if (gather(given, &batch) < 0)
        return NULL;
    keys = PyMem_New(Key, CHUNK);
    list = keys ? PyList_New(0) : PyErr_NoMemory();
    for (size_t start = 0; list && start < batch.count; start += CHUNK)
        if (add_keys(list, &batch, start, batch.count - start < CHUNK ? batch.count : start + CHUNK, keys) < 0)
            Py_CLEAR(list);
    PyMem_Free(keys);
    drop(&batch);
    return list;
}

/* ---- filters: the items that specifiers contain, each found when it is asked for, by the rule of 26 */

typedef struct {
    PyObject_HEAD
    PyObject *items;   /* what is filtered, and once it was begun an iterator over it; NULL at the end */
    PyObject *key;     /* what gives the version of an item, or NULL */
    PyObject *later;   /* pre-releases that are given where nothing else is */
    uint8_t *compiled; /* the list with its set: `few`, or a block of its own */
    size_t length;
    size_t count;
    Early early;
    char is_begun;
    char is_found;  /* something was given that is no pre-release */
    char gives_all; /* the items are those for later */
    Words words;
    uint8_t few[160];
} Filter;

static int filter_traverse(Filter *self, visitproc visit, void *arg)
{
    Py_VISIT(Py_TYPE((PyObject *)self));
    Py_VISIT(self->items);
    Py_VISIT(self->key);
    Py_VISIT(self->later);
    return 0;
}

static int filter_clear(Filter *self)
{
    Py_CLEAR(self->items);
    Py_CLEAR(self->key);
    Py_CLEAR(self->later);
    return 0;
}

static void filter_free(Filter *self)
{
    PyTypeObject *type = Py_TYPE((PyObject *)self);
    PyObject_GC_UnTrack(self);
    filter_clear(self);
    if (self->compiled != self->few)
        free(self->compiled);
    PyObject_GC_Del(self);
    Py_DECREF(type);
}

/* The mark of what is given for a version; what is neither a version nor a str is none by 26.3. -1 with an error. */
static int mark_given(const Filter *self, PyObject *given)
{
    pep440_string list = {self->compiled, self->length}, text;
    Held *version = (Held *)given;
    PyObject *held;
    uint8_t mark = PEP440_NOT_A_VERSION, status = PEP440_OUT_OF_MEMORY;
    if (PyObject_TypeCheck(given, HeldType)) {
        if (self->words.count > 0 && version->is_by_word && view_str(version->text, &text) == 0 &&
            (mark = mark_word(&self->words, text, version->word)) != NO_MARK)
            return mark;
        if (version->compiled || compile_held(version) == 0)
            status = mark_form(list, (pep440_string){version->compiled, version->length}, &mark);
    } else if ((held = text_of(given, &text))) {
        status = mark_text(list, &self->words, text, &mark);
        Py_DECREF(held);
    } else if (follows_26_3 && PyErr_ExceptionMatches(PyExc_TypeError)) {
        PyErr_Clear();
        status = PEP440_OK;
    }
    if (status == PEP440_OK)
        return mark;
    raise_by(status, NULL, NULL);
    return -1;
}

/* The same of an item. */
static int mark_of_item(const Filter *self, PyObject *item)
{
    PyObject *key, *given;
    int mark;
    if (!self->key)
        return mark_given(self, item);
    key = Py_NewRef(self->key);
    given = PyObject_CallFunctionObjArgs(key, item, NULL);
    mark = given ? mark_given(self, given) : -1;
    Py_XDECREF(given);
    Py_DECREF(key);
    return mark;
}

/* Whether the item is given now. 1, 0, or -1 with an error. */
static int is_given(Filter *self, PyObject *item)
{
    int mark = mark_of_item(self, item);
    if (mark == PEP440_MATCH)
        return self->is_found = 1;
    if (mark != PEP440_PRERELEASE_MATCH || self->early == NO_EARLY)
        return mark < 0 ? -1 : 0;
    if (self->early == ALL_EARLY)
        return 1;
    if (self->is_found || (!self->later && !(self->later = PyList_New(0))))
        return self->is_found ? 0 : -1;
    return PyList_Append(self->later, item);
}

/* Begins with the items, or behind them with those for later. 0, or -1 with an error. */
static int begin_items(Filter *self)
{
    PyObject *old = self->items, *given = self->is_begun ? self->is_found || self->gives_all ? NULL : self->later : old;
    self->gives_all = self->is_begun;
    self->is_begun = 1;
    self->items = given ? PyObject_GetIter(given) : NULL;
    Py_XDECREF(old);
    return given && !self->items ? -1 : 0;
}

/* The next of the items, or NULL at their end or with an error. */
static PyObject *next_item(Filter *self)
{
    PyObject *items = Py_NewRef(self->items), *item = PyIter_Next(items);
    Py_DECREF(items);
    if (item && look_at(++self->count) < 0)
        Py_CLEAR(item);
    return item;
}

static PyObject *filter_next(Filter *self)
{
    PyObject *item;
    int given = 0;
    if (!self->is_begun && begin_items(self) < 0)
        return NULL;
    while (self->items) {
        item = next_item(self);
        given = !item ? PyErr_Occurred() ? -1 : begin_items(self) : self->gives_all ? 1 : is_given(self, item);
        if (item && given > 0)
            return item;
        Py_XDECREF(item);
        if (given < 0)
            Py_CLEAR(self->items);
    }
    return NULL;
}

static PyObject *filter_iterator(PyObject *self) { return Py_NewRef(self); }

static PyType_Slot filter_slots[] = {{Py_tp_dealloc, filter_free}, {Py_tp_traverse, filter_traverse}, {Py_tp_clear, filter_clear},
                                     {Py_tp_iter, filter_iterator}, {Py_tp_iternext, filter_next},     {0, NULL}};

static PyType_Spec filter_spec = {"pep440_rattle._core.Filter", sizeof(Filter), 0,
                                  Py_TPFLAGS_DEFAULT | Py_TPFLAGS_HAVE_GC | Py_TPFLAGS_DISALLOW_INSTANTIATION, filter_slots};

static PyTypeObject *FilterType;

/* A filter of the items. */
static PyObject *make_filter(Specifiers *self, PyObject *items, PyObject *key, Early early)
{
    Filter *made = PyObject_GC_New(Filter, FilterType);
    if (!made)
        return NULL;
    memset(&made->items, 0, offsetof(Filter, few) - offsetof(Filter, items));
    made->compiled = keep(self->compiled, self->length, made->few, sizeof made->few);
    made->length = self->length;
    made->words = self->words;
    made->items = Py_NewRef(items);
    made->key = key == Py_None ? NULL : Py_NewRef(key);
    made->early = early;
    PyObject_GC_Track(made);
    if (!made->compiled) {
        Py_DECREF(made);
        return PyErr_NoMemory();
    }
    return (PyObject *)made;
}

/* _filtered(items, prereleases, key), or None where Python is to compare, or strings that are no versions are contained, too. */
static PyObject *filter_contained(PyObject *given, PyObject *const *args, Py_ssize_t count)
{
    Specifiers *self = (Specifiers *)given;
    int by_python, early;
    if (!has_count("_filtered", count, 3) || !is_read(self) || (by_python = is_changed(self)) < 0)
        return NULL;
    if (by_python || is_empty_set(self))
        Py_RETURN_NONE;
    early = early_of(self, args[1]);
    if (early < 0)
        return NULL;
    /* a member's property may have had the specifiers read again */
    if (!is_read(self) || (by_python = is_changed(self)) < 0 || compile_set_of(self) < 0)
        return NULL;
    if (by_python)
        Py_RETURN_NONE;
    return make_filter(self, args[0], args[2], (Early)early);
}
