/* The type pep440_set: a set of versions, as the library writes it. Equal sets have the same bytes. As text it is its intervals in braces, `{[1, 2.dev0), (2.post*, *)}`,
   or where it is read the list whose set it is. */
#include "extension.h"

#define NO_SET \
    (errcode(ERRCODE_INVALID_PARAMETER_VALUE), errmsg("a list with === has no set"), \
     errdetail("The operator compares how versions are written."), errhint("With == the list has the set of these versions, in all spellings."))

/* A sort key ends so where the version is a release alone; and so, where a key is a bound above all post-releases of it. */
static const uint8_t RELEASE_END[] = {0, 0x50, 0, 0x10, 0}, POSTS_END[] = {0, 0x50, 0x20, 0x10, 0};
static const uint8_t LEAST_KEY[] = {0, 0, 0x10, 0, 0, 0}; /* of 0.dev0, the least version: from there on there is no bound */
static const Bytes LEAST = {LEAST_KEY, sizeof LEAST_KEY};

static const char POSTS[] = ".post*";

static bool ends_with(Bytes bytes, const void *end, size_t length)
{
    return bytes.length >= length && memcmp(bytes.bytes + bytes.length - length, end, length) == 0;
}

/* ---- to text */

/* Appends the version of the key, if it is one: of a release of zeros, which are not in a key, as one zero. */
static bool append_version(StringInfo out, Bytes key)
{
    bool has_numbers = key.bytes[0] + (size_t)1 < key.length && key.bytes[key.bytes[0] + 1] != 0;
    uint8_t *compiled = palloc(key.length + 2);
    Bytes normal;
    compiled[0] = VERSION_FORMAT;
    memcpy(compiled + 1, key.bytes, key.length);
    compiled[key.length + 1] = 1;
    uint8_t status = write_all(pep440_normalize, (Bytes){compiled, key.length + (has_numbers ? 1 : 2)}, &normal);
    if (status == PEP440_OK)
        appendBinaryStringInfo(out, (const char *)normal.bytes, (int)normal.length);
    else if (status != PEP440_INVALID_VERSION)
        fail(status);
    pfree(compiled);
    pfree(unconstify(uint8_t *, normal.bytes));
    return status == PEP440_OK;
}

/* Appends a bound, `*` for none. Returns whether it is just below a version; else it is above the post-releases of one, or above a version with a local part,
   behind whose key it has a zero. */
static bool append_bound(StringInfo out, Bytes key)
{
    if (key.length == 0)
        appendStringInfoChar(out, '*');
    if (key.length == 0 || append_version(out, key))
        return key.length != 0;
    bool is_above_posts = ends_with(key, POSTS_END, sizeof POSTS_END);
    uint8_t *version = memcpy(palloc(key.length), key.bytes, key.length);
    if (is_above_posts)
        memcpy(version + key.length - sizeof RELEASE_END, RELEASE_END, sizeof RELEASE_END);
    if (!append_version(out, (Bytes){version, key.length - (is_above_posts ? 0 : 1)}))
        fail(PEP440_INVALID_LIST);
    if (is_above_posts)
        appendStringInfoString(out, POSTS);
    return false;
}

static void append_interval(StringInfo out, KeyInterval interval)
{
    int start = out->len;
    CHECK_FOR_INTERRUPTS();
    appendStringInfoChar(out, '[');
    if (!append_bound(out, interval.low))
        out->data[start] = '(';
    appendStringInfoString(out, ", ");
    bool is_open = append_bound(out, interval.high) || interval.high.length == 0;
    appendStringInfoChar(out, is_open ? ')' : ']');
}

static char *set_text(FunctionCallInfo fcinfo)
{
    Cover cover = cover_of(GET_LIST(0));
    StringInfoData out;
    initStringInfo(&out);
    appendStringInfoChar(&out, '{');
    for (size_t each = 0; each < cover.count; each++) {
        if (each > 0)
            appendStringInfoString(&out, ", ");
        append_interval(&out, cover.intervals[each]);
    }
    appendStringInfoChar(&out, '}');
    return out.data;
}

/* ---- from text */

/* A text that is read from its start on; and why it is no set, once that is known. */
typedef struct {
    Bytes rest;
    const char *why;
    KeyInterval *intervals;
    size_t count;
    size_t room;
} Reading;

static void skip_blanks(Reading *reading)
{
    for (; reading->rest.length > 0 && scanner_isspace((char)reading->rest.bytes[0]); reading->rest.length--)
        reading->rest.bytes++;
}

/* Passes over the next character but blanks, if it is one of these; which one it is, or 0. */
static char skip(Reading *reading, const char *wanted)
{
    skip_blanks(reading);
    if (reading->rest.length == 0 || reading->rest.bytes[0] == 0 || strchr(wanted, reading->rest.bytes[0]) == NULL)
        return 0;
    reading->rest.length--;
    return (char)*reading->rest.bytes++;
}

/* Passes over what stands before one of these characters, without blanks around it. */
static Bytes take_until(Reading *reading, const char *ends)
{
    skip_blanks(reading);
    Bytes taken = {reading->rest.bytes, 0};
    while (taken.length < reading->rest.length && strchr(ends, taken.bytes[taken.length]) == NULL)
        taken.length++;
    reading->rest.bytes += taken.length;
    reading->rest.length -= taken.length;
    while (taken.length > 0 && scanner_isspace((char)taken.bytes[taken.length - 1]))
        taken.length--;
    return taken;
}

/* The key of a version, with room for one more byte; no bytes where it is none. */
static Bytes key_of_version(Bytes text, bool *has_local)
{
    Bytes key;
    bool is_text = text.length > 0 && text.length <= MOST_TEXT && text.bytes[0] > SET_FORMAT;
    uint8_t status = is_text ? write_all(pep440_sort_key, text, &key) : PEP440_INVALID_VERSION;
    if (status == PEP440_INVALID_VERSION)
        return (Bytes){NULL, 0};
    expect_ok(status);
    *has_local = memchr(text.bytes, '+', text.length) != NULL;
    /* its own room, and not what was there for any */
    uint8_t *kept = memcpy(palloc(key.length + 1), key.bytes, key.length);
    pfree(unconstify(uint8_t *, key.bytes));
    return (Bytes){kept, key.length};
}

/* The bound of an interval with this bracket, of which `closed` is the one beside a version. */
static Bytes read_bound(Reading *reading, Bytes text, char bracket, char closed)
{
    bool has_local = false, is_above_posts = ends_with(text, POSTS, strlen(POSTS)), is_below = bracket == closed;
    if (text.length == 1 && text.bytes[0] == '*' && bracket != '[' && bracket != ']')
        return (Bytes){text.bytes, 0};
    Bytes key = key_of_version((Bytes){text.bytes, text.length - (is_above_posts ? strlen(POSTS) : 0)}, &has_local);
    uint8_t *bytes = unconstify(uint8_t *, key.bytes);
    if (key.length == 0)
        reading->why = "A bound is a version, a version and \".post*\", or \"*\" beside a round bracket.";
    else if (is_above_posts && (is_below || !ends_with(key, RELEASE_END, sizeof RELEASE_END)))
        reading->why = "Only \"(\" before it or \"]\" after it goes with \".post*\", which follows a release.";
    else if (is_above_posts)
        memcpy(bytes + key.length - sizeof POSTS_END, POSTS_END, sizeof POSTS_END);
    else if (!is_below && !has_local)
        reading->why = "Only \"[\" before it or \")\" after it goes with a version that has no local part.";
    else if (!is_below)
        bytes[key.length++] = 0;
    return key;
}

/* Reads an interval, and keeps it unless no version is in it. */
static void read_interval(Reading *reading)
{
    CHECK_FOR_INTERRUPTS();
    char start = skip(reading, "[(");
    Bytes low = take_until(reading, ",[](){}");
    char comma = skip(reading, ",");
    Bytes high = take_until(reading, ",[](){}");
    char end = skip(reading, ")]");
    if (start == 0 || comma == 0 || end == 0) {
        reading->why = "An interval is a bracket, two bounds with a comma between them, and a bracket.";
        return;
    }
    KeyInterval read = {read_bound(reading, low, start, '['), read_bound(reading, high, end, ')')};
    Bytes from = read.low.length == 0 ? LEAST : read.low;
    if (reading->why != NULL || (read.high.length != 0 && compare_bytes(from, read.high) >= 0))
        return;
    if (compare_bytes(read.low, LEAST) == 0)
        read.low.length = 0;
    if (reading->count == reading->room)
        reading->intervals = repalloc(reading->intervals, (reading->room *= 2) * sizeof *reading->intervals);
    reading->intervals[reading->count++] = read;
}

static void read_intervals(Reading *reading)
{
    skip(reading, "{");
    if (!skip(reading, "}")) {
        do
            read_interval(reading);
        while (reading->why == NULL && skip(reading, ","));
        if (reading->why == NULL && !skip(reading, "}"))
            reading->why = "Intervals have commas between them, and \"}\" after the last one.";
    }
    skip_blanks(reading);
    if (reading->why == NULL && reading->rest.length > 0)
        reading->why = "Something follows \"}\".";
}

static int compare_low(const void *left, const void *right)
{
    return compare_bytes(((const KeyInterval *)left)->low, ((const KeyInterval *)right)->low);
}

/* Puts the intervals in order, and those that overlap or touch together. */
static void join_intervals(Reading *reading)
{
    size_t kept = 0;
    qsort(reading->intervals, reading->count, sizeof *reading->intervals, compare_low);
    for (size_t each = 0; each < reading->count; each++) {
        KeyInterval next = reading->intervals[each], *last = &reading->intervals[kept == 0 ? 0 : kept - 1];
        if (kept == 0 || (last->high.length != 0 && compare_bytes(last->high, next.low) < 0))
            reading->intervals[kept++] = next;
        else if (last->high.length != 0 && (next.high.length == 0 || compare_bytes(last->high, next.high) < 0))
            last->high = next.high;
    }
    reading->count = kept;
}

/* Writes bytes behind how many they are: that behind how many bytes it takes. */
static void append_sized(StringInfo out, Bytes bytes)
{
    int taken = 0;
    while (bytes.length >> (8 * taken) != 0)
        taken++;
    appendStringInfoChar(out, (char)taken);
    while (taken-- > 0)
        appendStringInfoChar(out, (char)(bytes.length >> (8 * taken)));
    appendBinaryStringInfo(out, (const char *)bytes.bytes, (int)bytes.length);
}

static struct varlena *make_set(const Reading *reading)
{
    StringInfoData out;
    initStringInfo(&out);
    appendStringInfoChar(&out, SET_FORMAT);
    for (size_t each = 0; each < reading->count; each++) {
        append_sized(&out, reading->intervals[each].low);
        append_sized(&out, reading->intervals[each].high);
    }
    return make_bytea((Bytes){(const uint8_t *)out.data, (size_t)out.len});
}

/* A call of the library that makes a set of two. */
typedef uint8_t (*Combination)(const uint8_t *, size_t, const uint8_t *, size_t, uint8_t *, size_t, size_t *);

/* What the call makes of both; PEP440_NO_SET where a list has none. */
static uint8_t combine(Combination call, Bytes left, Bytes right, Bytes *out)
{
    size_t room = left.length + right.length + 16;
    uint8_t *bytes = palloc(room);
    CHECK_FOR_INTERRUPTS();
    uint8_t status = call(left.bytes, left.length, right.bytes, right.length, bytes, room, &out->length);
    if (status == PEP440_NO_ROOM) {
        pfree(bytes);
        bytes = palloc(out->length);
        status = call(left.bytes, left.length, right.bytes, right.length, bytes, out->length, &out->length);
    }
    out->bytes = bytes;
    return status;
}

/* The set of a list: what is in it and in it. */
static struct varlena *set_of_list(Bytes list, Node *context)
{
    Bytes set;
    uint8_t status = combine(pep440_intersection, list, list, &set);
    if (status == PEP440_NO_SET)
        ereturn(context, NULL, NO_SET);
    expect_ok(status);
    return make_bytea(set);
}

static struct varlena *read_set(Bytes text, Node *context)
{
    Reading reading = {.rest = text};
    Bytes compiled;
    skip_blanks(&reading);
    if (reading.rest.length == 0 || reading.rest.bytes[0] != '{')
        return read_list(text, "pep440_set", context, &compiled) ? set_of_list(compiled, context) : NULL;
    reading.intervals = palloc((reading.room = 4) * sizeof *reading.intervals);
    read_intervals(&reading);
    if (reading.why != NULL)
        ereturn(context, NULL, (errcode(ERRCODE_INVALID_TEXT_REPRESENTATION), errmsg("invalid input syntax for type %s: \"%s\"", "pep440_set", server_text(text)), errdetail("%s", reading.why)));
    join_intervals(&reading);
    return make_set(&reading);
}

TEXT_FUNCTIONS(set, read_set, set_text(fcinfo));
SQL_FUNCTION(set_from_specs, PointerGetDatum(set_of_list(GET_LIST(0), NULL)));

/* ---- sets of sets */

static Bytes of_both(Combination call, Bytes left, Bytes right)
{
    Bytes set;
    expect_ok(combine(call, left, right, &set));
    return set;
}

static Bytes without(Bytes left, Bytes right)
{
    Bytes outside;
    expect_ok(write_all(pep440_complement, right, &outside));
    return of_both(pep440_intersection, left, outside);
}

static bool is_empty(Bytes set)
{
    return set.length == 1;
}

static bool is_inside(Bytes left, Bytes right)
{
    uint8_t inside;
    CHECK_FOR_INTERRUPTS();
    expect_ok(pep440_is_subset(left.bytes, left.length, right.bytes, right.length, &inside));
    return inside != 0;
}

SQL_FUNCTION(set_union, PointerGetDatum(make_bytea(of_both(pep440_union, GET_LIST(0), GET_LIST(1)))));
SQL_FUNCTION(set_intersection, PointerGetDatum(make_bytea(of_both(pep440_intersection, GET_LIST(0), GET_LIST(1)))));
SQL_FUNCTION(set_difference, PointerGetDatum(make_bytea(without(GET_LIST(0), GET_LIST(1)))));
SQL_FUNCTION(set_overlap, BoolGetDatum(!is_empty(of_both(pep440_intersection, GET_LIST(0), GET_LIST(1)))));
SQL_FUNCTION(set_contained_by, BoolGetDatum(is_inside(GET_LIST(0), GET_LIST(1))));
SQL_FUNCTION(set_contains, BoolGetDatum(is_inside(GET_LIST(1), GET_LIST(0))));
SQL_FUNCTION(set_isempty, BoolGetDatum(is_empty(GET_LIST(0))));

/* A row for each interval of a set or a list: its keys, of which the high one is null where there is no bound; and, of a set, the interval as text. */
PG_FUNCTION_INFO_V1(specs_cover);
Datum specs_cover(PG_FUNCTION_ARGS)
{
    Cover cover = cover_of(GET_LIST(0));
    InitMaterializedSRF(fcinfo, 0);
    ReturnSetInfo *result = (ReturnSetInfo *)fcinfo->resultinfo;
    StringInfoData text;
    initStringInfo(&text);
    for (size_t each = 0; each < cover.count; each++) {
        KeyInterval interval = cover.intervals[each];
        resetStringInfo(&text);
        if (result->setDesc->natts > 2)
            append_interval(&text, interval);
        Datum values[] = {PointerGetDatum(make_bytea(interval.low)), PointerGetDatum(make_bytea(interval.high)), PointerGetDatum(cstring_to_text_with_len(text.data, text.len))};
        bool nulls[] = {false, interval.high.length == 0, false};
        tuplestore_putvalues(result->setResult, result->setDesc, values, nulls);
    }
    return (Datum)0;
}
