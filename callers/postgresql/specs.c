/* The type pep440_specs: a list of specifiers that is compiled once; lists as values; what a list contains, and the intervals of keys that cover it; GiST indexes. */
#include "extension.h"

/* Above each key: the first byte of a key is at most 8. */
static const uint8_t ABOVE_ALL[] = {0xff};

/* ---- values */

#define TOO_LONG(type) \
    (errcode(ERRCODE_PROGRAM_LIMIT_EXCEEDED), errmsg("list is too long for type %s", type), \
     errdetail("Its text or its normal form has more than %d bytes.", MOST_TEXT))

/* Whether the normal form, which dumps have, would be too long: it has less than four times the bytes of the text. */
static bool is_too_long(Bytes text)
{
    size_t length = 0;
    return text.length > MOST_TEXT || (text.length > MOST_TEXT / 4 && pep440_normalize_list(text.bytes, text.length, NULL, 0, &length) == PEP440_NO_ROOM && length > MOST_TEXT);
}

static uint8_t compile_list(Bytes text, Bytes *compiled)
{
    if (is_too_long(text))
        return PEP440_NO_ROOM;
    CHECK_FOR_INTERRUPTS();
    return write_all(pep440_compile_list, text, compiled);
}

bool read_list(Bytes text, const char *type, Node *context, Bytes *compiled)
{
    uint8_t status = compile_list(text, compiled);
    if (status == PEP440_INVALID_LIST || status == PEP440_NO_LIST)
        return fail_text(text, type, pep440_list_error, context) != NULL;
    if (status == PEP440_NO_ROOM)
        ereturn(context, false, TOO_LONG(type));
    expect_ok(status);
    return true;
}

static struct varlena *read_specs(Bytes text, Node *context)
{
    Bytes compiled;
    return read_list(text, "pep440_specs", context, &compiled) ? make_bytea(compiled) : NULL;
}

/* What the library takes as the list where it needs no set: else it would make the set anew to compare it. */
static Bytes members_argument(FunctionCallInfo fcinfo, int number)
{
    return members_of(GET_LIST(number));
}

static char *normal_list(FunctionCallInfo fcinfo, int number)
{
    return normal_text(pep440_normalize_list, members_argument(fcinfo, number));
}

TEXT_FUNCTIONS(specs, read_specs, normal_list(fcinfo, 0));

PG_FUNCTION_INFO_V1(specs_valid);
Datum specs_valid(PG_FUNCTION_ARGS)
{
    Bytes compiled;
    uint8_t status = compile_list(utf8_argument(fcinfo), &compiled);
    if (status == PEP440_OUT_OF_MEMORY)
        fail(status);
    PG_RETURN_BOOL(status == PEP440_OK);
}

/* The text without its empty items, which `packaging` takes and the type does not. */
PG_FUNCTION_INFO_V1(specs_without_empty_items);
Datum specs_without_empty_items(PG_FUNCTION_ARGS)
{
    Bytes given = bytes_of(PG_GETARG_TEXT_PP(0));
    const char *at = (const char *)given.bytes, *end = at + given.length;
    StringInfoData kept;
    initStringInfo(&kept);
    while (at < end) {
        const char *comma = memchr(at, ',', (size_t)(end - at)), *item_end = comma == NULL ? end : comma, *first = at;
        while (first < item_end && scanner_isspace(*first))
            first++;
        if (first < item_end && kept.len > 0)
            appendStringInfoChar(&kept, ',');
        if (first < item_end)
            appendBinaryStringInfo(&kept, at, (int)(item_end - at));
        at = comma == NULL ? end : comma + 1;
    }
    PG_RETURN_TEXT_P(cstring_to_text_with_len(kept.data, kept.len));
}

static Bytes bytes_of_text(const char *text)
{
    return (Bytes){(const uint8_t *)text, strlen(text)};
}

/* The members of both lists. */
static Bytes join_lists(FunctionCallInfo fcinfo)
{
    const char *left = normal_list(fcinfo, 0), *right = normal_list(fcinfo, 1);
    Bytes joined = bytes_of_text(psprintf("%s%s%s", left, *left != 0 && *right != 0 ? "," : "", right));
    if (joined.length > MOST_TEXT)
        ereport(ERROR, TOO_LONG("pep440_specs"));
    return joined;
}

/* The list of the members of both: a version is in it if it is in both. */
SQL_FUNCTION(specs_both, PointerGetDatum(read_specs(join_lists(fcinfo), NULL)));

/* A version that the list contains, no bytes if there is none. */
static Bytes find_version(Bytes list)
{
    Bytes version;
    expect_ok(write_all(pep440_version_in, list, &version));
    return version;
}

SQL_FUNCTION(specs_isempty, BoolGetDatum(find_version(members_argument(fcinfo, 0)).length == 0));
SQL_FUNCTION(specs_overlap, BoolGetDatum(find_version(join_lists(fcinfo)).length != 0));

/* A version that the list contains, or null. */
PG_FUNCTION_INFO_V1(specs_version);
Datum specs_version(PG_FUNCTION_ARGS)
{
    Bytes version = find_version(members_argument(fcinfo, 0));
    if (version.length == 0)
        PG_RETURN_NULL();
    PG_RETURN_POINTER(read_version(version, NULL));
}

/* ---- order and hashes: lists are equal if they have the same normal form, and then their compiled members are the same bytes. The order is that of these
   bytes, so that lists can be sorted and indexed, and has no other meaning. */

static bool is_compiled(const struct varlena *stored)
{
    return list_of(stored).bytes == bytes_of(stored).bytes;
}

static Bytes compiled_members(const struct varlena *stored)
{
    Bytes list = list_of(stored), compiled;
    if (is_compiled(stored))
        return members_of(list);
    expect_ok(write_all(pep440_compile_list, list, &compiled));
    Bytes members = members_of(compiled);
    memmove(unconstify(uint8_t *, compiled.bytes), members.bytes, members.length);
    return (Bytes){compiled.bytes, members.length};
}

static void free_list(FunctionCallInfo fcinfo, int number, struct varlena *stored, Bytes members)
{
    if (!is_compiled(stored))
        pfree(unconstify(uint8_t *, members.bytes));
    PG_FREE_IF_COPY(stored, number);
}

static int order_of_lists(FunctionCallInfo fcinfo)
{
    struct varlena *left = GET_STORED(0), *right = GET_STORED(1);
    Bytes one = compiled_members(left), other = compiled_members(right);
    int order = compare_bytes(one, other);
    free_list(fcinfo, 0, left, one);
    free_list(fcinfo, 1, right, other);
    return order;
}

COMPARISONS(specs_, , order_of_lists(fcinfo));
SQL_FUNCTION(specs_ne, BoolGetDatum(order_of_lists(fcinfo) != 0));
SQL_FUNCTION(specs_cmp, Int32GetDatum(order_of_lists(fcinfo)));

static Datum hash_of_list(FunctionCallInfo fcinfo)
{
    struct varlena *stored = GET_STORED(0);
    Bytes members = compiled_members(stored);
    Datum hash = hash_of(members, fcinfo);
    free_list(fcinfo, 0, stored, members);
    return hash;
}

SQL_FUNCTION(specs_hash, hash_of_list(fcinfo));
SQL_FUNCTION(specs_hash_extended, hash_of_list(fcinfo));

/* ---- covers */

/* A list with its set, or a set: all but lists with `===`, and values of older releases. */
static bool has_set(Bytes list)
{
    return list.length > 0 && (list.bytes[0] == LIST_FORMAT || list.bytes[0] == SET_FORMAT);
}

/* The intervals of such bytes: of a list the set stands behind how many bytes it takes. All keys have six bytes or more, but for the first and the last one. */
static Cover intervals_of(Bytes compiled)
{
    const uint8_t *at = compiled.bytes + 1, *end = compiled.bytes + compiled.length;
    Bytes set = {at, compiled.length - 1};
    if (compiled.bytes[0] == LIST_FORMAT && !read_sized(&at, end, &set))
        fail(PEP440_INVALID_LIST);
    size_t most = set.length / 16 + 2;
    Cover cover = {palloc(most * sizeof *cover.intervals), 0, true};
    for (at = set.bytes, end = at + set.length; at < end; cover.count++) {
        KeyInterval *next = &cover.intervals[cover.count];
        if (cover.count == most || !read_sized(&at, end, &next->low) || !read_sized(&at, end, &next->high))
            fail(PEP440_INVALID_LIST);
    }
    return cover;
}

/* The list with `==` for each `===`: it contains what the list contains, and other spellings of that. */
static Bytes loosened(Bytes list)
{
    char *text = normal_text(pep440_normalize_list, list), *end = text;
    for (const char *at = text; *at != 0; at++)
        if (strncmp(at, "===", 3) != 0)
            *end++ = *at;
    return (Bytes){(const uint8_t *)text, (size_t)(end - text)};
}

Cover cover_of(Bytes list)
{
    Bytes compiled = list;
    if (!has_set(compiled))
        expect_ok(write_all(pep440_compile_list, list, &compiled));
    bool is_exact = has_set(compiled);
    if (!is_exact)
        expect_ok(write_all(pep440_compile_list, loosened(list), &compiled));
    Cover cover = intervals_of(compiled);
    cover.is_exact = is_exact;
    return cover;
}

KeyInterval ends_of_cover(const Cover *cover)
{
    Bytes above = {ABOVE_ALL, sizeof ABOVE_ALL};
    if (cover->count == 0)
        return (KeyInterval){above, above};
    return (KeyInterval){cover->intervals[0].low, cover->intervals[cover->count - 1].high};
}

/* ---- matching */

/* The first bytes of the keys of an interval, as first_of_key has them. */
typedef struct {
    uint64 low;
    uint64 high;
} Firsts;

/* The list of the last call, in memory of its own; and, since it came a second time, or is the same in each call, its cover. */
typedef struct {
    MemoryContext memory;
    bool is_constant;
    bool is_known;
    Bytes list;
    Cover cover;
    Firsts *firsts;
} Kept;

bool is_constant(const FmgrInfo *function, int argument)
{
    const Node *call = function->fn_expr;
    const List *arguments = call == NULL ? NIL : IsA(call, OpExpr) ? ((const OpExpr *)call)->args : IsA(call, FuncExpr) ? ((const FuncExpr *)call)->args : NIL;
    return list_length(arguments) > argument && IsA(list_nth(arguments, argument), Const);
}

/* A copy of the list, in place of what was kept. */
static Kept *keep_list(FmgrInfo *function, Bytes list)
{
    Kept *kept = function->fn_extra;
    if (kept == NULL) {
        kept = MemoryContextAllocZero(function->fn_mcxt, sizeof *kept);
        kept->memory = AllocSetContextCreate(function->fn_mcxt, "list of a function", ALLOCSET_SMALL_SIZES);
        function->fn_extra = kept;
    }
    kept->list.length = 0;
    kept->is_known = false;
    MemoryContextReset(kept->memory);
    kept->list = (Bytes){memcpy(MemoryContextAlloc(kept->memory, list.length + 1), list.bytes, list.length), list.length};
    return kept;
}

/* Finds the cover of the list. */
static void know_list(Kept *kept)
{
    MemoryContext before = MemoryContextSwitchTo(kept->memory);
    kept->cover = cover_of(kept->list);
    kept->firsts = palloc((kept->cover.count + 1) * sizeof *kept->firsts);
    for (size_t each = 0; each < kept->cover.count; each++) {
        KeyInterval interval = kept->cover.intervals[each];
        kept->firsts[each] = (Firsts){first_of_key(interval.low), interval.high.length == 0 ? PG_UINT64_MAX : first_of_key(interval.high)};
    }
    kept->is_known = true;
    MemoryContextSwitchTo(before);
}

bool is_in_cover(const Cover *cover, Bytes key)
{
    size_t first = 0, end = cover->count;
    while (first < end) {
        size_t middle = first + (end - first) / 2;
        const KeyInterval *interval = &cover->intervals[middle];
        if (compare_bytes(key, interval->low) < 0)
            end = middle;
        else if (interval->high.length != 0 && compare_bytes(key, interval->high) >= 0)
            first = middle + 1;
        else
            return true;
    }
    return false;
}

/* These two are functions of their own, since a function with room for a version takes longer to begin and to end. */
static pg_noinline bool has_key_of(const Cover *cover, const struct varlena *stored)
{
    VersionBuffer buffer;
    return is_in_cover(cover, version_of(stored, &buffer).key);
}

static pg_noinline bool allows(Bytes list, const struct varlena *stored)
{
    VersionBuffer buffer;
    uint8_t allowed;
    Version version = version_of(stored, &buffer);
    expect_ok(pep440_allows(list.bytes, list.length, version.bytes.bytes, version.bytes.length, PEP440_ALL_PRERELEASES, &allowed));
    return allowed != 0;
}

/* Whether the version is in the cover of the list: by the first bytes of its key, where these decide. */
static inline bool is_covered(const Kept *kept, const struct varlena *stored)
{
    uint64 sought = first_of_version(stored);
    size_t first = 0, end = kept->cover.count;
    while (first < end) {
        size_t middle = first + (end - first) / 2;
        Firsts firsts = kept->firsts[middle];
        if (sought < firsts.low)
            end = middle;
        else if (sought > firsts.high)
            first = middle + 1;
        else
            return (sought > firsts.low && sought < firsts.high) || has_key_of(&kept->cover, stored);
    }
    return false;
}

/* What is known of the list, if it is that of the last call too. */
static const Kept *known_list(FmgrInfo *function, Bytes list)
{
    Kept *kept = function == NULL ? NULL : function->fn_extra;
    if (function == NULL)
        return NULL;
    if (kept == NULL || kept->list.length != list.length || memcmp(kept->list.bytes, list.bytes, list.length) != 0) {
        keep_list(function, list);
        return NULL;
    }
    if (!kept->is_known)
        know_list(kept);
    return kept;
}

/* The cover of a list that is that of the function's last call too, in memory that the function keeps; else NULL. */
static const Cover *known_cover(FmgrInfo *function, Bytes list)
{
    const Kept *known = known_list(function, list);
    return known == NULL ? NULL : &known->cover;
}

/* What is known of the list that is this argument: of a constant all, from the first call on. */
static pg_noinline const Kept *know_argument(FunctionCallInfo fcinfo, int list_at)
{
    FmgrInfo *function = fcinfo->flinfo;
    Kept *kept;
    if (function == NULL || !is_constant(function, list_at))
        return known_list(function, GET_LIST(list_at));
    kept = keep_list(function, GET_LIST(list_at));
    know_list(kept);
    kept->is_constant = true;
    return kept;
}

static inline const Kept *known_argument(FunctionCallInfo fcinfo, int list_at)
{
    const Kept *kept = fcinfo->flinfo == NULL ? NULL : fcinfo->flinfo->fn_extra;
    return kept != NULL && kept->is_constant ? kept : know_argument(fcinfo, list_at);
}

/* Whether the list or the set contains the version, pre-releases like others: by its key where this decides, else by the library. */
static inline bool contains(FunctionCallInfo fcinfo, int list_at, const struct varlena *stored)
{
    const Kept *known = known_argument(fcinfo, list_at);
    bool is_in = known != NULL && is_covered(known, stored);
    return known != NULL && (!is_in || known->cover.is_exact) ? is_in : allows(GET_LIST(list_at), stored);
}

SQL_FUNCTION(specs_contains, BoolGetDatum(contains(fcinfo, 0, GET_STORED(1))));
SQL_FUNCTION(version_contained_by, BoolGetDatum(contains(fcinfo, 1, GET_STORED(0))));
SQL_FUNCTION(text_contained_by, BoolGetDatum(contains(fcinfo, 1, read_version(utf8_argument(fcinfo), NULL))));

/* Whether the list names a pre-release or a developmental release. */
PG_FUNCTION_INFO_V1(specs_any_prerelease);
Datum specs_any_prerelease(PG_FUNCTION_ARGS)
{
    Bytes list = members_argument(fcinfo, 0);
    uint8_t any;
    expect_ok(pep440_any_prerelease(list.bytes, list.length, &any));
    PG_RETURN_BOOL(any != 0);
}

/* ---- what the planner calls, and who joins by keys */

/* The two ends of the list's cover, as an index condition needs them: with no bound the lowest key, and one above all keys. */
static Datum end_of(FunctionCallInfo fcinfo, bool upper)
{
    Cover cover = cover_of(GET_LIST(0));
    KeyInterval ends = ends_of_cover(&cover);
    if (ends.high.length == 0)
        ends.high = (Bytes){ABOVE_ALL, sizeof ABOVE_ALL};
    PG_RETURN_BYTEA_P(make_bytea(upper ? ends.high : ends.low));
}

SQL_FUNCTION(specs_cover_start, end_of(fcinfo, false));
SQL_FUNCTION(specs_cover_end, end_of(fcinfo, true));

/* ---- GiST indexes on lists and sets, for `@>` and `&&`: an entry has the ends of the cover, and the server rechecks each row. It is a bytea: how many bytes the
   low key takes, the low key, and the high key, which has no bytes where there is no bound. */

/* A longer key is cut, which makes an interval longer, if at all. */
enum { MOST_KEY = 120 };

/* The strategy numbers of ranges, whose operators have the same names. */
enum { OVERLAPS = 3, CONTAINS = 7 };

static KeyInterval ends_of_entry(Datum entry)
{
    Bytes value = bytes_of(PG_DETOAST_DATUM_PACKED(entry));
    if (value.length == 0 || value.bytes[0] >= value.length)
        fail(PEP440_INVALID_LIST);
    size_t low = value.bytes[0];
    return (KeyInterval){{value.bytes + 1, low}, {value.bytes + 1 + low, value.length - 1 - low}};
}

static KeyInterval cover_ends(const Cover *cover)
{
    KeyInterval made = ends_of_cover(cover);
    made.low.length = Min(made.low.length, MOST_KEY);
    if (made.high.length > MOST_KEY)
        made.high.length = 0;
    return made;
}

static Datum make_entry(KeyInterval interval)
{
    struct varlena *made = palloc(VARHDRSZ + 1 + interval.low.length + interval.high.length);
    uint8_t *bytes = (uint8_t *)VARDATA(made);
    SET_VARSIZE(made, VARHDRSZ + 1 + interval.low.length + interval.high.length);
    bytes[0] = (uint8_t)interval.low.length;
    memcpy(bytes + 1, interval.low.bytes, interval.low.length);
    memcpy(bytes + 1 + interval.low.length, interval.high.bytes, interval.high.length);
    return PointerGetDatum(made);
}

/* The order of high keys. */
static int compare_ends(Bytes left, Bytes right)
{
    if (left.length == 0 || right.length == 0)
        return (left.length == 0) - (right.length == 0);
    return compare_bytes(left, right);
}

static KeyInterval join_ends(KeyInterval one, KeyInterval other)
{
    return (KeyInterval){compare_bytes(one.low, other.low) <= 0 ? one.low : other.low, compare_ends(one.high, other.high) >= 0 ? one.high : other.high};
}

static bool is_below(Bytes key, Bytes end)
{
    return end.length == 0 || compare_bytes(key, end) < 0;
}

PG_FUNCTION_INFO_V1(specs_gist_compress);
Datum specs_gist_compress(PG_FUNCTION_ARGS)
{
    GISTENTRY *entry = (GISTENTRY *)PG_GETARG_POINTER(0);
    if (!entry->leafkey)
        PG_RETURN_POINTER(entry);
    Cover cover = cover_of(list_of(PG_DETOAST_DATUM_PACKED(entry->key)));
    GISTENTRY *made = palloc(sizeof *made);
    gistentryinit(*made, make_entry(cover_ends(&cover)), entry->rel, entry->page, entry->offset, false);
    PG_RETURN_POINTER(made);
}

static bool is_consistent(FmgrInfo *function, KeyInterval interval, Datum asked, StrategyNumber strategy)
{
    const struct varlena *stored = PG_DETOAST_DATUM_PACKED(asked);
    VersionBuffer buffer;
    if (strategy == CONTAINS) {
        Bytes key = version_of(stored, &buffer).key;
        return compare_bytes(interval.low, key) <= 0 && is_below(key, interval.high);
    }
    if (strategy != OVERLAPS)
        elog(ERROR, "unknown strategy %d", strategy);
    Bytes list = list_of(stored);
    const Cover *known = known_cover(function, list);
    Cover cover = known != NULL ? *known : cover_of(list);
    KeyInterval other = cover_ends(&cover);
    return is_below(interval.low, other.high) && is_below(other.low, interval.high);
}

PG_FUNCTION_INFO_V1(specs_gist_consistent);
Datum specs_gist_consistent(PG_FUNCTION_ARGS)
{
    GISTENTRY *entry = (GISTENTRY *)PG_GETARG_POINTER(0);
    *(bool *)PG_GETARG_POINTER(4) = true;
    PG_RETURN_BOOL(is_consistent(fcinfo->flinfo, ends_of_entry(entry->key), PG_GETARG_DATUM(1), (StrategyNumber)PG_GETARG_UINT16(2)));
}

PG_FUNCTION_INFO_V1(specs_gist_union);
Datum specs_gist_union(PG_FUNCTION_ARGS)
{
    GistEntryVector *entries = (GistEntryVector *)PG_GETARG_POINTER(0);
    KeyInterval all = ends_of_entry(entries->vector[0].key);
    for (int each = 1; each < entries->n; each++)
        all = join_ends(all, ends_of_entry(entries->vector[each].key));
    Datum made = make_entry(all);
    *(int *)PG_GETARG_POINTER(1) = (int)VARSIZE(DatumGetPointer(made));
    return made;
}

/* Where a key is among all keys, from 0 to 1: nearly all begin with the epoch 0. */
static double place_of(Bytes key, double none)
{
    return key.length == 0 ? none : (double)first_of_key(key) / (double)PG_UINT64_MAX;
}

static double length_of(KeyInterval interval)
{
    return place_of(interval.high, 1) - place_of(interval.low, 0);
}

/* How much longer the entry gets. */
PG_FUNCTION_INFO_V1(specs_gist_penalty);
Datum specs_gist_penalty(PG_FUNCTION_ARGS)
{
    KeyInterval kept = ends_of_entry(((GISTENTRY *)PG_GETARG_POINTER(0))->key), added = ends_of_entry(((GISTENTRY *)PG_GETARG_POINTER(1))->key);
    *(float *)PG_GETARG_POINTER(2) = (float)(length_of(join_ends(kept, added)) - length_of(kept));
    PG_RETURN_DATUM(PG_GETARG_DATUM(2));
}

typedef struct {
    KeyInterval interval;
    OffsetNumber number;
} Placed;

static int compare_placed(const void *left, const void *right)
{
    const Placed *one = left, *other = right;
    int order = compare_bytes(one->interval.low, other->interval.low);
    return order != 0 ? order : compare_ends(one->interval.high, other->interval.high);
}

/* One side gets the lower half, the other one the upper half. */
PG_FUNCTION_INFO_V1(specs_gist_picksplit);
Datum specs_gist_picksplit(PG_FUNCTION_ARGS)
{
    GistEntryVector *entries = (GistEntryVector *)PG_GETARG_POINTER(0);
    GIST_SPLITVEC *split = (GIST_SPLITVEC *)PG_GETARG_POINTER(1);
    int count = entries->n - FirstOffsetNumber, half = count / 2;
    Placed *placed = palloc(count * sizeof *placed);
    for (int each = 0; each < count; each++)
        placed[each] = (Placed){ends_of_entry(entries->vector[each + FirstOffsetNumber].key), (OffsetNumber)(each + FirstOffsetNumber)};
    qsort(placed, count, sizeof *placed, compare_placed);
    KeyInterval left = placed[0].interval, right = placed[half].interval;
    split->spl_left = palloc(count * sizeof *split->spl_left);
    split->spl_right = palloc(count * sizeof *split->spl_right);
    split->spl_nleft = half;
    split->spl_nright = count - half;
    for (int each = 0; each < half; each++) {
        left = join_ends(left, placed[each].interval);
        split->spl_left[each] = placed[each].number;
    }
    for (int each = half; each < count; each++) {
        right = join_ends(right, placed[each].interval);
        split->spl_right[each - half] = placed[each].number;
    }
    split->spl_ldatum = make_entry(left);
    split->spl_rdatum = make_entry(right);
    PG_RETURN_POINTER(split);
}

PG_FUNCTION_INFO_V1(specs_gist_same);
Datum specs_gist_same(PG_FUNCTION_ARGS)
{
    bool *are_same = (bool *)PG_GETARG_POINTER(2);
    *are_same = compare_bytes(bytes_of(GET_STORED(0)), bytes_of(GET_STORED(1))) == 0;
    PG_RETURN_POINTER(are_same);
}
