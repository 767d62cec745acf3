/* Versions of Python packages (PEP 440) in SQLite: sort keys for indexes, a collation, normal forms, matching, sets of versions and their intervals.

   Each function is deterministic and innocuous, so it serves in an index on an expression and in a generated column. A version is a TEXT; any
   other value, and a text that is no version, gives NULL (pep440_valid gives 0). A list of specifiers is a TEXT, and a set a BLOB that these functions
   made; a text that is no list is an error that says why. */
#include <string.h>

#include <sqlite3ext.h>
SQLITE_EXTENSION_INIT1

#include "pep440.h"

/* A call of the library that reads a string and writes bytes. */
typedef uint8_t (*Writer)(const uint8_t *, size_t, uint8_t *, size_t, size_t *);

/* A string as the library takes it. */
typedef struct {
    const uint8_t *bytes;
    size_t length;
} Text;

/* What a call wrote: in `here` where that was enough, else in memory of SQLite's. */
typedef struct {
    uint8_t here[256];
    uint8_t *bytes;
    size_t length;
} Written;

/* A first call finds what most strings need; where that is not enough, a second one has the room that the first told. */
static uint8_t write_all(Writer call, Text text, Written *out)
{
    out->bytes = out->here;
    uint8_t status = call(text.bytes, text.length, out->bytes, sizeof out->here, &out->length);
    if (status != PEP440_NO_ROOM)
        return status;
    size_t room = out->length;
    out->bytes = sqlite3_malloc64(room);
    return out->bytes == NULL ? PEP440_OUT_OF_MEMORY : call(text.bytes, text.length, out->bytes, room, &out->length);
}

static void release(Written *out)
{
    if (out->bytes != out->here)
        sqlite3_free(out->bytes);
}

/* The text as the library takes it, which wants no null pointer. Compiled bytes begin with a byte below 9, as no string of a version or a list does: a
   text is never compiled, so another one stands for it that is no version and no list either. */
static Text string_of(const uint8_t *bytes, size_t length)
{
    if (length > 0 && bytes[0] < 9)
        return (Text){(const uint8_t *)"\1", 1};
    return (Text){length == 0 ? (const uint8_t *)"" : bytes, length};
}

/* Whether the value is a TEXT. */
static int is_text(sqlite3_value *value, Text *text)
{
    if (sqlite3_value_type(value) != SQLITE_TEXT)
        return 0;
    const uint8_t *bytes = sqlite3_value_text(value);
    *text = string_of(bytes, bytes == NULL ? 0 : (size_t)sqlite3_value_bytes(value));
    return bytes != NULL;
}

/* The number that a call told; NULL where a text is no version. */
static void give_number(sqlite3_context *context, uint8_t status, int number)
{
    if (status == PEP440_OUT_OF_MEMORY)
        sqlite3_result_error_nomem(context);
    else if (status == PEP440_OK)
        sqlite3_result_int(context, number);
}

/* A call of the library that makes a set of two. */
typedef uint8_t (*Combination)(const uint8_t *, size_t, const uint8_t *, size_t, uint8_t *, size_t, size_t *);

/* A function of SQL; of those that are one call of the library, the call, and whether it writes bytes that are no text; and of an aggregate, what ends it. */
typedef struct {
    const char *name;
    int arguments;
    void (*run)(sqlite3_context *, int, sqlite3_value **);
    Writer call;
    int is_blob;
    Combination combination;
    void (*finish)(sqlite3_context *);
} Function;

/* pep440_key(v), pep440_normalize(v): what the call writes; NULL where v is no version. */
static void give_written(sqlite3_context *context, int count, sqlite3_value **values)
{
    const Function *function = sqlite3_user_data(context);
    Text text;
    Written out;
    (void)count;
    if (!is_text(values[0], &text))
        return;
    uint8_t status = write_all(function->call, text, &out);
    if (status == PEP440_OUT_OF_MEMORY)
        sqlite3_result_error_nomem(context);
    else if (status == PEP440_OK && function->is_blob)
        sqlite3_result_blob64(context, out.bytes, out.length, SQLITE_TRANSIENT);
    else if (status == PEP440_OK)
        sqlite3_result_text64(context, (const char *)out.bytes, out.length, SQLITE_TRANSIENT, SQLITE_UTF8);
    release(&out);
}

/* pep440_valid(v), pep440_specs_valid(specs): whether the call takes the value, 1 or 0; NULL of NULL. */
static void is_valid(sqlite3_context *context, int count, sqlite3_value **values)
{
    const Function *function = sqlite3_user_data(context);
    Text text;
    size_t length;
    uint8_t nothing[1], status = PEP440_INVALID_VERSION;
    (void)count;
    if (sqlite3_value_type(values[0]) == SQLITE_NULL)
        return;
    if (is_text(values[0], &text))
        status = function->call(text.bytes, text.length, nothing, 0, &length);
    give_number(context, status == PEP440_OUT_OF_MEMORY ? status : PEP440_OK, status == PEP440_OK || status == PEP440_NO_ROOM);
}

/* pep440_compare(a, b): -1, 0 or 1 where a is below b, equal to it or above it. */
static void compare(sqlite3_context *context, int count, sqlite3_value **values)
{
    Text left, right;
    int8_t order = 0;
    (void)count;
    if (!is_text(values[0], &left) || !is_text(values[1], &right))
        return;
    uint8_t status = pep440_compare(left.bytes, left.length, right.bytes, right.length, &order);
    give_number(context, status, order);
}

/* ---- the collation: versions in their order, then all other texts as bytes. A collation cannot fail, so without memory the statement is interrupted. */

/* Whether the text is a version; its key. */
static int has_key(sqlite3 *db, Text text, Written *key)
{
    uint8_t status = write_all(pep440_sort_key, string_of(text.bytes, text.length), key);
    if (status == PEP440_OUT_OF_MEMORY)
        sqlite3_interrupt(db);
    return status == PEP440_OK;
}

static int compare_bytes(Text left, Text right)
{
    size_t length = left.length < right.length ? left.length : right.length;
    int order = length == 0 ? 0 : memcmp(left.bytes, right.bytes, length);
    return order != 0 ? order : (left.length > right.length) - (left.length < right.length);
}

static int collate(void *db, int left_length, const void *left, int right_length, const void *right)
{
    Text one = {left, (size_t)left_length}, other = {right, (size_t)right_length};
    Written keys[2];
    int is_version = has_key(db, one, &keys[0]), other_is = has_key(db, other, &keys[1]), order = other_is - is_version;
    if (order == 0 && is_version)
        order = compare_bytes((Text){keys[0].bytes, keys[0].length}, (Text){keys[1].bytes, keys[1].length});
    else if (order == 0)
        order = compare_bytes(one, other);
    release(&keys[0]);
    release(&keys[1]);
    return order;
}

/* ---- sets: the byte 7, and of each interval the low key, and the high key, which has no bytes where there is no bound; each behind how many bytes it takes, and
   that behind how many bytes it takes */

enum { SET_FORMAT = 7, VERSION_FORMAT = 4, MOST_LENGTH = 8 };

typedef struct {
    Text low;
    Text high;
} Interval;

/* Whether the value is a list, or a set that these functions made. */
static int is_set(sqlite3_value *value, Text *set)
{
    if (sqlite3_value_type(value) != SQLITE_BLOB)
        return is_text(value, set);
    *set = (Text){sqlite3_value_blob(value), (size_t)sqlite3_value_bytes(value)};
    return set->length > 0 && set->bytes[0] == SET_FORMAT;
}

static uint8_t combine(Combination call, Text left, Text right, Written *out)
{
    out->bytes = out->here;
    uint8_t status = call(left.bytes, left.length, right.bytes, right.length, out->bytes, sizeof out->here, &out->length);
    if (status != PEP440_NO_ROOM)
        return status;
    size_t room = out->length;
    out->bytes = sqlite3_malloc64(room);
    return out->bytes == NULL ? PEP440_OUT_OF_MEMORY : call(left.bytes, left.length, right.bytes, right.length, out->bytes, room, &out->length);
}

/* Passes over bytes behind how many they are; 0 where there are none. */
static int read_sized(Text *rest, Text *found)
{
    size_t length = 0;
    if (rest->length == 0 || rest->bytes[0] > MOST_LENGTH || rest->bytes[0] >= rest->length)
        return 0;
    uint8_t taken = rest->bytes[0];
    for (uint8_t each = 1; each <= taken; each++)
        length = length << 8 | rest->bytes[each];
    if (length > rest->length - 1 - taken)
        return 0;
    *found = (Text){rest->bytes + 1 + taken, length};
    *rest = (Text){found->bytes + length, rest->length - 1 - taken - length};
    return 1;
}

/* Passes over an interval; 0 where there are no more. */
static int read_interval(Text *rest, Interval *found)
{
    return read_sized(rest, &found->low) && read_sized(rest, &found->high);
}

/* Why there is no list or no set, which SQLite frees; null where memory is out. Of a set that is damaged the status may name the other side. The lines with
   the caret stand as the library writes them. */
static char *reason_of(uint8_t status, Text list)
{
    Written why;
    if (status == PEP440_OUT_OF_MEMORY)
        return NULL;
    if (status == PEP440_NO_SET)
        return sqlite3_mprintf("a list with === has no set");
    if (list.bytes[0] == SET_FORMAT)
        return sqlite3_mprintf("not a set");
    status = write_all(pep440_list_error, list, &why);
    char *made = status != PEP440_OK ? NULL : why.length == 0 ? sqlite3_mprintf("not a set") : sqlite3_mprintf("%.*s", (int)why.length, (const char *)why.bytes);
    release(&why);
    return made;
}

static void fail_list(sqlite3_context *context, uint8_t status, Text list)
{
    char *why = reason_of(status, list);
    if (why != NULL)
        sqlite3_result_error(context, why, -1);
    else
        sqlite3_result_error_nomem(context);
    sqlite3_free(why);
}

/* Ends with the set, or with the error of its status. */
static void give_set(sqlite3_context *context, uint8_t status, Text left, Text right, Written *set)
{
    if (status == PEP440_OK)
        sqlite3_result_blob64(context, set->bytes, set->length, SQLITE_TRANSIENT);
    else
        fail_list(context, status, status == PEP440_INVALID_RIGHT ? right : left);
    release(set);
}

/* pep440_set(a), pep440_union(a, b), pep440_intersection(a, b): a set of one or two. */
static void give_combined(sqlite3_context *context, int count, sqlite3_value **values)
{
    const Function *function = sqlite3_user_data(context);
    Text left, right;
    Written set;
    if (!is_set(values[0], &left) || !is_set(values[count - 1], &right))
        return;
    give_set(context, combine(function->combination, left, right, &set), left, right, &set);
}

/* pep440_complement(a) */
static void give_complement(sqlite3_context *context, int count, sqlite3_value **values)
{
    Text given;
    Written set;
    (void)count;
    if (is_set(values[0], &given))
        give_set(context, write_all(pep440_complement, given, &set), given, given, &set);
}

/* pep440_difference(a, b) */
static void give_difference(sqlite3_context *context, int count, sqlite3_value **values)
{
    Text left, right;
    Written outside, set = {.bytes = set.here};
    (void)count;
    if (!is_set(values[0], &left) || !is_set(values[1], &right))
        return;
    uint8_t status = write_all(pep440_complement, right, &outside);
    if (status == PEP440_OK)
        status = combine(pep440_intersection, left, (Text){outside.bytes, outside.length}, &set);
    else if (status == PEP440_INVALID_LIST)
        status = PEP440_INVALID_RIGHT;
    give_set(context, status, left, right, &set);
    release(&outside);
}

/* pep440_is_subset(a, b): 1 or 0 */
static void is_subset(sqlite3_context *context, int count, sqlite3_value **values)
{
    Text left, right;
    uint8_t inside = 0;
    (void)count;
    if (!is_set(values[0], &left) || !is_set(values[1], &right))
        return;
    uint8_t status = pep440_is_subset(left.bytes, left.length, right.bytes, right.length, &inside);
    if (status == PEP440_OK)
        sqlite3_result_int(context, inside);
    else
        fail_list(context, status, status == PEP440_INVALID_RIGHT ? right : left);
}

/* The set of the rows so far; no bytes before the first one. */
typedef struct {
    uint8_t *bytes;
    size_t length;
    int has_failed;
} Total;

/* pep440_union_agg(a), pep440_intersect_agg(a): of all rows, but for NULL. */
static void add_row(sqlite3_context *context, int count, sqlite3_value **values)
{
    const Function *function = sqlite3_user_data(context);
    Total *total = sqlite3_aggregate_context(context, sizeof *total);
    Text given;
    Written set;
    (void)count;
    if (total == NULL)
        sqlite3_result_error_nomem(context);
    if (total == NULL || total->has_failed || !is_set(values[0], &given))
        return;
    Text before = total->bytes == NULL ? given : (Text){total->bytes, total->length};
    uint8_t status = combine(function->combination, before, given, &set);
    uint8_t *kept = status == PEP440_OK ? sqlite3_realloc64(total->bytes, set.length) : NULL;
    if (kept != NULL) {
        total->bytes = memcpy(kept, set.bytes, set.length);
        total->length = set.length;
    } else {
        total->has_failed = 1;
        fail_list(context, status == PEP440_OK ? PEP440_OUT_OF_MEMORY : status, given);
    }
    release(&set);
}

static void give_total(sqlite3_context *context)
{
    Total *total = sqlite3_aggregate_context(context, 0);
    if (total != NULL && total->bytes != NULL && !total->has_failed)
        sqlite3_result_blob64(context, total->bytes, total->length, SQLITE_TRANSIENT);
    if (total != NULL)
        sqlite3_free(total->bytes);
}

/* ---- sets as text */

/* A sort key ends so where the version is a release alone; and so, where a key is a bound above all post-releases of it. */
static const uint8_t RELEASE_END[] = {0, 0x50, 0, 0x10, 0}, POSTS_END[] = {0, 0x50, 0x20, 0x10, 0};

/* What a bound is: none, just below a version, or above the post-releases of one or above a version with a local part, behind whose key it has a zero. */
typedef enum { NONE, BELOW, ABOVE } Side;

/* The normal form of a version's key: of a release of zeros, which are not in a key, with one zero. */
static uint8_t normalize_key(uint8_t *compiled, size_t length, Written *normal)
{
    size_t numbers = (size_t)compiled[0] + 1;
    compiled[-1] = VERSION_FORMAT;
    compiled[length] = 1;
    return write_all(pep440_normalize, (Text){compiled - 1, length + (numbers < length && compiled[numbers] != 0 ? 1 : 2)}, normal);
}

/* The text of a bound, which the caller frees; null where the status is not PEP440_OK. */
static uint8_t bound_text(Text key, char **text, Side *side)
{
    const size_t end = sizeof POSTS_END;
    const char *suffix = "";
    uint8_t *compiled = sqlite3_malloc64(key.length + 2);
    size_t length = key.length;
    Written normal;
    *text = NULL;
    if (compiled == NULL)
        return PEP440_OUT_OF_MEMORY;
    memcpy(compiled + 1, key.bytes, key.length);
    uint8_t status = normalize_key(compiled + 1, length, &normal);
    *side = status == PEP440_OK ? BELOW : ABOVE;
    if (status == PEP440_INVALID_VERSION) {
        if (length >= end && memcmp(compiled + 1 + length - end, POSTS_END, end) == 0) {
            memcpy(compiled + 1 + length - end, RELEASE_END, end);
            suffix = ".post*";
        } else
            length--;
        status = length == 0 ? status : normalize_key(compiled + 1, length, &normal);
    }
    if (status == PEP440_OK)
        *text = sqlite3_mprintf("%.*s%s", (int)normal.length, (const char *)normal.bytes, suffix);
    release(&normal);
    sqlite3_free(compiled);
    return status == PEP440_OK && *text == NULL ? PEP440_OUT_OF_MEMORY : status;
}

/* Ends with the interval as text: `[1, 2.dev0)`, `(1.post*, *)`. */
static void give_interval(sqlite3_context *context, Interval interval)
{
    char *low = NULL, *high = NULL;
    Side from = NONE, to = NONE;
    uint8_t status = interval.low.length == 0 ? PEP440_OK : bound_text(interval.low, &low, &from);
    if (status == PEP440_OK && interval.high.length != 0)
        status = bound_text(interval.high, &high, &to);
    char start = from == BELOW ? '[' : '(', end = to == ABOVE ? ']' : ')';
    char *text = status != PEP440_OK ? NULL : sqlite3_mprintf("%c%s, %s%c", start, low == NULL ? "*" : low, high == NULL ? "*" : high, end);
    if (text != NULL)
        sqlite3_result_text(context, text, -1, sqlite3_free);
    else if (status == PEP440_OK || status == PEP440_OUT_OF_MEMORY)
        sqlite3_result_error_nomem(context);
    else
        sqlite3_result_error(context, "not a set", -1);
    sqlite3_free(low);
    sqlite3_free(high);
}

/* ---- matching */

/* pep440_is_prerelease(v): whether v is a pre-release or a developmental release, 1 or 0. */
static void is_prerelease(sqlite3_context *context, int count, sqlite3_value **values)
{
    Text text;
    uint8_t contained, prerelease = 0;
    (void)count;
    if (!is_text(values[0], &text))
        return;
    uint8_t status = pep440_contains((const uint8_t *)"", 0, text.bytes, text.length, &contained, &prerelease);
    give_number(context, status, prerelease);
}

/* A compiled list, which SQLite keeps for a statement. */
typedef struct {
    size_t length;
    uint8_t bytes[];
} Compiled;

/* The list of the first argument, compiled once a statement where it is the same in each row. Sets `made` to what the caller must give to keep_list;
   null, and the result an error, where there is none. */
static const Compiled *compiled_list(sqlite3_context *context, sqlite3_value *value, Compiled **made)
{
    const Compiled *kept = sqlite3_get_auxdata(context, 0);
    Text list;
    Written out;
    *made = NULL;
    if (kept != NULL || !is_text(value, &list))
        return kept;
    uint8_t status = write_all(pep440_compile_list, list, &out);
    if (status == PEP440_OK)
        *made = sqlite3_malloc64(sizeof **made + out.length);
    if (status == PEP440_INVALID_LIST || status == PEP440_NO_LIST)
        fail_list(context, status, list);
    else if (*made == NULL)
        sqlite3_result_error_nomem(context);
    else {
        (*made)->length = out.length;
        memcpy((*made)->bytes, out.bytes, out.length);
    }
    release(&out);
    return *made;
}

/* SQLite frees it, at once if it cannot keep it. */
static void keep_list(sqlite3_context *context, Compiled *made)
{
    if (made != NULL)
        sqlite3_set_auxdata(context, 0, made, sqlite3_free);
}

/* pep440_match(specs, v): whether the list, or the set, has the version, 1 or 0. Pre-releases are versions like others. */
static void match(sqlite3_context *context, int count, sqlite3_value **values)
{
    Compiled *made = NULL;
    Text text, set;
    uint8_t allowed = 0;
    (void)count;
    if (sqlite3_value_type(values[1]) == SQLITE_NULL)
        return;
    if (sqlite3_value_type(values[0]) != SQLITE_BLOB) {
        const Compiled *list = compiled_list(context, values[0], &made);
        set = list == NULL ? (Text){NULL, 0} : (Text){list->bytes, list->length};
    } else if (!is_set(values[0], &set))
        return;
    if (set.bytes != NULL && is_text(values[1], &text)) {
        uint8_t status = pep440_allows(set.bytes, set.length, text.bytes, text.length, PEP440_ALL_PRERELEASES, &allowed);
        give_number(context, status, allowed);
    }
    keep_list(context, made);
}

/* ---- pep440_intervals(specs): a table of the intervals of a list, or of a set: keys, low and high, between which is exactly what it has, and both as text;
   `===` counts as `==` */

enum { LOW, HIGH, BOUNDS, SPECS };

/* The set, in memory of its own, and what of it follows the interval. The list is kept for the hidden column. */
typedef struct {
    sqlite3_vtab_cursor base;
    uint8_t *set;
    Text rest;
    Interval interval;
    int is_at_end;
    sqlite3_int64 row;
    sqlite3_value *specs;
} Intervals;

static int intervals_connect(sqlite3 *db, void *unused, int words, const char *const *names, sqlite3_vtab **table, char **error)
{
    (void)unused, (void)words, (void)names, (void)error;
    int status = sqlite3_declare_vtab(db, "CREATE TABLE intervals(low BLOB, high BLOB, bounds TEXT, specs HIDDEN)");
    if (status != SQLITE_OK)
        return status;
    sqlite3_vtab_config(db, SQLITE_VTAB_INNOCUOUS);
    *table = sqlite3_malloc(sizeof **table);
    if (*table == NULL)
        return SQLITE_NOMEM;
    memset(*table, 0, sizeof **table);
    return SQLITE_OK;
}

static int intervals_disconnect(sqlite3_vtab *table)
{
    sqlite3_free(table);
    return SQLITE_OK;
}

/* How many intervals the list has, where the planner knows it already; else nearly all lists have no more than two. */
static sqlite3_int64 count_intervals(sqlite3_index_info *info, int constraint)
{
#if SQLITE_VERSION_NUMBER >= 3038000
    sqlite3_value *value;
    Text list;
    size_t bytes, keys, none[1];
    uint8_t nothing[1];
    if (sqlite3_libversion_number() >= 3038000 && sqlite3_vtab_rhs_value(info, constraint, &value) == SQLITE_OK && is_set(value, &list) &&
        pep440_boundaries(list.bytes, list.length, nothing, 0, none, 0, &bytes, &keys) == PEP440_NO_ROOM)
        return (sqlite3_int64)keys / 2;
#else
    (void)info, (void)constraint;
#endif
    return 2;
}

/* The list is the one argument. Without it there are no intervals, at a cost that no other plan has; but a join that has it and cannot give it yet is
   planned in another order. To begin again costs more than to read the next interval. */
static int intervals_best_index(sqlite3_vtab *table, sqlite3_index_info *info)
{
    int status = SQLITE_OK;
    (void)table;
    for (int each = 0; each < info->nConstraint; each++) {
        if (info->aConstraint[each].iColumn != SPECS || info->aConstraint[each].op != SQLITE_INDEX_CONSTRAINT_EQ)
            continue;
        if (info->aConstraint[each].usable) {
            info->aConstraintUsage[each].argvIndex = 1;
            info->aConstraintUsage[each].omit = 1;
            info->estimatedRows = count_intervals(info, each);
            info->estimatedCost = 10 + (double)info->estimatedRows;
            return SQLITE_OK;
        }
        status = SQLITE_CONSTRAINT;
    }
    return status;
}

static int intervals_open(sqlite3_vtab *table, sqlite3_vtab_cursor **cursor)
{
    (void)table;
    Intervals *made = sqlite3_malloc(sizeof *made);
    if (made == NULL)
        return SQLITE_NOMEM;
    memset(made, 0, sizeof *made);
    *cursor = &made->base;
    return SQLITE_OK;
}

static void forget(Intervals *found)
{
    sqlite3_free(found->set);
    sqlite3_value_free(found->specs);
    found->set = NULL;
    found->specs = NULL;
    found->is_at_end = 1;
}

static int intervals_close(sqlite3_vtab_cursor *cursor)
{
    forget((Intervals *)cursor);
    sqlite3_free(cursor);
    return SQLITE_OK;
}

/* Says why there are no intervals, in what SQLite frees. */
static int no_intervals(sqlite3_vtab_cursor *cursor, Text list, uint8_t status)
{
    sqlite3_free(cursor->pVtab->zErrMsg);
    cursor->pVtab->zErrMsg = reason_of(status, list);
    return cursor->pVtab->zErrMsg == NULL ? SQLITE_NOMEM : SQLITE_ERROR;
}

/* The set of the list. */
static uint8_t find(Intervals *found, Text list)
{
    Written set;
    uint8_t status = combine(pep440_intersection, list, list, &set);
    if (status == PEP440_OK) {
        found->set = sqlite3_malloc64(set.length);
        status = found->set == NULL ? PEP440_OUT_OF_MEMORY : PEP440_OK;
    }
    if (status == PEP440_OK)
        found->rest = (Text){(const uint8_t *)memcpy(found->set, set.bytes, set.length) + 1, set.length - 1};
    release(&set);
    return status;
}

/* The set of a list with `===`, with `==` in its place: in a list three `=` stand together nowhere else. */
static uint8_t find_equal(Intervals *found, Text list)
{
    uint8_t *bytes = sqlite3_malloc64(list.length), status;
    Text equal = {bytes, 0};
    if (bytes == NULL)
        return PEP440_OUT_OF_MEMORY;
    for (size_t at = 0; at < list.length; at++)
        if (at < 2 || memcmp(list.bytes + at - 2, "===", 3) != 0)
            bytes[equal.length++] = list.bytes[at];
    status = find(found, equal);
    sqlite3_free(bytes);
    return status;
}

static int intervals_next(sqlite3_vtab_cursor *cursor)
{
    Intervals *found = (Intervals *)cursor;
    found->is_at_end = !read_interval(&found->rest, &found->interval);
    found->row++;
    return SQLITE_OK;
}

static int intervals_filter(sqlite3_vtab_cursor *cursor, int number, const char *name, int count, sqlite3_value **values)
{
    Intervals *found = (Intervals *)cursor;
    Text list;
    (void)number, (void)name;
    forget(found);
    if (count == 0 || !is_set(values[0], &list))
        return SQLITE_OK;
    found->specs = sqlite3_value_dup(values[0]);
    if (found->specs == NULL)
        return SQLITE_NOMEM;
    uint8_t status = find(found, list);
    if (status == PEP440_NO_SET)
        status = find_equal(found, list);
    if (status != PEP440_OK)
        return no_intervals(cursor, list, status);
    found->row = 0;
    return intervals_next(cursor);
}

static int intervals_eof(sqlite3_vtab_cursor *cursor)
{
    return ((const Intervals *)cursor)->is_at_end;
}

/* No low key is an empty blob, since each key is at least that; no high key is NULL. */
static int intervals_column(sqlite3_vtab_cursor *cursor, sqlite3_context *context, int column)
{
    const Intervals *found = (const Intervals *)cursor;
    Text key = column == LOW ? found->interval.low : found->interval.high;
    if (column == SPECS)
        sqlite3_result_value(context, found->specs);
    else if (column == BOUNDS)
        give_interval(context, found->interval);
    else if (key.length != 0)
        sqlite3_result_blob64(context, key.bytes, key.length, SQLITE_TRANSIENT);
    else if (column == LOW)
        sqlite3_result_zeroblob(context, 0);
    return SQLITE_OK;
}

static int intervals_rowid(sqlite3_vtab_cursor *cursor, sqlite3_int64 *rowid)
{
    *rowid = ((const Intervals *)cursor)->row;
    return SQLITE_OK;
}

/* Without xCreate the table is there in each database, and nobody makes another of its kind. */
static const sqlite3_module INTERVALS = {
    .iVersion = 0,
    .xConnect = intervals_connect,
    .xBestIndex = intervals_best_index,
    .xDisconnect = intervals_disconnect,
    .xOpen = intervals_open,
    .xClose = intervals_close,
    .xFilter = intervals_filter,
    .xNext = intervals_next,
    .xEof = intervals_eof,
    .xColumn = intervals_column,
    .xRowid = intervals_rowid,
};

/* SQLite finds this name for a file pep440.so: it drops digits. */
__attribute__((visibility("default"))) int sqlite3_pep_init(sqlite3 *db, char **error, const sqlite3_api_routines *api)
{
    static Function functions[] = {
        {"pep440_key", 1, give_written, .call = pep440_sort_key, .is_blob = 1},
        {"pep440_normalize", 1, give_written, .call = pep440_normalize},
        {"pep440_valid", 1, is_valid, .call = pep440_normalize},
        {"pep440_specs_valid", 1, is_valid, .call = pep440_normalize_list},
        {"pep440_compare", 2, compare, .call = NULL},
        {"pep440_is_prerelease", 1, is_prerelease, .call = NULL},
        {"pep440_match", 2, match, .call = NULL},
        {"pep440_set", 1, give_combined, .combination = pep440_intersection},
        {"pep440_intersection", 2, give_combined, .combination = pep440_intersection},
        {"pep440_union", 2, give_combined, .combination = pep440_union},
        {"pep440_difference", 2, give_difference, .call = NULL},
        {"pep440_complement", 1, give_complement, .call = NULL},
        {"pep440_is_subset", 2, is_subset, .call = NULL},
        {"pep440_intersect_agg", 1, add_row, .combination = pep440_intersection, .finish = give_total},
        {"pep440_union_agg", 1, add_row, .combination = pep440_union, .finish = give_total},
    };
    const int flags = SQLITE_UTF8 | SQLITE_DETERMINISTIC | SQLITE_INNOCUOUS;
    int status = SQLITE_OK;
    (void)error;
    SQLITE_EXTENSION_INIT2(api);
    for (Function *each = functions; each < functions + sizeof functions / sizeof *functions && status == SQLITE_OK; each++)
        status = each->finish == NULL ? sqlite3_create_function_v2(db, each->name, each->arguments, flags, each, each->run, NULL, NULL, NULL)
                                      : sqlite3_create_function_v2(db, each->name, each->arguments, flags, each, NULL, each->run, each->finish, NULL);
    if (status == SQLITE_OK)
        status = sqlite3_create_collation_v2(db, "pep440", SQLITE_UTF8, db, collate, NULL);
    return status == SQLITE_OK ? sqlite3_create_module_v2(db, "pep440_intervals", &INTERVALS, NULL, NULL) : status;
}
