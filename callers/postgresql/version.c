/* The type pep440: input and output, order, hashes, what indexes and sorts call, and functions that return a part of a version. */
#include "extension.h"

PG_MODULE_MAGIC;

/* ---- what all files share */

/* The library asks for memory all along its work. Once the statement is to end it gets none, so that its call returns, and `fail` ends the statement. The linker
   has its requests of malloc come here by these names (--wrap). */
extern void *__real_malloc(size_t size);
extern void *__real_realloc(void *block, size_t size);
extern void *__wrap_malloc(size_t size);
extern void *__wrap_realloc(void *block, size_t size);

/* Whether CHECK_FOR_INTERRUPTS would end the statement. */
static bool is_to_end(void)
{
    return (QueryCancelPending || ProcDiePending) && InterruptHoldoffCount == 0 && QueryCancelHoldoffCount == 0 && CritSectionCount == 0;
}

void *__wrap_malloc(size_t size)
{
    return is_to_end() ? NULL : __real_malloc(size);
}

void *__wrap_realloc(void *block, size_t size)
{
    return is_to_end() ? NULL : __real_realloc(block, size);
}

void fail(uint8_t status)
{
    if (status == PEP440_OUT_OF_MEMORY) {
        CHECK_FOR_INTERRUPTS();
        ereport(ERROR, (errcode(ERRCODE_OUT_OF_MEMORY), errmsg("out of memory")));
    }
    ereport(ERROR, (errcode(ERRCODE_DATA_CORRUPTED), errmsg("stored bytes are no value of this type")));
}

/* The text in UTF-8, which the library reads: the server may have another encoding. In SQL_ASCII bytes have none, and the library rejects those that are no
   UTF-8, as it does texts that are too long. The library would take bytes that begin with a format as compiled: a text is none, so another one stands for
   it that is no version and no list either. */
static Bytes utf8_of(const char *text, int length)
{
    bool is_passed = GetDatabaseEncoding() == PG_SQL_ASCII || length > MOST_TEXT;
    const char *utf8 = is_passed ? text : pg_server_to_any(text, length, PG_UTF8);
    if (length > 0 && utf8[0] >= VERSION_FORMAT && utf8[0] <= SET_FORMAT)
        return (Bytes){(const uint8_t *)"\1", 1};
    return (Bytes){(const uint8_t *)utf8, utf8 == text ? (size_t)length : strlen(utf8)};
}

char *server_text(Bytes utf8)
{
    char *text = pnstrdup((const char *)utf8.bytes, utf8.length);
    return GetDatabaseEncoding() == PG_SQL_ASCII ? text : pg_any_to_server(text, (int)utf8.length, PG_UTF8);
}

Bytes utf8_argument(FunctionCallInfo fcinfo)
{
    Bytes given = bytes_of(PG_GETARG_TEXT_PP(0));
    return utf8_of((const char *)given.bytes, (int)given.length);
}

Datum read_cstring(FunctionCallInfo fcinfo, Reader read)
{
    const char *text = PG_GETARG_CSTRING(0);
    return PointerGetDatum(read(utf8_of(text, (int)strlen(text)), fcinfo->context));
}

Datum read_text(FunctionCallInfo fcinfo, Reader read)
{
    return PointerGetDatum(read(utf8_argument(fcinfo), NULL));
}

/* The binary form of both types is a byte that says which form it is, 1, and the normal form as a text. So what is received is read like any
   other text, and nothing in it is trusted. */
Datum binary_of(const char *normal)
{
    StringInfoData buffer;
    pq_begintypsend(&buffer);
    pq_sendbyte(&buffer, 1);
    pq_sendtext(&buffer, normal, (int)strlen(normal));
    return PointerGetDatum(pq_endtypsend(&buffer));
}

Datum read_binary(FunctionCallInfo fcinfo, Reader read)
{
    StringInfo message = (StringInfo)PG_GETARG_POINTER(0);
    int length, form = pq_getmsgbyte(message);
    if (form != 1)
        ereport(ERROR, (errcode(ERRCODE_INVALID_BINARY_REPRESENTATION), errmsg("unknown binary form %d", form)));
    const char *text = pq_getmsgtext(message, message->len - message->cursor, &length);
    return PointerGetDatum(read(utf8_of(text, length), NULL));
}

uint8_t write_all(Writer call, Bytes read, Bytes *out)
{
    size_t room = 256 + 5 * read.length;
    uint8_t *bytes = palloc(room + 1);
    uint8_t status = call(read.bytes, read.length, bytes, room, &out->length);
    if (status == PEP440_NO_ROOM) {
        CHECK_FOR_INTERRUPTS();
        pfree(bytes);
        room = out->length;
        bytes = palloc(room + 1);
        status = call(read.bytes, read.length, bytes, room, &out->length);
    }
    out->bytes = bytes;
    return status;
}

char *normal_text(Writer call, Bytes value)
{
    Bytes normal;
    expect_ok(write_all(call, value, &normal));
    char *text = (char *)unconstify(uint8_t *, normal.bytes);
    text[normal.length] = 0;
    return text;
}

struct varlena *make_bytea(Bytes bytes)
{
    struct varlena *made = palloc(VARHDRSZ + bytes.length);
    SET_VARSIZE(made, VARHDRSZ + bytes.length);
    memcpy(VARDATA(made), bytes.bytes, bytes.length);
    return made;
}

Datum hash_of(Bytes bytes, FunctionCallInfo fcinfo)
{
    if (PG_NARGS() == 1)
        return hash_any(bytes.bytes, (int)bytes.length);
    return hash_any_extended(bytes.bytes, (int)bytes.length, (uint64)PG_GETARG_INT64(1));
}

struct varlena *fail_text(Bytes text, const char *type, Writer reason, Node *context)
{
    Bytes why;
    expect_ok(write_all(reason, text, &why));
    while (why.length > 0 && why.bytes[why.length - 1] == '\n')
        why.length--;
    ereturn(context, NULL, (errcode(ERRCODE_INVALID_TEXT_REPRESENTATION),
                            errmsg("invalid input syntax for type %s: \"%s\"", type, server_text(text)), errdetail("%s", server_text(why))));
}

/* ---- values */

static uint8_t compile_version(Bytes text, VersionBuffer *buffer, size_t *length)
{
    return text.length > MOST_TEXT ? PEP440_NO_ROOM : pep440_compile(text.bytes, text.length, buffer->bytes, sizeof buffer->bytes, length);
}

struct varlena *read_version(Bytes text, Node *context)
{
    VersionBuffer buffer;
    size_t length;
    uint8_t status = compile_version(text, &buffer, &length);
    if (status == PEP440_INVALID_VERSION)
        return fail_text(text, "pep440", pep440_version_error, context);
    if (status == PEP440_NO_ROOM)
        ereturn(context, NULL, (errcode(ERRCODE_PROGRAM_LIMIT_EXCEEDED), errmsg("version is too long for type %s", "pep440"),
                                errdetail("It takes more than %d bytes, and no index could keep it; or its text has more than %d.", MOST_BYTES, MOST_TEXT)));
    expect_ok(status);
    return make_version((Bytes){buffer.bytes, length});
}

TEXT_FUNCTIONS(version, read_version, normal_argument(fcinfo));

PG_FUNCTION_INFO_V1(version_valid);
Datum version_valid(PG_FUNCTION_ARGS)
{
    Bytes text = utf8_argument(fcinfo);
    VersionBuffer buffer;
    size_t length;
    uint8_t status = compile_version(text, &buffer, &length);
    if (status == PEP440_OUT_OF_MEMORY)
        fail(status);
    PG_RETURN_BOOL(status == PEP440_OK);
}

/* ---- order */

int compare_bytes(Bytes left, Bytes right)
{
    int order = memcmp(left.bytes, right.bytes, Min(left.length, right.length));
    return order != 0 ? (order > 0) - (order < 0) : (left.length > right.length) - (left.length < right.length);
}

static int order_of(FunctionCallInfo fcinfo)
{
    struct varlena *left = GET_STORED(0), *right = GET_STORED(1);
    int order = compare_versions(left, right);
    PG_FREE_IF_COPY(left, 0);
    PG_FREE_IF_COPY(right, 1);
    return order;
}

/* A version and a key alone, as a cover has it: the version is the first argument, or the second one. */
static int order_of_key(FunctionCallInfo fcinfo, int version_at)
{
    struct varlena *stored = GET_STORED(version_at), *key = GET_STORED(1 - version_at);
    VersionBuffer buffer;
    int order = compare_bytes(version_of(stored, &buffer).key, bytes_of(key));
    PG_FREE_IF_COPY(stored, version_at);
    PG_FREE_IF_COPY(key, 1 - version_at);
    return version_at == 0 ? order : -order;
}

/* What a comparison keeps: whether its second argument is a constant, and of this one the number of its first bytes. */
typedef struct {
    bool is_constant;
    uint64 first;
} Second;

static pg_noinline const Second *know_second(FunctionCallInfo fcinfo)
{
    Second *second = MemoryContextAllocZero(fcinfo->flinfo->fn_mcxt, sizeof *second);
    second->is_constant = is_constant(fcinfo->flinfo, 1);
    if (second->is_constant)
        second->first = first_of_version(GET_STORED(1));
    return fcinfo->flinfo->fn_extra = second;
}

/* As order_of, of a filter: where the first bytes decide, nothing is read of a constant. */
static inline int order_of_row(FunctionCallInfo fcinfo)
{
    const Second *second = fcinfo->flinfo == NULL ? NULL : fcinfo->flinfo->fn_extra;
    if (second == NULL && fcinfo->flinfo != NULL && fcinfo->flinfo->fn_expr != NULL)
        second = know_second(fcinfo);
    if (second != NULL && second->is_constant) {
        uint64 first = first_of_version(GET_STORED(0));
        if (first != second->first)
            return first < second->first ? -1 : 1;
    }
    return order_of(fcinfo);
}

COMPARISONS(version_, , order_of_row(fcinfo));
COMPARISONS(version_, _key, order_of_key(fcinfo, 0));
COMPARISONS(key_, _version, order_of_key(fcinfo, 1));
SQL_FUNCTION(version_ne, BoolGetDatum(order_of(fcinfo) != 0));
SQL_FUNCTION(version_cmp, Int32GetDatum(order_of(fcinfo)));
SQL_FUNCTION(version_cmp_key, Int32GetDatum(order_of_key(fcinfo, 0)));
SQL_FUNCTION(key_cmp_version, Int32GetDatum(order_of_key(fcinfo, 1)));
SQL_FUNCTION(version_smaller, PG_GETARG_DATUM(order_of(fcinfo) <= 0 ? 0 : 1));
SQL_FUNCTION(version_larger, PG_GETARG_DATUM(order_of(fcinfo) >= 0 ? 0 : 1));

/* ---- hashes: equal versions have equal keys */

static Datum hash_of_version(FunctionCallInfo fcinfo)
{
    struct varlena *stored = GET_STORED(0);
    VersionBuffer buffer;
    Datum hash = hash_of(version_of(stored, &buffer).key, fcinfo);
    PG_FREE_IF_COPY(stored, 0);
    return hash;
}

SQL_FUNCTION(version_hash, hash_of_version(fcinfo));
SQL_FUNCTION(version_hash_extended, hash_of_version(fcinfo));

/* ---- sorts: a number that is made of the first bytes of the key, and the whole keys where these are equal */

static int compare_datums(Datum left, Datum right, SortSupport unused)
{
    struct varlena *one = PG_DETOAST_DATUM_PACKED(left), *other = PG_DETOAST_DATUM_PACKED(right);
    int order = compare_versions(one, other);
    (void)unused;
    if ((Pointer)one != DatumGetPointer(left))
        pfree(one);
    if ((Pointer)other != DatumGetPointer(right))
        pfree(other);
    return order;
}

static Datum abbreviate(Datum original, SortSupport unused)
{
    struct varlena *stored = PG_DETOAST_DATUM_PACKED(original);
    uint64 first = first_of_version(stored);
    (void)unused;
    if ((Pointer)stored != DatumGetPointer(original))
        pfree(stored);
    return UInt64GetDatum(first);
}

static bool keep_abbreviating(int count, SortSupport unused)
{
    (void)count, (void)unused;
    return false;
}

PG_FUNCTION_INFO_V1(version_sortsupport);
Datum version_sortsupport(PG_FUNCTION_ARGS)
{
    SortSupport sort = (SortSupport)PG_GETARG_POINTER(0);
    sort->comparator = compare_datums;
    if (sort->abbreviate && sizeof(Datum) == sizeof(uint64)) {
        sort->comparator = ssup_datum_unsigned_cmp;
        sort->abbrev_converter = abbreviate;
        sort->abbrev_abort = keep_abbreviating;
        sort->abbrev_full_comparator = compare_datums;
    }
    PG_RETURN_VOID();
}

/* ---- what a version is made of */

/* The numbers of a version are below 2^64, so they are no bigint. */
static Datum make_numeric(uint64_t number)
{
    char digits[24];
    if (number <= PG_INT64_MAX)
        return NumericGetDatum(int64_to_numeric((int64)number));
    snprintf(digits, sizeof digits, UINT64_FORMAT, number);
    return DirectFunctionCall3(numeric_in, CStringGetDatum(digits), ObjectIdGetDatum(InvalidOid), Int32GetDatum(-1));
}

/* All parts but the numbers of the release. */
static pep440_parts parts_of(FunctionCallInfo fcinfo)
{
    VersionBuffer buffer;
    Bytes version = version_of(GET_STORED(0), &buffer).bytes;
    pep440_parts parts;
    uint64_t none[1];
    uint8_t status = pep440_parts_of(version.bytes, version.length, &parts, none, 0);
    if (status != PEP440_OK && status != PEP440_NO_ROOM)
        fail(status);
    return parts;
}

SQL_FUNCTION(version_epoch, make_numeric(parts_of(fcinfo).epoch));

PG_FUNCTION_INFO_V1(version_release);
Datum version_release(PG_FUNCTION_ARGS)
{
    VersionBuffer buffer;
    Bytes version = version_of(GET_STORED(0), &buffer).bytes;
    pep440_parts parts = parts_of(fcinfo);
    size_t count = parts.release_length;
    uint64_t *numbers = palloc(count * sizeof *numbers);
    Datum *items = palloc(count * sizeof *items);
    expect_ok(pep440_parts_of(version.bytes, version.length, &parts, numbers, count));
    for (size_t each = 0; each < count; each++)
        items[each] = make_numeric(numbers[each]);
    PG_RETURN_ARRAYTYPE_P(construct_array(items, (int)count, NUMERICOID, -1, false, TYPALIGN_INT));
}

PG_FUNCTION_INFO_V1(version_pre_kind);
Datum version_pre_kind(PG_FUNCTION_ARGS)
{
    static const char *const words[] = {[PEP440_ALPHA] = "a", [PEP440_BETA] = "b", [PEP440_RC] = "rc"};
    pep440_parts parts = parts_of(fcinfo);
    if (parts.pre_kind == PEP440_NO_PRE)
        PG_RETURN_NULL();
    PG_RETURN_TEXT_P(cstring_to_text(words[parts.pre_kind]));
}

/* A number that not each version has, or null. */
typedef enum { PRE, POST, DEV } PartName;

static Datum number_or_null(FunctionCallInfo fcinfo, PartName name)
{
    pep440_parts parts = parts_of(fcinfo);
    const bool has[] = {parts.pre_kind != PEP440_NO_PRE, parts.has_post, parts.has_dev};
    const uint64_t numbers[] = {parts.pre, parts.post, parts.dev};
    if (!has[name])
        PG_RETURN_NULL();
    return make_numeric(numbers[name]);
}

SQL_FUNCTION(version_pre, number_or_null(fcinfo, PRE));
SQL_FUNCTION(version_post, number_or_null(fcinfo, POST));
SQL_FUNCTION(version_dev, number_or_null(fcinfo, DEV));

PG_FUNCTION_INFO_V1(version_is_prerelease);
Datum version_is_prerelease(PG_FUNCTION_ARGS)
{
    VersionKind kind = kind_of(GET_STORED(0));
    if (kind != UNKNOWN_KIND)
        PG_RETURN_BOOL(kind == PRERELEASE_KIND);
    pep440_parts parts = parts_of(fcinfo);
    PG_RETURN_BOOL(parts.pre_kind != PEP440_NO_PRE || parts.has_dev);
}

PG_FUNCTION_INFO_V1(version_local);
Datum version_local(PG_FUNCTION_ARGS)
{
    const char *plus = strchr(normal_argument(fcinfo), '+');
    if (plus == NULL)
        PG_RETURN_NULL();
    PG_RETURN_TEXT_P(cstring_to_text(plus + 1));
}

/* The version of the first bytes of the normal form. */
static Datum version_of_prefix(const char *normal, size_t length)
{
    PG_RETURN_POINTER(read_version((Bytes){(const uint8_t *)normal, length}, NULL));
}

PG_FUNCTION_INFO_V1(version_public);
Datum version_public(PG_FUNCTION_ARGS)
{
    const char *normal = normal_argument(fcinfo);
    return version_of_prefix(normal, strcspn(normal, "+"));
}

/* Epoch and release: of the normal form the digits and marks before the first letter or `+`; `.post` and `.dev` leave a dot. */
PG_FUNCTION_INFO_V1(version_base);
Datum version_base(PG_FUNCTION_ARGS)
{
    const char *normal = normal_argument(fcinfo);
    size_t length = strspn(normal, "0123456789.!");
    while (length > 0 && normal[length - 1] == '.')
        length--;
    return version_of_prefix(normal, length);
}

PG_FUNCTION_INFO_V1(version_key);
Datum version_key(PG_FUNCTION_ARGS)
{
    VersionBuffer buffer;
    PG_RETURN_BYTEA_P(make_bytea(version_of(GET_STORED(0), &buffer).key));
}
