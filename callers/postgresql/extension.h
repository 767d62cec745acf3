/* What the files of the extension share: the types, and how a call of the library becomes a datum or an error. */
#ifndef PEP440_EXTENSION_H
#define PEP440_EXTENSION_H

#include "server.h"

#include "pep440.h"

/* Bytes that somebody else keeps. */
typedef struct {
    const uint8_t *bytes;
    size_t length;
} Bytes;

/* A value of the type pep440. The library takes `bytes` as the version: compiled ones, or the normal form where an older release stored the value. */
typedef struct {
    Bytes key;
    Bytes bytes;
} Version;

/* An interval of keys: at least the low one, and below the high one, which has no bytes where there is no bound. */
typedef struct {
    Bytes low;
    Bytes high;
} KeyInterval;

/* The intervals that cover a list or a set, in order. Their bytes are those of the list or the set, where these are compiled. */
typedef struct {
    KeyInterval *intervals;
    size_t count;
    bool is_exact; /* whether the list has no `===`, and so contains whatever lies in an interval */
} Cover;

/* A call of the library that reads a string and writes bytes. */
typedef uint8_t (*Writer)(const uint8_t *, size_t, uint8_t *, size_t, size_t *);

/* A value of a type that a text is; if it is none, the error that says why. If errors are to be kept in the node, it is kept there, and NULL returned. */
typedef struct varlena *(*Reader)(Bytes text, Node *context);

/* The most bytes of a value of type pep440, with its header: an index entry has room for 2,704 with its own header, and more columns beside. */
enum { MOST_BYTES = 2680, MOST_COMPILED = MOST_BYTES - VARHDRSZ };

/* The most bytes of the text of a version, and of a list. */
enum { MOST_TEXT = 1 << 20 };

/* Room for a compiled version. */
typedef struct {
    uint8_t bytes[MOST_COMPILED];
} VersionBuffer;

/* The first byte of compiled versions, of the members of a list, which an earlier release stored alone, of lists, and of sets. */
enum { VERSION_FORMAT = 4, MEMBERS_FORMAT = 5, LIST_FORMAT = 6, SET_FORMAT = 7 };

/* What the server calls once it has loaded the extension. */
extern PGDLLEXPORT void _PG_init(void);
/* The output functions of the types, which no other type has but domains over these. */
extern PGDLLEXPORT Datum version_out(PG_FUNCTION_ARGS);
extern PGDLLEXPORT Datum specs_out(PG_FUNCTION_ARGS);
extern PGDLLEXPORT Datum set_out(PG_FUNCTION_ARGS);

/* No other library can put a function of its own in place of these, so that calls of them need no look-up. */
#pragma GCC visibility push(hidden)

/* The argument of a function that takes a text. */
Bytes utf8_argument(FunctionCallInfo fcinfo);
/* What the input functions of a type do, by the call that reads its text: of a C string, of the binary form, and of a text. */
Datum read_cstring(FunctionCallInfo fcinfo, Reader read);
Datum read_binary(FunctionCallInfo fcinfo, Reader read);
Datum read_text(FunctionCallInfo fcinfo, Reader read);
/* The binary form of a value. */
Datum binary_of(const char *normal);
/* A text of the server's: a copy in its encoding, with a zero at the end. */
char *server_text(Bytes utf8);
/* Keeps the error that says why the text is no value of the type, or raises it. */
struct varlena *fail_text(Bytes text, const char *type, Writer reason, Node *context);
/* What the call writes, however long, in memory of the server's. Where it is not PEP440_OK, nothing is written. */
uint8_t write_all(Writer call, Bytes read, Bytes *out);
/* The normal form that the call writes of a value, or the error of its status. It is ASCII, and so the same in each encoding of a server. */
char *normal_text(Writer call, Bytes value);
/* The error of a status that has no other: memory that was refused, or stored bytes that are no value. */
_Noreturn void fail(uint8_t status);
static inline void expect_ok(uint8_t status)
{
    if (status != PEP440_OK)
        fail(status);
}

/* Whether the value has a short header, as nearly all versions have. */
static inline bool has_short_header(const struct varlena *stored)
{
    return VARATT_IS_1B(stored) && !VARATT_IS_1B_E(stored);
}

/* What is behind the header of a value that lies as it is. */
static inline Bytes bytes_of(const struct varlena *stored)
{
    if (has_short_header(stored))
        return (Bytes){(const uint8_t *)VARDATA_1B(stored), VARSIZE_1B(stored) - VARHDRSZ_SHORT};
    return (Bytes){(const uint8_t *)VARDATA(stored), VARSIZE(stored) - VARHDRSZ};
}

/* The value of a datum. */
static inline struct varlena *stored_of(Datum datum)
{
    struct varlena *stored = (struct varlena *)DatumGetPointer(datum);
    return has_short_header(stored) ? stored : PG_DETOAST_DATUM_PACKED(datum);
}

/* What a version is; the buffer keeps the compiled bytes of one that is stored without them. */
Version version_of(const struct varlena *stored, VersionBuffer *buffer);
/* The order of two versions, -1, 0 or 1. */
int compare_versions(const struct varlena *left, const struct varlena *right);
/* A number that is not above that of a greater key, or version: nearly all versions have epoch 0, and their keys a first byte 0; the eight bytes behind it. */
uint64 first_of_key(Bytes key);
uint64 first_of_version(const struct varlena *stored);
/* Whether a version is a pre-release or dev release, by its stored bytes; or that the library has to parse these. */
typedef enum { UNKNOWN_KIND, FINAL_KIND, PRERELEASE_KIND } VersionKind;
VersionKind kind_of(const struct varlena *stored);
/* The normal form of a version that is the first argument. */
char *normal_argument(FunctionCallInfo fcinfo);
/* What the library takes as the list or the set: compiled bytes, or the normal form where an older release stored a list. */
Bytes list_of(const struct varlena *stored);
/* The members in a compiled list; of a set all bytes. So lists and sets are equal if these are. */
Bytes members_of(Bytes compiled);
/* Reads bytes that follow how many they are, as a set has its keys; false if there are none. */
bool read_sized(const uint8_t **at, const uint8_t *end, Bytes *found);
/* The value of a compiled version. */
struct varlena *make_version(Bytes compiled);
struct varlena *read_version(Bytes text, Node *context);
/* Whether the argument is a constant of the statement. */
bool is_constant(const FmgrInfo *function, int argument);

/* The compiled bytes of a list of the type; if the text is none, the error that says why, as of a Reader, and false. */
bool read_list(Bytes text, const char *type, Node *context, Bytes *compiled);

/* What covers a list or a set. */
Cover cover_of(Bytes list);
/* Whether the key lies in one of the intervals. */
bool is_in_cover(const Cover *cover, Bytes key);
/* From the lowest key of a cover to the one above all of it; nothing lies in those of an empty cover. */
KeyInterval ends_of_cover(const Cover *cover);
struct varlena *make_bytea(Bytes bytes);
/* The hash of the bytes; with a seed, which is the second argument, the extended one. */
Datum hash_of(Bytes bytes, FunctionCallInfo fcinfo);
/* As keys are compared: byte by byte, then the shorter one first. -1, 0 or 1. */
int compare_bytes(Bytes left, Bytes right);

#pragma GCC visibility pop

#define GET_STORED(number) stored_of(PG_GETARG_DATUM(number))
#define GET_LIST(number) list_of(GET_STORED(number))

/* A function of SQL that returns the datum. */
#define SQL_FUNCTION(name, datum) \
    PG_FUNCTION_INFO_V1(name); \
    Datum name(PG_FUNCTION_ARGS) \
    { \
        return datum; \
    } \
    extern int no_such_variable

/* The functions of a type by which its values become texts and are made of them. */
#define TEXT_FUNCTIONS(type, read, normal) \
    SQL_FUNCTION(type##_in, read_cstring(fcinfo, read)); \
    SQL_FUNCTION(type##_out, CStringGetDatum(normal)); \
    SQL_FUNCTION(type##_recv, read_binary(fcinfo, read)); \
    SQL_FUNCTION(type##_send, binary_of(normal)); \
    SQL_FUNCTION(type##_from_text, read_text(fcinfo, read)); \
    SQL_FUNCTION(type##_to_text, PointerGetDatum(cstring_to_text(normal)))

/* The comparisons that are an order; their names have lt, le, eq, ge and gt between these. */
#define COMPARISONS(before, behind, order) \
    SQL_FUNCTION(before##lt##behind, BoolGetDatum((order) < 0)); \
    SQL_FUNCTION(before##le##behind, BoolGetDatum((order) <= 0)); \
    SQL_FUNCTION(before##eq##behind, BoolGetDatum((order) == 0)); \
    SQL_FUNCTION(before##ge##behind, BoolGetDatum((order) >= 0)); \
    SQL_FUNCTION(before##gt##behind, BoolGetDatum((order) > 0))

#endif
