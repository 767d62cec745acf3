/* How values of both types are stored: as compiled bytes, but for most versions, of which what nearly all have in common is left out.

   The compiled bytes of a version of epoch 0 are the format, 0, the rest of its sort key, and a byte 1 for each zero at the end of its release. The rest
   ends with one of ENDS. Stored is the rest without this end; its first byte, which is at most 7 here, also has the number of zeros, which end it is, and
   0x80. Such a value has less than 128 bytes.

   Before 0.3 a value was lengths, other bytes and the normal form. If its first byte is at least 0x80, it has at least 128 bytes; and it ends with an
   ASCII character, or is an empty list that does not begin with a format. Compiled versions end with 0 or 1; so do compiled lists, but for the empty
   one, which ends with the format of members. So each value shows how it is stored. */
#include "extension.h"

/* No local part, no dev release, no post-release, and that it is no pre-release: what ends a sort key, and follows the numbers of a release alone; also as the
   first bytes of a number. */
static const struct {
    uint64 first;
    uint8_t length;
    uint8_t bytes[5];
} ENDS[] = {{0x0050001000000000, 5, {0, 0x50, 0, 0x10, 0}}, {0x0010000000000000, 3, {0, 0x10, 0}}, {0x1000000000000000, 2, {0x10, 0}}, {0, 1, {0}}};

enum { RELEASE_ALONE = 0, SHORT = 0x80, MOST_SHORT = 0x7f, MOST_FIRST = 7, MOST_ZEROS = 3, MOST_END = 3, ZEROS_SHIFT = 3, END_SHIFT = 5, ZERO = 1 };

/* Of eight bytes of a value those of the key: of the first one the lower bits. */
static const uint64 FIRST_BYTES = PG_UINT64_MAX >> 5;

static uint8_t last_of(Bytes bytes)
{
    return bytes.length == 0 ? 0 : bytes.bytes[bytes.length - 1];
}

static bool is_short(Bytes value)
{
    return value.length > 0 && value.length <= MOST_SHORT && value.bytes[0] >= SHORT;
}

static int end_of(Bytes value)
{
    return value.bytes[0] >> END_SHIFT & MOST_END;
}

/* The sort key in compiled bytes: without the first byte, and the zeros of the release. */
static Bytes key_of(Bytes compiled)
{
    size_t end = compiled.length;
    while (end > 1 && compiled.bytes[end - 1] == ZERO)
        end--;
    return end == 0 ? compiled : (Bytes){compiled.bytes + 1, end - 1};
}

/* Writes the sort key behind the epoch, and five bytes of its end; returns how many come before the end. */
static size_t write_key(Bytes value, uint8_t *out)
{
    uint8_t first = value.bytes[0] & MOST_FIRST;
    size_t before = first != 0 || end_of(value) != RELEASE_ALONE, rest = value.length - 1;
    out[0] = first;
    memcpy(out + before, value.bytes + 1, rest);
    memcpy(out + before + rest, ENDS[end_of(value)].bytes, sizeof ENDS->bytes);
    return before + rest;
}

static size_t zeros_of(Bytes value)
{
    return value.bytes[0] >> ZEROS_SHIFT & MOST_ZEROS;
}

static Version short_version(Bytes value, VersionBuffer *buffer)
{
    size_t zeros = zeros_of(value), length = 2 + write_key(value, buffer->bytes + 2) + ENDS[end_of(value)].length;
    buffer->bytes[0] = VERSION_FORMAT;
    buffer->bytes[1] = 0;
    memset(buffer->bytes + length, ZERO, MOST_ZEROS);
    return (Version){.key = {buffer->bytes + 1, length - 1}, .bytes = {buffer->bytes, length + zeros}};
}

/* Numbers of one byte, as nearly all are, as they are printed: their digits, and a dot. */
static struct {
    char text[4];
    int length;
} printed_bytes[UINT8_MAX + 1];

void _PG_init(void)
{
    for (int number = 0; number <= UINT8_MAX; number++) {
        char text[8] = "";
        printed_bytes[number].length = snprintf(text, sizeof text, "%d.", number);
        memcpy(printed_bytes[number].text, text, sizeof printed_bytes->text);
    }
}

/* These write a number and a dot, and what follows is overwritten: up to two characters. */
static inline char *put_byte(char *out, uint8_t number)
{
    memcpy(out, printed_bytes[number].text, sizeof printed_bytes->text);
    return out + printed_bytes[number].length;
}

static inline char *put_number(char *out, uint64 number)
{
    if (number <= UINT8_MAX)
        return put_byte(out, (uint8_t)number);
    out += pg_ulltoa_n(number, out);
    *out++ = '.';
    return out;
}

/* Reads a number of so many bytes, of which the first is not 0; false if it is none. */
static bool read_number(const uint8_t **at, const uint8_t *end, int bytes, uint64 *number)
{
    *number = 0;
    if (bytes < 0 || bytes > (int)sizeof *number || bytes > end - *at || (bytes > 0 && **at == 0))
        return false;
    while (bytes-- > 0)
        *number = *number << 8 | *(*at)++;
    return true;
}

bool read_sized(const uint8_t **at, const uint8_t *end, Bytes *found)
{
    uint64 length;
    if (*at >= end)
        return false;
    int bytes = *(*at)++;
    if (!read_number(at, end, bytes, &length) || length > (uint64)(end - *at))
        return false;
    *found = (Bytes){*at, length};
    *at += length;
    return true;
}

/* ---- what most versions print, and whether they are pre-releases. The library would parse the key again, in ten times the instructions; it is left all
   bytes that no version has, and names the error. */

/* A part of a key behind the release: its rank, and its number. */
typedef struct {
    int rank;
    uint64 number;
} Part;

enum { DEV_STAGE = 1, ALPHA_STAGE = 2, RC_STAGE = 4, FINAL_STAGE = 5, HAS_POST = 1, HAS_DEV = 0, NO_PART = 15, STRING_SEGMENT = 1, NUMBER_BASE = 2 };

/* The ranks of each part that have no number, as bits; and with each stage, which pairs of ranks of the two other parts versions have. */
enum { STAGES_ALONE = 1 << DEV_STAGE | 1 << FINAL_STAGE, NO_POST = 1 << 0, NO_DEV = 1 << 1 };
static const uint8_t PAIRS[] = {[DEV_STAGE] = 1 << 0, [ALPHA_STAGE] = 0xf, [3] = 0xf, [RC_STAGE] = 0xf, [FINAL_STAGE] = 0xf - (1 << 0)};

/* What follows a release in a key: stage, post-release and dev release, and then the local part, without the 0 behind it. */
typedef struct {
    Part stage;
    Part post;
    Part dev;
    const uint8_t *local;
    const uint8_t *end;
} Suffix;

static inline Part read_part(const uint8_t **at, const uint8_t *end, int alone)
{
    if (*at >= end)
        return (Part){NO_PART, 0};
    int rank = **at >> 4, bytes = *(*at)++ & 0xf;
    uint64 number = 0;
    if (bytes == 1 && *at < end && **at != 0)
        number = *(*at)++;
    else if (bytes != 0 && !read_number(at, end, bytes, &number))
        rank = NO_PART;
    return (Part){bytes != 0 && (alone >> rank & 1) != 0 ? NO_PART : rank, number};
}

/* Reads what follows the 0 behind a release: so many parts as the end, which is not stored, has none of, and behind all three the local part. False if it is of
   no version, or if the end has the last byte of a number. */
static inline bool read_suffix(Bytes value, const uint8_t *at, Suffix *suffix)
{
    const uint8_t *end = value.bytes + value.length;
    int parts = end_of(value);
    suffix->stage = read_part(&at, end, STAGES_ALONE);
    suffix->post = parts > 1 ? read_part(&at, end, NO_POST) : (Part){0, 0};
    suffix->dev = parts > 2 ? read_part(&at, end, NO_DEV) : (Part){1, 0};
    suffix->local = at;
    suffix->end = end;
    int stage = suffix->stage.rank, post = suffix->post.rank, dev = suffix->dev.rank;
    return (at == end || parts > 2) && stage <= FINAL_STAGE && (post | dev) <= 1 && (PAIRS[stage] >> (2 * post + dev) & 1) != 0;
}

/* Writes the numbers of the release, of which the last is above 0, with a dot behind each. Returns where the suffix begins, or the end of a release alone;
   NULL where the value is of no version. */
static pg_attribute_always_inline const uint8_t *put_release(Bytes value, bool is_alone, int zeros, char **written)
{
    const uint8_t *at = value.bytes + 1, *end = value.bytes + value.length;
    char *out = *written;
    uint64 number = 0;
    int length = value.bytes[0] & MOST_FIRST;
    if (length == 0)
        return zeros == 0 || (is_alone && at != end) ? NULL : at;
    do {
        if (length == 2 && at < end && *at != 0)
            out = put_byte(out, (uint8_t)(number = *at++));
        else if (!read_number(&at, end, length - 1, &number))
            return NULL;
        else
            out = put_number(out, number);
        if (at == end)
            break;
        length = *at++;
    } while (length > 0);
    *written = out;
    return number != 0 && is_alone == (length > 0) ? at : NULL;
}

/* A function of its own, since a longer one takes longer to begin and to end. */
static pg_noinline VersionKind kind_of_suffix(Bytes value, const uint8_t *at)
{
    Suffix suffix;
    if (!read_suffix(value, at, &suffix))
        return UNKNOWN_KIND;
    return suffix.dev.rank == HAS_DEV ? PRERELEASE_KIND : FINAL_KIND;
}

VersionKind kind_of(const struct varlena *stored)
{
    Bytes value = bytes_of(stored);
    if (!is_short(value))
        return UNKNOWN_KIND;
    if (end_of(value) == RELEASE_ALONE)
        return FINAL_KIND;
    const uint8_t *at = value.bytes + 1, *end = value.bytes + value.length;
    for (int length = value.bytes[0] & MOST_FIRST; length > 0; length = at < end ? *at++ : 0)
        at += length - 1;
    if (at < end && *at >> 4 < FINAL_STAGE)
        return PRERELEASE_KIND;
    return at < end ? kind_of_suffix(value, at) : UNKNOWN_KIND;
}

static inline char *put_word(char *out, const char *word, uint64 number)
{
    size_t length = strlen(word);
    memcpy(out, word, length);
    return put_number(out + length, number) - 1;
}

/* Writes the local part; NULL if it is none, or has a string without a letter. */
static char *put_local(char *out, const uint8_t *at, const uint8_t *end)
{
    for (char mark = '+'; at < end && *at != 0; mark = '.') {
        int kind = *at++;
        bool has_letter = false;
        uint64 number;
        *out++ = mark;
        for (; kind == STRING_SEGMENT && at < end && *at != 0; has_letter |= *at++ >= 'a') {
            if ((*at < '0' || *at > '9') && (*at < 'a' || *at > 'z'))
                return NULL;
            *out++ = (char)*at;
        }
        if (kind == STRING_SEGMENT ? !has_letter || at++ == end : !read_number(&at, end, kind - NUMBER_BASE, &number))
            return NULL;
        if (kind != STRING_SEGMENT)
            out = put_number(out, number) - 1;
    }
    return at == end ? out : NULL;
}

static pg_attribute_always_inline char *put_suffix(char *out, Bytes value, const uint8_t *at)
{
    Suffix suffix;
    if (!read_suffix(value, at, &suffix))
        return NULL;
    int stage = suffix.stage.rank;
    if (stage > DEV_STAGE && stage < FINAL_STAGE)
        out = stage == RC_STAGE ? put_word(out, "rc", suffix.stage.number) : put_word(out, stage == ALPHA_STAGE ? "a" : "b", suffix.stage.number);
    if (suffix.post.rank == HAS_POST)
        out = put_word(out, ".post", suffix.post.number);
    if (suffix.dev.rank == HAS_DEV)
        out = put_word(out, ".dev", suffix.dev.number);
    return put_local(out, suffix.local, suffix.end);
}

/* The normal form of a version that is stored without what most have in common; NULL where the library has to write it. */
static pg_attribute_always_inline char *short_text(Bytes value, bool is_alone)
{
    int zeros = value.bytes[0] & MOST_ZEROS << ZEROS_SHIFT;
    char *text = palloc(4 * (value.length + sizeof ENDS->bytes) + 2 * MOST_ZEROS + sizeof "rc.post.dev"), *out = text;
    const uint8_t *at = put_release(value, is_alone, zeros, &out);
    if (at == NULL)
        return NULL;
    for (; zeros > 0; zeros -= 1 << ZEROS_SHIFT)
        *out++ = '0', *out++ = '.';
    out--;
    if (!is_alone)
        out = put_suffix(out, value, at);
    if (out == NULL)
        return NULL;
    *out = 0;
    return text;
}

/* Of releases before 0.3: two lengths, the sort key, compiled bytes and the normal form. A key of no bytes is in the compiled bytes. */
static Version older_version(Bytes value)
{
    uint16_t lengths[2];
    if (value.length < sizeof lengths)
        fail(PEP440_INVALID_VERSION);
    memcpy(lengths, value.bytes, sizeof lengths);
    size_t before = sizeof lengths + lengths[0] + lengths[1];
    if (value.length < before)
        fail(PEP440_INVALID_VERSION);
    Bytes key = {value.bytes + sizeof lengths, lengths[0]}, compiled = {key.bytes + key.length, lengths[1]};
    return (Version){.key = key.length > 0 ? key : key_of(compiled), .bytes = {value.bytes + before, value.length - before}};
}

Version version_of(const struct varlena *stored, VersionBuffer *buffer)
{
    Bytes value = bytes_of(stored);
    if (is_short(value))
        return short_version(value, buffer);
    if (last_of(value) > ZERO)
        return older_version(value);
    return (Version){.key = key_of(value), .bytes = value};
}

static pg_noinline char *normal_text_of(const struct varlena *stored)
{
    VersionBuffer buffer;
    return normal_text(pep440_normalize, version_of(stored, &buffer).bytes);
}

/* As kind_of_suffix. */
static pg_noinline char *release_text(Bytes value, const struct varlena *stored)
{
    char *text = short_text(value, true);
    return text != NULL ? text : normal_text_of(stored);
}

static pg_noinline char *text_with_suffix(Bytes value, const struct varlena *stored)
{
    char *text = short_text(value, false);
    return text != NULL ? text : normal_text_of(stored);
}

static inline char *text_of(const struct varlena *stored)
{
    Bytes value = bytes_of(stored);
    if (!is_short(value))
        return normal_text_of(stored);
    return end_of(value) == RELEASE_ALONE ? release_text(value, stored) : text_with_suffix(value, stored);
}

static pg_noinline char *text_of_unpacked(Datum datum)
{
    return text_of(PG_DETOAST_DATUM_PACKED(datum));
}

char *normal_argument(FunctionCallInfo fcinfo)
{
    const struct varlena *stored = (const struct varlena *)PG_GETARG_POINTER(0);
    return has_short_header(stored) ? text_of(stored) : text_of_unpacked(PG_GETARG_DATUM(0));
}

uint64 first_of_key(Bytes key)
{
    uint64 first = 0;
    if (key.length == 0)
        return 0;
    if (key.bytes[0] != 0)
        return PG_UINT64_MAX;
    memcpy(&first, key.bytes + 1, Min(key.length - 1, sizeof first));
    return pg_ntoh64(first);
}

/* Two to eight bytes as the first ones of a number: by two halves, which have bytes in common where these are fewer than eight, or four. */
static inline uint64 read_first(const uint8_t *bytes, size_t length)
{
    int unused = 8 * (int)(sizeof(uint64) - length);
    uint32 high, low;
    uint16 short_high, short_low;
    if (length >= sizeof high) {
        memcpy(&high, bytes, sizeof high);
        memcpy(&low, bytes + length - sizeof low, sizeof low);
        return (uint64)pg_ntoh32(high) << 32 | (uint64)pg_ntoh32(low) << unused;
    }
    memcpy(&short_high, bytes, sizeof short_high);
    memcpy(&short_low, bytes + length - sizeof short_low, sizeof short_low);
    return (uint64)pg_ntoh16(short_high) << 48 | (uint64)pg_ntoh16(short_low) << unused;
}

/* These two are functions of their own, since a function with room for a version takes longer to begin and to end. */
static pg_noinline uint64 first_of_rare_version(const struct varlena *stored)
{
    VersionBuffer buffer;
    return first_of_key(version_of(stored, &buffer).key);
}

static pg_noinline int compare_keys(const struct varlena *left, const struct varlena *right)
{
    VersionBuffer buffers[2];
    return compare_bytes(version_of(left, &buffers[0]).key, version_of(right, &buffers[1]).key);
}

uint64 first_of_version(const struct varlena *stored)
{
    Bytes value = bytes_of(stored);
    if (!is_short(value) || value.length == 1 || (value.bytes[0] & MOST_FIRST) == 0)
        return first_of_rare_version(stored);
    size_t length = Min(value.length, sizeof(uint64));
    uint64 first = read_first(value.bytes, length) & FIRST_BYTES;
    return length == sizeof first ? first : first | ENDS[end_of(value)].first >> (8 * length);
}

int compare_versions(const struct varlena *left, const struct varlena *right)
{
    uint64 first = first_of_version(left), second = first_of_version(right);
    if (first != second)
        return first < second ? -1 : 1;
    Bytes one = bytes_of(left), other = bytes_of(right);
    if (one.length == other.length && memcmp(one.bytes, other.bytes, one.length) == 0)
        return 0;
    return compare_keys(left, right);
}

static bool ends_with(Bytes key, int end)
{
    size_t length = ENDS[end].length;
    return key.length >= length && memcmp(key.bytes + key.length - length, ENDS[end].bytes, length) == 0;
}

/* Which end the sort key has, whose epoch is 0. */
static int find_end(Bytes key)
{
    size_t numbers = 1;
    int end = RELEASE_ALONE;
    while (numbers < key.length && key.bytes[numbers] != 0)
        numbers += key.bytes[numbers];
    if (numbers + ENDS[end].length == key.length && ends_with(key, end))
        return end;
    do
        end++;
    while (!ends_with(key, end));
    return end;
}

struct varlena *make_version(Bytes compiled)
{
    Bytes key = key_of(compiled);
    size_t zeros = compiled.length - 1 - key.length;
    if (key.bytes[0] != 0 || key.bytes[1] > MOST_FIRST || zeros > MOST_ZEROS)
        return make_bytea(compiled);
    int end = find_end(key);
    size_t kept = key.length - ENDS[end].length;
    if (kept > MOST_SHORT)
        return make_bytea(compiled);
    struct varlena *made = make_bytea((Bytes){key.bytes + 1, Max(kept - 1, 1)});
    *(uint8_t *)VARDATA(made) = (uint8_t)(SHORT | end << END_SHIFT | zeros << ZEROS_SHIFT | (kept == 1 ? 0 : key.bytes[1]));
    return made;
}

Bytes list_of(const struct varlena *stored)
{
    Bytes value = bytes_of(stored);
    uint32_t length;
    if (value.length > 0 && value.bytes[0] >= MEMBERS_FORMAT && value.bytes[0] <= SET_FORMAT && (last_of(value) <= MEMBERS_FORMAT || value.length == 1))
        return value;
    /* Of releases before 0.3: a length, compiled bytes and the normal form. */
    if (value.length < sizeof length)
        fail(PEP440_INVALID_LIST);
    memcpy(&length, value.bytes, sizeof length);
    if (value.length - sizeof length < length)
        fail(PEP440_INVALID_LIST);
    size_t before = sizeof length + length;
    return (Bytes){value.bytes + before, value.length - before};
}

/* Before the members are the format, and the set behind how many bytes it takes. */
Bytes members_of(Bytes compiled)
{
    const uint8_t *at = compiled.bytes + 1, *end = compiled.bytes + compiled.length;
    Bytes set;
    if (compiled.length == 0 || compiled.bytes[0] != LIST_FORMAT)
        return compiled;
    if (!read_sized(&at, end, &set) || at == end)
        fail(PEP440_INVALID_LIST);
    return (Bytes){at, (size_t)(end - at)};
}
