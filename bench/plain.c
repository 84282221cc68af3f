/* See plain.h. It follows docs/FORMAT.md and docs/REFUSALS.md. */
#include "plain.h"

#include <string.h>

enum { T = 5, RAND = 11, IDR = 14, SP = 10, SAKKE = 26, EXT = 21, SIGN = 4 };

enum { SLOT_IDRI = 3, SLOT_EXT_SAKKE = 9, SLOT_OTHER = 12 };

static size_t pair(const uint8_t *p)
{
    return (size_t)p[0] << 8 | p[1];
}

static uint32_t refuse(uint32_t number, size_t at, uint32_t about, uint32_t *place, uint32_t *detail)
{
    *place = (uint32_t)at;
    *detail = about;
    return number;
}

/* How long the session at the front is; 0 if it runs past the end. */
static size_t session_length(const uint8_t *s, size_t left)
{
    if (left < 3)
        return 0;
    size_t at = 3 + (s[2] & 127);
    if (left < at + 2)
        return 0;
    at += 2 + pair(s + at);
    if (left < at + 1)
        return 0;
    at += 1 + s[at];
    return left < at ? 0 : at;
}

static int session_keeps(const uint8_t *s)
{
    size_t data = pair(s + 3 + (s[2] & 127));
    return s[1] == 0 && (data == 0 || data == (s[2] & 128 ? 10 : 4));
}

/* Params of SP: whole items. */
static int are_items(const uint8_t *p, size_t left)
{
    while (left >= 2) {
        size_t n = 2 + (size_t)p[1];
        if (left < n)
            return 0;
        p += n;
        left -= n;
    }
    return left == 0;
}

/* How long a body is by its own length field, where so much is left; 0 if it runs past the end. */
static inline size_t body_length(uint8_t code, const uint8_t *b, size_t left)
{
    size_t n;
    switch (code) {
    case T:
        n = 9;
        break;
    case RAND:
        if (left < 1)
            return 0;
        n = 1 + (size_t)b[0];
        break;
    case EXT:
        if (left < 3)
            return 0;
        n = 3 + pair(b + 1);
        break;
    case SIGN:
        if (left < 2)
            return 0;
        n = 2 + (pair(b) & 4095);
        break;
    default:
        if (left < 4)
            return 0;
        n = 4 + pair(b + 2);
    }
    return left < n ? 0 : n;
}

/* The rule inside a body that is all there. */
static inline int body_keeps(uint8_t code, const uint8_t *b, size_t n)
{
    switch (code) {
    case T:
        return b[0] == 0;
    case SP:
        return are_items(b + 4, n - 4);
    case EXT:
        return b[0] != 6 || (n >= 8 && 8 + pair(b + 6) == n);
    case SIGN:
        return n > 2;
    default:
        return 1;
    }
}

static inline int is_known(uint8_t code)
{
    switch (code) {
    case T:
    case RAND:
    case IDR:
    case SP:
    case SAKKE:
    case EXT:
    case SIGN:
        return 1;
    default:
        return 0;
    }
}

static inline uint8_t slot_of(uint8_t code, uint8_t value)
{
    switch (code) {
    case T:
        return 1;
    case RAND:
        return 2;
    case IDR:
        return value == 1 ? 3 : value == 2 ? 4 : value == 6 ? 5 : value == 7 ? 6 : SLOT_OTHER;
    case SP:
        return 7;
    case SAKKE:
        return 8;
    case EXT:
        return value == 6 ? SLOT_EXT_SAKKE : value == 7 ? 10 : SLOT_OTHER;
    default:
        return 11;
    }
}

uint32_t plain_walk(const uint8_t *message, size_t length, uint8_t *rows, size_t rows_length, uint32_t *count,
                    uint32_t *header, uint32_t *span, uint32_t *place, uint32_t *detail)
{
    if (rows_length < TABLE_BYTES)
        return refuse(1, 0, 0, place, detail);
    if (length > LONGEST)
        return refuse(2, LONGEST, 0, place, detail);
    if (length < 10)
        return refuse(3, length, 0, place, detail);
    if (message[0] != 1)
        return refuse(4, 0, 0, place, detail);
    if (message[1] != 26)
        return refuse(5, 1, 0, place, detail);
    size_t sessions = message[8];
    if (!(message[9] == 1 ? sessions == 0 : message[9] == 2 && sessions >= 1 && sessions <= 4))
        return refuse(6, 8, 0, place, detail);
    size_t at = 10;
    for (size_t i = 0; i < sessions; i++) {
        size_t n = session_length(message + at, length - at);
        if (n == 0)
            return refuse(7, at, 0, place, detail);
        if (!session_keeps(message + at))
            return refuse(8, at, 0, place, detail);
        at += n;
    }
    size_t from = at;
    uint8_t table[TABLE_BYTES];
    size_t naming = 2;
    for (size_t i = 0;; i++) {
        uint8_t code = message[naming];
        if (!is_known(code))
            return refuse(9, naming, 0, place, detail);
        if (i == MOST_PAYLOADS)
            return refuse(10, at, 0, place, detail);
        size_t lead = code == SIGN ? 0 : 1;
        size_t left = length - at;
        if (left < lead)
            return refuse(11, at, 0, place, detail);
        const uint8_t *body = message + at + lead;
        size_t n = body_length(code, body, left - lead);
        if (n == 0)
            return refuse(11, at, 0, place, detail);
        if (!body_keeps(code, body, n))
            return refuse(12, at, 0, place, detail);
        n += lead;
        uint8_t *row = table + i * ROW_BYTES;
        row[0] = code;
        row[1] = slot_of(code, body[0]);
        row[2] = (uint8_t)(at >> 8);
        row[3] = (uint8_t)at;
        row[4] = (uint8_t)(n >> 8);
        row[5] = (uint8_t)n;
        if (code == SIGN) {
            if (at + n < length)
                return refuse(13, at + n, 0, place, detail);
            memcpy(rows, table, (i + 1) * ROW_BYTES);
            memset(rows + (i + 1) * ROW_BYTES, 0, TABLE_BYTES - (i + 1) * ROW_BYTES);
            *count = (uint32_t)(i + 1);
            *header = (uint32_t)from;
            *span = (uint32_t)(at + 2);
            return 0;
        }
        naming = at;
        at += n;
    }
}

static uint64_t turn_all(uint64_t t, const uint8_t *bytes, size_t length)
{
    for (size_t i = 0; i < length; i++)
        t = (t << 7 | t >> 57) + bytes[i];
    return t;
}

__attribute__((noinline)) uint64_t plain_tag(uint64_t key, const uint8_t *signer, size_t signer_length, const uint8_t *span, size_t span_length)
{
    return turn_all(turn_all(key, signer, signer_length), span, span_length);
}

struct bytes {
    const uint8_t *at;
    size_t length;
};

/* The ID data of the first IDR of role 1; no bytes if there is none. */
static struct bytes signer_of(const uint8_t *message, const uint8_t *rows, uint32_t count)
{
    for (uint32_t i = 0; i < count; i++) {
        const uint8_t *row = rows + i * ROW_BYTES;
        if (row[1] == SLOT_IDRI)
            return (struct bytes){message + pair(row + 2) + 5, pair(row + 4) - 5};
    }
    return (struct bytes){message, 0};
}

/* Whether the signature behind the span is the tag over the signer and the span. */
static int passes(const uint8_t *message, size_t length, struct bytes signer, size_t span, uint64_t key)
{
    uint64_t tag = plain_tag(key, signer.at, signer.length, message, span);
    if (length - span != 8)
        return 0;
    uint64_t given = 0;
    for (size_t i = 0; i < 8; i++)
        given = given << 8 | message[span + i];
    return given == tag;
}

uint32_t plain_walk_and_tag(const uint8_t *message, size_t length, uint8_t *rows, size_t rows_length, uint64_t key,
                            uint32_t *count, uint32_t *header, uint32_t *span, uint32_t *place, uint32_t *detail)
{
    uint8_t table[TABLE_BYTES];
    uint32_t n, from, spanned;
    if (rows_length < TABLE_BYTES)
        return refuse(1, 0, 0, place, detail);
    uint32_t number = plain_walk(message, length, table, sizeof table, &n, &from, &spanned, place, detail);
    if (number != 0)
        return number;
    if (!passes(message, length, signer_of(message, table, n), spanned, key))
        return refuse(18, spanned, 0, place, detail);
    memcpy(rows, table, sizeof table);
    *count = n;
    *header = from;
    *span = spanned;
    return 0;
}

/* A fixed profile: the values of fields 1 to 10, from low to high, and the least and most counts of slots 1 to 12. */
struct values {
    uint8_t low, high;
};

struct bounds {
    uint8_t least, most;
};

struct profile {
    struct values fields[11];
    struct bounds slots[13];
};

static const struct profile PROFILES[3] = {
    {{{1, 0}, {0, 0}, {1, 1}, {2, 2}, {0, 1}, {16, 255}, {1, 1}, {0, 0}, {1, 1}, {2, 2}, {2, 2}},
     {{0, 0}, {1, 1}, {1, 1}, {1, 1}, {1, 1}, {1, 1}, {1, 1}, {0, 1}, {1, 1}, {0, 1}, {0, 1}, {1, 1}, {0, 0}}},
    {{{1, 0}, {0, 0}, {1, 1}, {1, 1}, {0, 1}, {16, 255}, {1, 1}, {0, 0}, {1, 1}, {2, 2}, {2, 2}},
     {{0, 0}, {1, 1}, {1, 1}, {1, 1}, {1, 1}, {1, 1}, {1, 1}, {0, 1}, {1, 1}, {0, 1}, {0, 1}, {1, 1}, {0, 0}}},
    {{{1, 0}, {0, 0}, {1, 1}, {0, 0}, {0, 4}, {16, 255}, {1, 1}, {0, 0}, {1, 1}, {2, 2}, {2, 2}},
     {{0, 0}, {1, 1}, {1, 1}, {1, 1}, {1, 1}, {1, 1}, {1, 1}, {0, 1}, {1, 1}, {0, 1}, {1, 1}, {1, 1}, {0, 0}}},
};

/* A field that is asked: its number, its byte in the message, and its value. */
struct field {
    uint8_t number;
    size_t at;
    uint8_t value;
};

static int takes(const struct profile *profile, uint8_t field, uint8_t value)
{
    return profile->fields[field].low <= value && value <= profile->fields[field].high;
}

/* The fields of a payload; answers how many there are. */
static size_t fields_of(const uint8_t *message, const uint8_t *row, struct field *fields)
{
    size_t start = pair(row + 2);
    size_t params = start + 1;
    switch (row[0]) {
    case RAND:
        fields[0] = (struct field){5, start + 1, message[start + 1]};
        return 1;
    case IDR:
        fields[0] = (struct field){6, start + 2, message[start + 2]};
        return 1;
    case SP:
        fields[0] = (struct field){7, start + 2, message[start + 2]};
        return 1;
    case SIGN:
        fields[0] = (struct field){10, start, (uint8_t)(message[start] >> 4)};
        return 1;
    case EXT:
        if (row[1] != SLOT_EXT_SAKKE)
            return 0;
        params = start + 5;
        break;
    case SAKKE:
        break;
    default:
        return 0;
    }
    fields[0] = (struct field){8, params, message[params]};
    fields[1] = (struct field){9, params + 1, message[params + 1]};
    return 2;
}

/* Refusals 14 to 17; all ranks of a fixed profile are 0, so that 15 does not occur. */
static uint32_t admits(const struct profile *profile, const uint8_t *message, size_t length, const uint8_t *rows,
                       uint32_t count, uint32_t *place, uint32_t *detail)
{
    const struct field head[4] = {{1, 3, (uint8_t)(message[3] >> 7)},
                                  {2, 3, (uint8_t)(message[3] & 127)},
                                  {3, 4, (uint8_t)(message[4] >> 4)},
                                  {4, 8, message[8]}};
    for (size_t i = 0; i < 4; i++)
        if (!takes(profile, head[i].number, head[i].value))
            return refuse(14, head[i].at, head[i].number, place, detail);
    uint8_t counts[13] = {0};
    for (uint32_t i = 0; i < count; i++) {
        const uint8_t *row = rows + i * ROW_BYTES;
        struct field fields[2];
        size_t asked = fields_of(message, row, fields);
        for (size_t j = 0; j < asked; j++)
            if (!takes(profile, fields[j].number, fields[j].value))
                return refuse(14, fields[j].at, fields[j].number, place, detail);
        uint8_t slot = row[1];
        if (counts[slot] >= profile->slots[slot].most)
            return refuse(16, pair(row + 2), slot, place, detail);
        counts[slot]++;
    }
    for (uint8_t slot = 1; slot <= SLOT_OTHER; slot++)
        if (counts[slot] < profile->slots[slot].least)
            return refuse(17, length, slot, place, detail);
    return 0;
}

/* Whether the signers of a trust list are whole and no more than eight. */
static uint32_t settle(const uint8_t *trusted, size_t length, uint32_t *place, uint32_t *detail)
{
    size_t signers = 0;
    for (size_t at = 0; at < length; at += 1 + trusted[at]) {
        size_t n = trusted[at];
        if (length - at - 1 < n)
            return refuse(101, at, 0, place, detail);
        if (n == 0 || n > 128)
            return refuse(27, 0, 0, place, detail);
        if (++signers > 8)
            return refuse(28, 0, 0, place, detail);
    }
    return 0;
}

static int is_trusted(const uint8_t *trusted, size_t length, struct bytes signer)
{
    for (size_t at = 0; at < length; at += 1 + trusted[at])
        if (trusted[at] == signer.length && memcmp(trusted + at + 1, signer.at, signer.length) == 0)
            return 1;
    return 0;
}

uint32_t plain_read(const uint8_t *message, size_t length, uint8_t *rows, size_t rows_length, uint32_t profile,
                    uint64_t key, const uint8_t *trusted, size_t trusted_length, uint32_t *count, uint32_t *header,
                    uint32_t *span, uint32_t *place, uint32_t *detail)
{
    uint8_t table[TABLE_BYTES];
    uint32_t n, from, spanned;
    if (profile < 1 || profile > 3)
        return refuse(100, 0, 0, place, detail);
    uint32_t number = settle(trusted, trusted_length, place, detail);
    if (number != 0)
        return number;
    if (rows_length < TABLE_BYTES)
        return refuse(1, 0, 0, place, detail);
    number = plain_walk(message, length, table, sizeof table, &n, &from, &spanned, place, detail);
    if (number == 0)
        number = admits(&PROFILES[profile - 1], message, length, table, n, place, detail);
    if (number != 0)
        return number;
    struct bytes signer = signer_of(message, table, n);
    if (!is_trusted(trusted, trusted_length, signer) || !passes(message, length, signer, spanned, key))
        return refuse(18, spanned, 0, place, detail);
    memcpy(rows, table, sizeof table);
    *count = n;
    *header = from;
    *span = spanned;
    return 0;
}

struct plain_records plain_records_of(const uint8_t *message, size_t length)
{
    struct plain_records r = {0};
    uint8_t rows[TABLE_BYTES];
    uint32_t count, header, span, place, detail;
    if (plain_walk(message, length, rows, sizeof rows, &count, &header, &span, &place, &detail) != 0)
        return r;
    r.header = message;
    r.header_length = header;
    r.count = count - 1;
    for (size_t i = 0; i < r.count; i++) {
        const uint8_t *row = rows + i * ROW_BYTES;
        r.payloads[i] = (struct plain_payload){row[0], message + pair(row + 2) + 1, pair(row + 4) - 1};
    }
    r.sign_type = message[span - 2] >> 4;
    r.signature = message + span;
    r.signature_length = length - span;
    return r;
}

/* Whether map info is so many sessions and nothing more. */
static int is_map(uint8_t sessions, uint8_t type, const uint8_t *info, size_t length)
{
    if (!(type == 1 ? sessions == 0 : type == 2 && sessions >= 1 && sessions <= 4))
        return 0;
    for (uint8_t i = 0; i < sessions; i++) {
        size_t n = session_length(info, length);
        if (n == 0 || !session_keeps(info))
            return 0;
        info += n;
        length -= n;
    }
    return length == 0;
}

/* A known code but not SIGN's, and a body that is all there, keeps its rule and leaves no byte. */
static int is_payload(const struct plain_payload *p)
{
    return is_known(p->code) && p->code != SIGN && p->length > 0 &&
           body_length(p->code, p->body, p->length) == p->length && body_keeps(p->code, p->body, p->length);
}

size_t plain_draft(const struct plain_records *records, uint32_t profile, uint8_t *buffer, size_t room)
{
    const uint8_t *header = records->header;
    size_t at = records->header_length;
    memset(buffer, 0, room);
    if (at > room || !is_map(header[8], header[9], header + 10, at - 10))
        return 0;
    memcpy(buffer, header, at);
    size_t naming = 2;
    for (size_t i = 0; i < records->count; i++) {
        const struct plain_payload *p = &records->payloads[i];
        if (!is_payload(p) || room - at < 1 + p->length)
            return 0;
        buffer[naming] = p->code;
        buffer[at] = 0;
        memcpy(buffer + at + 1, p->body, p->length);
        naming = at;
        at += 1 + p->length;
    }
    size_t n = records->signature_length;
    if (n < 1 || n > 4095 || records->sign_type > 15 || room - at < 2 + n)
        return 0;
    buffer[naming] = SIGN;
    buffer[at] = (uint8_t)(records->sign_type << 4 | n >> 8);
    buffer[at + 1] = (uint8_t)n;
    size_t length = at + 2 + n;
    uint8_t rows[TABLE_BYTES];
    uint32_t count, from, span, place, detail;
    if (plain_walk(buffer, length, rows, sizeof rows, &count, &from, &span, &place, &detail) != 0 ||
        admits(&PROFILES[profile - 1], buffer, length, rows, count, &place, &detail) != 0)
        return 0;
    memcpy(buffer + at + 2, records->signature, n);
    return length;
}
