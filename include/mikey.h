/* MIKEY-SAKKE I_MESSAGEs for C: the calls of libcapi.a, which `rt lib` makes in crates/capi.
 *
 * Every call returns 0, or the number of what is wrong: a refusal, 1 to 31, or a fault in what was passed, 100 or more. Then `place`
 * and `detail` say more, and nothing else is written. At 0 those two stay as they were.
 *
 * What the caller owes at every call, since no call can test it:
 * - No pointer is null, not even one with a length of 0.
 * - A pointer and its length stand for so many bytes, which nobody else writes during the call.
 * - What a call writes (rows, buffer, each number) overlaps nothing else that it is passed.
 * Sizes are tested by the call itself, so that no other argument can make it go wrong. No call uses a heap, keeps a pointer, or
 * waits; calls on different memory may run in different threads at once. */
#ifndef MIKEY_H
#define MIKEY_H

#include <stddef.h>
#include <stdint.h>

#ifdef __cplusplus
extern "C" {
#endif

/* What a call returns. Place and detail are 0 where nothing is said of them. */
enum mikey_code {
    MIKEY_OK = 0,

    /* A message. The place is a byte of it. */
    MIKEY_FEW_ROWS = 1,       /* fewer than 144 bytes were lent for rows */
    MIKEY_TOO_LONG = 2,       /* the message is longer than 8192 bytes, the place */
    MIKEY_TOO_SHORT = 3,      /* the message is shorter than 10 bytes; the place is its length */
    MIKEY_VERSION = 4,        /* the version is not 1; place 0 */
    MIKEY_DATA_TYPE = 5,      /* the data type is not 26, a SAKKE message; place 1 */
    MIKEY_SESSION_MAP = 6,    /* #CS does not go with the map type; place 8 */
    MIKEY_SESSION_CUT = 7,    /* a session runs past the end; its start */
    MIKEY_SESSION_RULE = 8,   /* a session's Prot type is not 0, or its data has no lawful length; its start */
    MIKEY_UNKNOWN_CODE = 9,   /* a code names no known payload; the byte that names it */
    MIKEY_EXTRA_PAYLOAD = 10, /* there is a 25th payload; its start */
    MIKEY_PAYLOAD_CUT = 11,   /* a payload runs past the end; its start */
    MIKEY_PAYLOAD_RULE = 12,  /* a payload breaks the rule inside it; its start */
    MIKEY_BYTES_LEFT = 13,    /* bytes are left behind SIGN; the first of them */

    /* A message under a profile. */
    MIKEY_FIELD = 14,       /* the profile does not take a value; the byte, and the field's number as detail */
    MIKEY_RANK = 15,        /* a payload has a lower rank than the one before; its start, and its slot as detail */
    MIKEY_ABOVE_MOST = 16,  /* a payload stands more often than the profile allows; its start, and its slot as detail */
    MIKEY_BELOW_LEAST = 17, /* a slot stands less often than the profile asks; the message's length, and the slot as detail */

    /* A message under a key and a trust list. */
    MIKEY_NOT_PASSED = 18, /* the tag is not right, or its signer is not trusted; where the signature starts */

    /* A draft. Of these the calls here tell 23 alone. */
    MIKEY_NO_HEADER = 19,        /* the draft has no header yet */
    MIKEY_NO_POSITION = 20,      /* the draft has no such position */
    MIKEY_MAP_INFO_LEFT = 21,    /* map info is left over behind its sessions */
    MIKEY_DRAFT_FULL = 22,       /* a 24th payload would leave no room for SIGN */
    MIKEY_NO_ROOM = 23,          /* the draft would run past its bytes; the buffer is shorter than the message */
    MIKEY_SIGN_FORM = 24,        /* the S type is above 15, or the signature's length is not 1 to 4095 */
    MIKEY_SIGNATURE_LENGTH = 25, /* the signature has another length than close was given */

    MIKEY_ROW_OUTSIDE = 26, /* a row lies outside its message; no call here tells it */

    /* A trust list. */
    MIKEY_SIGNER_LENGTH = 27, /* a signer has 1 to 128 bytes */
    MIKEY_LIST_FULL = 28,     /* there are more than 8 signers */

    /* A sheet. The place is a byte of its text. */
    MIKEY_SHEET_NAMES = 29,  /* the first line is not "slot least most rank" and a line feed */
    MIKEY_SHEET_LINE = 30,   /* a line is not four numbers, one space between, and a line feed; its start */
    MIKEY_SHEET_BOUNDS = 31, /* a line's numbers are out of bounds, or its slot does not rise; its start */

    /* Faults in what is passed, which are no refusals of the library. */
    MIKEY_NO_PROFILE = 100, /* no fixed profile has this number */
    MIKEY_TRUST_CUT = 101   /* an entry of the trust list runs past its end; the place is the byte where it begins */
};

/* The fixed profiles. */
enum mikey_profile {
    MIKEY_CSK = 1, /* a client-server key */
    MIKEY_PCK = 2, /* a private call key */
    MIKEY_GMK = 3  /* a group key */
};

/* Rows. A message has up to 24 payloads, and a row tells one in six bytes: its code, its slot, where it starts in two bytes, and its
 * length in two bytes, each with the higher byte first. Rows that are not told are zeros. */
enum {
    MIKEY_ROWS = 24,
    MIKEY_ROW_BYTES = 6,
    MIKEY_TABLE_BYTES = MIKEY_ROWS * MIKEY_ROW_BYTES,

    MIKEY_LONGEST = 8192 /* the longest message in bytes */
};

/* The code of the i-th payload: 5 T, 11 RAND, 14 IDR, 10 SP, 26 SAKKE, 21 EXT, 4 SIGN. */
static inline uint8_t mikey_row_code(const uint8_t *rows, size_t i)
{
    return rows[MIKEY_ROW_BYTES * i];
}

/* Its slot, 1 to 12: T, RAND, IDR of the roles 1, 2, 6 and 7, SP, SAKKE, EXT of the types 6 and 7, SIGN, any other IDR or EXT. */
static inline uint8_t mikey_row_slot(const uint8_t *rows, size_t i)
{
    return rows[MIKEY_ROW_BYTES * i + 1];
}

/* The byte of the message where it starts. */
static inline uint32_t mikey_row_start(const uint8_t *rows, size_t i)
{
    const uint8_t *row = rows + MIKEY_ROW_BYTES * i;
    return (uint32_t)row[2] << 8 | row[3];
}

/* How many bytes it has, its next-payload byte included. */
static inline uint32_t mikey_row_length(const uint8_t *rows, size_t i)
{
    const uint8_t *row = rows + MIKEY_ROW_BYTES * i;
    return (uint32_t)row[4] << 8 | row[5];
}

/* Tells the payloads of a message. At 0 the first 144 bytes of `rows` hold its 24 rows, `count` the number of its payloads, SIGN
 * among them, `header` the length of its header, and `span` that of all before the signature; bytes of `rows` past 144 stay.
 * Codes: 1 to 13. */
uint32_t mikey_walk(const uint8_t *message, size_t message_length, uint8_t *rows, size_t rows_length, uint32_t *count,
                    uint32_t *header, uint32_t *span, uint32_t *place, uint32_t *detail);

/* Tells the payloads of a message as mikey_walk does, if the fixed profile with this number (enum mikey_profile) admits it, a tag of
 * this key is its signature, and its signer is on the trust list.
 *
 * A trust list is its signers one behind the other: for each a byte with its length, 1 to 128, and so many bytes. It has 8 signers
 * at most; one that stands twice counts once. With none, no message passes.
 *
 * Settings are looked at first, the profile before the trust list. Codes: 100; 27, 28, 101; 1 to 18. */
uint32_t mikey_read_fixed(const uint8_t *message, size_t message_length, uint8_t *rows, size_t rows_length, uint32_t profile,
                          uint64_t key, const uint8_t *trusted, size_t trusted_length, uint32_t *count, uint32_t *header,
                          uint32_t *span, uint32_t *place, uint32_t *detail);

/* The same under the sheet with this text. Codes: 29 to 31; 27, 28, 101; 1 to 18. */
uint32_t mikey_read_sheet(const uint8_t *message, size_t message_length, uint8_t *rows, size_t rows_length, const uint8_t *sheet,
                          size_t sheet_length, uint64_t key, const uint8_t *trusted, size_t trusted_length, uint32_t *count,
                          uint32_t *header, uint32_t *span, uint32_t *place, uint32_t *detail);

/* Tells the seconds since 0h on 1 January 1900 of a T payload, ten bytes as its row marks them off. Codes: 11 to 13. */
uint32_t mikey_time(const uint8_t *payload, size_t payload_length, uint64_t *seconds, uint32_t *place, uint32_t *detail);

/* Drafts a message that mikey_read_fixed accepts again from its own records. At 0 `length` is that of the message, the buffer's first
 * bytes are the message's, and those behind them are zeros up to byte 8192; further ones stay. Any other code leaves the buffer as
 * it was. Codes: those of mikey_read_fixed but 1, and 23 for a buffer that is shorter than the message. */
uint32_t mikey_redraft_fixed(const uint8_t *message, size_t message_length, uint32_t profile, uint64_t key,
                             const uint8_t *trusted, size_t trusted_length, uint8_t *buffer, size_t buffer_length,
                             uint32_t *length, uint32_t *place, uint32_t *detail);

/* The same under the sheet with this text, for a message that mikey_read_sheet accepts. */
uint32_t mikey_redraft_sheet(const uint8_t *message, size_t message_length, const uint8_t *sheet, size_t sheet_length,
                             uint64_t key, const uint8_t *trusted, size_t trusted_length, uint8_t *buffer,
                             size_t buffer_length, uint32_t *length, uint32_t *place, uint32_t *detail);

#ifdef __cplusplus
}
#endif

#endif
