/* A walk, a read and a draft written by hand in plain C, with the same checks and the same results as the library's. */
#ifndef PLAIN_H
#define PLAIN_H

#include <stddef.h>
#include <stdint.h>

enum { ROW_BYTES = 6, MOST_PAYLOADS = 24, TABLE_BYTES = ROW_BYTES * MOST_PAYLOADS, LONGEST = 8192 };

/* Refusals 1 to 13. The rows, 144 bytes, are written only if the message is accepted, and the numbers likewise. */
uint32_t plain_walk(const uint8_t *message, size_t length, uint8_t *rows, size_t rows_length, uint32_t *count,
                    uint32_t *header, uint32_t *span, uint32_t *place, uint32_t *detail);

/* The tag over a signer and a span: for each byte, rotate left by 7 and add. */
uint64_t plain_tag(uint64_t key, const uint8_t *signer, size_t signer_length, const uint8_t *span, size_t span_length);

/* What a read is measured against: the walk, then the tag over the same bytes, compared with the signature. It asks no profile. */
uint32_t plain_walk_and_tag(const uint8_t *message, size_t length, uint8_t *rows, size_t rows_length, uint64_t key,
                            uint32_t *count, uint32_t *header, uint32_t *span, uint32_t *place, uint32_t *detail);

/* The same with the questions of a fixed profile (1 client-server key, 2 private call key, 3 group key) and with a trust list:
   signers one behind the other, each behind a byte with its length. Codes 100; 27, 28, 101; 1 to 18. */
uint32_t plain_read(const uint8_t *message, size_t length, uint8_t *rows, size_t rows_length, uint32_t profile,
                    uint64_t key, const uint8_t *trusted, size_t trusted_length, uint32_t *count, uint32_t *header,
                    uint32_t *span, uint32_t *place, uint32_t *detail);

/* The records of a message, as a draft is given them: a header of ten bytes and map info, payloads before SIGN, and a signature. */
struct plain_payload {
    uint8_t code;
    const uint8_t *body;
    size_t length;
};

struct plain_records {
    const uint8_t *header;
    size_t header_length;
    struct plain_payload payloads[MOST_PAYLOADS];
    size_t count;
    uint8_t sign_type;
    const uint8_t *signature;
    size_t signature_length;
};

/* The records of a message that a walk accepts. */
struct plain_records plain_records_of(const uint8_t *message, size_t length);

/* Drafts a message from its records in a buffer: each is checked as it is laid, and the fixed profile is asked of the whole. Answers its
   length, or 0 if something is wrong. */
size_t plain_draft(const struct plain_records *records, uint32_t profile, uint8_t *buffer, size_t room);

#endif
