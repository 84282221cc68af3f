/* Messages built field by field, of the sizes that the standards' messages have. */
#ifndef MESSAGES_H
#define MESSAGES_H

#include <stddef.h>
#include <stdint.h>

enum { ROOM = 16384, MOST_MESSAGES = 64 };

struct message {
    char name[64];
    uint32_t profile; /* 1 client-server key, 2 private call key, 3 group key */
    size_t length;
    uint8_t bytes[ROOM];
};

/* A message in the making: where it ends, and the byte that names its next payload. */
struct writer {
    struct message *message;
    size_t naming;
};

extern const uint64_t KEY;

/* The initiators of the messages below, as trust lists of one signer each. */
struct trust {
    const uint8_t *bytes;
    size_t length;
};

struct trust trust_of(const struct message *message);

/* The header: byte 3 is 1, no sessions yet. The purpose is the top four bits of the CSB ID. */
struct writer begin_message(struct message *message, const char *name, uint32_t profile);

/* A session with its policy numbers, whose S flag and session data are by the length of the data, 0, 4 or 10. */
void add_session(struct writer *w, size_t policies, size_t data, size_t spi);

void add_payload(struct writer *w, uint8_t code, const uint8_t *body, size_t length);
void add_time(struct writer *w);
void add_rand(struct writer *w, size_t length);
void add_identity(struct writer *w, uint8_t role, const char *identity);
void add_policy(struct writer *w, size_t items);
void add_sakke(struct writer *w, size_t data);
void add_wrapped_sakke(struct writer *w, size_t data);
void add_params(struct writer *w, size_t data);

/* S type 2, and a signature of 8 bytes: the tag of KEY over the first IDR of role 1 and the span. */
void end_by_tag(struct writer *w);

/* S type 2, and a signature of so many bytes, which no key tag passes. */
void end_by_signature(struct writer *w, size_t length);

/* The messages of the standards. Answers how many there are. */
size_t standard_messages(struct message *messages);

/* A message from a file; 0 if it can't be read. */
int load_message(struct message *message, const char *path, uint32_t profile);

/* A message of so many payloads, SIGN among them: RANDs of 16 bytes, then SIGN. */
void message_of_payloads(struct message *message, size_t payloads);

/* A group key message of twelve payloads or fewer whose key parameters have so many bytes. */
void group_message(struct message *message, size_t params);

/* A group key message of so many bytes in all. */
void group_message_of(struct message *message, size_t length);

#endif
