/* See messages.h. docs/FORMAT.md has the fields. */
#include "messages.h"

#include <stdio.h>
#include <string.h>

#include "plain.h"

const uint64_t KEY = 0x0123456789abcdef;

enum { T = 5, RAND = 11, IDR = 14, SP = 10, SAKKE = 26, EXT = 21, SIGN = 4 };

/* Sizes of the real fields: a SAKKE encapsulation of parameter set 1 with its hint, an ECCSI signature, a RAND, a wrapped group key. */
enum { SAKKE_DATA = 273, ECCSI = 129, RAND_LENGTH = 16, GROUP_PARAMS = 90 };

static const uint8_t PURPOSES[4] = {0, 2, 1, 0};

#define CABIN "sip:cabin7@line4.example"
#define GROUP_SERVER "sip:gms@line4.example"

/* Each behind a byte with its length. */
static const uint8_t CABIN_LIST[] = "\x18" CABIN;
static const uint8_t GROUP_SERVER_LIST[] = "\x15" GROUP_SERVER;

struct trust trust_of(const struct message *message)
{
    if (message->profile == 3)
        return (struct trust){GROUP_SERVER_LIST, sizeof GROUP_SERVER_LIST - 1};
    return (struct trust){CABIN_LIST, sizeof CABIN_LIST - 1};
}

/* Bytes that are not all alike. */
static uint8_t filler(size_t i)
{
    uint32_t x = (uint32_t)i * 2654435761u;
    return (uint8_t)(x >> 24);
}

static void put(struct writer *w, uint8_t byte)
{
    w->message->bytes[w->message->length++] = byte;
}

static void put_pair(struct writer *w, size_t n)
{
    put(w, (uint8_t)(n >> 8));
    put(w, (uint8_t)n);
}

static void put_filler(struct writer *w, size_t length)
{
    for (size_t i = 0; i < length; i++)
        put(w, filler(w->message->length));
}

/* The next-payload byte of a payload that is named by the one before it. */
static void begin_payload(struct writer *w, uint8_t code)
{
    w->message->bytes[w->naming] = code;
    w->naming = w->message->length;
    if (code != SIGN)
        put(w, 0);
}

struct writer begin_message(struct message *message, const char *name, uint32_t profile)
{
    snprintf(message->name, sizeof message->name, "%s", name);
    message->profile = profile;
    message->length = 0;
    struct writer w = {message, 2};
    put(&w, 1);
    put(&w, 26);
    put(&w, 0);
    put(&w, 1);
    put(&w, (uint8_t)(PURPOSES[profile] << 4));
    put(&w, 0x3c);
    put(&w, 0x51);
    put(&w, 0xe7);
    put(&w, 0);
    put(&w, 1);
    return w;
}

void add_session(struct writer *w, size_t policies, size_t data, size_t spi)
{
    w->message->bytes[8]++;
    w->message->bytes[9] = 2;
    put(w, w->message->bytes[8]);
    put(w, 0);
    put(w, (uint8_t)((data == 10 ? 128 : 0) + policies));
    put_filler(w, policies);
    put_pair(w, data);
    put_filler(w, data);
    put(w, (uint8_t)spi);
    put_filler(w, spi);
}

void add_payload(struct writer *w, uint8_t code, const uint8_t *body, size_t length)
{
    begin_payload(w, code);
    memcpy(w->message->bytes + w->message->length, body, length);
    w->message->length += length;
}

void add_time(struct writer *w)
{
    begin_payload(w, T);
    put(w, 0);
    put_filler(w, 8);
}

void add_rand(struct writer *w, size_t length)
{
    begin_payload(w, RAND);
    put(w, (uint8_t)length);
    put_filler(w, length);
}

void add_identity(struct writer *w, uint8_t role, const char *identity)
{
    begin_payload(w, IDR);
    put(w, role);
    put(w, 1);
    put_pair(w, strlen(identity));
    for (const char *c = identity; *c; c++)
        put(w, (uint8_t)*c);
}

void add_policy(struct writer *w, size_t items)
{
    begin_payload(w, SP);
    put(w, 0);
    put(w, 0);
    put_pair(w, items * 3);
    for (size_t i = 0; i < items; i++) {
        put(w, (uint8_t)i);
        put(w, 1);
        put(w, filler(i));
    }
}

static void put_sakke(struct writer *w, size_t data)
{
    put(w, 1);
    put(w, 2);
    put_pair(w, data);
    put_filler(w, data);
}

void add_sakke(struct writer *w, size_t data)
{
    begin_payload(w, SAKKE);
    put_sakke(w, data);
}

void add_wrapped_sakke(struct writer *w, size_t data)
{
    begin_payload(w, EXT);
    put(w, 6);
    put_pair(w, 5 + data);
    put(w, 0);
    put_sakke(w, data);
}

void add_params(struct writer *w, size_t data)
{
    begin_payload(w, EXT);
    put(w, 7);
    put_pair(w, data);
    put_filler(w, data);
}

/* The ID data of the first IDR of role 1, found from the chain of payloads. */
static uint64_t tag_of(const struct message *message, size_t span)
{
    uint8_t rows[TABLE_BYTES];
    uint32_t count, header, spanned, place, detail;
    const uint8_t *m = message->bytes;
    if (plain_walk(m, message->length, rows, sizeof rows, &count, &header, &spanned, &place, &detail) == 0)
        for (uint32_t i = 0; i < count; i++) {
            const uint8_t *row = rows + i * ROW_BYTES;
            size_t start = (size_t)row[2] << 8 | row[3];
            size_t length = (size_t)row[4] << 8 | row[5];
            if (row[1] == 3)
                return plain_tag(KEY, m + start + 5, length - 5, m, span);
        }
    return plain_tag(KEY, m, 0, m, span);
}

void end_by_tag(struct writer *w)
{
    begin_payload(w, SIGN);
    put_pair(w, 2 << 12 | 8);
    size_t span = w->message->length;
    for (size_t i = 0; i < 8; i++)
        put(w, 0);
    uint64_t tag = tag_of(w->message, span);
    for (size_t i = 0; i < 8; i++)
        w->message->bytes[span + i] = (uint8_t)(tag >> (56 - 8 * i));
}

void end_by_signature(struct writer *w, size_t length)
{
    begin_payload(w, SIGN);
    put_pair(w, 2 << 12 | length);
    put_filler(w, length);
}

/* T, RAND and the four identities, as they stand in each of the standards' messages. */
static void add_front(struct writer *w, const char *initiator, const char *responder)
{
    add_time(w);
    add_rand(w, RAND_LENGTH);
    add_identity(w, 1, initiator);
    add_identity(w, 2, responder);
    add_identity(w, 6, "kms.line4.example");
    add_identity(w, 7, "kms.line4.example");
}

static void client_server(struct message *message, int to_self)
{
    struct writer w = begin_message(message, to_self ? "client-server key, SAKKE-to-self" : "client-server key", 1);
    add_front(&w, CABIN, "sip:server@line4.example");
    add_sakke(&w, SAKKE_DATA);
    if (to_self)
        add_wrapped_sakke(&w, SAKKE_DATA);
    end_by_tag(&w);
}

static void private_call(struct message *message)
{
    struct writer w = begin_message(message, "private call key, session, policy", 2);
    add_session(&w, 1, 4, 4);
    add_front(&w, CABIN, "sip:tower2@line4.example");
    add_policy(&w, 14);
    add_sakke(&w, SAKKE_DATA);
    end_by_tag(&w);
}

static void group_front(struct writer *w)
{
    add_front(w, GROUP_SERVER, "sip:cabins@line4.example");
    add_policy(w, 14);
    add_sakke(w, SAKKE_DATA);
}

void group_message(struct message *message, size_t params)
{
    struct writer w = begin_message(message, "group key, key parameters", 3);
    group_front(&w);
    add_params(&w, params);
    end_by_tag(&w);
}

void group_message_of(struct message *message, size_t length)
{
    group_message(message, 0);
    group_message(message, length - message->length);
}

static void group_with_all(struct message *message)
{
    struct writer w = begin_message(message, "group key, 4 sessions, to-self", 3);
    for (size_t i = 0; i < 4; i++)
        add_session(&w, 1, i % 2 ? 10 : 4, 4);
    group_front(&w);
    add_wrapped_sakke(&w, SAKKE_DATA);
    add_params(&w, GROUP_PARAMS);
    end_by_tag(&w);
}

/* As it goes over the air: the signature is of a real size, so that a key tag does not pass it. */
static void group_signed(struct message *message)
{
    struct writer w = begin_message(message, "group key, signature of 129 bytes", 3);
    group_front(&w);
    add_params(&w, GROUP_PARAMS);
    end_by_signature(&w, ECCSI);
}

size_t standard_messages(struct message *messages)
{
    client_server(&messages[0], 0);
    client_server(&messages[1], 1);
    private_call(&messages[2]);
    group_message(&messages[3], GROUP_PARAMS);
    group_with_all(&messages[4]);
    group_signed(&messages[5]);
    return 6;
}

int load_message(struct message *message, const char *path, uint32_t profile)
{
    FILE *file = fopen(path, "rb");
    if (!file)
        return 0;
    message->length = fread(message->bytes, 1, sizeof message->bytes, file);
    fclose(file);
    const char *base = strrchr(path, '/');
    snprintf(message->name, sizeof message->name, "%s", base ? base + 1 : path);
    message->profile = profile;
    return 1;
}

void message_of_payloads(struct message *message, size_t payloads)
{
    struct writer w = begin_message(message, "RANDs", 3);
    for (size_t i = 1; i < payloads; i++)
        add_rand(&w, RAND_LENGTH);
    end_by_tag(&w);
}
