/* See equal.h. */
#include "equal.h"

#include <stdio.h>
#include <string.h>

#include "mikey.h"
#include "plain.h"

/* Rows that are lent, and some bytes behind them that no call may touch. */
enum { LENT = TABLE_BYTES + 12 };

/* What a call leaves behind. */
struct left {
    uint8_t rows[LENT];
    uint32_t code, count, header, span, place, detail;
};

static const struct left BEFORE = {{0}, 0, 101, 102, 103, 104, 105};

static struct left before(void)
{
    struct left l = BEFORE;
    memset(l.rows, 0xa5, sizeof l.rows);
    return l;
}

static int same(const struct left *a, const struct left *b)
{
    return memcmp(a->rows, b->rows, sizeof a->rows) == 0 && a->code == b->code && a->count == b->count &&
           a->header == b->header && a->span == b->span && a->place == b->place && a->detail == b->detail;
}

static size_t compared, differ;

static void tell(const char *what, const struct left *a, const struct left *b)
{
    compared++;
    if (same(a, b))
        return;
    if (differ++ < 10)
        printf("%s: library %u place %u detail %u, plain C %u place %u detail %u\n", what, a->code, a->place, a->detail,
               b->code, b->place, b->detail);
}

static void walks(const uint8_t *message, size_t length, size_t room)
{
    struct left a = before(), b = before();
    a.code = mikey_walk(message, length, a.rows, room, &a.count, &a.header, &a.span, &a.place, &a.detail);
    b.code = plain_walk(message, length, b.rows, room, &b.count, &b.header, &b.span, &b.place, &b.detail);
    tell("walk", &a, &b);
}

static void reads(const uint8_t *message, size_t length, struct trust trust, uint32_t profile)
{
    struct left a = before(), b = before();
    a.code = mikey_read_fixed(message, length, a.rows, LENT, profile, KEY, trust.bytes, trust.length, &a.count,
                              &a.header, &a.span, &a.place, &a.detail);
    b.code = plain_read(message, length, b.rows, LENT, profile, KEY, trust.bytes, trust.length, &b.count, &b.header,
                        &b.span, &b.place, &b.detail);
    tell("read", &a, &b);
}

/* The first bytes of a message, under its own trust list and some fixed profile. */
static void both(const struct message *m, size_t length, uint32_t profile)
{
    walks(m->bytes, length, LENT);
    reads(m->bytes, length, trust_of(m), profile);
}

/* A long message is changed in fewer ways. */
static const uint8_t FEW[] = {1, 2, 4, 8, 16, 32, 64, 128, 255};

static void changes(struct message *m)
{
    for (size_t i = 0; i < m->length; i++) {
        uint8_t was = m->bytes[i];
        size_t ways = m->length <= 1024 ? 255 : sizeof FEW;
        for (size_t w = 0; w < ways; w++) {
            m->bytes[i] = was ^ (m->length <= 1024 ? (uint8_t)(w + 1) : FEW[w]);
            both(m, m->length, m->profile);
        }
        m->bytes[i] = was;
    }
}

static void one(const struct message *given)
{
    static struct message m;
    m = *given;
    for (uint32_t profile = 0; profile <= 4; profile++)
        both(&m, m.length, profile);
    for (size_t room = 0; room <= LENT; room++)
        walks(m.bytes, m.length, room);
    for (size_t n = 0; n <= m.length; n++)
        both(&m, n, m.profile);
    changes(&m);
    m.bytes[m.length] = 0;
    both(&m, m.length + 1, m.profile);
}

int all_equal(const struct message *messages, size_t count)
{
    static struct message m;
    for (size_t i = 0; i < count; i++)
        one(&messages[i]);
    for (size_t n = 1; n <= 25; n++) {
        message_of_payloads(&m, n);
        one(&m);
    }
    group_message_of(&m, LONGEST);
    one(&m);
    group_message_of(&m, LONGEST + 1);
    both(&m, m.length, m.profile);
    printf("The library and plain C were compared on %zu calls, of whole, cut and changed messages: %zu differ.\n", compared, differ);
    return differ == 0;
}
