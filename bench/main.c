/* Measures the library beside plain C: the same work on the same bytes, in turns. First it sees to it that both give equal answers. */
#include <stdio.h>
#include <stdlib.h>
#include <string.h>

#include "drafts.h"
#include "equal.h"
#include "measure.h"
#include "messages.h"
#include "mikey.h"
#include "plain.h"

static uint8_t rows[TABLE_BYTES];
static uint32_t count, header, span, place, detail;

static void walk_library(void *context, size_t times)
{
    const struct message *m = context;
    while (times--)
        mikey_walk(m->bytes, m->length, rows, sizeof rows, &count, &header, &span, &place, &detail);
}

static void walk_plain(void *context, size_t times)
{
    const struct message *m = context;
    while (times--)
        plain_walk(m->bytes, m->length, rows, sizeof rows, &count, &header, &span, &place, &detail);
}

static void read_library(void *context, size_t times)
{
    const struct message *m = context;
    struct trust trust = trust_of(m);
    while (times--)
        mikey_read_fixed(m->bytes, m->length, rows, sizeof rows, m->profile, KEY, trust.bytes, trust.length, &count,
                         &header, &span, &place, &detail);
}

static void walk_and_tag_plain(void *context, size_t times)
{
    const struct message *m = context;
    while (times--)
        plain_walk_and_tag(m->bytes, m->length, rows, sizeof rows, KEY, &count, &header, &span, &place, &detail);
}

static void read_plain(void *context, size_t times)
{
    const struct message *m = context;
    struct trust trust = trust_of(m);
    while (times--)
        plain_read(m->bytes, m->length, rows, sizeof rows, m->profile, KEY, trust.bytes, trust.length, &count, &header,
                   &span, &place, &detail);
}


static void print_times(struct job **jobs, size_t n)
{
    for (size_t i = 0; i < n; i++)
        printf(" %.0f |", jobs[i]->least);
}

/* A row of a table: a walk, and below it a read. */
static void walk_row(struct message *m)
{
    struct job library = {walk_library, m, {0}, 0}, plain = {walk_plain, m, {0}, 0};
    struct job *jobs[] = {&library, &plain};
    measure(jobs, 2);
    print_times(jobs, 2);
    print_ratio(&library, &plain);
    printf("\n");
}

static void read_row(struct message *m)
{
    struct job library = {read_library, m, {0}, 0}, tag = {walk_and_tag_plain, m, {0}, 0}, plain = {read_plain, m, {0}, 0};
    struct job *jobs[] = {&library, &tag, &plain};
    measure(jobs, 3);
    print_times(jobs, 3);
    print_ratio(&library, &tag);
    print_ratio(&library, &plain);
    printf("\n");
}

static void walk_head(const char *what)
{
    printf("| %s | library, ns | C walk, ns | ratio: of the least; by rounds |\n|---|---|---|---|\n", what);
}

static void read_head(const char *what)
{
    printf("| %s | library, ns | C walk and tag, ns | C read, ns | ratio to walk and tag: of the least; by rounds | ratio to C read |\n"
           "|---|---|---|---|---|---|\n",
           what);
}

static void name_message(const struct message *m)
{
    plain_walk(m->bytes, m->length, rows, sizeof rows, &count, &header, &span, &place, &detail);
    printf("| %s: %zu bytes, %u payloads |", m->name, m->length, count);
}

static int is_read(const struct message *m)
{
    struct trust trust = trust_of(m);
    return mikey_read_fixed(m->bytes, m->length, rows, sizeof rows, m->profile, KEY, trust.bytes, trust.length, &count,
                            &header, &span, &place, &detail) == MIKEY_OK;
}

static void standards(struct message *messages, size_t n)
{
    printf("\nA walk of the standards' messages\n\n");
    walk_head("message");
    for (size_t i = 0; i < n; i++) {
        name_message(&messages[i]);
        walk_row(&messages[i]);
    }
    printf("\nA read with a key tag, under the message's fixed profile\n\n");
    read_head("message");
    for (size_t i = 0; i < n; i++) {
        /* One that the key tag does not pass is not read to its end. */
        if (!is_read(&messages[i]))
            continue;
        name_message(&messages[i]);
        read_row(&messages[i]);
    }
}

static void by_payloads(struct message *m)
{
    printf("\nA walk of RANDs of 16 bytes and SIGN, by the number of payloads\n\n");
    walk_head("payloads");
    static const size_t payloads[] = {1, 2, 4, 8, 12, 16, 20, 24};
    for (size_t i = 0; i < sizeof payloads / sizeof payloads[0]; i++) {
        message_of_payloads(m, payloads[i]);
        printf("| %zu |", payloads[i]);
        walk_row(m);
    }
}

/* Key parameters of so many bytes, up to what makes the message 8,192 bytes long. */
static size_t param_sizes(struct message *m, size_t *sizes)
{
    size_t n = 0;
    for (size_t size = 64; size <= 4096; size *= 2)
        sizes[n++] = size;
    group_message(m, 0);
    sizes[n++] = LONGEST - m->length;
    return n;
}

static void by_bytes(struct message *m)
{
    size_t sizes[16];
    size_t n = param_sizes(m, sizes);
    printf("\nA walk of a group key message, by the bytes of its key parameters\n\n");
    walk_head("bytes of key parameters, of the message");
    for (size_t i = 0; i < n; i++) {
        group_message(m, sizes[i]);
        printf("| %zu, %zu |", sizes[i], m->length);
        walk_row(m);
    }
    printf("\nA read of the same\n\n");
    read_head("bytes of key parameters, of the message");
    for (size_t i = 0; i < n; i++) {
        group_message(m, sizes[i]);
        printf("| %zu, %zu |", sizes[i], m->length);
        read_row(m);
    }
}

int main(int words, char **word)
{
    struct message *messages = calloc(MOST_MESSAGES, sizeof *messages);
    if (!messages)
        return 1;
    size_t n = standard_messages(messages);
    for (int i = 1; i < words && n + 1 < MOST_MESSAGES; i++) {
        if (!load_message(&messages[n], word[i], 3)) {
            fprintf(stderr, "%s: can't be read\n", word[i]);
            return 1;
        }
        n++;
    }
    printf("In each of %d rounds what is compared runs in turns on the same bytes, and what counts is each one's fastest turn. Times are the\n"
           "least of the rounds. A ratio is first that of these least times, then by rounds: median (least to most).\n\n",
           ROUNDS);
    if (!all_equal(messages, n))
        return 1;
    standards(messages, n);
    by_payloads(&messages[n]);
    by_bytes(&messages[n]);
    int right = drafts(messages, n);
    free(messages);
    return right ? 0 : 1;
}
