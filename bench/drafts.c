/* See drafts.h. */
#include "drafts.h"

#include <stdio.h>
#include <stdlib.h>
#include <string.h>

#include "calls.h"
#include "edits.h"
#include "measure.h"
#include "messages.h"
#include "plain.h"

/* A message, the records that it is drafted from, the calls that draft it, and as many calls that an open draft does not take. */
struct drafting {
    struct message message;
    struct plain_records records;
    struct call_list calls, misplaced;
};

static uint8_t buffer[LONGEST];
static size_t length;

static void draft_library(void *context, size_t times)
{
    const struct drafting *d = context;
    while (times--)
        length = make_calls(&d->calls, buffer, d->message.length);
}

/* In a buffer of no bytes, so that none is cleared. */
static void misplace_library(void *context, size_t times)
{
    const struct drafting *d = context;
    while (times--)
        length = make_calls(&d->misplaced, buffer, 0);
}

static void draft_plain(void *context, size_t times)
{
    const struct drafting *d = context;
    while (times--)
        length = plain_draft(&d->records, d->message.profile, buffer, d->message.length);
}

static int is_drafted(const struct drafting *d)
{
    return length == d->message.length && memcmp(buffer, d->message.bytes, length) == 0;
}

/* Head, an add for each payload, close and sign, with bytes that are parts of the message. */
static void list_calls(struct drafting *d)
{
    const uint8_t *bytes = d->message.bytes, *header = d->records.header;
    struct call_list list = {.bytes = bytes, .length = d->message.length, .profile = d->message.profile};
    uint32_t csb = (uint32_t)header[4] << 24 | (uint32_t)header[5] << 16 | (uint32_t)header[6] << 8 | header[7];
    add_call(&list, (struct call){.kind = CALL_HEAD, .byte3 = header[3], .csb = csb, .cs = header[8], .map_type = header[9],
                                  .start = 10, .length = d->records.header_length - 10});
    for (size_t i = 0; i < d->records.count; i++) {
        const struct plain_payload *p = &d->records.payloads[i];
        add_call(&list, (struct call){.kind = CALL_ADD, .position = i, .code = p->code, .start = (size_t)(p->body - bytes),
                                      .length = p->length});
    }
    size_t signature = d->records.signature_length;
    add_call(&list, (struct call){.kind = CALL_CLOSE, .sign_type = d->records.sign_type, .length = signature});
    add_call(&list, (struct call){.kind = CALL_SIGN, .start = (size_t)(d->records.signature - bytes), .length = signature});
    d->calls = list;
    for (size_t i = 0; i < list.count; i++)
        list.calls[i].kind = CALL_RELEASE;
    d->misplaced = list;
}

static int draft_row(struct drafting *d)
{
    struct job draft = {draft_library, d, {0}, 0}, misplace = {misplace_library, d, {0}, 0}, plain = {draft_plain, d, {0}, 0};
    struct job *jobs[] = {&draft, &misplace, &plain};
    memset(buffer, 0xa5, sizeof buffer);
    draft_plain(d, 1);
    int right = is_drafted(d);
    memset(buffer, 0xa5, sizeof buffer);
    draft_library(d, 1);
    if (!right || !is_drafted(d)) {
        printf("A draft is not the message that it was made from.\n");
        return 0;
    }
    measure(jobs, 3);
    struct job library = difference(&draft, &misplace, 1);
    printf("| %s: %zu bytes, %zu payloads | %.0f | %.0f |", d->message.name, d->message.length, d->records.count + 1,
           library.least, plain.least);
    print_ratio(&library, &plain);
    printf("\n");
    return 1;
}

int drafts(const struct message *messages, size_t n)
{
    static struct drafting d;
    printf("\nDrafting a message from its records: header, payloads, close under the fixed profile, and signature. The library's time is what\n"
           "the list of these calls takes longer than one of as many calls that are misplaced, in a buffer of no bytes.\n\n"
           "| message | library, ns | C, ns | ratio: of the least; by rounds |\n|---|---|---|---|\n");
    for (size_t i = 0; i < n; i++) {
        d.message = messages[i];
        d.records = plain_records_of(d.message.bytes, d.message.length);
        /* A message that its fixed profile does not admit is not drafted. */
        draft_plain(&d, 1);
        if (length != d.message.length)
            continue;
        list_calls(&d);
        if (!draft_row(&d))
            return 0;
    }
    return edits();
}
