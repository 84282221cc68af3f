/* See edits.h. */
#include "edits.h"

#include <stdint.h>
#include <stdio.h>
#include <string.h>

#include "calls.h"
#include "measure.h"
#include "plain.h"

/* A draft of eleven payloads, a RAND in the middle and key parameters around it. Each edit makes the RAND longer by a byte, or shorter. */
enum { PAYLOADS = 11, MIDDLE = 5, NOWHERE = 15, LEAST = 16, EDITS = 64, MOST = LEAST + EDITS };

enum { RAND = 11, EXT = 21, KEY_PARAMETERS = 7, FILLER = 0x5a };

/* The bodies of all calls, one after the other. */
static uint8_t bodies[1 << 17];
static size_t used;

static void put(uint8_t byte)
{
    bodies[used++] = byte;
}

/* A call with the body that was put from a place on. */
static struct call call_from(enum call_kind kind, size_t position, uint8_t code, size_t start)
{
    return (struct call){.kind = (uint8_t)kind, .position = position, .code = code, .start = start, .length = used - start};
}

static void fill(size_t n)
{
    while (n--)
        put(FILLER);
}

static void call_rand(struct call_list *list, enum call_kind kind, size_t position, size_t n)
{
    size_t start = used;
    put((uint8_t)n);
    fill(n);
    add_call(list, call_from(kind, position, RAND, start));
}

/* Key parameters that are so many bytes as a payload. */
static void call_parameters(struct call_list *list, size_t position, size_t size)
{
    size_t start = used, n = size - 4;
    put(KEY_PARAMETERS);
    put((uint8_t)(n >> 8));
    put((uint8_t)n);
    fill(n);
    add_call(list, call_from(CALL_ADD, position, EXT, start));
}

/* The draft with a RAND of so many bytes, which counts `room` bytes less than its buffer if those are LEAST. */
static void call_draft(struct call_list *list, size_t room, size_t n)
{
    *list = (struct call_list){.bytes = bodies, .length = sizeof bodies, .profile = 3};
    add_call(list, (struct call){.kind = CALL_HEAD, .byte3 = 1, .csb = 5, .map_type = 1});
    size_t left = LONGEST - room - 10 - (2 + LEAST);
    for (size_t i = 0; i < PAYLOADS; i++) {
        if (i == MIDDLE) {
            call_rand(list, CALL_ADD, i, n);
            continue;
        }
        size_t size = left / (PAYLOADS - i - (i < MIDDLE));
        left -= size;
        call_parameters(list, i, size);
    }
}

/* Edits that make the RAND longer, up to a draft of 8,192 bytes, at a position. */
static void call_longer(struct call_list *list, size_t position)
{
    for (size_t n = LEAST + 1; n <= MOST; n++)
        call_rand(list, CALL_REPLACE, position, n);
}

static void call_shorter(struct call_list *list, size_t position)
{
    for (size_t n = MOST; n-- > LEAST;)
        call_rand(list, CALL_REPLACE, position, n);
}

static uint8_t buffer[LONGEST], wanted[LONGEST];

static void draft(void *context, size_t times)
{
    while (times--)
        make_calls(context, buffer, sizeof buffer);
}

/* The bytes behind the RAND, moved up or down by one, as often as a list makes edits. */
static const size_t FROM = LONGEST / 2;

static size_t behind;

static void move_up(void *context, size_t times)
{
    (void)context;
    while (times--)
        for (size_t i = 0; i < EDITS; i++)
            memmove(buffer + FROM - EDITS + i + 1, buffer + FROM - EDITS + i, behind);
}

static void move_down(void *context, size_t times)
{
    (void)context;
    while (times--)
        for (size_t i = EDITS; i > 0; i--)
            memmove(buffer + FROM - EDITS + i - 1, buffer + FROM - EDITS + i, behind);
}

/* Whether a list makes the draft with a RAND of so many bytes. */
static int is_made(const struct call_list *list, size_t n)
{
    static struct call_list plain;
    call_draft(&plain, EDITS, n);
    size_t length = make_calls(&plain, wanted, sizeof wanted);
    return length == LONGEST - MOST + n && make_calls(list, buffer, sizeof buffer) == length &&
           memcmp(buffer, wanted, sizeof wanted) == 0;
}

/* What a list takes longer than one whose last edits name no position, beside the moves alone. */
static void edit_row(const char *name, struct call_list *made, struct call_list *refused, void (*move)(void *, size_t))
{
    struct job all = {draft, made, {0}, 0}, none = {draft, refused, {0}, 0}, moves = {move, 0, {0}, 0}, nothing = {0, 0, {0}, 0};
    struct job *jobs[] = {&all, &none, &moves};
    measure(jobs, 3);
    struct job edits = difference(&all, &none, EDITS), one = difference(&moves, &nothing, EDITS);
    printf("| %s | %.0f | %.0f |", name, edits.least, one.least);
    print_ratio(&edits, &one);
    printf("\n");
}

int edits(void)
{
    static struct call_list longer, no_longer, shorter, no_shorter;
    call_draft(&longer, EDITS, LEAST);
    no_longer = longer;
    call_longer(&longer, MIDDLE);
    call_longer(&no_longer, NOWHERE);
    shorter = longer;
    no_shorter = longer;
    call_shorter(&shorter, MIDDLE);
    call_shorter(&no_shorter, NOWHERE);
    if (!is_made(&longer, MOST) || !is_made(&no_longer, LEAST) || !is_made(&shorter, LEAST) || !is_made(&no_shorter, MOST)) {
        printf("A list of edits does not make the draft that it should.\n");
        return 0;
    }
    behind = (LONGEST - EDITS - 10 - (2 + LEAST)) / (PAYLOADS - 1) * (PAYLOADS - 1 - MIDDLE);
    printf("\nAn edit in the middle of a full draft of 8,192 bytes: the RAND there is replaced by one that is a byte longer, or shorter, so that the\n"
           "%zu bytes behind it move. The library's time is what a list of calls takes longer than the same list whose edits name a position that\n"
           "there is not, divided by the number of edits, %d.\n\n"
           "| edit | library, ns | memmove, ns | ratio: of the least; by rounds |\n|---|---|---|---|\n",
           behind, EDITS);
    edit_row("bytes move up", &longer, &no_longer, move_up);
    edit_row("bytes move down", &shorter, &no_shorter, move_down);
    return 1;
}
