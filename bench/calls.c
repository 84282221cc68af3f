/* See calls.h. */
#include "calls.h"

#include <stdio.h>
#include <stdlib.h>

void add_call(struct call_list *list, struct call call)
{
    if (list->count == MOST_CALLS) {
        fprintf(stderr, "A list has more than %d calls.\n", MOST_CALLS);
        exit(1);
    }
    list->calls[list->count++] = call;
}

size_t make_calls(const struct call_list *list, uint8_t *buffer, size_t length)
{
    return bench_calls(list->calls, list->count, list->bytes, list->length, list->profile, buffer, length);
}
