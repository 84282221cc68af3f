/* Lists of calls on a draft. The archive of crates/bench_drafts makes them, which is no part of the interface for C. */
#ifndef CALLS_H
#define CALLS_H

#include <stddef.h>
#include <stdint.h>

enum call_kind { CALL_HEAD = 1, CALL_ADD, CALL_REPLACE, CALL_REMOVE, CALL_CLOSE, CALL_SIGN, CALL_WITHDRAW, CALL_RELEASE };

/* A call, as crates/bench_drafts/src/rows.rt declares it. Its bytes are a part of those that are handed beside. */
struct call {
    uint8_t kind, byte3, cs, map_type, code, sign_type;
    uint32_t csb;
    size_t position, start, length;
};

enum { MOST_CALLS = 160 };

/* Makes the calls, MOST_CALLS at most, on a draft that begins in the buffer, and answers how many bytes its encoding then has. */
size_t bench_calls(const struct call *calls, size_t count, const uint8_t *bytes, size_t bytes_length, uint32_t profile,
                   uint8_t *buffer, size_t buffer_length);

struct call_list {
    struct call calls[MOST_CALLS];
    size_t count;
    const uint8_t *bytes;
    size_t length;
    uint32_t profile;
};

/* One more call at the end of a list. */
void add_call(struct call_list *list, struct call call);

/* Makes the calls of a list in a buffer. */
size_t make_calls(const struct call_list *list, uint8_t *buffer, size_t length);

#endif
