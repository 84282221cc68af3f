/* Whether the library and plain C answer alike. */
#ifndef EQUAL_H
#define EQUAL_H

#include "messages.h"

/* Walks and reads each message, each of its cuts, and each of its bytes changed, by both; prints how many were compared. */
int all_equal(const struct message *messages, size_t count);

#endif
