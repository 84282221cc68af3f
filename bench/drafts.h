/* Drafts: whole messages, and edits in the middle of a full one. */
#ifndef DRAFTS_H
#define DRAFTS_H

#include "messages.h"

/* Prints the tables; 0 if a draft comes out wrong. */
int drafts(const struct message *messages, size_t n);

#endif
