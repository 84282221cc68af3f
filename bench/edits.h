/* Edits in the middle of a full draft. */
#ifndef EDITS_H
#define EDITS_H

/* Prints the table; 0 if an edit is answered wrong. */
int edits(void);

#endif
