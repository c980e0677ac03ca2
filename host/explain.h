/* Why a book was refused, in words: what stood where, against what may stand there. */
#ifndef HOST_EXPLAIN_H
#define HOST_EXPLAIN_H

#include "words.h"

/* The refusal in one line, then lines of two more columns that say what the host itself finds in the book at its place.
   Returns 0 if it finds nothing there. That is so for refusal 12, which is the room's, and for no other. */
int explain(const struct report *report, uint32_t packed);

/* Its parts: refusals 4 to 7 and refusals 8 to 11, of a book whose tables stand where they should. */
int explain_record(const struct report *report, unsigned number, int table, uint32_t record);
int explain_level(const struct report *report, unsigned number, uint32_t record);

#endif
