/* Parts of a book in words, for one line of a report. */
#ifndef HOST_WORDS_H
#define HOST_WORDS_H

#include "book.h"
#include "names.h"

struct report {
    FILE *out;
    const struct book *book;
    const struct names *names; /* with no lines if there are no names */
};

/* "kept(dose1) [atom 6]", or "atom 6" without a name */
void say_atom(const struct report *report, uint32_t atom);

/* "rule 2, for kept(dose1) [atom 6]" */
void say_rule(const struct report *report, uint32_t rule);

/* "predicate 2: complete, level 1" */
void say_predicate(const struct report *report, uint32_t predicate);

/* "its first atom is kept(dose1) [atom 6]", or "it has no atom" */
void say_first_atom(const struct report *report, uint32_t predicate);

/* "count >= 2" */
void say_comparison(const struct report *report, uint32_t comparison);

/* A line for which record it is: a predicate's first atom, an atom's name, what a rule concludes, and for the others
   the first rule in which they stand. No line for an atom without a name. */
void say_where(const struct report *report, int table, uint32_t record);

/* The kind of a predicate; "not listed" for a code that is none. */
const char *kind_name(uint32_t kind);

#endif
