/* A book as the host reads it, to say in words why it was refused. A byte that is not in the book reads as 0: whatever
   the damage, the host reads nothing outside it. */
#ifndef HOST_BOOK_H
#define HOST_BOOK_H

#include <stddef.h>
#include <stdint.h>

struct book {
    const uint8_t *bytes;
    size_t length;
};

enum table { PREDICATES = 1, ATOMS, RULES, HYPOTHESES, COMPARISONS, ELEMENTS };

enum field {
    KIND, LEVEL,
    PREDICATE, GIVEN,
    HEAD, FIRST_HYPOTHESIS, MANY_HYPOTHESES,
    SORT, INDEX,
    AGGREGATE, RELATION, BOUND, FIRST_ELEMENT, MANY_ELEMENTS,
    SIGN, ATOM
};

/* What the table of contents says of a table: how many records it has, and where it starts. */
uint32_t count_of(const struct book *book, int table);
uint32_t offset_of(const struct book *book, int table);

/* The bytes of a table's records by its count, the most records that it may have, and what they are called. */
uint32_t size_of(const struct book *book, int table);
uint32_t limit_of(int table);
const char *records_of(int table);

/* A field of a record, and where in the book it stands; its table is the one that has such a field. */
uint32_t field_of(const struct book *book, enum field field, uint32_t record);
size_t byte_of(const struct book *book, enum field field, uint32_t record);
int table_of(enum field field);

#endif
