/* Reads the tables of a book: docs/FORMAT.md. */
#include "book.h"

#include "doughpillar.h"

static const struct {
    uint32_t size, limit;
    const char *records;
} tables[] = {
    {8, 6, "entries"},
    {2, DOUGHPILLAR_MOST_PREDICATES, "predicates"},
    {3, DOUGHPILLAR_MOST_ATOMS, "atoms"},
    {6, DOUGHPILLAR_MOST_RULES, "rules"},
    {3, DOUGHPILLAR_MOST_HYPOTHESES, "hypotheses"},
    {10, DOUGHPILLAR_MOST_COMPARISONS, "comparisons"},
    {7, DOUGHPILLAR_MOST_ELEMENTS, "elements"},
};

/* The table of a field, the byte of the record at which it starts, and its width in bytes. */
static const struct {
    int table;
    unsigned byte, width;
} fields[] = {
    [KIND] = {PREDICATES, 0, 1},       [LEVEL] = {PREDICATES, 1, 1},
    [PREDICATE] = {ATOMS, 0, 2},       [GIVEN] = {ATOMS, 2, 1},
    [HEAD] = {RULES, 0, 2},            [FIRST_HYPOTHESIS] = {RULES, 2, 2},   [MANY_HYPOTHESES] = {RULES, 4, 2},
    [SORT] = {HYPOTHESES, 0, 1},       [INDEX] = {HYPOTHESES, 1, 2},
    [AGGREGATE] = {COMPARISONS, 0, 1}, [RELATION] = {COMPARISONS, 1, 1},     [BOUND] = {COMPARISONS, 2, 4},
    [FIRST_ELEMENT] = {COMPARISONS, 6, 2},                                   [MANY_ELEMENTS] = {COMPARISONS, 8, 2},
    [SIGN] = {ELEMENTS, 0, 1},         [ATOM] = {ELEMENTS, 1, 2},
};

/* A number of some bytes, little-endian. */
static uint32_t number_at(const struct book *book, size_t place, unsigned width)
{
    uint32_t number = 0;
    for (unsigned i = 0; i < width; i++)
        if (place + i < book->length)
            number |= (uint32_t)book->bytes[place + i] << (8 * i);
    return number;
}

uint32_t offset_of(const struct book *book, int table)
{
    return number_at(book, 8 * ((size_t)table - 1), 4);
}

uint32_t count_of(const struct book *book, int table)
{
    return number_at(book, 8 * ((size_t)table - 1) + 4, 4);
}

uint32_t size_of(const struct book *book, int table)
{
    return tables[table].size * count_of(book, table);
}

uint32_t limit_of(int table)
{
    return tables[table].limit;
}

const char *records_of(int table)
{
    return tables[table].records;
}

int table_of(enum field field)
{
    return fields[field].table;
}

size_t byte_of(const struct book *book, enum field field, uint32_t record)
{
    int table = fields[field].table;
    return (size_t)offset_of(book, table) + (size_t)tables[table].size * record + fields[field].byte;
}

uint32_t field_of(const struct book *book, enum field field, uint32_t record)
{
    return number_at(book, byte_of(book, field, record), fields[field].width);
}
