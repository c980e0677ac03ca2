/* Refusals 4 to 7 in words: codes, indices, an atom twice in a comparison, given atoms. */
#include "explain.h"

/* The fields that are codes or levels: the most that is listed, and what is. */
static const struct {
    enum field field;
    const char *name;
    uint32_t most;
    const char *listed;
} codes[] = {
    {KIND, "kind", 3, "0 certain, 1 open, 2 complete, 3 closed"},
    {LEVEL, "level", 127, "0 to 127"},
    {GIVEN, "given byte", 2, "0 not given, 1 true, 2 false"},
    {SORT, "sort", 2, "0 atom, 1 not atom, 2 comparison"},
    {AGGREGATE, "aggregate", 3, "0 count, 1 sum, 2 min, 3 max"},
    {RELATION, "relation", 5, "0 =, 1 !=, 2 <, 3 <=, 4 >, 5 >="},
    {SIGN, "sign", 1, "0 atom, 1 not atom"},
};

static int explain_code(const struct report *report, int table, uint32_t record)
{
    int found = 0;
    for (size_t i = 0; i < sizeof codes / sizeof codes[0]; i++) {
        uint32_t code = field_of(report->book, codes[i].field, record);
        if (table_of(codes[i].field) != table || code <= codes[i].most)
            continue;
        fprintf(report->out, "  its %s (byte %zu) is %u; listed are %s\n", codes[i].name,
                byte_of(report->book, codes[i].field, record), (unsigned)code, codes[i].listed);
        found = 1;
    }
    say_where(report, table, record);
    return found;
}

static void say_count(const struct report *report, int table)
{
    unsigned count = (unsigned)count_of(report->book, table);
    if (count == 0)
        fprintf(report->out, "; the book has no %s\n", records_of(table));
    else
        fprintf(report->out, "; the book has %s 0 to %u\n", records_of(table), count - 1);
}

/* An index that is not in the table that it points into. */
static int explain_index(const struct report *report, enum field field, const char *name, int into, uint32_t record)
{
    uint32_t index = field_of(report->book, field, record);
    if (index < count_of(report->book, into))
        return 0;
    fprintf(report->out, "  its %s (byte %zu) is %u", name, byte_of(report->book, field, record), (unsigned)index);
    say_count(report, into);
    return 1;
}

/* A range, a first one and how many, that leaves its table. */
static int explain_range(const struct report *report, enum field first, enum field many, int into, uint32_t record)
{
    uint32_t start = field_of(report->book, first, record), length = field_of(report->book, many, record);
    if (start + length <= count_of(report->book, into))
        return 0;
    fprintf(report->out, "  its %s (byte %zu) are %u from %u on", records_of(into),
            byte_of(report->book, first, record), (unsigned)length, (unsigned)start);
    say_count(report, into);
    return 1;
}

static int explain_stray(const struct report *report, int table, uint32_t record)
{
    int found = 0;
    switch (table) {
    case ATOMS: found = explain_index(report, PREDICATE, "predicate", PREDICATES, record); break;
    case RULES:
        found = explain_index(report, HEAD, "head", ATOMS, record);
        found |= explain_range(report, FIRST_HYPOTHESIS, MANY_HYPOTHESES, HYPOTHESES, record);
        break;
    case HYPOTHESES:
        found = field_of(report->book, SORT, record) == 2
            ? explain_index(report, INDEX, "comparison", COMPARISONS, record)
            : explain_index(report, INDEX, "atom", ATOMS, record);
        break;
    case COMPARISONS: found = explain_range(report, FIRST_ELEMENT, MANY_ELEMENTS, ELEMENTS, record); break;
    case ELEMENTS: found = explain_index(report, ATOM, "atom", ATOMS, record); break;
    default: break;
    }
    say_where(report, table, record);
    return found;
}

static int explain_twice(const struct report *report, uint32_t comparison)
{
    const struct book *book = report->book;
    uint32_t first = field_of(book, FIRST_ELEMENT, comparison), end = first + field_of(book, MANY_ELEMENTS, comparison);
    int found = 0;
    for (uint32_t e = first; e < end && !found; e++)
        for (uint32_t later = e + 1; later < end && !found; later++) {
            uint32_t atom = field_of(book, ATOM, e);
            if (field_of(book, ATOM, later) != atom)
                continue;
            fprintf(report->out, "  ");
            say_atom(report, atom);
            fprintf(report->out, " is in its elements %u and %u\n", (unsigned)e, (unsigned)later);
            found = 1;
        }
    say_where(report, COMPARISONS, comparison);
    return found;
}

static int explain_given(const struct report *report, uint32_t atom)
{
    const struct book *book = report->book;
    uint32_t predicate = field_of(book, PREDICATE, atom), kind = field_of(book, KIND, predicate), rule = 0;
    fprintf(report->out, "  ");
    say_atom(report, atom);
    fprintf(report->out, " is given %s (byte %zu)\n", field_of(book, GIVEN, atom) == 1 ? "true" : "false",
            byte_of(book, GIVEN, atom));
    if (kind != 1)
        fprintf(report->out, "  its predicate %u is %s, and only open atoms may be given\n", (unsigned)predicate,
                kind_name(kind));
    while (rule < count_of(book, RULES) && field_of(book, HEAD, rule) != atom)
        rule++;
    if (rule < count_of(book, RULES))
        fprintf(report->out, "  rule %u concludes it, and only atoms that no rule concludes may be given\n",
                (unsigned)rule);
    return field_of(book, GIVEN, atom) != 0 && (kind != 1 || rule < count_of(book, RULES));
}

int explain_record(const struct report *report, unsigned number, int table, uint32_t record)
{
    switch (number) {
    case 4: return explain_code(report, table, record);
    case 5: return explain_stray(report, table, record);
    case 6: return explain_twice(report, record);
    default: return explain_given(report, record);
    }
}
