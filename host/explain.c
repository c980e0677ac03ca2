/* The refusal in one line; then refusals 1 to 3, of the book's frame. */
#include "explain.h"

/* A place of 0, 0 needs no words; refusals 2 and 3 are of a table, the later ones of a record. */
static void say_refusal(FILE *out, uint32_t packed)
{
    unsigned number = DOUGHPILLAR_NUMBER(packed), record = DOUGHPILLAR_RECORD(packed);
    const char *sort = doughpillar_record_sort(packed), *words = doughpillar_refusal(packed);
    if (DOUGHPILLAR_TABLE(packed) == 0)
        fprintf(out, "refused %u: %s\n", number, words);
    else if (number < 4)
        fprintf(out, "refused %u at the %s table: %s\n", number, sort, words);
    else
        fprintf(out, "refused %u at %s %u: %s\n", number, sort, record, words);
}

static int explain_length(const struct report *report)
{
    fprintf(report->out, "  the book has %zu bytes\n", report->book->length);
    return report->book->length < 48;
}

static int explain_count(const struct report *report, int table)
{
    uint32_t count = count_of(report->book, table);
    fprintf(report->out, "  the table of contents (byte %d) says %lu %s; a book has at most %lu\n", 8 * table - 4,
            (unsigned long)count, records_of(table), (unsigned long)limit_of(table));
    return count > limit_of(table);
}

/* Where the records of a table end by the counts, if each table starts where the one before ended; 48 for table 0. */
static uint32_t end_of(const struct book *book, int table)
{
    uint32_t end = 48;
    for (int before = PREDICATES; before <= table; before++)
        end += size_of(book, before);
    return end;
}

static int explain_offset(const struct report *report, int table)
{
    uint32_t offset = offset_of(report->book, table), end = end_of(report->book, table - 1);
    fprintf(report->out, "  the table of contents (byte %d) puts the %s at %lu; ", 8 * table - 8, records_of(table),
            (unsigned long)offset);
    if (table == PREDICATES)
        fprintf(report->out, "they start right after it, at 48\n");
    else
        fprintf(report->out, "the %s before them end at %lu\n", records_of(table - 1), (unsigned long)end);
    return offset != end;
}

static int explain_end(const struct report *report)
{
    size_t length = report->book->length;
    uint32_t end = end_of(report->book, ELEMENTS);
    if (length > DOUGHPILLAR_LARGEST_BOOK)
        fprintf(report->out, "  the tables end at %lu, and the book has more than %d bytes\n", (unsigned long)end,
                DOUGHPILLAR_LARGEST_BOOK);
    else
        fprintf(report->out, "  the tables end at %lu, and the book has %zu bytes\n", (unsigned long)end, length);
    return length != end;
}

int explain(const struct report *report, uint32_t packed)
{
    unsigned number = DOUGHPILLAR_NUMBER(packed);
    int table = (int)DOUGHPILLAR_TABLE(packed);
    say_refusal(report->out, packed);
    switch (number) {
    case 1: return explain_length(report);
    case 2: return explain_count(report, table);
    case 3: return table == 0 ? explain_end(report) : explain_offset(report, table);
    case 4: case 5: case 6: case 7: return explain_record(report, number, table, DOUGHPILLAR_RECORD(packed));
    case 8: case 9: case 10: case 11: return explain_level(report, number, DOUGHPILLAR_RECORD(packed));
    default: return 0;
    }
}
