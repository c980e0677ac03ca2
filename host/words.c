/* Parts of a book in words. */
#include "words.h"

static const char *const kinds[] = {"certain", "open", "complete", "closed"};
static const char *const aggregates[] = {"count", "sum", "min", "max"};
static const char *const relations[] = {"=", "!=", "<", "<=", ">", ">="};

const char *kind_name(uint32_t kind)
{
    return kind < 4 ? kinds[kind] : "not listed";
}

void say_atom(const struct report *report, uint32_t atom)
{
    if (has_name(report->names, atom)) {
        print_name(report->out, report->names, atom);
        fprintf(report->out, " [atom %u]", (unsigned)atom);
    } else
        fprintf(report->out, "atom %u", (unsigned)atom);
}

void say_rule(const struct report *report, uint32_t rule)
{
    fprintf(report->out, "rule %u, for ", (unsigned)rule);
    say_atom(report, field_of(report->book, HEAD, rule));
}

void say_predicate(const struct report *report, uint32_t predicate)
{
    fprintf(report->out, "predicate %u: %s, level %u", (unsigned)predicate,
            kind_name(field_of(report->book, KIND, predicate)), (unsigned)field_of(report->book, LEVEL, predicate));
}

void say_comparison(const struct report *report, uint32_t comparison)
{
    uint32_t aggregate = field_of(report->book, AGGREGATE, comparison);
    uint32_t relation = field_of(report->book, RELATION, comparison);
    int64_t bound = field_of(report->book, BOUND, comparison);
    fprintf(report->out, "%s %s %lld", aggregate < 4 ? aggregates[aggregate] : "not listed",
            relation < 6 ? relations[relation] : "not listed",
            (long long)(bound < INT64_C(2147483648) ? bound : bound - INT64_C(4294967296)));
}

/* The first record whose range, a first one and how many, has this one; the table's count if none has. */
static uint32_t owner_of(const struct book *book, enum field first, enum field many, uint32_t record)
{
    uint32_t owner = 0, owners = count_of(book, table_of(first));
    for (; owner < owners; owner++) {
        uint32_t start = field_of(book, first, owner);
        if (record >= start && record < start + field_of(book, many, owner))
            break;
    }
    return owner;
}

static void say_rule_of(const struct report *report, uint32_t hypothesis)
{
    uint32_t rule = owner_of(report->book, FIRST_HYPOTHESIS, MANY_HYPOTHESES, hypothesis);
    if (rule < count_of(report->book, RULES))
        say_rule(report, rule);
    else
        fprintf(report->out, "no rule");
}

/* The rule of the first hypothesis that stands in a rule and is this comparison. */
static void say_rule_of_comparison(const struct report *report, uint32_t comparison)
{
    const struct book *book = report->book;
    uint32_t rules = count_of(book, RULES), hypotheses = count_of(book, HYPOTHESES);
    for (uint32_t h = 0; h < hypotheses; h++) {
        int is = field_of(book, SORT, h) == 2 && field_of(book, INDEX, h) == comparison;
        if (is && owner_of(book, FIRST_HYPOTHESIS, MANY_HYPOTHESES, h) < rules) {
            say_rule_of(report, h);
            return;
        }
    }
    fprintf(report->out, "no rule");
}

static void say_comparison_of(const struct report *report, uint32_t element)
{
    uint32_t comparison = owner_of(report->book, FIRST_ELEMENT, MANY_ELEMENTS, element);
    if (comparison < count_of(report->book, COMPARISONS)) {
        fprintf(report->out, "comparison %u, in ", (unsigned)comparison);
        say_rule_of_comparison(report, comparison);
    } else
        fprintf(report->out, "no comparison");
}

void say_first_atom(const struct report *report, uint32_t predicate)
{
    uint32_t atom = 0, atoms = count_of(report->book, ATOMS);
    while (atom < atoms && field_of(report->book, PREDICATE, atom) != predicate)
        atom++;
    if (atom < atoms) {
        fprintf(report->out, "its first atom is ");
        say_atom(report, atom);
    } else
        fprintf(report->out, "it has no atom");
}

void say_where(const struct report *report, int table, uint32_t record)
{
    if (table == ATOMS && !has_name(report->names, record))
        return;
    const char *start = table == PREDICATES ? "" : table == ATOMS || table == RULES ? "it is " : "it stands in ";
    fprintf(report->out, "  %s", start);
    switch (table) {
    case PREDICATES: say_first_atom(report, record); break;
    case ATOMS: say_atom(report, record); break;
    case RULES: say_rule(report, record); break;
    case HYPOTHESES: say_rule_of(report, record); break;
    case COMPARISONS: say_rule_of_comparison(report, record); break;
    default: say_comparison_of(report, record); break;
    }
    putc('\n', report->out);
}
