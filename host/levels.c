/* Refusals 8 to 11 in words: levels, and what the rules use. */
#include "explain.h"

static int is_certain(const struct book *book, uint32_t predicate)
{
    return field_of(book, KIND, predicate) == 0;
}

/* A predicate that shares its level with a lower-numbered one, one certain and the other uncertain. */
static int explain_mixture(const struct report *report, uint32_t predicate)
{
    const struct book *book = report->book;
    for (uint32_t lower = 0; lower < predicate; lower++) {
        if (field_of(book, LEVEL, lower) != field_of(book, LEVEL, predicate)
            || is_certain(book, lower) == is_certain(book, predicate))
            continue;
        uint32_t both[] = {lower, predicate};
        for (int i = 0; i < 2; i++) {
            fprintf(report->out, "  ");
            say_predicate(report, both[i]);
            fprintf(report->out, "; ");
            say_first_atom(report, both[i]);
            putc('\n', report->out);
        }
        return 1;
    }
    return 0;
}

/* What a rule uses: an atom, as a hypothesis or as an element of one that is a comparison. */
struct use {
    uint32_t rule, hypothesis, element, atom;
    int compared, negated;
};

/* Positive use: docs/FORMAT.md, "Levels". */
static int is_positive(const struct book *book, const struct use *use)
{
    enum { COUNT, SUM, MIN, MAX };
    if (!use->compared)
        return !use->negated;
    uint32_t comparison = field_of(book, INDEX, use->hypothesis);
    uint32_t aggregate = field_of(book, AGGREGATE, comparison), relation = field_of(book, RELATION, comparison);
    int below = relation == 2 || relation == 3, above = relation == 4 || relation == 5;
    if (use->negated)
        return aggregate == COUNT && below;
    return ((aggregate == COUNT || aggregate == MAX) && above) || (aggregate == MIN && below);
}

static uint32_t predicate_of(const struct book *book, uint32_t atom)
{
    return field_of(book, PREDICATE, atom);
}

static int is_fault(const struct book *book, unsigned number, const struct use *use)
{
    uint32_t head = predicate_of(book, field_of(book, HEAD, use->rule)), used = predicate_of(book, use->atom);
    uint32_t level = field_of(book, LEVEL, head), its = field_of(book, LEVEL, used);
    switch (number) {
    case 9: return its > level;
    case 10: return is_certain(book, head) && its == level && !is_positive(book, use);
    default: return is_certain(book, head) && !is_certain(book, used);
    }
}

static void say_use(const struct report *report, const struct use *use)
{
    const struct book *book = report->book;
    FILE *out = report->out;
    fprintf(out, "  ");
    say_rule(report, use->rule);
    fprintf(out, ", of ");
    say_predicate(report, predicate_of(book, field_of(book, HEAD, use->rule)));
    fprintf(out, "\n  uses by hypothesis %u, ", (unsigned)use->hypothesis);
    if (use->compared) {
        say_comparison(report, field_of(book, INDEX, use->hypothesis));
        fprintf(out, ", element %u, ", (unsigned)use->element);
    }
    fputs(use->negated ? "not " : "", out);
    say_atom(report, use->atom);
    fprintf(out, ", of ");
    say_predicate(report, predicate_of(book, use->atom));
    putc('\n', out);
}

static void say_why_not_positive(const struct report *report, const struct use *use)
{
    if (use->compared) {
        fprintf(report->out, "  that use is not positive: sign %d in ", use->negated);
        say_comparison(report, field_of(report->book, INDEX, use->hypothesis));
        putc('\n', report->out);
    } else
        fprintf(report->out, "  that use is not positive: an atom under not\n");
}

/* Says the use if it is at fault. */
static int explain_fault(const struct report *report, unsigned number, const struct use *use)
{
    if (!is_fault(report->book, number, use))
        return 0;
    say_use(report, use);
    if (number == 10)
        say_why_not_positive(report, use);
    return 1;
}

/* The first use at fault among the elements of a hypothesis that is a comparison; 0 if none is. */
static int explain_elements(const struct report *report, unsigned number, struct use use)
{
    const struct book *book = report->book;
    uint32_t comparison = field_of(book, INDEX, use.hypothesis), first = field_of(book, FIRST_ELEMENT, comparison);
    uint32_t end = first + field_of(book, MANY_ELEMENTS, comparison);
    use.compared = 1;
    for (use.element = first; use.element < end; use.element++) {
        use.atom = field_of(book, ATOM, use.element);
        use.negated = field_of(book, SIGN, use.element) == 1;
        if (explain_fault(report, number, &use))
            return 1;
    }
    return 0;
}

static int explain_use(const struct report *report, unsigned number, uint32_t rule)
{
    const struct book *book = report->book;
    uint32_t first = field_of(book, FIRST_HYPOTHESIS, rule), end = first + field_of(book, MANY_HYPOTHESES, rule);
    for (uint32_t h = first; h < end; h++) {
        uint32_t sort = field_of(book, SORT, h);
        struct use use = {rule, h, 0, field_of(book, INDEX, h), 0, sort == 1};
        if (sort == 2 ? explain_elements(report, number, use) : explain_fault(report, number, &use))
            return 1;
    }
    return 0;
}

int explain_level(const struct report *report, unsigned number, uint32_t record)
{
    return number == 8 ? explain_mixture(report, record) : explain_use(report, number, record);
}
