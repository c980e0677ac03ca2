/* Explains what is wrong with many damaged books: what the engine refuses the host finds at its place, and nothing
   before it. It reads nothing outside the book: each has memory of just its length, for valgrind to see.
   usage: damage BOOK NAMES */
#include "explain.h"

#include <stdlib.h>
#include <string.h>

static uint8_t sample[DOUGHPILLAR_LARGEST_BOOK], damaged[DOUGHPILLAR_LARGEST_BOOK], room[DOUGHPILLAR_MOST_ATOMS];
static struct names names;
static uint32_t state = 1;

/* A number below n: the same ones in each run. */
static uint32_t below(uint32_t n)
{
    state ^= state << 13;
    state ^= state >> 17;
    state ^= state << 5;
    return state % n;
}

/* Kinds and levels anew, but for predicate 0; half the time the certain ones have levels of their own. */
static void damage_levels(uint8_t *bytes, const struct book *book)
{
    uint32_t mixed = below(2);
    for (uint32_t p = 1; p < count_of(book, PREDICATES); p++) {
        uint32_t kind = below(4);
        bytes[byte_of(book, KIND, p)] = (uint8_t)kind;
        bytes[byte_of(book, LEVEL, p)] = (uint8_t)(mixed ? below(6) : 2 * below(2) + (kind == 0));
    }
}

/* The codes of comparisons anew, and the atom of an element that of another. */
static void damage_comparisons(uint8_t *bytes, const struct book *book)
{
    uint32_t elements = count_of(book, ELEMENTS);
    for (uint32_t c = 0; c < count_of(book, COMPARISONS); c++) {
        bytes[byte_of(book, AGGREGATE, c)] = (uint8_t)below(4);
        bytes[byte_of(book, RELATION, c)] = (uint8_t)below(6);
    }
    bytes[byte_of(book, ATOM, below(elements))] = bytes[byte_of(book, ATOM, below(elements))];
}

/* All predicates but 0 certain and on one level, no hypothesis under not, and the elements' signs anew: so that it
   depends on the comparisons alone whether a use is not positive. */
static void damage_signs(uint8_t *bytes, const struct book *book)
{
    for (uint32_t p = 1; p < count_of(book, PREDICATES); p++)
        bytes[byte_of(book, KIND, p)] = 0;
    for (uint32_t h = 0; h < count_of(book, HYPOTHESES); h++)
        bytes[byte_of(book, SORT, h)] &= 2;
    for (uint32_t e = 0; e < count_of(book, ELEMENTS); e++)
        bytes[byte_of(book, SIGN, e)] = (uint8_t)below(2);
}

/* A few bytes changed, most of them to small numbers. */
static void damage_bytes(uint8_t *bytes, const struct book *book)
{
    for (uint32_t changes = 1 + below(3); changes > 0; changes--)
        bytes[below((uint32_t)book->length)] = (uint8_t)(below(3) == 0 ? below(256) : below(10));
}

/* One damage or more; gives the length that is left. */
static size_t damage(uint8_t *bytes, const struct book *book)
{
    uint32_t signs = below(4) == 0;
    if (signs)
        damage_signs(bytes, book);
    else if (below(2))
        damage_levels(bytes, book);
    if (signs || below(4) == 0)
        damage_comparisons(bytes, book);
    if (!signs && below(2))
        damage_bytes(bytes, book);
    return below(8) ? book->length : below((uint32_t)book->length + 1);
}

/* How many faults the host finds before the place of a refusal, in the order of the checks; in an accepted book, at
   all. Of refusals 1 to 3, after which records cannot be read, nothing is asked. */
static unsigned found_before(const struct report *report, uint32_t packed)
{
    static const char *const tables[] = {"12456", "23456", "5", "2", "1", "3", "3", "3"}; /* of refusals 4 to 11 */
    unsigned found = 0;
    for (unsigned number = 4; number <= 11; number++)
        for (const char *table = tables[number - 4]; *table != '\0'; table++)
            for (uint32_t record = 0; ; record++) {
                uint32_t place = number * 10000000 + (uint32_t)(*table - '0') * 1000000 + record;
                if (packed != 0 && place >= packed)
                    return found;
                if (record == count_of(report->book, *table - '0'))
                    break;
                found += number < 8 ? explain_record(report, number, *table - '0', record) != 0
                                    : explain_level(report, number, record) != 0;
            }
    return found;
}

int main(int count, char **words)
{
    FILE *file = fopen(words[count == 3 ? 1 : 0], "rb"), *text = fopen(words[count == 3 ? 2 : 0], "rb");
    FILE *nowhere = fopen("/dev/null", "w");
    unsigned met[13] = {0}, faults = 0; /* how often each number was met; 0 is acceptance, 12 what should not be */
    if (count != 3 || file == NULL || text == NULL || nowhere == NULL || read_names(&names, text) != 0)
        return 2;
    size_t whole = fread(sample, 1, sizeof sample, file);
    for (int books = 0; books < 4000; books++) {
        memcpy(damaged, sample, whole);
        size_t length = damage(damaged, &(struct book){sample, whole});
        uint8_t *exact = malloc(length);
        memcpy(exact, damaged, length);
        struct book book = {exact, length};
        struct report report = {nowhere, &book, &names};
        uint32_t packed = doughpillar_answer(exact, length, room, sizeof room);
        unsigned number = DOUGHPILLAR_NUMBER(packed);
        met[number < 12 ? number : 12]++;
        if ((packed != 0 && !explain(&report, packed)) || found_before(&report, packed) != 0) {
            printf("returned %lu, and the host finds otherwise\n", (unsigned long)packed);
            faults++;
        }
        free(exact);
    }
    fclose(file);
    fclose(text);
    fclose(nowhere);
    for (unsigned number = 0; number < 12; number++)
        if (met[number] == 0) {
            printf("number %u was not met\n", number);
            faults++;
        }
    printf("4000 damaged books, refusals 1 to 11 explained: %u faults\n", faults);
    return faults != 0;
}
