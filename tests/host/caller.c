/* A C caller in small: one book answered, and refused for its length and for its room; no byte around the room changes;
   null pointers of length 0.
   Book and room have memory of just their length, so that valgrind sees any byte that is read or written outside. */
#include "doughpillar.h"

#include <stdio.h>
#include <stdlib.h>
#include <string.h>

/* 0 stamped (open, not given), 1 screened (complete) if not stamped, 2 looped (closed) if looped, 3 built (certain) */
static const uint8_t book[] = {
    48,  0, 0, 0, 4, 0, 0, 0, /* predicates */
    56,  0, 0, 0, 4, 0, 0, 0, /* atoms */
    68,  0, 0, 0, 3, 0, 0, 0, /* rules */
    86,  0, 0, 0, 2, 0, 0, 0, /* hypotheses */
    92,  0, 0, 0, 0, 0, 0, 0, /* comparisons */
    92,  0, 0, 0, 0, 0, 0, 0, /* elements */
    1, 0, 2, 1, 3, 2, 0, 3,   /* kind, level */
    0, 0, 0, 1, 0, 0, 2, 0, 0, 3, 0, 0, /* predicate, given */
    1, 0, 0, 0, 1, 0, /* screened, from hypothesis 0, one */
    2, 0, 1, 0, 1, 0, /* looped, from hypothesis 1, one */
    3, 0, 2, 0, 0, 0, /* built, none */
    1, 0, 0,          /* not stamped */
    0, 2, 0,          /* looped */
};

/* Before the call every byte of the room, and of the guards on both sides of it, is 9. */
#define BEFORE 9

static int faults = 0;

static void expect_guarded(const char *what, size_t length, size_t size, uint32_t number, const uint8_t *answers,
                           size_t guard)
{
    uint8_t *bytes = malloc(length), *memory = malloc(size + 2 * guard);
    memcpy(bytes, book, length);
    memset(memory, BEFORE, size + 2 * guard);
    uint32_t returned = doughpillar_answer(bytes, length, memory + guard, size);
    int wrong = returned != number;
    for (size_t at = 0; at < size + 2 * guard; at++) {
        int answered = number == 0 && at >= guard && at < guard + 4;
        wrong |= memory[at] != (answered ? answers[at - guard] : BEFORE);
    }
    if (wrong)
        printf("%s, guards of %u: returned %u\n", what, (unsigned)guard, (unsigned)returned);
    faults += wrong;
    free(bytes);
    free(memory);
}

/* The number, and for 0 the answers of the four atoms: in memory of just the room's length, then between guards. */
static void expect(const char *what, size_t length, size_t size, uint32_t number)
{
    static const uint8_t answers[4] = {
        DOUGHPILLAR_UNDEFINED, DOUGHPILLAR_UNDEFINED, DOUGHPILLAR_FALSE, DOUGHPILLAR_TRUE
    };
    expect_guarded(what, length, size, number, answers, 0);
    expect_guarded(what, length, size, number, answers, 8);
}

/* What the first bytes of the book say of its atoms. */
static void expect_atoms(const char *what, size_t length, uint32_t atoms)
{
    uint8_t *bytes = malloc(length);
    memcpy(bytes, book, length);
    uint32_t returned = doughpillar_atoms(bytes, length);
    if (returned != atoms)
        printf("atoms of %s: returned %u\n", what, (unsigned)returned);
    faults += returned != atoms;
    free(bytes);
}

static void expect_number(const char *what, uint32_t returned, uint32_t number)
{
    if (returned != number)
        printf("%s: returned %u\n", what, (unsigned)returned);
    faults += returned != number;
}

/* A null pointer of length 0 is a book, and a room. */
static void expect_null(void)
{
    uint8_t empty[48] = {0}, room[4];
    for (size_t table = 0; table < 6; table++)
        empty[8 * table] = 48;
    expect_number("null book", doughpillar_answer(NULL, 0, room, sizeof room), 10000000);
    expect_number("null book and room", doughpillar_answer(NULL, 0, NULL, 0), 10000000);
    expect_number("null room", doughpillar_answer(book, sizeof book, NULL, 0), 120000000);
    expect_number("null room, no atoms", doughpillar_answer(empty, sizeof empty, NULL, 0), 0);
    expect_number("atoms of a null book", doughpillar_atoms(NULL, 0), 0);
}

int main(void)
{
    expect("answered", sizeof book, 6, 0);
    expect("answered in the longest room", sizeof book, DOUGHPILLAR_MOST_ATOMS, 0);
    expect("answered in a room of four", sizeof book, 4, 0);
    expect("room of three", sizeof book, 3, 120000000);
    expect("no room", sizeof book, 0, 120000000);
    expect("47 bytes", 47, 6, 10000000);
    expect("no book", 0, 6, 10000000);
    expect("no book and no room", 0, 0, 10000000);
    expect("one byte short", sizeof book - 1, 6, 30000000);
    expect("the table of contents alone", 48, 6, 30000000);
    expect_atoms("the book", sizeof book, 4);
    expect_atoms("the table of contents alone", 48, 4);
    expect_atoms("47 bytes", 47, 0);
    expect_atoms("no book", 0, 0);
    expect_null();
    printf("C caller: %d faults\n", faults);
    return faults != 0;
}
