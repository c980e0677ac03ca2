/* Doughpillar: true, false or undefined for each atom of a rule book, or one numbered refusal. For C99 and C++.

   The bytes of a book: FORMAT.md. Each function may be called from several threads at once: nothing is kept between
   calls, and the library has no memory of its own. It calls nothing but memcpy and memset. A call takes some 37 KB of
   stack; leave it 64 KB. Every call ends, and books as people write them were measured at less than 0.1 s. The worst
   books that we know, made for it, take some seconds (docs/BENCHMARK.md, "Hostile books"), and nothing is proved of the
   time: a host that takes books from anybody calls it where it may wait. */
#ifndef DOUGHPILLAR_H
#define DOUGHPILLAR_H

#include <stddef.h>
#include <stdint.h>

#ifdef __cplusplus
extern "C" {
#endif

/* The version of this header and of the library that is installed with it. The first number rises when a call, a
   refusal or the form of a book changes its meaning, the second when one is added. The archive holds no version: the
   pkg-config file does, and the shared object in its name. */
#define DOUGHPILLAR_VERSION_MAJOR 0
#define DOUGHPILLAR_VERSION_MINOR 1
#define DOUGHPILLAR_VERSION_PATCH 0
#define DOUGHPILLAR_VERSION "0.1.0"

/* Any bytes are a book, and any memory that can be written is a room: no caller has to check first. The two are
   separate memory. Either may be a null pointer with length 0. A room of DOUGHPILLAR_MOST_ATOMS bytes is long enough
   for every book.

   Returns 0 for an accepted book: room[a] is then one of the answers below, for each atom a, and later bytes stay.
   Returns a packed refusal otherwise, and no byte of the room has changed. */
uint32_t doughpillar_answer(const uint8_t *book, size_t book_length, uint8_t *room, size_t room_length);

/* How many atoms the book says that it has, read from its table of contents before any check: 0 for a book without
   one, a null pointer with length 0 included. An accepted book has just so many. Any other may say up to 4294967295, so
   no room should be taken by it that is longer than DOUGHPILLAR_MOST_ATOMS. */
uint32_t doughpillar_atoms(const uint8_t *book, size_t book_length);

/* the answers */
#define DOUGHPILLAR_UNDEFINED 0
#define DOUGHPILLAR_TRUE 1
#define DOUGHPILLAR_FALSE 2

/* the limits of a book */
#define DOUGHPILLAR_LARGEST_BOOK 64816 /* bytes */
#define DOUGHPILLAR_MOST_PREDICATES 128
#define DOUGHPILLAR_MOST_ATOMS 2048
#define DOUGHPILLAR_MOST_RULES 2048
#define DOUGHPILLAR_MOST_HYPOTHESES 4096
#define DOUGHPILLAR_MOST_COMPARISONS 512
#define DOUGHPILLAR_MOST_ELEMENTS 4096

/* A packed refusal is number * 10000000 + table * 1000000 + record. Table and record are its place. Table 0, record 0
   is the book as a whole; for number 12 it is the room, and the book is not at fault. */
#define DOUGHPILLAR_NUMBER(packed) ((packed) / 10000000)
#define DOUGHPILLAR_TABLE(packed) ((packed) / 1000000 % 10)
#define DOUGHPILLAR_RECORD(packed) ((packed) % 1000000)

/* What a refusal's number says, in words. */
static inline const char *doughpillar_refusal(uint32_t packed)
{
    switch (DOUGHPILLAR_NUMBER(packed)) {
    case 0: return "accepted";
    case 1: return "the book is shorter than its table of contents, 48 bytes";
    case 2: return "a count is above its limit";
    case 3: return "a table does not start, or the book does not end, where the counts say";
    case 4: return "a code or a level that is not listed";
    case 5: return "an index that is not in its table, or a range that leaves its table";
    case 6: return "one atom stands twice in one comparison";
    case 7: return "an answer is given for an atom that is not open, or that a rule concludes";
    case 8: return "a predicate shares its level with a lower-numbered one, one certain and the other not";
    case 9: return "a rule uses a predicate of a higher level than its head's";
    case 10: return "a certain head uses a predicate of its own level non-positively";
    case 11: return "a certain head uses an uncertain predicate";
    case 12: return "the answer room is shorter than the number of atoms";
    default: return "not a refusal of this engine";
    }
}

/* What the records of a refusal's table are; for place 0, 0 "book", and "room" for number 12. */
static inline const char *doughpillar_record_sort(uint32_t packed)
{
    static const char *const sorts[] = {"book", "predicate", "atom", "rule", "hypothesis", "comparison", "element"};
    if (DOUGHPILLAR_NUMBER(packed) == 12)
        return "room";
    return DOUGHPILLAR_TABLE(packed) < 7 ? sorts[DOUGHPILLAR_TABLE(packed)] : "record";
}

#ifdef __cplusplus
}
#endif
#endif
