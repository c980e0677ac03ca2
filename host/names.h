/* The names of a book's atoms: a text with a name for each atom, one to a line, in the order of the atoms. */
#ifndef HOST_NAMES_H
#define HOST_NAMES_H

#include "doughpillar.h"

#include <stdio.h>

/* The longest text that is read, in bytes. */
#define LONGEST_NAMES (1 << 20)

struct names {
    size_t lines, length;
    size_t starts[DOUGHPILLAR_MOST_ATOMS]; /* where the first lines start; later ones name no atom */
    char text[LONGEST_NAMES + 1];
};

/* Reads the whole text. Returns 0, or -1 if it is longer than the longest. A file that cannot be read: see ferror. */
int read_names(struct names *names, FILE *file);

/* Whether an atom has a name: a line, and not an empty one. */
int has_name(const struct names *names, size_t atom);

/* Prints the name of an atom that has one; a byte that is a control, or no UTF-8, as \x and two digits, so that no name
   can steer a terminal. */
void print_name(FILE *out, const struct names *names, size_t atom);

#endif
