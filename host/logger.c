/* A host as a logger would have it: one book in, a line for each atom out; a refusal in words, with its place. */
#include "explain.h"

#include <errno.h>
#include <string.h>

static const char help[] =
    "usage: %s BOOK [NAMES]\n"
    "Prints true, false or undefined for each atom of a rule book, or why the book is refused.\n"
    "  BOOK       the file of the book; - is standard input\n"
    "  NAMES      a name for each atom, one to a line, in the order of the atoms\n"
    "  --help     prints this\n"
    "  --version  prints the version\n"
    "Exit status: 0 answered; 1 refused; 2 the arguments, a file that cannot be read or written, or not one name for\n"
    "each atom.\n";

static const char *const answers[] = {"undefined", "true", "false"};

/* One byte more than the largest book: a longer one is refused for its start. */
static uint8_t bytes[DOUGHPILLAR_LARGEST_BOOK + 1];
static uint8_t room[DOUGHPILLAR_MOST_ATOMS];
static struct names names;

static const char *program; /* its own name */

static int complain(const char *what, const char *why)
{
    fprintf(stderr, "%s: %s: %s\n", program, what, why);
    return 2;
}

/* The book from a file; 0 if it cannot be read. */
static int read_book(struct book *book, const char *path)
{
    FILE *file = strcmp(path, "-") == 0 ? stdin : fopen(path, "rb");
    if (file == NULL)
        return 0;
    book->bytes = bytes;
    book->length = fread(bytes, 1, sizeof bytes, file);
    int read = !ferror(file);
    int why = errno;
    fclose(file);
    errno = why;
    return read;
}

/* The names from a file; what is wrong with it, or NULL. */
static const char *open_names(const char *path)
{
    FILE *file = fopen(path, "rb");
    if (file == NULL)
        return strerror(errno);
    int status = read_names(&names, file);
    const char *wrong = ferror(file) ? strerror(errno) : status != 0 ? "longer than 1 MiB" : NULL;
    fclose(file);
    return wrong;
}

/* A line for each atom, its name in the third column. */
static void print_answers(size_t atoms)
{
    for (size_t a = 0; a < atoms; a++) {
        const char *answer = answers[room[a]];
        if (has_name(&names, a)) {
            printf("%4zu  %-9s  ", a, answer);
            print_name(stdout, &names, a);
            putchar('\n');
        } else
            printf("%4zu  %s\n", a, answer);
    }
}

/* What is left to say at the end: a text that could not be written, or the status. */
static int finish(int status)
{
    return fflush(stdout) != 0 || ferror(stdout) ? complain("standard output", strerror(errno)) : status;
}

static int answer(const struct book *book, const char *path)
{
    struct report report = {stdout, book, &names};
    uint32_t packed = doughpillar_answer(book->bytes, book->length, room, sizeof room);
    if (packed != 0) {
        explain(&report, packed);
        return finish(1);
    }
    size_t atoms = doughpillar_atoms(book->bytes, book->length);
    print_answers(atoms);
    if (path == NULL || names.lines == atoms)
        return finish(0);
    fprintf(stderr, "%s: %s: %zu names for %zu atoms\n", program, path, names.lines, atoms);
    return finish(2);
}

int main(int count, char **words)
{
    const char *slash = count > 0 ? strrchr(words[0], '/') : NULL;
    program = slash != NULL ? slash + 1 : count > 0 ? words[0] : "logger";
    if (count == 2 && strcmp(words[1], "--help") == 0) {
        printf(help, program);
        return finish(0);
    }
    if (count == 2 && strcmp(words[1], "--version") == 0) {
        printf("%s %s\n", program, DOUGHPILLAR_VERSION);
        return finish(0);
    }
    if (count < 2 || count > 3 || strncmp(words[1], "--", 2) == 0) {
        fprintf(stderr, help, program);
        return 2;
    }
    struct book book;
    if (!read_book(&book, words[1]))
        return complain(words[1], strerror(errno));
    const char *path = count == 3 ? words[2] : NULL, *wrong = path != NULL ? open_names(path) : NULL;
    return wrong != NULL ? complain(path, wrong) : answer(&book, path);
}
