/* Reads and prints names of atoms. Any bytes are a text of names. */
#include "names.h"

int read_names(struct names *names, FILE *file)
{
    names->lines = 0;
    names->length = fread(names->text, 1, sizeof names->text, file);
    if (names->length > LONGEST_NAMES)
        return -1;
    for (size_t at = 0; at < names->length; at++) {
        if (at > 0 && names->text[at - 1] != '\n')
            continue;
        if (names->lines < DOUGHPILLAR_MOST_ATOMS)
            names->starts[names->lines] = at;
        names->lines++;
    }
    return 0;
}

/* Where the line ends that starts there, before a newline and a return before that. */
static size_t end_of(const struct names *names, size_t start)
{
    size_t end = start;
    while (end < names->length && names->text[end] != '\n')
        end++;
    return end > start && names->text[end - 1] == '\r' ? end - 1 : end;
}

/* How many bytes the letter at the start of a text has, in UTF-8; 0 for a control, and for what is no letter. */
static size_t letter(const unsigned char *text, size_t length)
{
    size_t more = text[0] < 0x80 ? 0 : text[0] < 0xe0 ? 1 : text[0] < 0xf0 ? 2 : 3;
    if (text[0] < 0x20 || (text[0] > 0x7e && text[0] < 0xc2) || text[0] > 0xf4 || more >= length)
        return 0;
    for (size_t i = 1; i <= more; i++)
        if ((text[i] & 0xc0) != 0x80)
            return 0;
    return text[0] == 0xc2 && text[1] < 0xa0 ? 0 : 1 + more;
}

int has_name(const struct names *names, size_t atom)
{
    if (atom >= names->lines || atom >= DOUGHPILLAR_MOST_ATOMS)
        return 0;
    return end_of(names, names->starts[atom]) > names->starts[atom];
}

void print_name(FILE *out, const struct names *names, size_t atom)
{
    size_t start = names->starts[atom], end = end_of(names, start), at = start;
    while (at < end) {
        const unsigned char *text = (const unsigned char *)names->text + at;
        size_t bytes = letter(text, end - at);
        if (bytes == 0)
            fprintf(out, "\\x%02x", *text);
        fwrite(text, 1, bytes, out);
        at += bytes == 0 ? 1 : bytes;
    }
}
