/* Seals a diary: reads its parent numbers, and its metres if it has some, as text and writes the image.
 *
 *     seal [-m METRES] [DIARY [CONTAINER]]     from standard input and to standard output where a name is left out
 *
 * DIARY has the parent of each node in level order, and METRES the metres of each in the same order, with blanks
 * between the numbers; from # to the end of a line is a comment. Without METRES the image has none, which is not 0
 * metres: a reader is told that there are none.
 *
 * A container is replaced and never changed, by replace_container in container.h: whoever ends this
 * program, at whatever moment, leaves the old diary whole or the new one, and so does a loss of
 * power.
 *
 * The image is made before the lock is taken, and the lock is held while at most 293,888 bytes are written, brought to
 * the disk and renamed. So this program replaces whatever is there. One that makes its diary from the one in the
 * container must hold the lock from reading to renaming, or compare under the lock, and begin again if the container
 * is no longer what it read: else what another one sealed in between is lost.
 * Exit status: 0 sealed, 1 refused by the library, 2 no numbers could be read, or the container is as it was, 3 the
 * container was replaced, but a loss of power may undo it. */
#define _DEFAULT_SOURCE
#include "container.h"
#include "refusal.h"
#include <ctype.h>

enum { ROOM = PLQ_MOST_NODES + 1 }; /* one too many, so that a list that is too long is refused by the library */

/* The next character that is neither blank nor in a comment, or EOF. */
static int next_of_text(FILE *text, unsigned *line)
{
    int c = getc(text);
    while (c == '#' || isspace(c)) {
        if (c == '#')
            while (c != '\n' && c != EOF) c = getc(text);
        if (c == '\n') ++*line;
        if (c != EOF) c = getc(text);
    }
    return c;
}

/* Reads up to ROOM numbers; 0, or the exit status after a message. */
static int read_numbers(const char *name, FILE *text, uint32_t *numbers, size_t *count)
{
    unsigned line = 1;
    int c = next_of_text(text, &line);
    for (*count = 0; c != EOF && *count < ROOM; ++*count) {
        uint64_t number = 0;
        int digits = 0;
        for (; isdigit(c) && number <= UINT32_MAX; c = getc(text), digits = 1)
            number = 10 * number + (unsigned)(c - '0');
        if (!digits || number > UINT32_MAX || (c != EOF && c != '#' && !isspace(c))) {
            fprintf(stderr, "%s: line %u: no number from 0 to %u\n", name, line, UINT32_MAX);
            return 2;
        }
        numbers[*count] = (uint32_t)number;
        if (c != EOF) ungetc(c, text);
        c = next_of_text(text, &line);
    }
    return ferror(text) ? failed(name) : 0;
}

static int read_list(const char *name, uint32_t *numbers, size_t *count)
{
    FILE *text = fopen(name, "r");
    if (!text) return failed(name);
    int status = read_numbers(name, text, numbers, count);
    fclose(text);
    return status;
}

int main(int words, char **word)
{
    static uint32_t parents[ROOM], metres[ROOM];
    static uint8_t image[PLQ_MOST_IMAGE_BYTES];
    size_t nodes, measured = 0;
    int with_metres = words > 1 && strcmp(word[1], "-m") == 0;
    int first = with_metres ? 3 : 1; /* the word that names the diary, if it is there */

    if (words < first || words > first + 2) {
        fputs("usage: seal [-m METRES] [DIARY [CONTAINER]]\n", stderr);
        return 2;
    }
    const char *diary = words > first ? word[first] : "standard input";
    int status = words > first ? read_list(diary, parents, &nodes) : read_numbers(diary, stdin, parents, &nodes);
    if (status == 0 && with_metres) status = read_list(word[2], metres, &measured);
    if (status != 0) return status;

    plq_answer sealed = with_metres ? plq_image_with_metres(parents, nodes, metres, measured, image, sizeof image)
                                    : plq_image_of_parents(parents, nodes, image, sizeof image);
    if (sealed.code != PLQ_DONE) return refused(diary, sealed);
    size_t size = plq_image_bytes(image);
    if (words > first + 1) return replace_container(word[first + 1], image, size);
    return write_all(STDOUT_FILENO, image, size) < 0 ? failed("standard output") : 0;
}
