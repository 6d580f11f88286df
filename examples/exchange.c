/* Exchanges diaries with a desktop tool that has them as parenthesis text.
 *
 *     exchange in [TEXT [CONTAINER]]      seals the tree of a text
 *     exchange out CONTAINER [TEXT]       writes the tree in a container as text
 *
 * From standard input and to standard output where a name is left out.
 *
 * In a text a node is `(`, its children, `)`. Spaces and ends of lines, which are the bytes 32, 10
 * and 13, may be anywhere; a text is written without any. It has at most 1,048,576 bytes and 64
 * levels. The library alone says whether it is one tree, and if it is not, up to which byte it
 * could have been: that byte is shown as line and column too.
 *
 * A text has the tree and nothing else. Sealed, it is an image without metres, and of a container
 * with metres the text has none: who brings a text back for a diary with metres adds them anew, by
 * node number, and seals both (plq_image_with_metres).
 *
 * A text that ends too early is no tree, so one that was cut off on its way is refused. It has no
 * sums: a change that leaves it a tree is not seen.
 *
 * Both files are replaced and never changed, by replace_container in container.h: whoever ends this
 * program, at whatever moment, leaves what was there or what is new, whole. A text that is refused
 * replaces nothing.
 * Exit status: 0 sealed or written, 1 refused by the library, 2 wrong words, or a file could not be
 * read or replaced, 3 the file was replaced, but a loss of power may undo it. */
#define _DEFAULT_SOURCE
#include "container.h"
#include "refusal.h"

static uint32_t parents[PLQ_MOST_NODES];

/* Writes to the file of that name, or to standard output where there is no name. */
static int give(const char *name, const uint8_t *bytes, size_t count)
{
    if (name) return replace_container(name, bytes, count);
    return write_all(STDOUT_FILENO, bytes, count) < 0 ? failed("standard output") : 0;
}

/* Prints the refusal of a text, with line and column of its place where that is a byte. */
static int refused_text(const char *name, const uint8_t *text, plq_answer answer)
{
    unsigned line = 1, column = 1;
    char where[PATH_MAX + 64];
    if (answer.code != PLQ_NOT_TEXT && answer.code != PLQ_TOO_NESTED) return refused(name, answer);
    for (size_t at = 0; at + 1 < answer.place; at++) {
        column = text[at] == '\n' ? 1 : column + 1;
        line += text[at] == '\n';
    }
    snprintf(where, sizeof where, "%s: line %u, column %u", name, line, column);
    return refused(where, answer);
}

static int text_to_image(const char *text_name, const char *container)
{
    static uint8_t text[PLQ_MOST_TEXT + 1]; /* one more, so that a text that is too long is refused as such */
    static uint8_t image[PLQ_MOST_TREE_IMAGE_BYTES];
    const char *name = text_name ? text_name : "standard input";
    ssize_t size = text_name ? read_file(name, text, sizeof text) : read_all(STDIN_FILENO, text, sizeof text);
    if (size < 0) return failed(name);
    plq_answer read = plq_parents_of_text(text, (size_t)size, parents, PLQ_MOST_NODES);
    if (read.code != PLQ_DONE) return refused_text(name, text, read);

    plq_answer sealed = plq_image_of_parents(parents, read.first, image, sizeof image);
    if (sealed.code != PLQ_DONE) return refused(name, sealed);
    return give(container, image, PLQ_IMAGE_BYTES(sealed.first, sealed.second));
}

static int image_to_text(const char *container, const char *text_name)
{
    static uint8_t copy[PLQ_MOST_IMAGE_BYTES + 1]; /* one more, for the same reason */
    static uint8_t text[PLQ_TEXT_BYTES(PLQ_MOST_NODES)];
    size_t size = 0;
    int status = copy_container(container, copy, sizeof copy, &size);
    if (status != 0) return status;
    plq_answer read = plq_parents_of_image(copy, size, parents, PLQ_MOST_NODES);
    if (read.code != PLQ_DONE) return refused(container, read);

    plq_answer written = plq_text_of_parents(parents, read.first, text, sizeof text);
    if (written.code != PLQ_DONE) return refused(container, written);
    return give(text_name, text, written.first);
}

int main(int words, char **word)
{
    const char *first = words > 2 ? word[2] : NULL, *second = words > 3 ? word[3] : NULL;
    if (words >= 2 && words <= 4 && strcmp(word[1], "in") == 0) return text_to_image(first, second);
    if (words >= 3 && words <= 4 && strcmp(word[1], "out") == 0) return image_to_text(first, second);
    fputs("usage: exchange in [TEXT [CONTAINER]], or exchange out CONTAINER [TEXT]\n", stderr);
    return 2;
}
