/* Parlaqen: a sealed store for one tree of 1 to 65,535 nodes (LOUDS++), tree strings laid end to end, and trees as
 * parenthesis text.
 *
 * Nodes are numbered from 1 in level order: the root, its children, their children, and so on. A parent list has for
 * each node, in that order, the number of its parent, and 0 for the root. An image may have metres too, a number of 32
 * bits for each node in that order; an image without metres is not one with 0 metres.
 *
 * Every call takes whatever bytes and numbers it is handed, ends, and answers by value. A refused call changes no byte
 * of any buffer lent to it; a call that is done leaves what lies after its result as it was.
 *
 * A list is a pointer and then its number of elements; an empty one may come with any pointer, NULL too. Bytes may lie
 * anywhere, numbers as C wants them aligned. Lists lent to one call do not overlap, and nobody else changes them until
 * the call has ended: a mapped file that others write is copied first. Nothing is kept between calls and nothing is
 * allocated, so calls may run at the same time, on one image too.
 *
 * docs/INTEGRATE.md has the sizes of buffers, the stack that a call takes, and where the data of a node live.
 */
#ifndef PARLAQEN_H
#define PARLAQEN_H

#include <stddef.h>
#include <stdint.h>

#define PLQ_VERSION_MAJOR 0
#define PLQ_VERSION_MINOR 6
#define PLQ_VERSION_PATCH 0
#define PLQ_VERSION_STRING "0.6.0"

/* The library's sizes have 64 bits on every machine. A call with shorter ones would hand it lists of other lengths. */
#if SIZE_MAX != 0xFFFFFFFFFFFFFFFFu
#error "parlaqen: a size must have 64 bits, as in the library; else a call would answer 'done' and do nothing"
#endif

/* An answer that nobody looks at may be a refusal, so compilers that can warn of it do. */
#if defined(__GNUC__)
#define PLQ_MUST_USE __attribute__((warn_unused_result))
#elif (defined(__cplusplus) && __cplusplus >= 201703L) || (defined(__STDC_VERSION__) && __STDC_VERSION__ >= 202311L)
#define PLQ_MUST_USE [[nodiscard]]
#else
#define PLQ_MUST_USE
#endif

#ifdef __cplusplus
extern "C" {
#endif

/* How a call ended. Where several refusals hold, the one further up in this list is answered. docs/FORMAT.md has the
 * parts of an image, and for each of them the code that names its damage.
 *
 * A text is the one exception: of 16 and 17 the one with the earlier byte is answered, and 2 for a
 * text of too many nodes comes after both; 2 for one of too many bytes is the first of all.
 *
 * 7 is retired: no call answers it, and its number is never used again. It was the answer to every image whose sums are
 * right and that no tree gives; 11 to 15 say what is wrong with such an image. */
enum plq_code {
    PLQ_DONE = 0,           /* not refused; place 0 */
    PLQ_WRONG_SIZE = 2,     /* a count or a length is outside its limits, or two do not fit each other; place 0 */
    PLQ_WRONG_SUMS = 6,     /* a block of the image has wrong sums; place: the lowest such block, from 0 */
    PLQ_OTHER_VERSION = 11, /* the header's version is neither 1 nor 2, as with an older or a newer writer; place 0 */
    PLQ_WRONG_HEADER = 12,  /* no tree with an image of this version and length has these header numbers, or a reserved
                               word is not zero; place 0 */
    PLQ_WRONG_STRINGS = 13, /* no tree with the header's n and m gives these strings; place 1, the first block of R1 */
    PLQ_WRONG_COUNTS = 14,  /* a block has a wrong count of earlier ones, or unused payload that is not zero; place: the
                               lowest such block */
    PLQ_WRONG_SAMPLES = 15, /* a block has wrong samples; place: the lowest such block */
    PLQ_LEFTOVER_SET = 5,   /* a bit after the last one, in the same byte, is set; place 0 */
    PLQ_NOT_STRING = 4,     /* no tree string (pack: no strings end to end); place: the first bit, from 1, up to which
                               the bits begin none, or one more than there are bits */
    PLQ_OTHER_TREES = 10,   /* the pack has another number of trees; place: the number found */
    PLQ_NOT_TEXT = 16,      /* the text is not one tree, of whatever depth and size; place: the
                               first byte, from 1, up to which it begins none, or one more than
                               there are bytes */
    PLQ_TOO_NESTED = 17,    /* the text opens a 65th level; place: the byte that does, from 1 */
    PLQ_NOT_PARENTS = 3,    /* no parent list; place: the lowest offending entry, from 1 */
    PLQ_NOT_ALLOWED = 8,    /* a kind, node or argument is not allowed, or the image has no metres; place: the lowest
                               such question, from 1 (listing, and metres read back: 1) */
    PLQ_TOO_DEEP = 9,       /* the listing, or the text, would go below depth 63; place: its first node at depth 64 */
    PLQ_NO_ROOM = 1         /* an output has too little room; place 0 */
};

/* The first number of a question. Of the answers, 0 for a node or a rank means that there is none; a degree or metres
 * of 0 are a number. */
enum plq_kind {
    PLQ_PARENT = 1,
    PLQ_FIRST_CHILD = 2,
    PLQ_LAST_CHILD = 3,
    PLQ_NEXT_SIBLING = 4,
    PLQ_PREVIOUS_SIBLING = 5,
    PLQ_DEGREE = 6,       /* the number of children */
    PLQ_CHILD_RANK = 7,   /* its place among its siblings, from 1; 0 for the root, which has none */
    PLQ_CHILD_NUMBER = 8, /* argument: which child, from 1 */
    PLQ_LEAF = 9,         /* 1 if it has no children, else 0 */
    PLQ_SIBLING_AT = 10,  /* argument: how many places to the right, to the left where negative */
    PLQ_METRES = 11       /* its metres; not allowed where the image has none */
};

enum {
    PLQ_MOST_NODES = 65535,
    PLQ_MOST_BITS = 131071,
    PLQ_MOST_TREES = 256,
    PLQ_MOST_QUESTIONS = 256,
    PLQ_MOST_TEXT = 1048576, /* bytes of a text, blanks among them */
    PLQ_BLOCK_BYTES = 512,
    PLQ_MOST_TREE_IMAGE_BYTES = 27136, /* of an image without metres, 53 blocks */
    PLQ_MOST_IMAGE_BYTES = 293888      /* of any image, 574 blocks: the most that a reader accepts */
};

/* Sizes of buffers, for n from 1 to PLQ_MOST_NODES and m from 1 to n. Each is of type size_t, and a constant expression
 * if its arguments are, but for #if. An argument may be evaluated more than once. The counts of a refusal are 0, and no
 * tree has n = 0: look at the code first.
 *
 * PLQ_IMAGE_BYTES(n, m)    bytes of the image of a tree without metres, by the two counts of sealing and of the check
 * PLQ_IMAGE_ROOM(n)        bytes that are enough for the image of any tree of n nodes without metres
 * PLQ_METRES_BYTES(n)      bytes to add to either of the two for an image with metres
 * PLQ_STRING_BITS(n)       bits of a tree string
 * PLQ_STRING_BYTES(n)      bytes of a tree string
 * PLQ_BYTES_OF_BITS(bits)  bytes that so many bits of a string or a pack take
 * PLQ_LISTING_NUMBERS(n)   numbers of a listing of n nodes
 * PLQ_TEXT_BYTES(n)        bytes of the text of n nodes as it is written, without blanks */
#define PLQ_IMAGE_BYTES(n, m)                                                                                          \
    (PLQ_BLOCK_BYTES * (1 + PLQ_SHARES_(n, 4000) + PLQ_SHARES_(PLQ_SIZE_(n) + 1, 4000) +                               \
                        2 * PLQ_SHARES_(PLQ_SHARES_(m, 64), 126)))
#define PLQ_IMAGE_ROOM(n) PLQ_IMAGE_BYTES(n, n)
#define PLQ_METRES_BYTES(n) (PLQ_BLOCK_BYTES * PLQ_SHARES_(n, 126))
#define PLQ_STRING_BITS(n) (2 * PLQ_SIZE_(n) + 1)
#define PLQ_STRING_BYTES(n) PLQ_BYTES_OF_BITS(PLQ_STRING_BITS(n))
#define PLQ_BYTES_OF_BITS(bits) PLQ_SHARES_(bits, 8)
#define PLQ_LISTING_NUMBERS(n) (2 * PLQ_SIZE_(n))
#define PLQ_TEXT_BYTES(n) (2 * PLQ_SIZE_(n))

/* For the sizes above alone: how many shares of `share` each are needed for `all`; and a number as a size. */
#define PLQ_SHARES_(all, share) (PLQ_SIZE_(all) / (share) + (PLQ_SIZE_(all) % (share) != 0))
#ifdef __cplusplus
#define PLQ_SIZE_(number) (static_cast<size_t>(+(number))) /* the sign makes a number of an enumerator */
#else
#define PLQ_SIZE_(number) ((size_t)(number))
#endif

/* `code` is one of enum plq_code. On a refusal both counts are 0, on PLQ_DONE they are:
 *
 *   call                     first                      second
 *   plq_string_of_parents    bits of the string         1
 *   plq_parents_of_string    n, the number of nodes     0
 *   plq_image_of_parents     n                          m, one more than there are nodes with children
 *   plq_image_with_metres    n                          m
 *   plq_parents_of_image     n                          0
 *   plq_metres_of_image      n                          0
 *   plq_check_image          n                          m
 *   plq_ask                  questions answered         0
 *   plq_split                bits of the pack           trees
 *   plq_join                 bits of the pack, new      trees, new
 *   plq_list                 nodes listed               0
 *   plq_parents_of_text      n                          0
 *   plq_text_of_parents      bytes of the text          0 */
typedef struct {
    uint32_t code, place, first, second;
} plq_answer;

/* Parents to the tree string: PLQ_STRING_BITS(n) bits, most significant bit first, in PLQ_STRING_BYTES(n) bytes.
 * Refusals: PLQ_WRONG_SIZE, PLQ_NOT_PARENTS, PLQ_NO_ROOM. */
PLQ_MUST_USE plq_answer plq_string_of_parents(const uint32_t *parents, size_t n, uint8_t *bytes, size_t room);

/* A tree string of `bits` bits, in exactly PLQ_BYTES_OF_BITS(bits) bytes, back to its parents. `nbytes` says how many
 * bytes are there: never compute it from a number of bits that came with them.
 * Refusals: PLQ_WRONG_SIZE, PLQ_LEFTOVER_SET, PLQ_NOT_STRING, PLQ_NO_ROOM. */
PLQ_MUST_USE plq_answer plq_parents_of_string(const uint8_t *bytes, size_t nbytes, size_t bits, uint32_t *parents,
                                              size_t room);

/* Parents to the sealed image without metres, version 1, which PLQ_IMAGE_ROOM(n) bytes are enough for. It then has
 * PLQ_IMAGE_BYTES(first, second) of them: 5 to 53 blocks of PLQ_BLOCK_BYTES.
 * Refusals: PLQ_WRONG_SIZE, PLQ_NOT_PARENTS, PLQ_NO_ROOM. */
PLQ_MUST_USE plq_answer plq_image_of_parents(const uint32_t *parents, size_t n, uint8_t *image, size_t room);

/* Parents and metres to the sealed image, version 2, which PLQ_IMAGE_ROOM(n) + PLQ_METRES_BYTES(n) bytes are enough
 * for, and PLQ_MOST_IMAGE_BYTES always. It then has plq_image_bytes(image) of them: 6 to 574 blocks. There must be as
 * many metres as parents: a list of no metres is of a wrong size too.
 * Refusals: PLQ_WRONG_SIZE, PLQ_NOT_PARENTS, PLQ_NO_ROOM. */
PLQ_MUST_USE plq_answer plq_image_with_metres(const uint32_t *parents, size_t n, const uint32_t *metres,
                                              size_t metres_count, uint8_t *image, size_t room);

/* A sealed image, after the whole check, back to its parents.
 * Refusals: PLQ_WRONG_SIZE, PLQ_WRONG_SUMS, PLQ_OTHER_VERSION, PLQ_WRONG_HEADER, PLQ_WRONG_STRINGS,
 * PLQ_WRONG_COUNTS, PLQ_WRONG_SAMPLES, PLQ_NO_ROOM. */
PLQ_MUST_USE plq_answer plq_parents_of_image(const uint8_t *image, size_t nbytes, uint32_t *parents, size_t room);

/* A sealed image, after the whole check, back to its metres, one for each node. Where it has none, which is so in
 * version 1, the refusal is PLQ_NOT_ALLOWED with place 1, whatever the room is; where it has some and there is no room,
 * it is PLQ_NO_ROOM: so a call with no room tells whether an image has metres.
 * Refusals: PLQ_WRONG_SIZE, PLQ_WRONG_SUMS, PLQ_OTHER_VERSION, PLQ_WRONG_HEADER, PLQ_WRONG_STRINGS,
 * PLQ_WRONG_COUNTS, PLQ_WRONG_SAMPLES, PLQ_NOT_ALLOWED, PLQ_NO_ROOM. */
PLQ_MUST_USE plq_answer plq_metres_of_image(const uint8_t *image, size_t nbytes, uint32_t *metres, size_t room);

/* The whole check: done exactly if some tree of 1 to 65,535 nodes, with metres or without, gives these bytes.
 * Refusals: PLQ_WRONG_SIZE, PLQ_WRONG_SUMS, PLQ_OTHER_VERSION, PLQ_WRONG_HEADER, PLQ_WRONG_STRINGS,
 * PLQ_WRONG_COUNTS, PLQ_WRONG_SAMPLES. */
PLQ_MUST_USE plq_answer plq_check_image(const uint8_t *image, size_t nbytes);

/* After the whole check, one answer to each of 0 to 256 questions. A question is three numbers: kind, node, argument.
 * `numbers` counts those and not questions; plq_ask_questions, below, counts questions.
 * PLQ_CHILD_NUMBER and PLQ_SIBLING_AT take any argument, the other kinds take 0. PLQ_METRES is not allowed where the
 * image has no metres.
 * Refusals: PLQ_WRONG_SIZE, PLQ_WRONG_SUMS, PLQ_OTHER_VERSION, PLQ_WRONG_HEADER, PLQ_WRONG_STRINGS,
 * PLQ_WRONG_COUNTS, PLQ_WRONG_SAMPLES, PLQ_NOT_ALLOWED, PLQ_NO_ROOM. */
PLQ_MUST_USE plq_answer plq_ask(const uint8_t *image, size_t nbytes, const int32_t *questions, size_t numbers,
                                uint32_t *answers, size_t room);

/* A pack, which is `trees` strings end to end, in exactly PLQ_BYTES_OF_BITS(bits) bytes: for each tree its first bit,
 * from 1, and its number of nodes. Its string is the PLQ_STRING_BITS(size) bits from there; to read them, move them to
 * the first bit of a buffer, with zeros after them. `nbytes` says how many bytes are there, as above.
 * Refusals: PLQ_WRONG_SIZE, PLQ_LEFTOVER_SET, PLQ_NOT_STRING, PLQ_OTHER_TREES, PLQ_NO_ROOM. */
PLQ_MUST_USE plq_answer plq_split(const uint8_t *bytes, size_t nbytes, size_t bits, size_t trees, uint32_t *starts,
                                  size_t starts_room, uint32_t *sizes, size_t sizes_room);

/* Adds one tree, given by its parents, after a pack in a buffer that may be longer than the pack; an empty pack has 0
 * bits and 0 trees. Earlier bits stay, and so do the bytes after the new last one.
 * Refusals: PLQ_WRONG_SIZE, PLQ_LEFTOVER_SET, PLQ_NOT_STRING, PLQ_OTHER_TREES, PLQ_NOT_PARENTS, PLQ_NO_ROOM. */
PLQ_MUST_USE plq_answer plq_join(uint8_t *pack, size_t room, size_t bits, size_t trees, const uint32_t *parents,
                                 size_t n);

/* After the whole check, node and depth, two numbers each, for `node` and everything below it: parents first, children
 * in order, depth 0 at `node`. PLQ_LISTING_NUMBERS(n) are enough for any node of a tree of n.
 * Refusals: PLQ_WRONG_SIZE, PLQ_WRONG_SUMS, PLQ_OTHER_VERSION, PLQ_WRONG_HEADER, PLQ_WRONG_STRINGS,
 * PLQ_WRONG_COUNTS, PLQ_WRONG_SAMPLES, PLQ_NOT_ALLOWED, PLQ_TOO_DEEP, PLQ_NO_ROOM. */
PLQ_MUST_USE plq_answer plq_list(const uint8_t *image, size_t nbytes, uint32_t node, uint32_t *pairs, size_t room);

/* Parenthesis text back to its parents. A node is `(`, its children, `)`; the bytes 32, 10 and 13
 * are blanks, which may be anywhere and mean nothing, and no other byte may be there. Done exactly
 * if the text is one tree of 1 to 65,535 nodes on at most 64 levels, that of the root among them,
 * in at most PLQ_MOST_TEXT bytes. A text of b bytes has at most b / 2 nodes, so as many numbers are
 * enough, and PLQ_MOST_NODES always.
 * The byte that PLQ_NOT_TEXT and PLQ_TOO_NESTED name counts blanks too; the earlier one is
 * answered. PLQ_WRONG_SIZE is there twice: the first is for too many bytes, the second, for too
 * many nodes, comes only where the text is one tree on at most 64 levels.
 * Refusals: PLQ_WRONG_SIZE, PLQ_NOT_TEXT or PLQ_TOO_NESTED, PLQ_WRONG_SIZE, PLQ_NO_ROOM. */
PLQ_MUST_USE plq_answer plq_parents_of_text(const uint8_t *text, size_t nbytes, uint32_t *parents, size_t room);

/* Parents to parenthesis text: PLQ_TEXT_BYTES(n) brackets, without blanks and without a 0 after
 * them. Parents 0 1 1 1 2 2 4 give ((()())()(())). A tree of more than 64 levels is refused as the
 * listing of its root is.
 * Refusals: PLQ_WRONG_SIZE, PLQ_NOT_PARENTS, PLQ_TOO_DEEP, PLQ_NO_ROOM. */
PLQ_MUST_USE plq_answer plq_text_of_parents(const uint32_t *parents, size_t n, uint8_t *text, size_t room);

/* The rest is no part of the archive: it is compiled with the caller. */

/* A question as plq_ask_questions takes it; `kind` is one of enum plq_kind. An answer that is a node is at most 65,535:
 * to ask on from there, a cast of it to int32_t loses nothing. */
typedef struct {
    int32_t kind, node, argument;
} plq_question;

/* plq_ask, with `count` questions in the place of three times as many numbers. */
PLQ_MUST_USE static inline plq_answer plq_ask_questions(const uint8_t *image, size_t nbytes,
                                                        const plq_question *questions, size_t count, uint32_t *answers,
                                                        size_t room)
{
    /* to the library one too many is too many, and three times that does not wrap */
    size_t counted = count <= PLQ_MOST_QUESTIONS ? count : PLQ_MOST_QUESTIONS + 1;
    const void *numbers = questions;
#ifdef __cplusplus
    return plq_ask(image, nbytes, static_cast<const int32_t *>(numbers), 3 * counted, answers, room);
#else
    return plq_ask(image, nbytes, (const int32_t *)numbers, 3 * counted, answers, room);
#endif
}

/* The bytes of an image by word 3 of its header, its number of blocks; reads the first 16 bytes. Of an image that was
 * sealed or checked this is PLQ_IMAGE_BYTES(n, m), and PLQ_METRES_BYTES(n) more where it has metres. Of other bytes it
 * is what they say, up to 2^41 - 512. Byte 12 alone, image[12], is the number of blocks only in version 1: an image
 * with metres has up to 574. */
PLQ_MUST_USE static inline size_t plq_image_bytes(const uint8_t *image)
{
    size_t blocks = 0;
    for (int byte = 15; byte >= 12; byte--) blocks = 256 * blocks + image[byte];
    return PLQ_BLOCK_BYTES * blocks;
}

/* A code in words, for people: what is wrong, and what the place is where there is one. */
PLQ_MUST_USE static inline const char *plq_code_text(uint32_t code)
{
    switch (code) {
    case PLQ_DONE: return "done";
    case PLQ_WRONG_SIZE: return "a count or a length is outside its limits, or two do not fit each other";
    case PLQ_WRONG_SUMS: return "a block of the image has wrong sums; the place is the lowest such block, from 0";
    case PLQ_OTHER_VERSION: return "the version in the header is neither 1 nor 2, as with an older or a newer writer";
    case PLQ_WRONG_HEADER: return "no tree with an image of this version and length has these header numbers, or a "
                                  "reserved word is not zero";
    case PLQ_WRONG_STRINGS: return "no tree with the header's n and m gives these strings; the place is the first "
                                   "block of R1";
    case PLQ_WRONG_COUNTS: return "a block of the image has a wrong count of earlier ones, or unused payload that is "
                                  "not zero; the place is the lowest such block, from 0";
    case PLQ_WRONG_SAMPLES: return "a block of the image has wrong samples; the place is the lowest such block, from 0";
    case PLQ_LEFTOVER_SET: return "a bit after the last one, in the same byte, is set";
    case PLQ_NOT_STRING: return "the bits are no tree string, or in a pack no strings end to end; the place is the "
                                "first bit, from 1, up to which they begin none, or one more than there are bits";
    case PLQ_OTHER_TREES: return "the pack has another number of trees; the place is the number found";
    case PLQ_NOT_TEXT: return "the text is not one tree; the place is the first byte, from 1, up to which it begins "
                              "none, or one more than there are bytes";
    case PLQ_TOO_NESTED: return "the text opens a 65th level; the place is the byte that does, from 1";
    case PLQ_NOT_PARENTS: return "no parent list has these numbers; the place is the lowest such entry, from 1";
    case PLQ_NOT_ALLOWED: return "a kind, node or argument is not allowed, or the image has no metres; the place is "
                                 "the lowest such question, from 1, and 1 for a listing and for metres read back";
    case PLQ_TOO_DEEP: return "the listing, or the text, would go below depth 63; the place is its first node at "
                              "depth 64";
    case PLQ_NO_ROOM: return "an output has too little room";
    default: return "a code that this header does not know";
    }
}

#ifdef __cplusplus
}
#endif

#endif
