/* Do several stores do the same? Figures about stores that differ would say nothing. */
#ifndef BENCH_COMPARE_H
#define BENCH_COMPARE_H

#include "calls.h"
#include "shapes.h"

enum { MOST_CODE = PLQ_TOO_NESTED };

struct comparison {
    const struct store *const *stores; /* each is held against the first */
    size_t count;
    uint64_t calls; /* compared so far */
    uint64_t codes[MOST_CODE + 1]; /* how many of them had each code */
    struct chance chance;
    struct lent expected, lent;
};

void begin_comparison(struct comparison *comparison, const struct store *const *stores, size_t count, uint64_t seed);
void end_comparison(struct comparison *comparison);

/* Makes one call of each store. All answers and every byte of what is lent, and of some entries after it, must be the same;
 * else it says where they differ and ends the program. What is lent is this comparison's own; for join it is a copy of the
 * request's bytes. */
void compare_call(struct comparison *comparison, struct request request);

/* Makes every call on this tree, sealed without metres and with: as it should be, with too little room, and on damaged images,
 * strings, packs, parent lists, questions and texts, `damages` of each. Where the damage says beforehand with which code and
 * place an image is to be refused, every store must answer these. */
void compare_tree(struct comparison *comparison, const uint32_t *parents, uint32_t n, uint32_t damages);

/* Writes a text, which has brackets alone, with one line a node and two blanks a level. Answers how
 * many bytes that are, or 0 where they would be more than `room`. */
size_t text_by_lines(const uint8_t *text, size_t nbytes, uint8_t *lines, size_t room);

/* Makes one sample of an image more than it should be, by chance one of those in its last block, and the sums of that block
 * right again. Answers the block. */
uint32_t break_sample(struct chance *chance, uint8_t *image);

#endif
