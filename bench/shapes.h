/* Trees to measure on, as parent lists in level order, and metres for their nodes. The same seed gives the same on every
 * machine. */
#ifndef BENCH_SHAPES_H
#define BENCH_SHAPES_H

#include <stdint.h>

enum shape {
    RANDOM, /* every ordinal tree of n nodes with the same chance */
    DIARY,  /* seasons of 52 weeks, 5 to 9 runs a week, the laps spread over the runs; for a small n, runs and laps alone */
    DEEP60, /* depths 0 to 60, as many nodes at each, every node under a random one of the depth above */
    SPINE   /* nearly a path: now and then a second child, now and then a leaf */
};

const char *name_of_shape(enum shape shape);

/* Writes n parents. */
void make_tree(enum shape shape, uint32_t n, uint64_t seed, uint32_t *parents);

/* Writes n numbers of all 32 bits, now and then the least or the most there is. */
void make_metres(uint32_t n, uint64_t seed, uint32_t *metres);

/* Numbers by chance: a place in a fixed sequence. */
struct chance {
    uint64_t at;
};

/* A number from 0 to limit - 1. */
uint32_t below(struct chance *chance, uint32_t limit);

#endif
