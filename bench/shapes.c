#include "shapes.h"

#include <stdlib.h>
#include <string.h>

/* splitmix64 */
static uint64_t next_number(struct chance *chance)
{
    uint64_t x = chance->at += UINT64_C(0x9E3779B97F4A7C15);
    x = (x ^ x >> 30) * UINT64_C(0xBF58476D1CE4E5B9);
    x = (x ^ x >> 27) * UINT64_C(0x94D049BB133111EB);
    return x ^ x >> 31;
}

uint32_t below(struct chance *chance, uint32_t limit)
{
    return (uint32_t)((next_number(chance) >> 32) * limit >> 32);
}

const char *name_of_shape(enum shape shape)
{
    static const char *const names[] = {"random", "diary", "deep60", "spine"};
    return names[shape];
}

/* Each shape writes the degrees of n nodes in level order, over zeros. */

/* n - 1 ups and n downs in random order; of its rotations exactly one, that after the first lowest point, is a tree, read as
 * degrees, each one ended by a down. */
static void random_degrees(struct chance *chance, uint32_t n, uint32_t *degrees)
{
    uint32_t steps = 2 * n - 1, lowest = 0;
    int32_t height = 0, least = 0;
    uint8_t *up = calloc(steps, 1);
    memset(up, 1, n - 1);
    for (uint32_t i = steps - 1; i > 0; i--) {
        uint32_t other = below(chance, i + 1);
        uint8_t kept = up[i];
        up[i] = up[other];
        up[other] = kept;
    }
    for (uint32_t i = 0; i < steps; i++) {
        height += up[i] ? 1 : -1;
        if (height < least) {
            least = height;
            lowest = i + 1;
        }
    }
    for (uint32_t i = 0, node = 0; i < steps; i++) {
        if (up[(lowest + i) % steps])
            degrees[node]++;
        else
            node++;
    }
    free(up);
}

static void diary_degrees(struct chance *chance, uint32_t n, uint32_t *degrees)
{
    /* ten seasons and their runs are some 4,200 nodes, one season some 420 */
    uint32_t seasons = n >= 20000 ? 10 : n >= 1000 ? 1 : 0, weeks = 52 * seasons, runs = 0, node = 0;
    if (seasons > 0) {
        degrees[node++] = seasons;
        while (node <= seasons) degrees[node++] = 52;
        for (uint32_t week = 0; week < weeks; week++) runs += degrees[node++] = 5 + below(chance, 5);
    } else {
        runs = degrees[node++] = n < 12 ? n - 1 : n / 12;
    }
    for (uint32_t laps = n - node - runs; laps > 0; laps--) degrees[node + below(chance, runs)]++;
}

static void deep60_degrees(struct chance *chance, uint32_t n, uint32_t *degrees)
{
    uint32_t above = 0, width_above = 1, left = n - 1;
    for (uint32_t depth = 1; depth <= 60 && left > 0; depth++) {
        uint32_t width = left / (61 - depth);
        if (width == 0) width = 1;
        for (uint32_t i = 0; i < width; i++) degrees[above + below(chance, width_above)]++;
        above += width_above;
        width_above = width;
        left -= width;
    }
}

static void spine_degrees(struct chance *chance, uint32_t n, uint32_t *degrees)
{
    uint32_t pending = 1; /* nodes without a degree yet */
    for (uint32_t node = 0, made = 1; made < n; node++) {
        uint32_t now_and_then = below(chance, 200);
        if (now_and_then == 0 && made + 2 <= n)
            degrees[node] = 2;
        else if (now_and_then != 1 || pending == 1)
            degrees[node] = 1;
        made += degrees[node];
        pending += degrees[node] - 1;
    }
}

void make_tree(enum shape shape, uint32_t n, uint64_t seed, uint32_t *parents)
{
    static void (*const shapes[])(struct chance *, uint32_t, uint32_t *) = {random_degrees, diary_degrees, deep60_degrees, spine_degrees};
    struct chance chance = {seed};
    uint32_t *degrees = calloc(n, sizeof *degrees), made = 1;
    shapes[shape](&chance, n, degrees);
    parents[0] = 0;
    for (uint32_t node = 1; node <= n; node++)
        for (uint32_t k = 0; k < degrees[node - 1]; k++) parents[made++] = node;
    free(degrees);
}

void make_metres(uint32_t n, uint64_t seed, uint32_t *metres)
{
    struct chance chance = {seed};
    for (uint32_t i = 0; i < n; i++) metres[i] = below(&chance, 16) > 0 ? below(&chance, UINT32_MAX) : 0 - below(&chance, 2);
}
