/* What the watch does with its days: lays their tree strings end to end in one small buffer, and what the phone does
 * with the buffer: splits it and reads each day back.
 *
 *     watch [BIT]     with BIT that bit, from 1, is changed on the way
 *
 * The phone is told the number of bits and of days beside the pack: neither is in its bytes. How many bytes there are
 * it counts itself, and leaves it to the library to find that they are not as many as the bits take: computed from a
 * number of bits that was damaged on the way, it would be a length that is not there.
 * Where the number of days is known, no odd number of changed bits goes unnoticed. What was changed may still be a
 * right pack of larger or smaller days, so the phone's buffers have room for any tree that such a pack can hold.
 * Exit status: 0 all days read back, 1 refused by the library, 2 there is no such bit, or not all could be shown. */
#include "refusal.h"
#include <stdlib.h>
#include <string.h>

enum { DAYS = 3, PACK_BYTES = 16, MOST_NODES = 8 * PACK_BYTES / 2 }; /* a tree of n nodes has more than 2n bits */

static const struct {
    size_t nodes;
    uint32_t parents[7];
} days[DAYS] = {
    {7, {0, 1, 1, 1, 2, 2, 4}}, /* three runs: the first of two laps, the second of none, the third of one */
    {1, {0}},                   /* a day off */
    {4, {0, 1, 2, 2}},          /* one run of two laps */
};

/* Moves the bits from bit `start` of the pack, from 1, to bit 1 of `part`, and clears the rest of its last byte. */
static void move_part(const uint8_t *pack, size_t start, size_t bits, uint8_t *part)
{
    memset(part, 0, PLQ_BYTES_OF_BITS(bits));
    for (size_t to = 0, from = start - 1; to < bits; to++, from++)
        if (pack[from / 8] & (0x80 >> from % 8)) part[to / 8] |= (uint8_t)(0x80 >> to % 8);
}

int main(int words, char **word)
{
    uint8_t pack[PACK_BYTES] = {0};
    size_t bits = 0, trees = 0;

    for (size_t day = 0; day < DAYS; day++) {
        plq_answer joined = plq_join(pack, sizeof pack, bits, trees, days[day].parents, days[day].nodes);
        if (joined.code != PLQ_DONE) return refused("joining", joined);
        bits = joined.first;
        trees = joined.second;
    }

    size_t sent = PLQ_BYTES_OF_BITS(bits); /* by the watch, who made the pack */

    if (words > 1) {
        char *end;
        unsigned long changed = strtoul(word[1], &end, 10);
        if (words > 2 || *end || changed < 1 || changed > bits) {
            fprintf(stderr, "usage: watch [BIT], with a bit from 1 to %zu\n", bits);
            return 2;
        }
        pack[(changed - 1) / 8] ^= (uint8_t)(0x80 >> (changed - 1) % 8);
    }
    printf("%zu days in %zu bits\n", trees, bits);

    uint32_t starts[DAYS], sizes[DAYS];
    plq_answer split = plq_split(pack, sent, bits, trees, starts, DAYS, sizes, DAYS);
    if (split.code != PLQ_DONE) return refused("splitting", split);
    for (size_t day = 0; day < DAYS; day++) {
        uint8_t part[PACK_BYTES]; /* no part is longer than the pack */
        uint32_t parents[MOST_NODES];
        size_t part_bits = PLQ_STRING_BITS(sizes[day]);
        move_part(pack, starts[day], part_bits, part);
        plq_answer read = plq_parents_of_string(part, PLQ_BYTES_OF_BITS(part_bits), part_bits, parents, MOST_NODES);
        if (read.code != PLQ_DONE) return refused("reading a day", read);
        printf("from bit %u, %u nodes, parents", (unsigned)starts[day], (unsigned)sizes[day]);
        for (size_t node = 0; node < read.first; node++) printf(" %u", (unsigned)parents[node]);
        printf("\n");
    }
    return shown();
}
