/* The plain C store. Compiled with -DSTORE=name -DNAME='"words"', the object offers `const struct store name`.
 *
 * Three things are here twice, first in the form that is named for the library too, then, where an option asks for it, in a
 * faster one:
 *   block sums    one loop over the words of a block; -DSTORE_SUMS_BY_LANES: four such chains side by side
 *   metres        copied in one loop over the words of a block; -DSTORE_METRES_BY_MEMCPY: by memcpy
 *   the listing   calls itself on each child, leaves included, and reads the bits of a node where they are in the image;
 *                 -DSTORE_LIST_SKIPS_LEAVES: a loop that makes no call, over a copy of both strings without gaps
 *
 * What it is fast by besides: the check reads both strings once, eight bytes at a time, and keeps the counts before each
 * word of the current block for the samples, and only where that finds something wrong a second pass looks for what it is
 * and where; rank is the block's own count and the ones of whole words; select starts at
 * the nearest sample; strings are read by words and bytes while no tree can end in them; the listing keeps one cursor a
 * depth, and so do the reading and the writing of text, which are loops without a call. */
#include "store.h"

#include <stdbool.h>
#include <string.h>

_Static_assert(__BYTE_ORDER__ == __ORDER_LITTLE_ENDIAN__, "words of an image are little-endian and are read as they stand");

enum {
    BLOCK = PLQ_BLOCK_BYTES,
    PAYLOAD = 504,        /* bytes of a block before its two sums */
    LEAST_BLOCKS = 5,
    MOST_BLOCKS = PLQ_MOST_IMAGE_BYTES / BLOCK,
    TREE_ALONE = 1,       /* the versions of an image */
    WITH_METRES = 2,
    STRING_BYTES = 500,   /* bytes of R1 or R0 in one block, after its count */
    STRING_BITS = 8 * STRING_BYTES,
    STRING_WORDS = 63,    /* 64-bit words of a string in one block; of the last only the first half is the string's */
    STRING_BLOCKS = 17,   /* the most blocks of one string */
    WORDS = 126,          /* of payload in one block: as many samples, as many metres */
    SAMPLE_STEP = 64,     /* every such one of a string has a sample */
    LEVELS = 64           /* the depths that a listing may have, and the levels of a text */
};

#define FIRST_BIT (UINT64_C(1) << 63)

static plq_answer done(size_t first, size_t second)
{
    return (plq_answer){PLQ_DONE, 0, (uint32_t)first, (uint32_t)second};
}

static plq_answer refused(enum plq_code code, size_t place)
{
    return (plq_answer){code, (uint32_t)place, 0, 0};
}

/* ---- words ---- */

static uint32_t load32(const uint8_t *from)
{
    uint32_t x;
    memcpy(&x, from, sizeof x);
    return x;
}

static void store32(uint8_t *to, uint32_t x)
{
    memcpy(to, &x, sizeof x);
}

/* Eight bytes as they are in memory: good for counting, and cheaper than their order. */
static uint64_t load64(const uint8_t *from)
{
    uint64_t x;
    memcpy(&x, from, sizeof x);
    return x;
}

/* Eight bytes with the first bit of the string on top. */
static uint64_t load_bits(const uint8_t *from)
{
    return __builtin_bswap64(load64(from));
}

static void store_bits(uint8_t *to, uint64_t x)
{
    x = __builtin_bswap64(x);
    memcpy(to, &x, sizeof x);
}

static uint32_t ones(uint64_t x)
{
    return (uint32_t)__builtin_popcountll(x);
}

static uint32_t leading_zeros(uint64_t x)
{
    return (uint32_t)__builtin_clzll(x);
}

/* Bit `at` of bytes, from 0. */
static uint32_t bit_at(const uint8_t *bytes, size_t at)
{
    return bytes[at / 8] >> (7 - at % 8) & 1;
}

static size_t bytes_of(size_t bits)
{
    return (bits + 7) / 8;
}

/* Is some bit after the last one set in its byte? */
static bool leftover_set(const uint8_t *bytes, size_t bits)
{
    return bits % 8 != 0 && (bytes[bits / 8] & 0xFF >> bits % 8) != 0;
}

static bool all_zero(const uint8_t *from, const uint8_t *end)
{
    uint64_t any = 0;
    for (; end - from >= 8; from += 8) any |= load64(from);
    for (; from < end; from++) any |= *from;
    return any == 0;
}

/* The place, from 0, of one number `number` (from 1) in eight bytes of a string as they are in memory; they have that many. */
static uint32_t place_of_one(uint64_t raw, uint32_t number)
{
    /* the places of the ones of a four-bit value, most significant first */
    static const uint8_t places[16][4] = {{0},    {3},    {2},       {2, 3},    {1},    {1, 3},    {1, 2},    {1, 2, 3},
                                          {0},    {0, 3}, {0, 2},    {0, 2, 3}, {0, 1}, {0, 1, 3}, {0, 1, 2}, {0, 1, 2, 3}};
    const uint64_t low = UINT64_C(0x0101010101010101), high = low << 7;
    uint64_t pairs = raw - (raw >> 1 & UINT64_C(0x5555555555555555));
    uint64_t fours = (pairs & UINT64_C(0x3333333333333333)) + (pairs >> 2 & UINT64_C(0x3333333333333333));
    /* byte k: the ones in bytes 0 to k; its top bit, free because that is at most 64, then says whether they are enough */
    uint64_t upto = ((fours + (fours >> 4)) & UINT64_C(0x0F0F0F0F0F0F0F0F)) * low;
    uint64_t enough = ((upto | high) - low * number) & high;
    uint32_t shift = (uint32_t)__builtin_ctzll(enough) - 7; /* eight times the byte it is in */
    number -= upto << 8 >> shift & 0xFF;
    uint32_t in_upper = fours >> (shift + 4) & 0xF;
    uint32_t below = number > in_upper;
    uint32_t four = raw >> (shift + 4 - 4 * below) & 0xF;
    return shift + 4 * below + places[four][number - in_upper * below - 1];
}

/* ---- blocks ---- */

struct sums {
    uint32_t s, t;
};

#ifndef STORE_SUMS_BY_LANES

/* One chain of additions, word by word, as the rule has it. */
static struct sums sums_of(const uint8_t *block, uint32_t number)
{
    struct sums all = {number, 0};
    for (uint32_t at = 0; at < PAYLOAD; at += 4) {
        all.s += load32(block + at);
        all.t += all.s;
    }
    return all;
}

#else

typedef uint32_t lanes __attribute__((vector_size(16)));

/* Four chains of additions side by side; `number` and what one chain alone would have added come in after the loop. */
static struct sums sums_of(const uint8_t *block, uint32_t number)
{
    lanes s = {0}, t = {0}, words;
    for (uint32_t at = 0; at < PAYLOAD - 8; at += sizeof words) {
        memcpy(&words, block + at, sizeof words);
        s += words;
        t += s;
    }
    struct sums all = {number + s[0] + s[1] + s[2] + s[3],
                       124 * number + 4 * (t[0] + t[1] + t[2] + t[3]) - s[1] - 2 * s[2] - 3 * s[3]};
    for (uint32_t at = PAYLOAD - 8; at < PAYLOAD; at += 4) {
        all.s += load32(block + at);
        all.t += all.s;
    }
    return all;
}

#endif

static void seal_block(uint8_t *block, uint32_t number)
{
    struct sums all = sums_of(block, number);
    store32(block + PAYLOAD, all.s);
    store32(block + PAYLOAD + 4, all.t);
}

/* The lowest block with a wrong sum, or `blocks`. */
static uint32_t wrong_block(const uint8_t *image, uint32_t blocks)
{
    for (uint32_t b = 0; b < blocks; b++) {
        const uint8_t *block = image + BLOCK * b;
        struct sums all = sums_of(block, b);
        if (all.s != load32(block + PAYLOAD) || all.t != load32(block + PAYLOAD + 4)) return b;
    }
    return blocks;
}

/* ---- the parts of an image ---- */

/* R1 or R0 as it lies in an image: its blocks, its samples. */
struct bits {
    const uint8_t *blocks, *samples;
    uint32_t nblocks;
};

struct image {
    uint32_t n, m;
    struct bits r1, r0;
    const uint8_t *metres; /* their blocks; null where there are none */
};

/* How many blocks each part takes. */
struct layout {
    uint32_t r1, r0, samples, sample_blocks, metre_blocks, all;
};

static bool known_version(uint32_t version)
{
    return version == TREE_ALONE || version == WITH_METRES;
}

static struct layout layout_of(uint32_t version, uint32_t n, uint32_t m)
{
    struct layout lay;
    lay.r1 = (n + STRING_BITS - 1) / STRING_BITS;
    lay.r0 = n / STRING_BITS + 1;
    lay.samples = (m + SAMPLE_STEP - 1) / SAMPLE_STEP;
    lay.sample_blocks = (lay.samples + WORDS - 1) / WORDS;
    lay.metre_blocks = version == WITH_METRES ? (n + WORDS - 1) / WORDS : 0;
    lay.all = 1 + lay.r1 + lay.r0 + 2 * lay.sample_blocks + lay.metre_blocks;
    return lay;
}

static const uint8_t *string_of(const uint8_t *block)
{
    return block + 4;
}

static uint32_t count_before(const struct bits *r, uint32_t block)
{
    return load32(r->blocks + BLOCK * block);
}

/* Number k, from 0, of a list in its blocks, which has samples or metres. */
static uint32_t listed(const uint8_t *list, uint32_t k)
{
    return load32(list + BLOCK * (k / WORDS) + 4 * (k % WORDS));
}

/* Bit i, from 1, of a string in an image. */
static bool has_one(const struct bits *r, uint32_t i)
{
    uint32_t at = i - 1;
    return bit_at(string_of(r->blocks + BLOCK * (at / STRING_BITS)), at % STRING_BITS);
}

/* Word `w` of a block's string, nothing of the sums in it. */
static uint64_t raw_word(const uint8_t *string, uint32_t w)
{
    return w < STRING_WORDS - 1 ? load64(string + 8 * w) : load32(string + 8 * w);
}

static uint64_t word_bits(const uint8_t *string, uint32_t w)
{
    return __builtin_bswap64(raw_word(string, w));
}

/* ---- the whole check ---- */

/* May the ones of R1 (x1) and R0 (x0) in one word stand as they do, if R0 has `lead` more ones than R1 before it? Up to
 * no place may R1 have more; `first` is the place of the first bit, and place n, where R1 must end, is left out. */
static bool in_step(uint64_t x1, uint64_t x0, int32_t lead, uint32_t first, uint32_t n)
{
    uint64_t up = x0 & ~x1, down = x1 & ~x0;
    while (down != 0) {
        uint32_t at = leading_zeros(down);
        if (first + at == n) return true;
        lead--;
        if (lead + (int32_t)ones(up & ~(UINT64_MAX >> at)) < 0) return false;
        down &= ~(FIRST_BIT >> at);
    }
    return true;
}

/* Are the samples right that belong to ones of this block? `before` has the ones before each of its words and after the
 * last, `next` the number of the first sample that is not yet looked at, and is moved on. */
static bool samples_right(const uint8_t *string, uint32_t first, const uint32_t before[STRING_WORDS + 1], const uint8_t *samples, uint32_t *next)
{
    uint32_t wrong = 0, k = *next, end = (before[STRING_WORDS] + SAMPLE_STEP - 1) / SAMPLE_STEP;
    for (; k < end; k++) {
        uint32_t at = listed(samples, k) - first;
        if (at >= STRING_BITS) return false;
        uint64_t upto = load_bits(string + at / 64 * 8) >> (63 - at % 64);
        wrong |= (before[at / 64] + ones(upto)) ^ (SAMPLE_STEP * k + 1);
        wrong |= ~upto & 1;
    }
    *next = k;
    return wrong == 0;
}

/* Counts, runs in step, samples, block by block through both strings. */
static bool strings_right(const struct image *im, const struct layout *lay)
{
    static const uint8_t nothing[BLOCK]; /* where R0 has a block more than R1 */
    uint32_t before1[STRING_WORDS + 1], before0[STRING_WORDS + 1];
    uint32_t c1 = 0, c0 = 0, next1 = 0, next0 = 0;
    for (uint32_t b = 0; b < lay->r0; b++) {
        const uint8_t *block1 = b < lay->r1 ? im->r1.blocks + BLOCK * b : nothing, *block0 = im->r0.blocks + BLOCK * b;
        const uint8_t *string1 = string_of(block1), *string0 = string_of(block0);
        uint32_t first = STRING_BITS * b + 1;
        if ((b < lay->r1 && load32(block1) != c1) || load32(block0) != c0) return false;
        for (uint32_t w = 0; w < STRING_WORDS; w++) {
            uint64_t x1 = raw_word(string1, w), x0 = raw_word(string0, w);
            int32_t lead = (int32_t)(c0 - c1);
            before1[w] = c1;
            before0[w] = c0;
            if (lead < 64 && lead < (int32_t)ones(x1 & ~x0)
                && !in_step(__builtin_bswap64(x1), __builtin_bswap64(x0), lead, first + 64 * w, im->n))
                return false;
            c1 += ones(x1);
            c0 += ones(x0);
        }
        before1[STRING_WORDS] = c1;
        before0[STRING_WORDS] = c0;
        if (c1 > im->m || c0 > im->m) return false;
        if (!samples_right(string1, first, before1, im->r1.samples, &next1)) return false;
        if (!samples_right(string0, first, before0, im->r0.samples, &next0)) return false;
    }
    return c1 == im->m && c0 == im->m;
}

/* Is the last bit of a string of `bits` bits a one, and nothing after it? */
static bool ends_in_one(const struct bits *r, uint32_t bits)
{
    uint32_t used = (bits - 1) % STRING_BITS + 1;
    const uint8_t *string = string_of(r->blocks + BLOCK * (r->nblocks - 1));
    return bit_at(string, used - 1) && !leftover_set(string, used) && all_zero(string + bytes_of(used), string + STRING_BYTES);
}

/* Is nothing after the last of `count` numbers in the blocks of their list? */
static bool list_ends(const uint8_t *list, uint32_t blocks, uint32_t count)
{
    const uint8_t *last = list + BLOCK * (blocks - 1);
    return all_zero(last + 4 * ((count - 1) % WORDS + 1), last + PAYLOAD);
}

static bool samples_end(const uint8_t *samples, const struct layout *lay)
{
    return list_ends(samples, lay->sample_blocks, lay->samples);
}

static bool metres_end(const struct image *im, const struct layout *lay)
{
    return im->metres == NULL || list_ends(im->metres, lay->metre_blocks, im->n);
}

/* Everything after the sums. */
static bool some_tree_gives(const uint8_t *bytes, uint32_t blocks, struct image *im)
{
    uint32_t version = load32(bytes), n = load32(bytes + 4), m = load32(bytes + 8);
    if (!known_version(version) || n < 1 || n > PLQ_MOST_NODES || m < 1 || m > n || load32(bytes + 12) != blocks) return false;
    struct layout lay = layout_of(version, n, m);
    if (lay.all != blocks || !all_zero(bytes + 16, bytes + PAYLOAD)) return false;
    im->n = n;
    im->m = m;
    im->r1.nblocks = lay.r1;
    im->r0.nblocks = lay.r0;
    im->r1.blocks = bytes + BLOCK;
    im->r0.blocks = im->r1.blocks + BLOCK * lay.r1;
    im->r1.samples = im->r0.blocks + BLOCK * lay.r0;
    im->r0.samples = im->r1.samples + BLOCK * lay.sample_blocks;
    im->metres = version == WITH_METRES ? im->r0.samples + BLOCK * lay.sample_blocks : NULL;
    return has_one(&im->r1, 1) && ends_in_one(&im->r1, n) && ends_in_one(&im->r0, n + 1) && samples_end(im->r1.samples, &lay)
        && samples_end(im->r0.samples, &lay) && metres_end(im, &lay) && strings_right(im, &lay);
}

/* ---- what is wrong with an image that no tree gives ---- */

/* Has some tree whose image is of this version, which is a known one, and of so many blocks the rest of this header? */
static bool header_right(const uint8_t *bytes, uint32_t blocks)
{
    uint32_t n = load32(bytes + 4), m = load32(bytes + 8);
    if (n < 1 || n > PLQ_MOST_NODES || m < (n == 1 ? 1 : 2) || m > n) return false;
    return load32(bytes + 12) == blocks && layout_of(load32(bytes), n, m).all == blocks && all_zero(bytes + 16, bytes + PAYLOAD);
}

/* Copies the last block of a string of `bits` bits without what is after the string. Answers whether nothing is. */
static bool copy_last(uint8_t copy[BLOCK], const struct bits *r, uint32_t bits)
{
    const uint8_t *last = r->blocks + BLOCK * (r->nblocks - 1);
    uint32_t used = (bits - 1) % STRING_BITS + 1;
    memcpy(copy, last, BLOCK);
    memset(copy + 4 + bytes_of(used), 0, STRING_BYTES - bytes_of(used));
    if (used % 8 != 0) copy[4 + used / 8] &= (uint8_t)(0xFF00 >> used % 8);
    return memcmp(copy, last, BLOCK) == 0;
}

/* From sample k on, the first that is wrong, or else the first that belongs to a one of a later block. Where k itself was
 * wrong in an earlier block it is so here too: no one of this block has its number. */
static uint32_t first_wrong_sample(const uint8_t *string, uint32_t first, const uint32_t before[STRING_WORDS + 1], const uint8_t *samples, uint32_t k)
{
    uint32_t end = (before[STRING_WORDS] + SAMPLE_STEP - 1) / SAMPLE_STEP;
    for (; k < end; k++) {
        uint32_t at = listed(samples, k) - first;
        if (at >= STRING_BITS) break;
        uint64_t upto = load_bits(string + at / 64 * 8) >> (63 - at % 64);
        if (!(upto & 1) || before[at / 64] + ones(upto) != SAMPLE_STEP * k + 1) break;
    }
    return k;
}

static uint32_t lower(uint32_t a, uint32_t b)
{
    return a < b ? a : b;
}

/* The refusal of an image whose sums are right and that no tree gives, as the pass above has found: one more pass, through all
 * of it, for the first code that holds and the lowest block of that kind. `im` has the parts of the image if its header is
 * right. A function of its own for the compiler too, so that a right image takes as long as without it. */
static __attribute__((noinline)) plq_answer refusal_of(const uint8_t *bytes, uint32_t blocks, const struct image *im)
{
    if (!known_version(load32(bytes))) return refused(PLQ_OTHER_VERSION, 0);
    if (!header_right(bytes, blocks)) return refused(PLQ_WRONG_HEADER, 0);

    static const uint8_t nothing[BLOCK];
    uint8_t last1[BLOCK], last0[BLOCK];
    uint32_t before1[STRING_WORDS + 1], before0[STRING_WORDS + 1];
    uint32_t c1 = 0, c0 = 0, next1 = 0, next0 = 0, n = im->n, m = im->m;
    struct layout lay = layout_of(load32(bytes), n, m);
    uint32_t r1 = 1, r0 = r1 + lay.r1, samples1 = r0 + lay.r0, samples0 = samples1 + lay.sample_blocks; /* the first block of each */
    uint32_t metres = samples0 + lay.sample_blocks; /* in version 1 there are none, and this is the number of blocks */
    uint32_t count_wrong = blocks; /* the lowest block with a wrong count or with something in its unused payload */
    if (!metres_end(im, &lay)) count_wrong = blocks - 1;
    if (!samples_end(im->r0.samples, &lay)) count_wrong = metres - 1;
    if (!samples_end(im->r1.samples, &lay)) count_wrong = samples0 - 1;
    if (!copy_last(last0, &im->r0, n + 1)) count_wrong = samples1 - 1;
    if (!copy_last(last1, &im->r1, n)) count_wrong = r0 - 1;
    if (!has_one(&im->r1, 1) || !has_one(&im->r1, n) || !has_one(&im->r0, n + 1)) return refused(PLQ_WRONG_STRINGS, r1);
    for (uint32_t b = 0; b < lay.r0; b++) {
        const uint8_t *block1 = b + 1 < lay.r1 ? im->r1.blocks + BLOCK * b : b + 1 == lay.r1 ? last1 : nothing;
        const uint8_t *block0 = b + 1 < lay.r0 ? im->r0.blocks + BLOCK * b : last0;
        const uint8_t *string1 = string_of(block1), *string0 = string_of(block0);
        uint32_t first = STRING_BITS * b + 1;
        if (b < lay.r1 && load32(block1) != c1) count_wrong = lower(count_wrong, r1 + b);
        if (load32(block0) != c0) count_wrong = lower(count_wrong, r0 + b);
        for (uint32_t w = 0; w < STRING_WORDS; w++) {
            uint64_t x1 = raw_word(string1, w), x0 = raw_word(string0, w);
            int32_t lead = (int32_t)(c0 - c1);
            before1[w] = c1;
            before0[w] = c0;
            if (lead < 64 && lead < (int32_t)ones(x1 & ~x0)
                && !in_step(__builtin_bswap64(x1), __builtin_bswap64(x0), lead, first + 64 * w, n))
                return refused(PLQ_WRONG_STRINGS, r1);
            c1 += ones(x1);
            c0 += ones(x0);
        }
        before1[STRING_WORDS] = c1;
        before0[STRING_WORDS] = c0;
        if (c1 > m || c0 > m) return refused(PLQ_WRONG_STRINGS, r1);
        next1 = first_wrong_sample(string1, first, before1, im->r1.samples, next1);
        next0 = first_wrong_sample(string0, first, before0, im->r0.samples, next0);
    }
    if (c1 != m || c0 != m) return refused(PLQ_WRONG_STRINGS, r1);
    if (count_wrong < blocks) return refused(PLQ_WRONG_COUNTS, count_wrong);
    return refused(PLQ_WRONG_SAMPLES, next1 < lay.samples ? samples1 + next1 / WORDS : samples0 + next0 / WORDS);
}

static plq_answer check(const uint8_t *bytes, size_t nbytes, struct image *im)
{
    if (nbytes % BLOCK != 0 || nbytes < LEAST_BLOCKS * BLOCK || nbytes > MOST_BLOCKS * BLOCK) return refused(PLQ_WRONG_SIZE, 0);
    uint32_t blocks = (uint32_t)(nbytes / BLOCK), wrong = wrong_block(bytes, blocks);
    if (wrong < blocks) return refused(PLQ_WRONG_SUMS, wrong);
    if (!some_tree_gives(bytes, blocks, im)) return refusal_of(bytes, blocks, im);
    return done(im->n, im->m);
}

static plq_answer plain_check_image(const uint8_t *image, size_t nbytes)
{
    struct image im;
    return check(image, nbytes, &im);
}

/* ---- rank, select, and the ones beside a place ---- */

/* Ones strictly left of place i. */
static uint32_t ones_left(const struct bits *r, uint32_t i)
{
    uint32_t at = i - 1, block = at / STRING_BITS, in_block = at % STRING_BITS, word = in_block / 64;
    const uint8_t *string = string_of(r->blocks + BLOCK * block);
    uint32_t count = count_before(r, block) + ones(load_bits(string + 8 * word) >> 1 >> (63 - in_block % 64));
    for (uint32_t w = 0; w < word; w++) count += ones(load64(string + 8 * w));
    return count;
}

/* The place of one number `number`, which the string has; of number 0 it is 0. */
static uint32_t place_of(const struct bits *r, uint32_t number)
{
    if (number == 0) return 0;
    uint32_t k = (number - 1) / SAMPLE_STEP, need = number - SAMPLE_STEP * k;
    uint32_t at = listed(r->samples, k) - 1, block = at / STRING_BITS, word = at % STRING_BITS / 64;
    const uint8_t *string = string_of(r->blocks + BLOCK * block);
    uint64_t x = raw_word(string, word) & __builtin_bswap64(UINT64_MAX >> at % STRING_BITS % 64);
    if (block + 1 < r->nblocks && count_before(r, block + 1) < number) { /* the counts say in which later block */
        do block++;
        while (block + 1 < r->nblocks && count_before(r, block + 1) < number);
        string = string_of(r->blocks + BLOCK * block);
        need = number - count_before(r, block);
        word = 0;
        x = load64(string);
    }
    for (uint32_t here = ones(x); here < need; here = ones(x)) {
        need -= here;
        word++;
        x = raw_word(string, word);
    }
    return STRING_BITS * block + 64 * word + place_of_one(x, need) + 1;
}

/* The first one at place i or right of it; there is one. */
static uint32_t one_from(const struct bits *r, uint32_t i)
{
    uint32_t at = i - 1, block = at / STRING_BITS, word = at % STRING_BITS / 64;
    const uint8_t *string = string_of(r->blocks + BLOCK * block);
    uint64_t x = word_bits(string, word) & UINT64_MAX >> at % STRING_BITS % 64;
    while (x == 0) {
        if (++word == STRING_WORDS) return place_of(r, count_before(r, block + 1) + 1);
        x = word_bits(string, word);
    }
    return STRING_BITS * block + 64 * word + leading_zeros(x) + 1;
}

/* The last one strictly left of place i, 0 where there is none. */
static uint32_t one_before(const struct bits *r, uint32_t i)
{
    if (i == 1) return 0;
    uint32_t at = i - 2, block = at / STRING_BITS, word = at % STRING_BITS / 64;
    const uint8_t *string = string_of(r->blocks + BLOCK * block);
    uint64_t x = word_bits(string, word) & ~(UINT64_MAX >> 1 >> at % STRING_BITS % 64);
    while (x == 0) {
        if (word-- == 0) return place_of(r, count_before(r, block));
        x = word_bits(string, word);
    }
    return STRING_BITS * block + 64 * word + 64 - (uint32_t)__builtin_ctzll(x);
}

/* Ones of the tree string before its zero number z: the last node before the children of node z. */
static uint32_t nodes_before_zero(const struct image *im, uint32_t z)
{
    return place_of(&im->r1, 1 + ones_left(&im->r0, z));
}

/* ---- questions ---- */

static uint32_t child_number(const struct image *im, uint32_t x, int64_t number)
{
    if (number < 1 || !has_one(&im->r0, x)) return 0;
    uint32_t before = nodes_before_zero(im, x);
    return before + number <= one_from(&im->r1, before + 1) ? before + (uint32_t)number : 0;
}

static uint32_t sibling_at(const struct image *im, uint32_t x, int64_t distance)
{
    int64_t y = x + distance;
    if (y < 1 || y > im->n) return 0;
    if (distance > 0) return y <= one_from(&im->r1, x) ? (uint32_t)y : 0;
    if (distance < 0) return y > one_before(&im->r1, x) ? (uint32_t)y : 0;
    return x;
}

static uint32_t answer(const struct image *im, int32_t kind, uint32_t x, int32_t argument)
{
    uint32_t before;
    switch (kind) {
    case PLQ_PARENT: return place_of(&im->r0, ones_left(&im->r1, x));
    case PLQ_FIRST_CHILD: return has_one(&im->r0, x) ? nodes_before_zero(im, x) + 1 : 0;
    case PLQ_LAST_CHILD: return has_one(&im->r0, x) ? nodes_before_zero(im, x + 1) : 0;
    case PLQ_NEXT_SIBLING: return has_one(&im->r1, x) ? 0 : x + 1;
    case PLQ_PREVIOUS_SIBLING: return x == 1 || has_one(&im->r1, x - 1) ? 0 : x - 1;
    case PLQ_DEGREE:
        if (!has_one(&im->r0, x)) return 0;
        before = nodes_before_zero(im, x);
        return one_from(&im->r1, before + 1) - before;
    case PLQ_CHILD_RANK: return x == 1 ? 0 : x - one_before(&im->r1, x);
    case PLQ_CHILD_NUMBER: return child_number(im, x, argument);
    case PLQ_LEAF: return !has_one(&im->r0, x);
    case PLQ_METRES: return listed(im->metres, x - 1);
    default: return sibling_at(im, x, argument);
    }
}

static bool allowed(const struct image *im, const int32_t question[3])
{
    int32_t kind = question[0], node = question[1];
    return kind >= PLQ_PARENT && kind <= (im->metres == NULL ? PLQ_SIBLING_AT : PLQ_METRES) && node >= 1 && (uint32_t)node <= im->n
        && (question[2] == 0 || kind == PLQ_CHILD_NUMBER || kind == PLQ_SIBLING_AT);
}

static plq_answer plain_ask(const uint8_t *image, size_t nbytes, const int32_t *questions, size_t numbers, uint32_t *answers, size_t room)
{
    struct image im;
    if (numbers % 3 != 0 || numbers / 3 > PLQ_MOST_QUESTIONS) return refused(PLQ_WRONG_SIZE, 0);
    plq_answer checked = check(image, nbytes, &im);
    if (checked.code != PLQ_DONE) return checked;
    size_t count = numbers / 3;
    for (size_t i = 0; i < count; i++)
        if (!allowed(&im, questions + 3 * i)) return refused(PLQ_NOT_ALLOWED, i + 1);
    if (room < count) return refused(PLQ_NO_ROOM, 0);
    for (size_t i = 0; i < count; i++) answers[i] = answer(&im, questions[3 * i], (uint32_t)questions[3 * i + 1], questions[3 * i + 2]);
    return done(count, 0);
}

/* ---- listings ---- */

/* Nodes of one depth below the listed node have numbers in a row, and come in this order: `next` has the next one of each
 * depth, and no more is needed to write the listing. */

#ifndef STORE_LIST_SKIPS_LEAVES

/* Writes x and its depth at the front of `pairs` and then, by a call of itself for each child, the child's listing after
 * what is written. Answers how many numbers that were. A bit of a node is read where it is in the image, as the library
 * reads it. */
static size_t write_from(const struct image *im, uint32_t *next, uint32_t x, uint32_t depth, uint32_t *pairs)
{
    size_t filled = 2;
    pairs[0] = x;
    pairs[1] = depth;
    if (has_one(&im->r0, x)) {
        uint32_t child = next[depth + 1]; /* no call below touches this one */
        do filled += write_from(im, next, child, depth + 1, pairs + filled);
        while (!has_one(&im->r1, child++));
        next[depth + 1] = child;
    }
    return filled;
}

static void write_listing(const struct image *im, uint32_t *next, uint32_t *pairs)
{
    write_from(im, next, next[0], 0, pairs);
}

#else

/* A string of an image without what lies between its blocks: a bit of it is then found without a division. */
static void gather(const struct bits *r, uint8_t string[STRING_BLOCKS * STRING_BYTES])
{
    for (uint32_t b = 0; b < r->nblocks; b++) memcpy(string + STRING_BYTES * b, string_of(r->blocks + BLOCK * b), STRING_BYTES);
}

/* From node to node, down and up again, without a call for any of them. Above x, `next` has x's parent and what is above it,
 * to come back to. */
static void write_listing(const struct image *im, uint32_t *next, uint32_t *pairs)
{
    uint8_t r1[STRING_BLOCKS * STRING_BYTES], r0[STRING_BLOCKS * STRING_BYTES];
    gather(&im->r1, r1);
    gather(&im->r0, r0);
    uint32_t depth = 0, x = next[0];
    for (;;) {
        *pairs++ = x;
        *pairs++ = depth;
        if (bit_at(r0, x - 1)) {
            next[depth++] = x;
            x = next[depth];
            continue;
        }
        while (depth > 0 && bit_at(r1, x - 1)) {
            next[depth--] = x + 1;
            x = next[depth];
        }
        if (depth == 0) return;
        x++;
    }
}

#endif

static plq_answer plain_list(const uint8_t *image, size_t nbytes, uint32_t node, uint32_t *pairs, size_t room)
{
    struct image im;
    plq_answer checked = check(image, nbytes, &im);
    if (checked.code != PLQ_DONE) return checked;
    if (node < 1 || node > im.n) return refused(PLQ_NOT_ALLOWED, 1);

    uint32_t next[LEVELS], low = node, high = node, depth = 0;
    size_t count = 0;
    while (low <= high) {
        if (depth == LEVELS) return refused(PLQ_TOO_DEEP, low);
        next[depth++] = low;
        count += high - low + 1;
        low = nodes_before_zero(&im, low) + 1;
        high = nodes_before_zero(&im, high + 1);
    }
    if (room < 2 * count) return refused(PLQ_NO_ROOM, 0);

    write_listing(&im, next, pairs);
    return done(count, 0);
}

/* ---- parent lists ---- */

/* The lowest entry, from 1, that makes this no parent list, or 0. */
static size_t wrong_entry(const uint32_t *parents, size_t n)
{
    uint32_t wrong = parents[0] != 0;
    if (n > 1) wrong |= parents[1] != 1;
    for (uint32_t i = 2; i < n; i++) wrong |= (parents[i] > i) | (parents[i] < parents[i - 1]);
    if (!wrong) return 0;
    if (parents[0] != 0) return 1;
    for (size_t i = 1;; i++)
        if (parents[i] < 1 || parents[i] > i || parents[i] < parents[i - 1]) return i + 1;
}

/* The tree string of a parent list, from bit `from` of bytes on; the bits before it stay, those left over are zero.
 * One number i of a string has parent(i) zeros and i - 1 ones before it. */
static void put_string(uint8_t *bytes, size_t from, const uint32_t *parents, size_t n)
{
    size_t begin = from % 8, word = 0, end = bytes_of(begin + 2 * n + 1);
    bytes += from / 8;
    uint64_t x = begin == 0 ? 0 : (uint64_t)bytes[0] << 56;
    for (size_t i = 0; i < n; i++) {
        size_t at = begin + i + parents[i];
        if (at / 64 != word) {
            store_bits(bytes + 8 * word, x);
            x = 0;
            while (++word < at / 64) store_bits(bytes + 8 * word, 0);
        }
        x |= FIRST_BIT >> at % 64;
    }
    size_t at = 8 * word;
    for (; at < end && x != 0; at++, x <<= 8) bytes[at] = (uint8_t)(x >> 56);
    memset(bytes + at, 0, end - at);
}

static plq_answer plain_string_of_parents(const uint32_t *parents, size_t n, uint8_t *bytes, size_t room)
{
    if (n < 1 || n > PLQ_MOST_NODES) return refused(PLQ_WRONG_SIZE, 0);
    size_t wrong = wrong_entry(parents, n);
    if (wrong != 0) return refused(PLQ_NOT_PARENTS, wrong);
    if (room < bytes_of(2 * n + 1)) return refused(PLQ_NO_ROOM, 0);
    put_string(bytes, 0, parents, n);
    return done(2 * n + 1, 1);
}

/* ---- strings and packs ---- */

/* What is read of one tree: `place` 0 and where it ends and how many nodes it has; or the place of the refusal. */
struct tree {
    size_t place, end, nodes;
};

/* The refusal of a tree from bit `first` that is not over at the last bit: the bit that is one too many for a tree, or the
 * place after the last one. */
static size_t unfinished(const uint8_t *bytes, size_t first, size_t bits)
{
    size_t nodes = 0;
    for (size_t at = first; at < bits; at++) {
        nodes += bit_at(bytes, at);
        if (nodes > PLQ_MOST_NODES) return at + 1;
    }
    return bits + 1;
}

/* For every byte, ones less zeros, and the least of that over its first one to eight bits: put together from those of its
 * two halves, which stand here one above the other, each four more than it is. */
#define SUM(half) ((int)(UINT64_C(0x8664644264424220) >> 4 * (half) & 0xF) - 4)
#define LEAST(half) ((int)(UINT64_C(0x5554443233322210) >> 4 * (half) & 0xF) - 4)
#define STEP(upper, lower) \
    {SUM(upper) + SUM(lower), LEAST(upper) < SUM(upper) + LEAST(lower) ? LEAST(upper) : SUM(upper) + LEAST(lower)}
#define STEPS(upper) \
    STEP(upper, 0), STEP(upper, 1), STEP(upper, 2), STEP(upper, 3), STEP(upper, 4), STEP(upper, 5), STEP(upper, 6), STEP(upper, 7), STEP(upper, 8), \
        STEP(upper, 9), STEP(upper, 10), STEP(upper, 11), STEP(upper, 12), STEP(upper, 13), STEP(upper, 14), STEP(upper, 15)
static const struct {
    int8_t sum, least;
} steps[256] = {STEPS(0), STEPS(1), STEPS(2),  STEPS(3),  STEPS(4),  STEPS(5),  STEPS(6),  STEPS(7),
                STEPS(8), STEPS(9), STEPS(10), STEPS(11), STEPS(12), STEPS(13), STEPS(14), STEPS(15)};

/* Reads one tree from bit `first` (from 0): a tree is over at the first bit where no node is pending. A tree that ends has
 * at most as many nodes as fit into PLQ_MOST_BITS, so the limit on nodes is looked at only where it does not end. */
static struct tree read_tree(const uint8_t *bytes, size_t first, size_t bits)
{
    if (first < bits && !bit_at(bytes, first)) return (struct tree){first + 1, 0, 0};
    if (first + 1 < bits && bit_at(bytes, first + 1)) return (struct tree){first + 2, 0, 0};
    size_t at = first + 2;
    int32_t pending = 1;
    for (; at < bits && at % 8 != 0 && pending > 0; at++) pending += bit_at(bytes, at) ? 1 : -1;
    while (pending > 0 && at + 8 <= bits) {
        if (pending > 64 && at + 64 <= bits) {
            pending += 2 * (int32_t)ones(load64(bytes + at / 8)) - 64;
            at += 64;
        } else if (pending + steps[bytes[at / 8]].least > 0) {
            pending += steps[bytes[at / 8]].sum;
            at += 8;
        } else {
            break;
        }
    }
    for (; at < bits && pending > 0; at++) pending += bit_at(bytes, at) ? 1 : -1;
    if (at > bits || pending > 0) return (struct tree){unfinished(bytes, first, bits), 0, 0};
    return (struct tree){0, at, (at - first) / 2};
}

static plq_answer plain_parents_of_string(const uint8_t *bytes, size_t nbytes, size_t bits, uint32_t *parents, size_t room)
{
    if (bits > PLQ_MOST_BITS || nbytes != bytes_of(bits)) return refused(PLQ_WRONG_SIZE, 0);
    if (leftover_set(bytes, bits)) return refused(PLQ_LEFTOVER_SET, 0);
    struct tree tree = read_tree(bytes, 0, bits);
    if (tree.place != 0) return refused(PLQ_NOT_STRING, tree.place);
    if (tree.end < bits) return refused(PLQ_NOT_STRING, tree.end + 1);
    if (room < tree.nodes) return refused(PLQ_NO_ROOM, 0);
    /* every bit writes and only a one moves on, so that no branch hangs on the bits; near the end that would write too far */
    size_t i = 0, at = 0;
    for (; i + 64 <= tree.nodes && at + 64 <= bits; at += 64) {
        uint64_t x = load_bits(bytes + at / 8);
        for (uint32_t k = 0; k < 64; k++, x <<= 1) {
            parents[i] = (uint32_t)(at + k - i);
            i += x >> 63;
        }
    }
    for (; i < tree.nodes; at++)
        if (bit_at(bytes, at)) {
            parents[i] = (uint32_t)(at - i);
            i++;
        }
    return done(tree.nodes, 0);
}

struct pack {
    size_t place; /* 0, or that of the refusal */
    size_t trees;
    uint32_t starts[PLQ_MOST_TREES], sizes[PLQ_MOST_TREES]; /* of the first trees */
};

static void read_pack(const uint8_t *bytes, size_t bits, struct pack *pack)
{
    size_t first = 0;
    pack->trees = 0;
    while (first < bits) {
        struct tree tree = read_tree(bytes, first, bits);
        if (tree.place != 0) {
            pack->place = tree.place;
            return;
        }
        if (pack->trees < PLQ_MOST_TREES) {
            pack->starts[pack->trees] = (uint32_t)first + 1;
            pack->sizes[pack->trees] = (uint32_t)tree.nodes;
        }
        pack->trees++;
        first = tree.end;
    }
    pack->place = 0;
}

static plq_answer plain_split(const uint8_t *bytes, size_t nbytes, size_t bits, size_t trees, uint32_t *starts, size_t starts_room, uint32_t *sizes,
                        size_t sizes_room)
{
    struct pack pack;
    if (bits > PLQ_MOST_BITS || nbytes != bytes_of(bits) || trees > PLQ_MOST_TREES) return refused(PLQ_WRONG_SIZE, 0);
    if (leftover_set(bytes, bits)) return refused(PLQ_LEFTOVER_SET, 0);
    read_pack(bytes, bits, &pack);
    if (pack.place != 0) return refused(PLQ_NOT_STRING, pack.place);
    if (pack.trees != trees) return refused(PLQ_OTHER_TREES, pack.trees);
    if (starts_room < trees || sizes_room < trees) return refused(PLQ_NO_ROOM, 0);
    memcpy(starts, pack.starts, trees * sizeof *starts);
    memcpy(sizes, pack.sizes, trees * sizeof *sizes);
    return done(bits, trees);
}

static plq_answer plain_join(uint8_t *bytes, size_t nbytes, size_t bits, size_t trees, const uint32_t *parents, size_t n)
{
    struct pack pack;
    if (n < 1 || n > PLQ_MOST_NODES || bits > PLQ_MOST_BITS || nbytes < bytes_of(bits) || trees >= PLQ_MOST_TREES
        || bits + 2 * n + 1 > PLQ_MOST_BITS)
        return refused(PLQ_WRONG_SIZE, 0);
    if (leftover_set(bytes, bits)) return refused(PLQ_LEFTOVER_SET, 0);
    read_pack(bytes, bits, &pack);
    if (pack.place != 0) return refused(PLQ_NOT_STRING, pack.place);
    if (pack.trees != trees) return refused(PLQ_OTHER_TREES, pack.trees);
    size_t wrong = wrong_entry(parents, n);
    if (wrong != 0) return refused(PLQ_NOT_PARENTS, wrong);
    if (nbytes < bytes_of(bits + 2 * n + 1)) return refused(PLQ_NO_ROOM, 0);
    put_string(bytes, bits, parents, n);
    return done(bits + 2 * n + 1, trees + 1);
}

/* ---- sealing and reading back ---- */

/* Metres from a list to a block or back. */
static void copy_words(uint8_t *to, const uint8_t *from, uint32_t count)
{
#ifndef STORE_METRES_BY_MEMCPY
    for (uint32_t k = 0; k < count; k++) store32(to + 4 * k, load32(from + 4 * k));
#else
    memcpy(to, from, 4 * count);
#endif
}

/* A string on its way into an image: words that follow each other without the counts and sums between. */
struct words {
    uint64_t at[STRING_BLOCKS * STRING_BYTES / 8 + 1]; /* first bit on top; the words after the last are zero */
};

/* Node i ends its siblings exactly if the next one has another parent. */
static uint32_t make_r1(struct words *r1, const uint32_t *parents, uint32_t n)
{
    uint32_t i = 0, count = 1;
    for (; i + 64 < n; i += 64) {
        uint64_t x = 0;
        for (uint32_t k = i; k < i + 64; k++) x = x << 1 | (parents[k] != parents[k + 1]);
        r1->at[i / 64] = x;
        count += ones(x);
    }
    uint32_t last = i / 64;
    uint64_t x = 0;
    for (; i + 1 < n; i++) x |= (uint64_t)(parents[i] != parents[i + 1]) << (63 - i % 64);
    count += ones(x);
    r1->at[last] = x | FIRST_BIT >> (n - 1) % 64;
    memset(r1->at + last + 1, 0, sizeof r1->at - (last + 1) * sizeof *r1->at);
    return count;
}

/* A node that is somebody's parent has children; the place after the last node ends the string. */
static void make_r0(struct words *r0, const uint32_t *parents, uint32_t n)
{
    uint64_t x = 0;
    uint32_t word = 0;
    memset(r0, 0, sizeof *r0);
    for (uint32_t i = 1; i < n; i++) {
        uint32_t at = parents[i] - 1;
        if (at / 64 != word) {
            r0->at[word] = x;
            x = 0;
            word = at / 64;
        }
        x |= FIRST_BIT >> at % 64;
    }
    r0->at[word] = x;
    r0->at[n / 64] |= FIRST_BIT >> n % 64;
}

/* Samples of a string into their blocks, which are zero. */
static void put_samples(uint8_t *blocks, const struct words *r, uint32_t bits)
{
    uint32_t count = 0, k = 0;
    for (uint32_t w = 0; w <= (bits - 1) / 64; w++) {
        uint32_t here = ones(r->at[w]);
        if (count + here > SAMPLE_STEP * k) {
            uint32_t at = 64 * w + place_of_one(__builtin_bswap64(r->at[w]), SAMPLE_STEP * k + 1 - count) + 1;
            store32(blocks + BLOCK * (k / WORDS) + 4 * (k % WORDS), at);
            k++;
        }
        count += here;
    }
}

/* A string into its blocks, with the counts before each. */
static void put_blocks(uint8_t *blocks, uint32_t nblocks, struct words *r)
{
    uint32_t count = 0;
    for (uint32_t w = 0; w <= nblocks * STRING_BYTES / 8; w++) r->at[w] = __builtin_bswap64(r->at[w]);
    for (uint32_t b = 0; b < nblocks; b++) {
        uint8_t *block = blocks + BLOCK * b, *string = block + 4;
        store32(block, count);
        memcpy(string, (const uint8_t *)r->at + STRING_BYTES * b, STRING_BYTES);
        for (uint32_t w = 0; w < STRING_WORDS; w++) count += ones(raw_word(string, w));
    }
}

/* Metres into their blocks, with zeros after the last. */
static void put_metres(uint8_t *blocks, uint32_t nblocks, const uint32_t *metres, uint32_t n)
{
    memset(blocks + BLOCK * (nblocks - 1), 0, PAYLOAD);
    for (uint32_t i = 0; i < n; i += WORDS, blocks += BLOCK) copy_words(blocks, (const uint8_t *)(metres + i), lower(WORDS, n - i));
}

/* The image of a tree, with metres or, where that is null, without. */
static plq_answer seal(const uint32_t *parents, size_t count, const uint32_t *metres, uint8_t *image, size_t room)
{
    struct words r1, r0;
    if (count < 1 || count > PLQ_MOST_NODES) return refused(PLQ_WRONG_SIZE, 0);
    size_t wrong = wrong_entry(parents, count);
    if (wrong != 0) return refused(PLQ_NOT_PARENTS, wrong);
    uint32_t version = metres == NULL ? TREE_ALONE : WITH_METRES, n = (uint32_t)count, m = make_r1(&r1, parents, n);
    struct layout lay = layout_of(version, n, m);
    if (room < (size_t)BLOCK * lay.all) return refused(PLQ_NO_ROOM, 0);
    make_r0(&r0, parents, n);

    uint8_t *blocks1 = image + BLOCK, *blocks0 = blocks1 + BLOCK * lay.r1;
    uint8_t *samples1 = blocks0 + BLOCK * lay.r0, *samples0 = samples1 + BLOCK * lay.sample_blocks;
    memset(image, 0, BLOCK);
    store32(image, version);
    store32(image + 4, n);
    store32(image + 8, m);
    store32(image + 12, lay.all);
    memset(samples1, 0, 2 * BLOCK * lay.sample_blocks);
    put_samples(samples1, &r1, n);
    put_samples(samples0, &r0, n + 1);
    put_blocks(blocks1, lay.r1, &r1);
    put_blocks(blocks0, lay.r0, &r0);
    if (metres != NULL) put_metres(samples0 + BLOCK * lay.sample_blocks, lay.metre_blocks, metres, n);
    for (uint32_t b = 0; b < lay.all; b++) seal_block(image + BLOCK * b, b);
    return done(n, m);
}

static plq_answer plain_image_of_parents(const uint32_t *parents, size_t n, uint8_t *image, size_t room)
{
    return seal(parents, n, NULL, image, room);
}

static plq_answer plain_image_with_metres(const uint32_t *parents, size_t n, const uint32_t *metres, size_t metres_count, uint8_t *image, size_t room)
{
    if (metres_count != n) return refused(PLQ_WRONG_SIZE, 0);
    return seal(parents, n, metres, image, room);
}

static plq_answer plain_parents_of_image(const uint8_t *image, size_t nbytes, uint32_t *parents, size_t room)
{
    struct image im;
    plq_answer checked = check(image, nbytes, &im);
    if (checked.code != PLQ_DONE) return checked;
    if (room < im.n) return refused(PLQ_NO_ROOM, 0);

    /* the nodes with children, after a 0 for the root's parent, go to the end of the list; then each entry is written from
     * the front. An entry still to be read is never written over: from any node on, at most as many parents as nodes follow. */
    uint32_t *inner = parents + (im.n - im.m);
    *inner++ = 0;
    for (uint32_t b = 0; b < im.r0.nblocks; b++)
        for (uint32_t w = 0; w < STRING_WORDS; w++) {
            uint32_t first = STRING_BITS * b + 64 * w + 1;
            for (uint64_t x = word_bits(string_of(im.r0.blocks + BLOCK * b), w); x != 0; x &= ~(FIRST_BIT >> leading_zeros(x))) {
                uint32_t at = first + leading_zeros(x);
                if (at <= im.n) *inner++ = at;
            }
        }
    const uint32_t *parent = parents + (im.n - im.m);
    uint32_t i = 0;
    for (uint32_t b = 0; b < im.r1.nblocks; b++)
        for (uint32_t w = 0; w < STRING_WORDS && i < im.n; w++) {
            uint64_t x = word_bits(string_of(im.r1.blocks + BLOCK * b), w);
            uint32_t end = i + (w < STRING_WORDS - 1 ? 64 : 32);
            if (end > im.n) end = im.n;
            for (; i < end; i++, x <<= 1) {
                parents[i] = *parent;
                parent += x >> 63;
            }
        }
    return done(im.n, 0);
}

static plq_answer plain_metres_of_image(const uint8_t *image, size_t nbytes, uint32_t *metres, size_t room)
{
    struct image im;
    plq_answer checked = check(image, nbytes, &im);
    if (checked.code != PLQ_DONE) return checked;
    if (im.metres == NULL) return refused(PLQ_NOT_ALLOWED, 1);
    if (room < im.n) return refused(PLQ_NO_ROOM, 0);
    const uint8_t *block = im.metres;
    for (uint32_t i = 0; i < im.n; i += WORDS, block += BLOCK) copy_words((uint8_t *)(metres + i), block, lower(WORDS, im.n - i));
    return done(im.n, 0);
}

/* ---- text ---- */

static bool is_blank(uint8_t byte)
{
    return byte == ' ' || byte == '\n' || byte == '\r';
}

/* The nodes of a level have numbers in a row, and a text has them in this order. So two passes are
 * enough: the first sees whether the text is one tree and counts the nodes of each level, the
 * second writes the parent of each node where its level has come to. The root's level is 1, and
 * the parent that it has, 0, is what the cursor of level 0 says. */
static plq_answer plain_parents_of_text(const uint8_t *text, size_t nbytes, uint32_t *parents, size_t room)
{
    uint32_t cursor[LEVELS + 2] = {0}, open = 0, nodes = 0;
    if (nbytes > PLQ_MOST_TEXT) return refused(PLQ_WRONG_SIZE, 0);
    for (size_t at = 0; at < nbytes; at++) {
        if (text[at] == '(') {
            if (open == 0 && nodes > 0) return refused(PLQ_NOT_TEXT, at + 1);
            if (open == LEVELS) return refused(PLQ_TOO_NESTED, at + 1);
            cursor[open + 2]++;
            open++;
            nodes++;
        } else if (text[at] == ')') {
            if (open == 0) return refused(PLQ_NOT_TEXT, at + 1);
            open--;
        } else if (!is_blank(text[at])) {
            return refused(PLQ_NOT_TEXT, at + 1);
        }
    }
    if (open > 0 || nodes == 0) return refused(PLQ_NOT_TEXT, nbytes + 1);
    if (nodes > PLQ_MOST_NODES) return refused(PLQ_WRONG_SIZE, 0);
    if (room < nodes) return refused(PLQ_NO_ROOM, 0);

    for (uint32_t level = 1; level <= LEVELS; level++) cursor[level + 1] += cursor[level];
    for (size_t at = 0; at < nbytes; at++) {
        if (text[at] == '(') {
            parents[cursor[open + 1]++] = cursor[open];
            open++;
        } else if (text[at] == ')') {
            open--;
        }
    }
    return done(nodes, 0);
}

/* Writes '(' and goes down where the next node of the level below is a child of the innermost open
 * one, whose number is what the cursor of its level has come to; else it writes ')' and goes up. */
static plq_answer plain_text_of_parents(const uint32_t *parents, size_t n, uint8_t *text, size_t room)
{
    uint32_t cursor[LEVELS + 2] = {0}, level = 1;
    if (n < 1 || n > PLQ_MOST_NODES) return refused(PLQ_WRONG_SIZE, 0);
    size_t wrong = wrong_entry(parents, n);
    if (wrong != 0) return refused(PLQ_NOT_PARENTS, wrong);
    for (uint32_t i = 1; i < n; i++)
        if (parents[i] > cursor[level]) { /* the first child of a node of this level */
            if (level == LEVELS) return refused(PLQ_TOO_DEEP, i + 1);
            cursor[++level] = i;
        }
    if (room < 2 * n) return refused(PLQ_NO_ROOM, 0);

    cursor[level + 1] = (uint32_t)n;
    uint32_t open = 1;
    *text++ = '(';
    cursor[1]++;
    while (open > 0) {
        uint32_t child = cursor[open + 1];
        if (child < n && parents[child] == cursor[open]) {
            *text++ = '(';
            open++;
            cursor[open] = child + 1;
        } else {
            *text++ = ')';
            open--;
        }
    }
    return done(2 * n, 0);
}

const struct store STORE = {NAME, CALLS_OF(plain_)};
