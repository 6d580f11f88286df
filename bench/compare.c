#include "compare.h"

#include <stdio.h>
#include <stdlib.h>
#include <string.h>

enum {
    PACK_BYTES = (PLQ_MOST_BITS + 7) / 8,
    MOST_NUMBERS = 2 * PLQ_MOST_NODES,
    STRING_BITS = 4000, /* of R1 or R0 in one block of an image */
    WORDS = 126, /* of payload in one block; as many samples, as many metres */
    SAMPLE_STEP = 64,
    AFTER = 16, /* entries after each room, which must stay as they are */
    PATTERN = 0xA5
};

static void *allocate(size_t bytes)
{
    void *at = malloc(bytes);
    if (at == NULL) abort();
    return at;
}

static struct lent new_lent(void)
{
    struct lent lent = {allocate(PLQ_MOST_IMAGE_BYTES + AFTER), allocate((MOST_NUMBERS + AFTER) * sizeof(uint32_t)),
                        allocate((PLQ_MOST_TREES + 1 + AFTER) * sizeof(uint32_t))};
    return lent;
}

static void free_lent(struct lent *lent)
{
    free(lent->bytes);
    free(lent->numbers);
    free(lent->second);
}

void begin_comparison(struct comparison *c, const struct store *const *stores, size_t count, uint64_t seed)
{
    *c = (struct comparison){.stores = stores, .count = count, .chance = {seed}, .expected = new_lent(), .lent = new_lent()};
}

void end_comparison(struct comparison *c)
{
    free_lent(&c->expected);
    free_lent(&c->lent);
}

static int writes_bytes(const struct request *r)
{
    return r->call == STRING_OF_PARENTS || r->call == IMAGE_OF_PARENTS || r->call == IMAGE_WITH_METRES || r->call == JOIN
        || r->call == TEXT_OF_PARENTS;
}

/* How many bytes of each lent list are looked at, those after the room included. */
static size_t bytes_lent(const struct request *r)
{
    return writes_bytes(r) ? (r->call == JOIN ? r->nbytes : r->room) + AFTER : 0;
}

static size_t numbers_lent(const struct request *r)
{
    return writes_bytes(r) || is_check(r->call) ? 0 : (r->room + AFTER) * sizeof(uint32_t);
}

static size_t second_lent(const struct request *r)
{
    return r->call == SPLIT ? (r->second_room + AFTER) * sizeof(uint32_t) : 0;
}

static plq_answer call_afresh(const struct store *store, const struct request *r, const struct lent *lent)
{
    memset(lent->bytes, PATTERN, bytes_lent(r));
    memset(lent->numbers, PATTERN, numbers_lent(r));
    memset(lent->second, PATTERN, second_lent(r));
    if (r->call == JOIN) memcpy(lent->bytes, r->bytes, r->nbytes);
    return make_call(store, r, lent);
}

void compare_call(struct comparison *c, struct request r)
{
    plq_answer expected = call_afresh(c->stores[0], &r, &c->expected);
    for (size_t i = 1; i < c->count; i++) {
        plq_answer answer = call_afresh(c->stores[i], &r, &c->lent);
        if (memcmp(&answer, &expected, sizeof answer) != 0 || memcmp(c->lent.bytes, c->expected.bytes, bytes_lent(&r)) != 0
            || memcmp(c->lent.numbers, c->expected.numbers, numbers_lent(&r)) != 0
            || memcmp(c->lent.second, c->expected.second, second_lent(&r)) != 0) {
            fprintf(stderr, "%s: %s answers %u %u %u %u, %s answers %u %u %u %u, or what is lent differs\n", name_of_call(r.call), c->stores[0]->name,
                    expected.code, expected.place, expected.first, expected.second, c->stores[i]->name, answer.code, answer.place, answer.first,
                    answer.second);
            exit(1);
        }
        c->calls++;
        if (answer.code <= MOST_CODE) c->codes[answer.code]++;
    }
}

static void compare_rooms(struct comparison *c, struct request r)
{
    compare_call(c, r);
    if (r.room > 0) {
        r.room--;
        compare_call(c, r);
        r.room++;
    }
    if (r.second_room > 0) {
        r.second_room--;
        compare_call(c, r);
    }
}

static void flip_bit(struct comparison *c, uint8_t *bytes, size_t bits)
{
    size_t at = below(&c->chance, (uint32_t)bits);
    bytes[at / 8] ^= (uint8_t)(0x80 >> at % 8);
}

/* Exchanges two bits that stand near each other, so that the number of ones stays. */
static void exchange_bits(struct comparison *c, uint8_t *bytes, size_t bits)
{
    size_t at = below(&c->chance, (uint32_t)bits), other = at + 1 + below(&c->chance, 8);
    if (other >= bits) return;
    uint32_t differ = (bytes[at / 8] >> (7 - at % 8) ^ bytes[other / 8] >> (7 - other % 8)) & 1;
    bytes[at / 8] ^= (uint8_t)(differ << (7 - at % 8));
    bytes[other / 8] ^= (uint8_t)(differ << (7 - other % 8));
}

/* Makes the sums of a block right, whatever it holds. */
static void reseal(uint8_t *image, size_t block)
{
    uint32_t s = (uint32_t)block, t = 0, word;
    uint8_t *at = image + PLQ_BLOCK_BYTES * block, *end = at + PLQ_BLOCK_BYTES - 8;
    for (; at < end; at += 4) {
        memcpy(&word, at, 4);
        s += word;
        t += s;
    }
    memcpy(at, &s, 4);
    memcpy(at + 4, &t, 4);
}

/* R1 or R0 of an image, the samples of one, or the metres: the first block, how many there are, and of the last how many bits of
 * payload are in use, the count of earlier ones included. */
struct part {
    uint32_t first, blocks, used;
};

/* A part of `all` bits or words after the part before it, `each` to a block, each of them `bits` long, after the first `count` bits. */
static struct part part_of(const struct part *before, uint32_t all, uint32_t each, uint32_t bits, uint32_t count)
{
    return (struct part){before->first + before->blocks, (all + each - 1) / each, count + bits * ((all - 1) % each + 1)};
}

enum { R1, R0, SAMPLES1, SAMPLES0, METRES, PARTS };

static int has_metres(const uint8_t *image)
{
    return image[0] == 2;
}

/* Where there are no metres, they have no blocks. */
static void find_parts(const uint8_t *image, struct part parts[PARTS])
{
    const struct part header = {0, 1, 32 * WORDS};
    uint32_t n, m;
    memcpy(&n, image + 4, 4);
    memcpy(&m, image + 8, 4);
    uint32_t samples = (m + SAMPLE_STEP - 1) / SAMPLE_STEP;
    parts[R1] = part_of(&header, n, STRING_BITS, 1, 32);
    parts[R0] = part_of(&parts[R1], n + 1, STRING_BITS, 1, 32);
    parts[SAMPLES1] = part_of(&parts[R0], samples, WORDS, 32, 0);
    parts[SAMPLES0] = part_of(&parts[SAMPLES1], samples, WORDS, 32, 0);
    parts[METRES] = part_of(&parts[SAMPLES0], has_metres(image) ? n : 0, WORDS, 32, 0);
}

static void compare_on_image(struct comparison *c, const uint8_t *image, size_t nbytes, uint32_t n)
{
    uint32_t node = 1 + below(&c->chance, n);
    int32_t none[3] = {0}, of_metres[3] = {PLQ_METRES, (int32_t)node, 0};
    compare_call(c, (struct request){.call = CHECK_IMAGE, .bytes = image, .nbytes = nbytes});
    compare_call(c, (struct request){.call = PARENTS_OF_IMAGE, .bytes = image, .nbytes = nbytes, .room = n});
    compare_call(c, (struct request){.call = METRES_OF_IMAGE, .bytes = image, .nbytes = nbytes, .room = n});
    compare_call(c, (struct request){.call = ASK, .bytes = image, .nbytes = nbytes, .questions = none, .numbers = 3, .room = 1});
    compare_call(c, (struct request){.call = ASK_METRES, .bytes = image, .nbytes = nbytes, .questions = of_metres, .numbers = 3, .room = 1});
    compare_call(c, (struct request){.call = LIST, .bytes = image, .nbytes = nbytes, .node = node, .room = 2 * (size_t)n});
}

static void compare_damaged_images(struct comparison *c, const uint8_t *image, size_t nbytes, uint32_t n, uint32_t damages)
{
    uint8_t *copy = allocate(PLQ_MOST_IMAGE_BYTES + PLQ_BLOCK_BYTES);
    uint32_t blocks = (uint32_t)(nbytes / PLQ_BLOCK_BYTES);
    struct part parts[PARTS];
    find_parts(image, parts);
    memset(copy, 0, PLQ_MOST_IMAGE_BYTES + PLQ_BLOCK_BYTES);
    memcpy(copy, image, nbytes);
    const size_t sizes[] = {0, 1, PLQ_BLOCK_BYTES, nbytes - PLQ_BLOCK_BYTES, nbytes - 1, nbytes + 1, nbytes + PLQ_BLOCK_BYTES};
    for (size_t i = 0; i < sizeof sizes / sizeof *sizes; i++) compare_on_image(c, copy, sizes[i], n);
    /* blocks of zeros after it, but with right sums; the second length may cut an image with metres */
    for (size_t b = blocks; b <= PLQ_MOST_IMAGE_BYTES / PLQ_BLOCK_BYTES; b++) reseal(copy, b);
    const size_t lengths[] = {nbytes + PLQ_BLOCK_BYTES, PLQ_MOST_TREE_IMAGE_BYTES + PLQ_BLOCK_BYTES, PLQ_MOST_IMAGE_BYTES,
                              PLQ_MOST_IMAGE_BYTES + PLQ_BLOCK_BYTES};
    for (size_t i = 0; i < sizeof lengths / sizeof *lengths; i++) compare_on_image(c, copy, lengths[i], n);
    for (uint32_t i = 0; i < damages; i++) {
        uint32_t block = below(&c->chance, i / 4 % 2 == 0 ? parts[METRES].first : blocks); /* most blocks may be those of metres */
        uint8_t *damaged = copy + PLQ_BLOCK_BYTES * (size_t)block;
        memcpy(copy, image, nbytes);
        switch (i % 4) {
        case 0: flip_bit(c, damaged, 8 * PLQ_BLOCK_BYTES); break; /* as a reader would meet it */
        case 1: /* a number of the header, a count, a sample or a node's metres, off by a little */
            if (block == 0) damaged += 4 * below(&c->chance, 4);
            *damaged = (uint8_t)(*damaged + 1 + below(&c->chance, 3));
            break;
        case 2: /* a one of the first block of R1 or R0 moves by a little, perhaps to where no tree has it */
            block = 1 + below(&c->chance, 2) * ((n + STRING_BITS - 1) / STRING_BITS);
            exchange_bits(c, copy + PLQ_BLOCK_BYTES * (size_t)block + 4, n < STRING_BITS ? n + 8 : STRING_BITS);
            break;
        default: flip_bit(c, damaged, 8 * (PLQ_BLOCK_BYTES - 8)); break;
        }
        if (i % 4 != 0) reseal(copy, block);
        compare_on_image(c, copy, nbytes, n);
    }
    free(copy);
}

/* ---- images that are refused with a code and a place that are known beforehand ---- */

struct fault {
    uint32_t code, place;
};

/* In the order of their codes. There is none in metres: every number is one. */
enum { VERSION, HEADER, STRING, COUNT, UNUSED, SAMPLE, OTHER_SAMPLE, FAULTS };

static void write_word(uint8_t *image, uint32_t block, uint32_t word, uint32_t value)
{
    memcpy(image + PLQ_BLOCK_BYTES * (size_t)block + 4 * word, &value, 4);
}

/* A word that was right and now is not, however often this is done to it. */
static void raise_word(struct chance *chance, uint8_t *image, uint32_t block, uint32_t word)
{
    uint32_t value;
    memcpy(&value, image + PLQ_BLOCK_BYTES * (size_t)block + 4 * word, 4);
    write_word(image, block, word, value + 1 + below(chance, 3));
}

uint32_t break_sample(struct chance *chance, uint8_t *image)
{
    struct part parts[PARTS];
    find_parts(image, parts);
    uint32_t block = parts[SAMPLES0].first + parts[SAMPLES0].blocks - 1;
    raise_word(chance, image, block, below(chance, parts[SAMPLES0].used / 32));
    reseal(image, block);
    return block;
}

/* A version that there is not. */
static void break_version(struct chance *chance, uint8_t *image)
{
    static const uint32_t versions[] = {0, 3, 4, 5, 0x101, 0x102, 0x10001, UINT32_MAX};
    write_word(image, 0, 0, versions[below(chance, sizeof versions / sizeof *versions)]);
}

/* Numbers that no tree has with the rest of them, whatever the rest is, or a reserved word. Where the version is still one that
 * there is, it may become the other one. */
static void break_header(struct chance *chance, uint8_t *image, uint32_t n, uint32_t blocks)
{
    uint32_t version;
    memcpy(&version, image, 4);
    switch (below(chance, version == 1 || version == 2 ? 9 : 8)) {
    case 0: write_word(image, 0, 1, 0); break;
    case 1: write_word(image, 0, 1, PLQ_MOST_NODES + 1 + below(chance, 3)); break;
    case 2: write_word(image, 0, 2, 0); break;
    case 3: write_word(image, 0, 2, n + 1); break;
    case 4: write_word(image, 0, 2, n == 1 ? 2 : 1); break;
    case 5: write_word(image, 0, 3, blocks - 1); break;
    case 6: write_word(image, 0, 3, blocks + (below(chance, 2) == 0 ? 1 : 256)); break;
    case 7: write_word(image, 0, 4 + below(chance, WORDS - 4), 1 + below(chance, 2)); break;
    default: write_word(image, 0, 0, 3 - version); break;
    }
}

/* Makes one fault in an image, seals that block again, and answers how an image with this fault alone is refused. */
static struct fault make_fault(struct comparison *c, uint8_t *image, const struct part parts[PARTS], uint32_t n, uint32_t blocks, uint32_t kind)
{
    struct fault fault = {PLQ_WRONG_COUNTS, 0};
    uint32_t block = 0, at;
    const struct part *part = &parts[below(&c->chance, 2)];
    switch (kind) {
    case VERSION:
        break_version(&c->chance, image);
        fault.code = PLQ_OTHER_VERSION;
        break;
    case HEADER:
        break_header(&c->chance, image, n, blocks);
        fault.code = PLQ_WRONG_HEADER;
        break;
    case STRING: /* one bit: the string then has another number of ones */
        at = below(&c->chance, part == &parts[R1] ? n : n + 1);
        block = part->first + at / STRING_BITS;
        at %= STRING_BITS;
        image[PLQ_BLOCK_BYTES * (size_t)block + 4 + at / 8] ^= (uint8_t)(0x80 >> at % 8);
        fault = (struct fault){PLQ_WRONG_STRINGS, 1};
        break;
    case COUNT:
        fault.place = block = part->first + below(&c->chance, part->blocks);
        raise_word(&c->chance, image, block, 0);
        break;
    case UNUSED: /* not all parts fill their last block: where R1 does, R0 does not */
        part = &parts[below(&c->chance, PARTS)];
        if (part->blocks == 0 || part->used == 32 * WORDS) part = &parts[parts[R1].used == 32 * WORDS ? R0 : R1];
        fault.place = block = part->first + part->blocks - 1;
        at = part->used + below(&c->chance, below(&c->chance, 2) ? 1 : 32 * WORDS - part->used);
        image[PLQ_BLOCK_BYTES * (size_t)block + at / 8] |= (uint8_t)(0x80 >> at % 8);
        break;
    default:
        part += SAMPLES1;
        fault.place = block = part->first + below(&c->chance, part->blocks);
        raise_word(&c->chance, image, block, below(&c->chance, block + 1 == part->first + part->blocks ? part->used / 32 : WORDS));
        fault.code = PLQ_WRONG_SAMPLES;
        break;
    }
    reseal(image, block);
    return fault;
}

/* One fault, or several at once: then the first code that holds, and its lowest place. */
static void compare_faults(struct comparison *c, const uint8_t *image, size_t nbytes, uint32_t n, uint32_t damages)
{
    uint8_t *copy = allocate(nbytes);
    struct part parts[PARTS];
    find_parts(image, parts);
    for (uint32_t i = 0; i < damages; i++) {
        uint32_t kinds = i % 2 == 0 ? 1u << below(&c->chance, FAULTS) : 1 + below(&c->chance, (1u << FAULTS) - 1);
        struct fault first = {MOST_CODE + 1, 0};
        memcpy(copy, image, nbytes);
        for (uint32_t kind = 0; kind < FAULTS; kind++) {
            if (!(kinds >> kind & 1)) continue;
            struct fault fault = make_fault(c, copy, parts, n, (uint32_t)(nbytes / PLQ_BLOCK_BYTES), kind);
            if (fault.code < first.code || (fault.code == first.code && fault.place < first.place)) first = fault;
        }
        for (size_t s = 0; s < c->count; s++) {
            plq_answer answer = c->stores[s]->check_image(copy, nbytes);
            if (answer.code == first.code && answer.place == first.place && answer.first == 0 && answer.second == 0) continue;
            fprintf(stderr, "an image to be refused with code %u, place %u: %s answers %u %u %u %u\n", first.code, first.place, c->stores[s]->name,
                    answer.code, answer.place, answer.first, answer.second);
            exit(1);
        }
        compare_on_image(c, copy, nbytes, n);
    }
    free(copy);
}

static void compare_bits(struct comparison *c, const uint8_t *bytes, size_t nbytes, size_t bits, size_t trees, const uint32_t *parents, uint32_t n)
{
    compare_call(c, (struct request){.call = PARENTS_OF_STRING, .bytes = bytes, .nbytes = nbytes, .bits = bits, .room = PLQ_MOST_NODES});
    compare_call(c, (struct request){.call = SPLIT, .bytes = bytes, .nbytes = nbytes, .bits = bits, .trees = trees, .room = trees, .second_room = trees});
    compare_call(c, (struct request){.call = JOIN, .bytes = bytes, .nbytes = nbytes, .bits = bits, .trees = trees, .parents = parents, .n = n});
}

static void compare_strings(struct comparison *c, const uint8_t *string, size_t bits, size_t trees, const uint32_t *parents, uint32_t n, uint32_t damages)
{
    uint8_t *copy = allocate(PACK_BYTES + AFTER);
    size_t nbytes = (bits + 7) / 8;
    memset(copy, 0, PACK_BYTES + AFTER);
    memcpy(copy, string, nbytes);
    struct request join = {.call = JOIN, .bytes = copy, .bits = bits, .trees = trees, .parents = parents, .n = n};
    for (join.nbytes = nbytes - 1; join.nbytes < nbytes + 2 && join.nbytes < PACK_BYTES; join.nbytes++) compare_call(c, join);
    join.nbytes = (bits + 2 * (size_t)n + 8) / 8;
    if (join.nbytes <= PACK_BYTES) {
        compare_call(c, join);
        join.nbytes--;
        compare_call(c, join);
    }
    compare_rooms(c, (struct request){.call = SPLIT, .bytes = copy, .nbytes = nbytes, .bits = bits, .trees = trees, .room = trees, .second_room = trees});
    compare_bits(c, copy, nbytes, bits, trees + 1, parents, n);
    compare_bits(c, copy, nbytes, bits, PLQ_MOST_TREES + 1, parents, n);
    compare_bits(c, copy, nbytes + 1, bits, trees, parents, n);
    compare_bits(c, copy, nbytes, 8 * nbytes + 1, trees, parents, n);
    compare_bits(c, copy, 0, 0, 0, parents, n);
    for (uint32_t i = 0; i < damages; i++) {
        size_t used = i % 4 == 3 ? below(&c->chance, (uint32_t)bits + 1) : bits;
        memcpy(copy, string, nbytes);
        if (i % 4 < 2)
            flip_bit(c, copy, 8 * nbytes);
        else if (i % 4 == 2)
            exchange_bits(c, copy, bits);
        compare_bits(c, copy, (used + 7) / 8, used, trees, parents, n);
        if (used % 8 != 0) copy[used / 8] &= (uint8_t)(0xFF00 >> used % 8); /* cut, with nothing left over */
        compare_bits(c, copy, (used + 7) / 8, used, trees, parents, n);
    }
    free(copy);
}

static void compare_parents(struct comparison *c, const uint32_t *parents, uint32_t n, const uint8_t *pack, size_t bits, size_t trees, uint32_t damages)
{
    uint32_t *copy = allocate((PLQ_MOST_NODES + 1) * sizeof *copy), *metres = allocate((PLQ_MOST_NODES + 2) * sizeof *metres);
    size_t nbytes = (bits + 7) / 8;
    memset(copy, 0, (PLQ_MOST_NODES + 1) * sizeof *copy);
    memcpy(copy, parents, n * sizeof *copy);
    make_metres(PLQ_MOST_NODES + 2, n, metres);
    for (uint32_t i = 0; i < damages; i++) {
        size_t used = i == 0 ? 0 : i == 1 ? PLQ_MOST_NODES + 1 : n;
        uint32_t at = below(&c->chance, n), before = copy[at];
        if (i > 2) copy[at] = i % 4 == 0 ? below(&c->chance, n + 2) : before - 2 + below(&c->chance, 5);
        compare_call(c, (struct request){.call = STRING_OF_PARENTS, .parents = copy, .n = used, .room = PACK_BYTES});
        compare_call(c, (struct request){.call = IMAGE_OF_PARENTS, .parents = copy, .n = used, .room = PLQ_MOST_TREE_IMAGE_BYTES});
        struct request with_metres = {.call = IMAGE_WITH_METRES, .parents = copy, .n = used, .metres = metres, .metres_count = used,
                                      .room = PLQ_IMAGE_ROOM(n) + PLQ_METRES_BYTES(n)};
        compare_call(c, with_metres);
        with_metres.metres_count = used == 0 || below(&c->chance, 2) == 0 ? used + 1 : below(&c->chance, 2) == 0 ? used - 1 : 0;
        compare_call(c, with_metres);
        compare_call(c, (struct request){.call = JOIN, .bytes = pack, .nbytes = nbytes, .bits = bits, .trees = trees, .parents = copy, .n = used});
        compare_call(c, (struct request){.call = TEXT_OF_PARENTS, .parents = copy, .n = used, .room = PLQ_TEXT_BYTES(n)});
        copy[at] = before;
    }
    free(copy);
    free(metres);
}

static void compare_questions(struct comparison *c, const uint8_t *image, size_t nbytes, uint32_t n, uint32_t damages)
{
    static const int32_t extremes[] = {INT32_MIN, INT32_MIN + 1, -1, 0, 1, INT32_MAX};
    uint32_t most_kind = has_metres(image) ? PLQ_METRES : PLQ_SIBLING_AT;
    int32_t questions[3 * PLQ_MOST_QUESTIONS + 3];
    struct request ask = {.call = ASK, .bytes = image, .nbytes = nbytes, .questions = questions, .room = PLQ_MOST_QUESTIONS};
    for (uint32_t i = 0; i < damages; i++) {
        for (uint32_t k = 0; k <= PLQ_MOST_QUESTIONS; k++) {
            int32_t kind = 1 + (int32_t)below(&c->chance, most_kind), argument = 0;
            if (kind == PLQ_CHILD_NUMBER || kind == PLQ_SIBLING_AT)
                argument = below(&c->chance, 8) == 0 ? extremes[below(&c->chance, 6)] : (int32_t)below(&c->chance, 12) - 6;
            questions[3 * k] = kind;
            questions[3 * k + 1] = 1 + (int32_t)below(&c->chance, n);
            questions[3 * k + 2] = argument;
        }
        if (i % 4 == 1) questions[below(&c->chance, 3 * PLQ_MOST_QUESTIONS)] = extremes[below(&c->chance, 6)];
        if (i % 4 == 2) questions[3 * below(&c->chance, PLQ_MOST_QUESTIONS) + 1] = (int32_t)n + 1;
        if (i % 8 == 4) questions[3 * below(&c->chance, PLQ_MOST_QUESTIONS)] = PLQ_METRES + (int32_t)below(&c->chance, 2);
        ask.numbers = i % 4 == 3 ? below(&c->chance, 3 * PLQ_MOST_QUESTIONS + 4) : 3 * PLQ_MOST_QUESTIONS;
        ask.room = ask.numbers / 3;
        compare_rooms(c, ask);
    }
    struct request list = {.call = LIST, .bytes = image, .nbytes = nbytes, .room = 2 * (size_t)n};
    for (uint32_t i = 0; i < damages; i++) {
        list.node = i < 3 ? i : i == 3 ? n + 1 : 1 + below(&c->chance, n);
        compare_call(c, list);
    }
}

size_t text_by_lines(const uint8_t *text, size_t nbytes, uint8_t *lines, size_t room)
{
    size_t filled = 0, open = 0;
    for (size_t at = 0; at < nbytes; at++) {
        if (text[at] == '(') {
            size_t blanks = at == 0 ? 0 : 1 + 2 * open;
            if (room - filled < blanks) return 0;
            if (blanks > 0) lines[filled++] = '\n';
            if (blanks > 0) memset(lines + filled, ' ', blanks - 1);
            filled += blanks > 0 ? blanks - 1 : 0;
        }
        if (filled == room) return 0;
        lines[filled++] = text[at];
        open += text[at] == '(' ? 1 : -1;
    }
    return filled;
}

static void compare_reading(struct comparison *c, const uint8_t *text, size_t nbytes, uint32_t n)
{
    compare_call(c, (struct request){.call = PARENTS_OF_TEXT, .bytes = text, .nbytes = nbytes, .room = n});
}

/* The text with blanks by chance, as many as there is room for. */
static size_t add_blanks(struct comparison *c, const uint8_t *text, size_t nbytes, uint8_t *copy, size_t room)
{
    size_t filled = 0;
    for (size_t at = 0; at < nbytes; at++) {
        for (uint32_t more = below(&c->chance, 4); more > 0 && room - filled > nbytes - at; more--)
            copy[filled++] = (uint8_t)" \n\r"[below(&c->chance, 3)];
        copy[filled++] = text[at];
    }
    return filled;
}

/* A text with something changed: one byte, a bracket more or less, a byte exchanged with the next
 * one, some bytes cut off, or as many opened at one place as make it too deep. */
static size_t damage_text(struct comparison *c, uint8_t *text, size_t nbytes, uint32_t kind)
{
    static const uint8_t others[] = {'(', ')', ' ', '\n', '\r', '\t', 0, 'x', 39, 42, 0xA8, 0xFF};
    size_t at = below(&c->chance, (uint32_t)nbytes), levels = 1 + below(&c->chance, 70);
    uint8_t byte = text[at];
    switch (kind % 6) {
    case 0: text[at] = others[below(&c->chance, sizeof others)]; return nbytes;
    case 1: /* a bracket more */
        memmove(text + at + 1, text + at, nbytes - at);
        text[at] = (uint8_t)('(' + below(&c->chance, 2));
        return nbytes + 1;
    case 2: /* a byte less */
        memmove(text + at, text + at + 1, nbytes - at - 1);
        return nbytes - 1;
    case 3:
        if (at + 1 == nbytes) return nbytes - 1;
        text[at] = text[at + 1];
        text[at + 1] = byte;
        return nbytes;
    case 4: return at;
    default: /* a path of so many more levels, and perhaps something wrong after it */
        memmove(text + at + 2 * levels, text + at, nbytes - at);
        memset(text + at, '(', levels);
        memset(text + at + levels, ')', levels);
        if (below(&c->chance, 4) == 0) text[nbytes + 2 * levels - 1] = others[below(&c->chance, sizeof others)];
        return nbytes + 2 * levels;
    }
}

/* The tree as text, written and read back, with blanks and without, and on damaged texts; where the
 * tree is too deep for a text only that it is. */
static void compare_texts(struct comparison *c, const uint32_t *parents, uint32_t n, uint32_t damages)
{
    enum { SPARE = 256 }; /* what a damage adds at most */
    size_t room = PLQ_TEXT_BYTES(n), size = 0;
    uint8_t *text = allocate(room), *copy = allocate(PLQ_MOST_TEXT + SPARE);
    struct request write = {.call = TEXT_OF_PARENTS, .parents = parents, .n = n, .room = room};
    compare_rooms(c, write);
    if (make_call(c->stores[0], &write, &(struct lent){.bytes = text}).code == PLQ_DONE) {
        compare_rooms(c, (struct request){.call = PARENTS_OF_TEXT, .bytes = text, .nbytes = room, .room = n});
        size = text_by_lines(text, room, copy, PLQ_MOST_TEXT);
        compare_reading(c, copy, size, n);
        /* as long as a text may be, and a byte longer, with a tree in it and without */
        memset(copy, ' ', PLQ_MOST_TEXT + 1);
        compare_reading(c, copy, PLQ_MOST_TEXT, n);
        memcpy(copy + PLQ_MOST_TEXT - room, text, room);
        compare_reading(c, copy, PLQ_MOST_TEXT, n);
        compare_reading(c, copy, PLQ_MOST_TEXT + 1, n);
        compare_reading(c, copy, 0, n);
        for (uint32_t i = 0; i < damages; i++) {
            size = i % 2 == 0 ? add_blanks(c, text, room, copy, PLQ_MOST_TEXT) : room;
            if (i % 2 != 0) memcpy(copy, text, room);
            compare_reading(c, copy, size, n);
            size = damage_text(c, copy, size, i / 2);
            compare_reading(c, copy, size, n);
        }
    }
    /* a node too many, and something wrong after it */
    copy[0] = '(';
    for (uint32_t i = 0; i < PLQ_MOST_NODES; i++) memcpy(copy + 1 + 2 * i, "()", 2);
    size = 2 + 2 * (size_t)PLQ_MOST_NODES;
    copy[size - 1] = ')';
    compare_reading(c, copy, size, n);
    copy[size] = ')';
    compare_reading(c, copy, size + 1, n);
    free(text);
    free(copy);
}

/* Every call on the image that a request makes, without metres or with. */
static void compare_images(struct comparison *c, struct request make, uint32_t damages)
{
    uint8_t *image = allocate(make.room);
    uint32_t n = (uint32_t)make.n;
    compare_call(c, make);
    make_call(c->stores[0], &make, &(struct lent){.bytes = image});
    size_t nbytes = make.room = plq_image_bytes(image);
    compare_rooms(c, make);
    compare_rooms(c, (struct request){.call = PARENTS_OF_IMAGE, .bytes = image, .nbytes = nbytes, .room = n});
    compare_rooms(c, (struct request){.call = METRES_OF_IMAGE, .bytes = image, .nbytes = nbytes, .room = n});
    compare_rooms(c, (struct request){.call = LIST, .bytes = image, .nbytes = nbytes, .node = 1, .room = 2 * (size_t)n});
    compare_on_image(c, image, nbytes, n);
    compare_damaged_images(c, image, nbytes, n, damages);
    compare_faults(c, image, nbytes, n, damages);
    compare_questions(c, image, nbytes, n, damages);
    free(image);
}

void compare_tree(struct comparison *c, const uint32_t *parents, uint32_t n, uint32_t damages)
{
    const struct store *first = c->stores[0];
    uint32_t *metres = allocate(n * sizeof *metres);
    make_metres(n, n, metres);
    struct request make_image = {.call = IMAGE_OF_PARENTS, .parents = parents, .n = n, .room = PLQ_MOST_TREE_IMAGE_BYTES};
    compare_images(c, make_image, damages);
    make_image.call = IMAGE_WITH_METRES;
    make_image.metres = metres;
    make_image.metres_count = n;
    make_image.room = PLQ_MOST_IMAGE_BYTES;
    compare_images(c, make_image, damages);
    free(metres);

    uint8_t *string = allocate(PACK_BYTES);
    struct lent to_string = {string, NULL, NULL};
    struct request make_string = {.call = STRING_OF_PARENTS, .parents = parents, .n = n, .room = (2 * (size_t)n + 8) / 8};
    make_call(first, &make_string, &to_string);
    size_t bits = 2 * (size_t)n + 1;
    compare_rooms(c, make_string);
    compare_rooms(c, (struct request){.call = PARENTS_OF_STRING, .bytes = string, .nbytes = (bits + 7) / 8, .bits = bits, .room = n});
    compare_strings(c, string, bits, 1, parents, n, damages);
    compare_parents(c, parents, n, string, bits, 1, damages);

    /* a pack of a few trees: this one after itself, as long as it fits */
    uint8_t *pack = allocate(PACK_BYTES + AFTER);
    struct lent to_pack = {pack, NULL, NULL};
    struct request join = {.call = JOIN, .nbytes = PACK_BYTES, .parents = parents, .n = n};
    memset(pack, 0, PACK_BYTES + AFTER);
    for (plq_answer joined; join.trees < 5 && (joined = make_call(first, &join, &to_pack)).code == PLQ_DONE; join.trees = joined.second)
        join.bits = joined.first;
    if (join.trees > 1) compare_strings(c, pack, join.bits, join.trees, parents, n, damages);
    free(pack);
    free(string);

    compare_texts(c, parents, n, damages);
}
