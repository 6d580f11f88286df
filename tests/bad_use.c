/* The library in bad hands: no lists at all, false lengths and rooms, bytes at every alignment, damaged and random
 * bytes. Every call must end with a code that the header lists for it, and if refused leave every byte as it was.
 *
 *     bad_use [few]     with `few` each repeated group makes fewer attempts, for a run under a slow tool
 *
 * What is expected comes from include/parlaqen.h and docs/FORMAT.md: the trees below have their strings, images, packs,
 * answers, listings and texts made here by the steps of FORMAT.md, and those of tree T are compared with the page's own
 * bytes.
 * It prints a line for each thing that is not as expected. Exit status: 0 if there was none. */
#define _DEFAULT_SOURCE /* MAP_ANONYMOUS */
#include <limits.h>
#include <parlaqen.h>
#include <stdarg.h>
#include <stdio.h>
#include <stdlib.h>
#include <string.h>
#include <sys/mman.h>
#include <unistd.h>

#define COUNT_OF(array) (sizeof(array) / sizeof *(array))

static int wrong, few;
static const char *group;

__attribute__((format(printf, 2, 3))) static void expect(int as_expected, const char *format, ...)
{
    if (as_expected) return;
    va_list words;
    va_start(words, format);
    printf("%s: ", group);
    vprintf(format, words);
    printf(": not as expected\n");
    va_end(words);
    wrong = 1;
}

/* Numbers by chance: a fixed sequence (splitmix64), so that every run makes the same attempts. */
static uint64_t chance;

static uint64_t any_number(void)
{
    uint64_t x = chance += UINT64_C(0x9E3779B97F4A7C15);
    x = (x ^ x >> 30) * UINT64_C(0xBF58476D1CE4E5B9);
    x = (x ^ x >> 27) * UINT64_C(0x94D049BB133111EB);
    return x ^ x >> 31;
}

static size_t below(size_t limit)
{
    return any_number() % limit;
}

/* ---- The calls, all by one interface ---- */

enum call {
    STRING_OF_PARENTS,
    PARENTS_OF_STRING,
    IMAGE_OF_PARENTS,
    IMAGE_WITH_METRES,
    PARENTS_OF_IMAGE,
    METRES_OF_IMAGE,
    CHECK_IMAGE,
    ASK,
    ASK_QUESTIONS,
    SPLIT,
    JOIN,
    LIST,
    PARENTS_OF_TEXT,
    TEXT_OF_PARENTS,
    CALLS
};

enum { MOST_LISTS = 3, MOST_REFUSALS = 10, CODES = 18 }; /* codes are 0 to 17, and 7, which is retired, is none */
enum use { READ, WRITTEN, CHANGED }; /* the pack of a join is read, and then changed in its place */

/* What the header lists first for each call that reads an image. */
#define OF_IMAGE                                                                                                       \
    PLQ_WRONG_SIZE, PLQ_WRONG_SUMS, PLQ_OTHER_VERSION, PLQ_WRONG_HEADER, PLQ_WRONG_STRINGS, PLQ_WRONG_COUNTS,          \
        PLQ_WRONG_SAMPLES

/* What the header says of each call: its lists with the bytes of an element, and its refusals, ended by a 0. */
static const struct {
    const char *name;
    size_t lists;
    struct {
        size_t element;
        enum use use;
    } list[MOST_LISTS];
    uint32_t refusals[MOST_REFUSALS + 1];
} calls[CALLS] = {
    {"plq_string_of_parents", 2, {{4, READ}, {1, WRITTEN}}, {PLQ_WRONG_SIZE, PLQ_NOT_PARENTS, PLQ_NO_ROOM}},
    {"plq_parents_of_string", 2, {{1, READ}, {4, WRITTEN}},
     {PLQ_WRONG_SIZE, PLQ_LEFTOVER_SET, PLQ_NOT_STRING, PLQ_NO_ROOM}},
    {"plq_image_of_parents", 2, {{4, READ}, {1, WRITTEN}}, {PLQ_WRONG_SIZE, PLQ_NOT_PARENTS, PLQ_NO_ROOM}},
    {"plq_image_with_metres", 3, {{4, READ}, {4, READ}, {1, WRITTEN}}, {PLQ_WRONG_SIZE, PLQ_NOT_PARENTS, PLQ_NO_ROOM}},
    {"plq_parents_of_image", 2, {{1, READ}, {4, WRITTEN}}, {OF_IMAGE, PLQ_NO_ROOM}},
    {"plq_metres_of_image", 2, {{1, READ}, {4, WRITTEN}}, {OF_IMAGE, PLQ_NOT_ALLOWED, PLQ_NO_ROOM}},
    {"plq_check_image", 1, {{1, READ}}, {OF_IMAGE}},
    {"plq_ask", 3, {{1, READ}, {4, READ}, {4, WRITTEN}}, {OF_IMAGE, PLQ_NOT_ALLOWED, PLQ_NO_ROOM}},
    {"plq_ask_questions", 3, {{1, READ}, {sizeof(plq_question), READ}, {4, WRITTEN}},
     {OF_IMAGE, PLQ_NOT_ALLOWED, PLQ_NO_ROOM}},
    {"plq_split", 3, {{1, READ}, {4, WRITTEN}, {4, WRITTEN}},
     {PLQ_WRONG_SIZE, PLQ_LEFTOVER_SET, PLQ_NOT_STRING, PLQ_OTHER_TREES, PLQ_NO_ROOM}},
    {"plq_join", 2, {{1, CHANGED}, {4, READ}},
     {PLQ_WRONG_SIZE, PLQ_LEFTOVER_SET, PLQ_NOT_STRING, PLQ_OTHER_TREES, PLQ_NOT_PARENTS, PLQ_NO_ROOM}},
    {"plq_list", 2, {{1, READ}, {4, WRITTEN}}, {OF_IMAGE, PLQ_NOT_ALLOWED, PLQ_TOO_DEEP, PLQ_NO_ROOM}},
    {"plq_parents_of_text", 2, {{1, READ}, {4, WRITTEN}}, {PLQ_WRONG_SIZE, PLQ_NOT_TEXT, PLQ_TOO_NESTED, PLQ_NO_ROOM}},
    {"plq_text_of_parents", 2, {{4, READ}, {1, WRITTEN}}, {PLQ_WRONG_SIZE, PLQ_NOT_PARENTS, PLQ_TOO_DEEP, PLQ_NO_ROOM}},
};

static int reads_image(enum call call)
{
    return call == PARENTS_OF_IMAGE || call == METRES_OF_IMAGE || call == CHECK_IMAGE || call == ASK ||
           call == ASK_QUESTIONS || call == LIST;
}

static int takes_parents(enum call call)
{
    return call == STRING_OF_PARENTS || call == IMAGE_OF_PARENTS || call == IMAGE_WITH_METRES || call == JOIN ||
           call == TEXT_OF_PARENTS;
}

static int reads_bits(enum call call)
{
    return call == PARENTS_OF_STRING || call == SPLIT || call == JOIN;
}

/* Where the parents are in the lists of a call that takes some. */
static size_t list_of_parents(enum call call)
{
    return call == JOIN ? 1 : 0;
}

/* A call that is going to be made: the numbers that it is told, and its lists. */
typedef struct {
    enum call call;
    size_t bits, trees;
    uint32_t node;
    struct {
        uint8_t *at;
        size_t count;    /* of how many elements, as the call is told */
        size_t bytes;    /* what is really there */
        uint8_t *before; /* the same bytes, before the call */
    } list[MOST_LISTS];
} attempt;

/* ---- Where lists lie ---- */

/* On the heap a block is exactly as large as its list, so valgrind sees every access outside. The archive is compiled
 * without the address sanitizer, and valgrind may be missing: so lists also lie right before, and right after, a page
 * whose use ends the program. At an offset there are guard bytes on both sides, which are compared at the end. */
enum { ALIGNMENT = 64, GUARD = 64, GUARD_BYTE = 0xC3, UNWRITTEN = 0xEE };
static enum { ON_HEAP, BEFORE_A_FORBIDDEN_PAGE, AFTER_A_FORBIDDEN_PAGE, AT_AN_OFFSET } placement;
static size_t offset;

static void *must(void *memory)
{
    if (memory && memory != MAP_FAILED) return memory;
    perror("bad_use: memory");
    exit(2);
}

static size_t page_bytes(void)
{
    return (size_t)sysconf(_SC_PAGESIZE);
}

static size_t whole_pages(size_t bytes)
{
    return (bytes / page_bytes() + 1) * page_bytes();
}

/* Numbers are aligned as C wants them. */
static size_t offset_for(size_t element)
{
    return element == 1 ? offset : offset / 4 * 4;
}

static uint8_t *take(size_t bytes, size_t element)
{
    uint8_t *block;
    if (placement == ON_HEAP) return must(malloc(bytes));
    if (placement == AT_AN_OFFSET) {
        void *aligned = NULL;
        size_t all = GUARD + ALIGNMENT + bytes + GUARD;
        if (posix_memalign(&aligned, ALIGNMENT, all) != 0) must(NULL);
        block = memset(aligned, GUARD_BYTE, all);
        return block + GUARD + offset_for(element);
    }
    size_t inner = whole_pages(bytes), page = page_bytes();
    block = must(mmap(NULL, page + inner + page, PROT_READ | PROT_WRITE, MAP_PRIVATE | MAP_ANONYMOUS, -1, 0));
    if (mprotect(block, page, PROT_NONE) < 0 || mprotect(block + page + inner, page, PROT_NONE) < 0) must(NULL);
    return placement == AFTER_A_FORBIDDEN_PAGE ? block + page : block + page + inner - bytes;
}

static int is_guard(const uint8_t *at, size_t bytes)
{
    for (size_t i = 0; i < bytes; i++)
        if (at[i] != GUARD_BYTE) return 0;
    return 1;
}

static void give_back(uint8_t *at, size_t bytes, size_t element)
{
    if (!at) return;
    if (placement == ON_HEAP) {
        free(at);
    } else if (placement == AT_AN_OFFSET) {
        size_t ahead = GUARD + offset_for(element), beyond = GUARD + ALIGNMENT - offset_for(element);
        expect(is_guard(at - ahead, ahead), "offset %zu: the bytes before a list", offset);
        expect(is_guard(at + bytes, beyond), "offset %zu: the bytes after a list", offset);
        free(at - ahead);
    } else {
        size_t inner = whole_pages(bytes), page = page_bytes();
        uint8_t *begin = placement == AFTER_A_FORBIDDEN_PAGE ? at : at + bytes - inner;
        munmap(begin - page, page + inner + page);
    }
}

/* Gives a list of its own to the call: `bytes` bytes like those of `content`, or not yet written where that is NULL. */
static void lend(attempt *a, size_t list, const void *content, size_t bytes)
{
    size_t element = calls[a->call].list[list].element;
    give_back(a->list[list].at, a->list[list].bytes, element);
    a->list[list].at = take(bytes, element);
    a->list[list].bytes = bytes;
    a->list[list].count = bytes / element;
    if (content && bytes > 0)
        memcpy(a->list[list].at, content, bytes);
    else
        memset(a->list[list].at, UNWRITTEN, bytes);
}

static void lend_null(attempt *a, size_t list)
{
    give_back(a->list[list].at, a->list[list].bytes, calls[a->call].list[list].element);
    memset(&a->list[list], 0, sizeof a->list[list]);
}

static void end(attempt *a)
{
    for (size_t list = 0; list < calls[a->call].lists; list++) lend_null(a, list);
}

/* ---- Making a call ---- */

static plq_answer call_it(const attempt *a)
{
    void *first = a->list[0].at, *second = a->list[1].at, *third = a->list[2].at;
    size_t first_count = a->list[0].count, second_count = a->list[1].count, third_count = a->list[2].count;
    switch (a->call) {
    case STRING_OF_PARENTS: return plq_string_of_parents(first, first_count, second, second_count);
    case PARENTS_OF_STRING: return plq_parents_of_string(first, first_count, a->bits, second, second_count);
    case IMAGE_OF_PARENTS: return plq_image_of_parents(first, first_count, second, second_count);
    case IMAGE_WITH_METRES: return plq_image_with_metres(first, first_count, second, second_count, third, third_count);
    case PARENTS_OF_IMAGE: return plq_parents_of_image(first, first_count, second, second_count);
    case METRES_OF_IMAGE: return plq_metres_of_image(first, first_count, second, second_count);
    case CHECK_IMAGE: return plq_check_image(first, first_count);
    case ASK: return plq_ask(first, first_count, second, second_count, third, third_count);
    case ASK_QUESTIONS: return plq_ask_questions(first, first_count, second, second_count, third, third_count);
    case SPLIT: return plq_split(first, first_count, a->bits, a->trees, second, second_count, third, third_count);
    case JOIN: return plq_join(first, first_count, a->bits, a->trees, second, second_count);
    case PARENTS_OF_TEXT: return plq_parents_of_text(first, first_count, second, second_count);
    case TEXT_OF_PARENTS: return plq_text_of_parents(first, first_count, second, second_count);
    default: return plq_list(first, first_count, a->node, second, second_count);
    }
}

/* How many bytes of an output hold the result, by the header's table of counts. */
static size_t result_bytes(const attempt *a, plq_answer answer)
{
    switch (a->call) {
    case STRING_OF_PARENTS: return PLQ_BYTES_OF_BITS(answer.first);
    case IMAGE_OF_PARENTS: return PLQ_IMAGE_BYTES(answer.first, answer.second);
    case IMAGE_WITH_METRES: return PLQ_IMAGE_BYTES(answer.first, answer.second) + PLQ_METRES_BYTES(answer.first);
    case SPLIT: return 4 * (size_t)answer.second;
    case JOIN: return PLQ_BYTES_OF_BITS(answer.first);
    case LIST: return 4 * PLQ_LISTING_NUMBERS(answer.first);
    case TEXT_OF_PARENTS: return answer.first;
    default: return 4 * (size_t)answer.first;
    }
}

/* Is every byte that the call must leave alone as it was? After a refusal that is every byte. */
static int kept(const attempt *a, plq_answer answer)
{
    for (size_t list = 0; list < calls[a->call].lists; list++) {
        size_t from = 0, to = 0, bytes = a->list[list].bytes; /* the result lies between the first two */
        if (answer.code == PLQ_DONE && calls[a->call].list[list].use != READ) to = result_bytes(a, answer);
        if (calls[a->call].list[list].use == CHANGED && to > 0) from = a->bits / 8;
        if (to > bytes) return 0;
        if (bytes == 0) continue;
        if (memcmp(a->list[list].at, a->list[list].before, from) != 0) return 0;
        if (memcmp(a->list[list].at + to, a->list[list].before + to, bytes - to) != 0) return 0;
    }
    return 1;
}

/* Can this place go with this code? */
static int place_fits(const attempt *a, plq_answer answer)
{
    size_t place = answer.place, blocks = a->list[0].count / PLQ_BLOCK_BYTES;
    switch (answer.code) {
    case PLQ_WRONG_SUMS: return place < blocks;
    case PLQ_WRONG_STRINGS: return place == 1;
    case PLQ_WRONG_COUNTS: return place >= 1 && place < blocks;
    case PLQ_WRONG_SAMPLES: return place >= 3 && place < blocks; /* before them come the header, R1 and R0 */
    case PLQ_NOT_STRING: return place >= 1 && place <= a->bits + 1;
    case PLQ_OTHER_TREES: return place != a->trees;
    case PLQ_NOT_TEXT: return place >= 1 && place <= a->list[0].count + 1;
    case PLQ_TOO_NESTED: return place > 64 && place <= a->list[0].count;
    case PLQ_NOT_PARENTS: return place >= 1 && place <= a->list[list_of_parents(a->call)].count;
    case PLQ_NOT_ALLOWED:
        return place >= 1 && place <= (a->call == LIST || a->call == METRES_OF_IMAGE ? 1 : a->list[1].count);
    case PLQ_TOO_DEEP: return place > 64 && place <= PLQ_MOST_NODES;
    default: return place == 0;
    }
}

static int listed_in_header(enum call call, uint32_t code)
{
    if (code == PLQ_DONE) return 1;
    for (size_t i = 0; calls[call].refusals[i] != 0; i++)
        if (calls[call].refusals[i] == code) return 1;
    return 0;
}

/* Makes the call, and expects what holds for every call whatever it is handed. */
static plq_answer try(attempt *a, const char *what)
{
    for (size_t list = 0; list < calls[a->call].lists; list++) {
        a->list[list].before = must(malloc(a->list[list].bytes + 1));
        if (a->list[list].bytes > 0) memcpy(a->list[list].before, a->list[list].at, a->list[list].bytes);
    }
    plq_answer answer = call_it(a);
    const char *name = calls[a->call].name;
    expect(listed_in_header(a->call, answer.code), "%s, %s: code %u", name, what, (unsigned)answer.code);
    expect(place_fits(a, answer), "%s, %s: place %u", name, what, (unsigned)answer.place);
    if (answer.code != PLQ_DONE)
        expect(answer.first == 0 && answer.second == 0, "%s, %s: counts of a refusal", name, what);
    expect(kept(a, answer), "%s, %s: a byte changed that had to stay", name, what);
    for (size_t list = 0; list < calls[a->call].lists; list++) free(a->list[list].before);
    return answer;
}

/* Each code that a call was refused with, so that none is forgotten. */
static int was_refused[CALLS][CODES];

static void expect_refused(attempt *a, uint32_t code, uint32_t place, const char *what)
{
    plq_answer answer = try(a, what);
    expect(answer.code == code && answer.place == place, "%s, %s: %u at %u, not %u at %u", calls[a->call].name, what,
           (unsigned)answer.code, (unsigned)answer.place, (unsigned)code, (unsigned)place);
    if (answer.code < CODES) was_refused[a->call][answer.code] = 1;
}

/* ---- Trees, with all that FORMAT.md makes of them ---- */

typedef struct {
    void *at;
    size_t bytes;
} content;

/* A call that must be done: what it is lent, what it leaves in each list that it writes, and what it answers. */
typedef struct {
    size_t bits, trees;
    uint32_t node;
    content before[MOST_LISTS], after[MOST_LISTS];
    uint32_t first, second;
} right_use;

/* Sealing makes images of both versions of every tree, and metres are read back from that of version 2. Which one the
 * other calls read is that of the tree.
 * Where a tree has more than 64 levels, the calls about text take another one of as many nodes. */
struct tree {
    const char *name;
    uint32_t n, m;
    uint32_t *parents, *metres, *parents_of_text;
    int has_metres; /* to the calls that read an image: it is of version 2 */
    right_use use[CALLS];
};

enum { ASKED = 6 };
static struct tree t, bushy, path, t_with_metres, bushy_with_metres, path_with_metres;
static struct tree *const trees[] = {&t, &bushy, &path, &t_with_metres, &bushy_with_metres, &path_with_metres};

static int is_large(const struct tree *tree)
{
    return tree->n > 7;
}

/* The children of a node are those after the nodes whose parent comes before it. */
static uint32_t nodes_with_parent_before(const uint32_t *parents, uint32_t n, uint32_t node)
{
    uint32_t low = 0, high = n;
    while (low < high) {
        uint32_t middle = (low + high) / 2;
        if (parents[middle] < node)
            low = middle + 1;
        else
            high = middle;
    }
    return low;
}

static uint32_t degree(const uint32_t *parents, uint32_t n, uint32_t node)
{
    return nodes_with_parent_before(parents, n, node + 1) - nodes_with_parent_before(parents, n, node);
}

static void append_bit(uint8_t *bytes, size_t *bits, int bit)
{
    if (bit) bytes[*bits / 8] |= (uint8_t)(0x80 >> *bits % 8);
    ++*bits;
}

/* Appends the tree string to bytes that are zero from there on. */
static void append_string(uint8_t *bytes, size_t *bits, const uint32_t *parents, uint32_t n)
{
    append_bit(bytes, bits, 1);
    append_bit(bytes, bits, 0);
    for (uint32_t node = 1, next = 2; node <= n; node++) {
        for (; next <= n && parents[next - 1] == node; next++) append_bit(bytes, bits, 1);
        append_bit(bytes, bits, 0);
    }
}

static uint32_t word_at(const uint8_t *at)
{
    return at[0] | (uint32_t)at[1] << 8 | (uint32_t)at[2] << 16 | (uint32_t)at[3] << 24;
}

static void put_word(uint8_t *at, uint32_t word)
{
    for (int byte = 0; byte < 4; byte++) at[byte] = (uint8_t)(word >> 8 * byte);
}

static void put_sums(uint8_t *image, size_t blocks)
{
    for (size_t block = 0; block < blocks; block++) {
        uint8_t *at = image + PLQ_BLOCK_BYTES * block;
        uint32_t s = (uint32_t)block, sum_of_s = 0;
        for (size_t word = 0; word < 126; word++) {
            s += word_at(at + 4 * word);
            sum_of_s += s;
        }
        put_word(at + 504, s);
        put_word(at + 508, sum_of_s);
    }
}

/* Writes R1 or R0, which has `bits` bits, one to a byte, and its samples. */
static void put_string(uint8_t *blocks, const uint8_t *string, uint32_t bits, uint8_t *samples)
{
    uint32_t ones = 0;
    for (uint32_t i = 0; i < bits; i++) {
        uint8_t *block = blocks + PLQ_BLOCK_BYTES * (i / 4000);
        if (i % 4000 == 0) put_word(block, ones);
        if (!string[i]) continue;
        block[4 + i % 4000 / 8] |= (uint8_t)(0x80 >> i % 8);
        if (ones % 64 == 0) put_word(samples + PLQ_BLOCK_BYTES * (ones / 64 / 126) + 4 * (ones / 64 % 126), i + 1);
        ones++;
    }
}

/* The first block of each part of an image, and how many blocks there are: without metres the last two are the same. */
struct layout {
    size_t r1, r0, r1_samples, r0_samples, metres, blocks;
};

static struct layout layout_of(uint32_t n, uint32_t m, int has_metres)
{
    size_t r1 = 1, r0 = r1 + (n + 3999) / 4000, r1_samples = r0 + (n + 1 + 3999) / 4000;
    size_t r0_samples = r1_samples + ((m + 63) / 64 + 125) / 126, metres = 2 * r0_samples - r1_samples;
    return (struct layout){r1, r0, r1_samples, r0_samples, metres, metres + (has_metres ? (n + 125) / 126 : 0)};
}

/* The steps of FORMAT.md for a writer, over as many zeros as the image has bytes; `metres` is NULL for version 1. */
static void put_image(uint8_t *image, const uint32_t *parents, uint32_t n, uint32_t m, const uint32_t *metres)
{
    const struct layout first = layout_of(n, m, metres != NULL);
    uint8_t *r1 = must(calloc(n, 1)), *r0 = must(calloc(n + 1, 1));
    for (uint32_t i = 0; i < n; i++) r1[i] = i + 1 == n || parents[i + 1] != parents[i];
    for (uint32_t i = 1; i < n; i++) r0[parents[i] - 1] = 1;
    r0[n] = 1;
    put_word(image, metres ? 2 : 1);
    put_word(image + 4, n);
    put_word(image + 8, m);
    put_word(image + 12, (uint32_t)first.blocks);
    put_string(image + PLQ_BLOCK_BYTES * first.r1, r1, n, image + PLQ_BLOCK_BYTES * first.r1_samples);
    put_string(image + PLQ_BLOCK_BYTES * first.r0, r0, n + 1, image + PLQ_BLOCK_BYTES * first.r0_samples);
    for (uint32_t i = 0; metres && i < n; i++)
        put_word(image + PLQ_BLOCK_BYTES * (first.metres + i / 126) + 4 * (i % 126), metres[i]);
    put_sums(image, first.blocks);
    free(r1);
    free(r0);
}

/* Appends node and depth for `node` and everything below it. */
static void append_listing(uint32_t *pairs, uint32_t *listed, const uint32_t *parents, uint32_t n, uint32_t node,
                           uint32_t depth)
{
    pairs[2 * *listed] = node;
    pairs[2 * *listed + 1] = depth;
    ++*listed;
    uint32_t last = nodes_with_parent_before(parents, n, node + 1);
    for (uint32_t child = nodes_with_parent_before(parents, n, node) + 1; child <= last; child++)
        append_listing(pairs, listed, parents, n, child, depth + 1);
}

static uint32_t *copy_of(const uint32_t *numbers, size_t count)
{
    uint32_t *copy = must(malloc(4 * count));
    return memcpy(copy, numbers, 4 * count);
}

/* How many levels has the tree? A level begins with the first node that has a parent on the level
 * before. */
static uint32_t levels_of(const uint32_t *parents, uint32_t n)
{
    uint32_t levels = 1;
    for (uint32_t node = 2, first_of_level = 1; node <= n; node++)
        if (parents[node - 1] >= first_of_level) {
            levels++;
            first_of_level = node;
        }
    return levels;
}

/* Each node below the one before it, down to the last level but one, and all others on the last. */
static uint32_t *levelled(uint32_t n, uint32_t levels)
{
    uint32_t *parents = must(malloc(4 * (size_t)n));
    for (uint32_t i = 0; i < n; i++) parents[i] = i < levels - 1 ? i : levels - 1;
    return parents;
}

/* Appends a node and everything below it, which is at most 64 levels. */
static void append_text(uint8_t *text, size_t *bytes, const uint32_t *parents, uint32_t n, uint32_t node)
{
    text[(*bytes)++] = '(';
    uint32_t last = nodes_with_parent_before(parents, n, node + 1);
    for (uint32_t child = nodes_with_parent_before(parents, n, node) + 1; child <= last; child++)
        append_text(text, bytes, parents, n, child);
    text[(*bytes)++] = ')';
}

/* Questions whose answers can be read off the two lists, at the two ends and in the middle. */
static void make_questions(const struct tree *tree, plq_question *questions, uint32_t *answers)
{
    const uint32_t *parents = tree->parents, n = tree->n, middle = (n + 1) / 2;
    const plq_question asked[ASKED] = {{PLQ_PARENT, (int32_t)n, 0},
                                       {PLQ_DEGREE, 1, 0},
                                       {PLQ_NEXT_SIBLING, (int32_t)middle, 0},
                                       {PLQ_LEAF, (int32_t)middle, 0},
                                       {PLQ_CHILD_NUMBER, 1, 1},
                                       {tree->has_metres ? PLQ_METRES : PLQ_PARENT, (int32_t)n, 0}};
    memcpy(questions, asked, sizeof asked);
    answers[0] = parents[n - 1];
    answers[1] = degree(parents, n, 1);
    answers[2] = middle < n && parents[middle] == parents[middle - 1] ? middle + 1 : 0;
    answers[3] = degree(parents, n, middle) == 0;
    answers[4] = n > 1 ? 2 : 0;
    answers[5] = tree->has_metres ? tree->metres[n - 1] : parents[n - 1];
}

/* Lays down how each call is used on the tree, with `node` listed. What is made here lasts until drop_tree. */
static void make_tree(struct tree *tree, const char *name, uint32_t n, uint32_t *parents, uint32_t *metres,
                      int has_metres, uint32_t node)
{
    static const uint32_t small[] = {0, 1, 1, 1, 2, 2, 4}, one[] = {0};
    uint32_t listed = 0;
    size_t string_bits = 0, pack_bits = 0, joined_bits = 0, two = n < PLQ_MOST_NODES; /* one tree may fill a pack */
    tree->name = name;
    tree->n = n;
    tree->m = 1;
    tree->parents = parents;
    tree->metres = metres;
    tree->has_metres = has_metres;
    for (uint32_t i = 1; i < n; i++) tree->m += parents[i] != parents[i - 1];

    size_t bytes_alone = PLQ_IMAGE_BYTES(n, tree->m), bytes_with = bytes_alone + PLQ_METRES_BYTES(n);
    uint8_t *string = must(calloc(PLQ_STRING_BYTES(n), 1)), *pack = must(calloc(PLQ_STRING_BYTES(n) + 8, 1));
    uint8_t *joined = must(calloc(PLQ_STRING_BYTES(n) + 8, 1)), *before = must(calloc(PLQ_STRING_BYTES(n) + 8, 1));
    uint8_t *image_alone = must(calloc(bytes_alone, 1)), *image_with = must(calloc(bytes_with, 1));
    uint32_t *pairs = must(calloc(2 * (size_t)n, 4)), *answers = must(calloc(ASKED, 4)), *places = must(calloc(4, 4));
    plq_question *questions = must(calloc(ASKED, sizeof *questions));

    append_string(string, &string_bits, parents, n);
    append_string(pack, &pack_bits, parents, n);
    if (two) append_string(pack, &pack_bits, one, 1);
    if (two) append_string(joined, &joined_bits, small, COUNT_OF(small));
    size_t bits_before = joined_bits;
    memset(before, UNWRITTEN, PLQ_STRING_BYTES(n) + 8);
    memcpy(before, joined, PLQ_BYTES_OF_BITS(bits_before));
    append_string(joined, &joined_bits, parents, n);
    put_image(image_alone, parents, n, tree->m, NULL);
    put_image(image_with, parents, n, tree->m, metres);
    append_listing(pairs, &listed, parents, n, node, 0);
    tree->parents_of_text = levels_of(parents, n) <= 64 ? copy_of(parents, n) : levelled(n, 64);
    uint8_t *text = must(malloc(PLQ_TEXT_BYTES(n)));
    size_t text_bytes = 0;
    append_text(text, &text_bytes, tree->parents_of_text, n, 1);
    make_questions(tree, questions, answers);
    const uint32_t starts_and_sizes[] = {1, 2 * n + 2, n, 1};
    memcpy(places, starts_and_sizes, sizeof starts_and_sizes);

    content as_parents = {parents, 4 * (size_t)n}, as_string = {string, PLQ_STRING_BYTES(n)};
    content as_metres = {metres, 4 * (size_t)n}, as_pack = {pack, PLQ_BYTES_OF_BITS(pack_bits)};
    content alone = {image_alone, bytes_alone}, with_metres = {image_with, bytes_with};
    content as_image = has_metres ? with_metres : alone;
    content as_questions = {questions, ASKED * sizeof *questions}, as_answers = {answers, ASKED * 4};
    content old_pack = {before, PLQ_BYTES_OF_BITS(joined_bits)}, new_pack = {joined, PLQ_BYTES_OF_BITS(joined_bits)};
    content starts = {places, 4 * (1 + two)}, sizes = {places + 2, 4 * (1 + two)};
    content listing = {pairs, 8 * (size_t)listed}, none = {NULL, 0};
    content as_text = {text, text_bytes}, of_text = {tree->parents_of_text, 4 * (size_t)n};
    const right_use uses[CALLS] = {
        {0, 0, 0, {as_parents, {NULL, as_string.bytes}}, {none, as_string}, 2 * n + 1, 1},
        {string_bits, 0, 0, {as_string, {NULL, as_parents.bytes}}, {none, as_parents}, n, 0},
        {0, 0, 0, {as_parents, {NULL, alone.bytes}}, {none, alone}, n, tree->m},
        {0, 0, 0, {as_parents, as_metres, {NULL, with_metres.bytes}}, {none, none, with_metres}, n, tree->m},
        {0, 0, 0, {as_image, {NULL, as_parents.bytes}}, {none, as_parents}, n, 0},
        {0, 0, 0, {with_metres, {NULL, as_metres.bytes}}, {none, as_metres}, n, 0},
        {0, 0, 0, {as_image}, {none}, n, tree->m},
        {0, 0, 0, {as_image, as_questions, {NULL, as_answers.bytes}}, {none, none, as_answers}, ASKED, 0},
        {0, 0, 0, {as_image, as_questions, {NULL, as_answers.bytes}}, {none, none, as_answers}, ASKED, 0},
        {pack_bits, 1 + two, 0, {as_pack, {NULL, starts.bytes}, {NULL, sizes.bytes}}, {none, starts, sizes},
         (uint32_t)pack_bits, (uint32_t)(1 + two)},
        {bits_before, two, 0, {old_pack, as_parents}, {new_pack, none}, (uint32_t)joined_bits, (uint32_t)(1 + two)},
        {0, 0, node, {as_image, {NULL, listing.bytes}}, {none, listing}, listed, 0},
        {0, 0, 0, {as_text, {NULL, of_text.bytes}}, {none, of_text}, n, 0},
        {0, 0, 0, {of_text, {NULL, as_text.bytes}}, {none, as_text}, 2 * n, 0},
    };
    memcpy(tree->use, uses, sizeof uses);
}

static void drop_tree(struct tree *tree)
{
    free(tree->parents);
    free(tree->metres);
    free(tree->parents_of_text);
    free(tree->use[PARENTS_OF_TEXT].before[0].at);
    free(tree->use[PARENTS_OF_STRING].before[0].at);
    free(tree->use[IMAGE_OF_PARENTS].after[1].at);
    free(tree->use[IMAGE_WITH_METRES].after[2].at);
    free(tree->use[ASK].before[1].at);
    free(tree->use[ASK].after[2].at);
    free(tree->use[SPLIT].before[0].at);
    free(tree->use[SPLIT].after[1].at);
    free(tree->use[JOIN].before[0].at);
    free(tree->use[JOIN].after[0].at);
    free(tree->use[LIST].after[1].at);
}

static uint32_t *path_of(uint32_t n)
{
    uint32_t *parents = must(malloc(4 * (size_t)n));
    for (uint32_t i = 0; i < n; i++) parents[i] = i;
    return parents;
}

/* Families of some `children` each, with leaves between them. */
static uint32_t *bushy_of(uint32_t n, size_t children)
{
    uint32_t *parents = must(malloc(4 * (size_t)n));
    parents[0] = 0;
    for (uint32_t i = 1; i < n; i++) {
        parents[i] = i == 1 ? 1 : parents[i - 1] + (below(children) == 0 ? 1 + (uint32_t)below(2) : 0);
        if (parents[i] > i) parents[i] = i;
    }
    return parents;
}

/* Metres that are any numbers: none is wrong, the least and the greatest too. */
static uint32_t *any_metres(uint32_t n)
{
    uint32_t *metres = must(malloc(4 * (size_t)n));
    for (uint32_t i = 0; i < n; i++) metres[i] = (uint32_t)any_number();
    metres[n / 2] = 0;
    metres[n - 1] = UINT32_MAX;
    return metres;
}

static void make_trees(void)
{
    static const uint32_t parents_of_t[] = {0, 1, 1, 1, 2, 2, 4}, metres_of_t[] = {10, 20, 30, 40, 50, 60, 70};
    const uint32_t most = PLQ_MOST_NODES, few_nodes = 5000;
    make_tree(&t, "T", 7, copy_of(parents_of_t, 7), copy_of(metres_of_t, 7), 0, 2);
    make_tree(&bushy, "the bushy tree", few_nodes, bushy_of(few_nodes, 7), any_metres(few_nodes), 0, 1);
    make_tree(&path, "the longest path", most, path_of(most), any_metres(most), 0, most - 63);
    make_tree(&t_with_metres, "T with metres", 7, copy_of(parents_of_t, 7), copy_of(metres_of_t, 7), 1, 2);
    make_tree(&bushy_with_metres, "the bushy tree with metres", few_nodes, copy_of(bushy.parents, few_nodes),
              any_metres(few_nodes), 1, 1);
    make_tree(&path_with_metres, "the longest path with metres", most, path_of(most), any_metres(most), 1, most - 63);
}

/* An attempt that must be done, with `spare` bytes after each list that is written, of which the call is not told. */
static attempt right_attempt(const struct tree *tree, enum call call, size_t spare)
{
    const right_use *use = &tree->use[call];
    attempt a = {call, use->bits, use->trees, use->node, {{0}}};
    for (size_t list = 0; list < calls[call].lists; list++) {
        content before = use->before[list];
        size_t after = calls[call].list[list].use == READ ? 0 : spare;
        lend(&a, list, NULL, before.bytes + after);
        if (before.at) memcpy(a.list[list].at, before.at, before.bytes);
        a.list[list].count = before.bytes / calls[call].list[list].element;
    }
    return a;
}

static void expect_done(attempt *a, const struct tree *tree, const char *what)
{
    const right_use *use = &tree->use[a->call];
    plq_answer answer = try(a, what);
    const char *name = calls[a->call].name;
    int done = answer.code == PLQ_DONE && answer.place == 0;
    int counts = answer.first == use->first && answer.second == use->second;
    expect(done && counts, "%s of %s, %s: %u at %u, counts %u and %u", name, tree->name, what, (unsigned)answer.code,
           (unsigned)answer.place, (unsigned)answer.first, (unsigned)answer.second);
    for (size_t list = 0; list < calls[a->call].lists; list++)
        if (use->after[list].at)
            expect(memcmp(a->list[list].at, use->after[list].at, use->after[list].bytes) == 0, "%s of %s, %s: list %zu",
                   name, tree->name, what, list);
}

/* ---- The groups ---- */

/* The bytes of T as FORMAT.md prints them: so what is made above is what that page says. */
static void trees_are_those_of_the_page(void)
{
    static const uint8_t string[] = {0xBB, 0x20}, pack[] = {0xBB, 0x21, 0x00};
    static const struct {
        size_t at;
        uint32_t word;
    } words[] = {{0x000, 1},   {0x004, 7},   {0x008, 4},     {0x00C, 5},   {0x1F8, 17},  {0x1FC, 2112},
                 {0x204, 150}, {0x3F8, 151}, {0x3FC, 18876}, {0x404, 209}, {0x5F8, 211}, {0x5FC, 26377},
                 {0x600, 1},   {0x7F8, 4},   {0x7FC, 504},   {0x800, 1},   {0x9F8, 5},   {0x9FC, 630}};
    static const struct {
        size_t at;
        uint32_t word;
    } words_with_metres[] = {{0x000, 2},  {0x00C, 6},  {0x1F8, 19}, {0x1FC, 2361}, {0xA00, 10},
                             {0xA04, 20}, {0xA08, 30}, {0xA0C, 40}, {0xA10, 50},   {0xA14, 60},
                             {0xA18, 70}, {0xBF8, 285}, {0xBFC, 34790}};
    static const uint32_t listing[] = {2, 0, 5, 1, 6, 1};
    uint8_t image[3072] = {0};
    group = "the trees of this program";
    for (size_t i = 0; i < COUNT_OF(words); i++) put_word(image + words[i].at, words[i].word);
    expect(t.m == 4 && t.use[CHECK_IMAGE].before[0].bytes == 2560, "m and the bytes of T's image");
    expect(memcmp(t.use[CHECK_IMAGE].before[0].at, image, 2560) == 0, "T's image");
    for (size_t i = 0; i < COUNT_OF(words_with_metres); i++)
        put_word(image + words_with_metres[i].at, words_with_metres[i].word);
    expect(t_with_metres.use[CHECK_IMAGE].before[0].bytes == 3072, "the bytes of T's image with metres");
    expect(memcmp(t_with_metres.use[CHECK_IMAGE].before[0].at, image, 3072) == 0, "T's image with metres");
    expect(memcmp(t.use[PARENTS_OF_STRING].before[0].at, string, 2) == 0, "T's string");
    expect(memcmp(t.use[SPLIT].before[0].at, pack, 3) == 0, "T's pack");
    expect(memcmp(t.use[LIST].after[1].at, listing, sizeof listing) == 0, "T's listing of node 2");
    expect(t.use[PARENTS_OF_TEXT].before[0].bytes == 14, "the bytes of T's text");
    expect(memcmp(t.use[PARENTS_OF_TEXT].before[0].at, "((()())()(()))", 14) == 0, "T's text");
    expect(levels_of(path.parents, path.n) == PLQ_MOST_NODES && levels_of(path.parents_of_text, path.n) == 64,
           "the levels of the longest path, and of what is written as text in its place");
    expect(path.use[CHECK_IMAGE].before[0].bytes == PLQ_MOST_TREE_IMAGE_BYTES, "the largest image without metres");
    expect(path_with_metres.use[CHECK_IMAGE].before[0].bytes == PLQ_MOST_IMAGE_BYTES, "the largest image");
    expect(path.use[PARENTS_OF_STRING].bits == PLQ_MOST_BITS, "the longest string");
}

static void all_right(void)
{
    group = "right use";
    for (size_t i = 0; i < COUNT_OF(trees); i++)
        for (enum call call = 0; call < CALLS; call++) {
            attempt a = right_attempt(trees[i], call, 0);
            expect_done(&a, trees[i], "lists of exact size");
            end(&a);
        }
}

static void no_lists(void)
{
    enum { FIRST = 1, SECOND = 2, THIRD = 4 };
    /* T's lists, but for those that are NULL with 0; bits and trees as they are told */
    static const struct {
        enum call call;
        unsigned nulls;
        size_t bits, trees;
        uint32_t node, code, place;
    } cases[] = {
        {STRING_OF_PARENTS, FIRST, 0, 0, 0, PLQ_WRONG_SIZE, 0},
        {STRING_OF_PARENTS, SECOND, 0, 0, 0, PLQ_NO_ROOM, 0},
        {STRING_OF_PARENTS, FIRST | SECOND, 0, 0, 0, PLQ_WRONG_SIZE, 0},
        {PARENTS_OF_STRING, FIRST, 0, 0, 0, PLQ_NOT_STRING, 1},
        {PARENTS_OF_STRING, FIRST, 15, 0, 0, PLQ_WRONG_SIZE, 0},
        {PARENTS_OF_STRING, SECOND, 15, 0, 0, PLQ_NO_ROOM, 0},
        {PARENTS_OF_STRING, FIRST | SECOND, 0, 0, 0, PLQ_NOT_STRING, 1},
        {PARENTS_OF_STRING, FIRST | SECOND, 15, 0, 0, PLQ_WRONG_SIZE, 0},
        {IMAGE_OF_PARENTS, FIRST, 0, 0, 0, PLQ_WRONG_SIZE, 0},
        {IMAGE_OF_PARENTS, SECOND, 0, 0, 0, PLQ_NO_ROOM, 0},
        {IMAGE_OF_PARENTS, FIRST | SECOND, 0, 0, 0, PLQ_WRONG_SIZE, 0},
        {IMAGE_WITH_METRES, FIRST, 0, 0, 0, PLQ_WRONG_SIZE, 0},
        {IMAGE_WITH_METRES, SECOND, 0, 0, 0, PLQ_WRONG_SIZE, 0},
        {IMAGE_WITH_METRES, THIRD, 0, 0, 0, PLQ_NO_ROOM, 0},
        {IMAGE_WITH_METRES, FIRST | SECOND, 0, 0, 0, PLQ_WRONG_SIZE, 0},
        {IMAGE_WITH_METRES, FIRST | THIRD, 0, 0, 0, PLQ_WRONG_SIZE, 0},
        {IMAGE_WITH_METRES, SECOND | THIRD, 0, 0, 0, PLQ_WRONG_SIZE, 0},
        {IMAGE_WITH_METRES, FIRST | SECOND | THIRD, 0, 0, 0, PLQ_WRONG_SIZE, 0},
        {PARENTS_OF_IMAGE, FIRST, 0, 0, 0, PLQ_WRONG_SIZE, 0},
        {PARENTS_OF_IMAGE, SECOND, 0, 0, 0, PLQ_NO_ROOM, 0},
        {PARENTS_OF_IMAGE, FIRST | SECOND, 0, 0, 0, PLQ_WRONG_SIZE, 0},
        {METRES_OF_IMAGE, FIRST, 0, 0, 0, PLQ_WRONG_SIZE, 0},
        {METRES_OF_IMAGE, SECOND, 0, 0, 0, PLQ_NO_ROOM, 0},
        {METRES_OF_IMAGE, FIRST | SECOND, 0, 0, 0, PLQ_WRONG_SIZE, 0},
        {CHECK_IMAGE, FIRST, 0, 0, 0, PLQ_WRONG_SIZE, 0},
        {ASK, FIRST, 0, 0, 0, PLQ_WRONG_SIZE, 0},
        {ASK, SECOND, 0, 0, 0, PLQ_DONE, 0},
        {ASK, THIRD, 0, 0, 0, PLQ_NO_ROOM, 0},
        {ASK, FIRST | SECOND, 0, 0, 0, PLQ_WRONG_SIZE, 0},
        {ASK, FIRST | THIRD, 0, 0, 0, PLQ_WRONG_SIZE, 0},
        {ASK, SECOND | THIRD, 0, 0, 0, PLQ_DONE, 0},
        {ASK, FIRST | SECOND | THIRD, 0, 0, 0, PLQ_WRONG_SIZE, 0},
        {ASK_QUESTIONS, FIRST, 0, 0, 0, PLQ_WRONG_SIZE, 0},
        {ASK_QUESTIONS, SECOND, 0, 0, 0, PLQ_DONE, 0},
        {ASK_QUESTIONS, THIRD, 0, 0, 0, PLQ_NO_ROOM, 0},
        {ASK_QUESTIONS, FIRST | SECOND, 0, 0, 0, PLQ_WRONG_SIZE, 0},
        {ASK_QUESTIONS, FIRST | THIRD, 0, 0, 0, PLQ_WRONG_SIZE, 0},
        {ASK_QUESTIONS, SECOND | THIRD, 0, 0, 0, PLQ_DONE, 0},
        {ASK_QUESTIONS, FIRST | SECOND | THIRD, 0, 0, 0, PLQ_WRONG_SIZE, 0},
        {SPLIT, FIRST, 0, 0, 0, PLQ_DONE, 0},
        {SPLIT, FIRST, 0, 1, 0, PLQ_OTHER_TREES, 0},
        {SPLIT, FIRST, 18, 2, 0, PLQ_WRONG_SIZE, 0},
        {SPLIT, SECOND, 18, 2, 0, PLQ_NO_ROOM, 0},
        {SPLIT, THIRD, 18, 2, 0, PLQ_NO_ROOM, 0},
        {SPLIT, FIRST | SECOND, 0, 0, 0, PLQ_DONE, 0},
        {SPLIT, FIRST | THIRD, 0, 0, 0, PLQ_DONE, 0},
        {SPLIT, SECOND | THIRD, 18, 2, 0, PLQ_NO_ROOM, 0},
        {SPLIT, FIRST | SECOND | THIRD, 0, 0, 0, PLQ_DONE, 0},
        {SPLIT, FIRST | SECOND | THIRD, 0, 2, 0, PLQ_OTHER_TREES, 0},
        {SPLIT, FIRST | SECOND | THIRD, 18, 2, 0, PLQ_WRONG_SIZE, 0},
        {JOIN, FIRST, 0, 0, 0, PLQ_NO_ROOM, 0},
        {JOIN, FIRST, 0, 1, 0, PLQ_OTHER_TREES, 0},
        {JOIN, FIRST, 15, 1, 0, PLQ_WRONG_SIZE, 0},
        {JOIN, SECOND, 15, 1, 0, PLQ_WRONG_SIZE, 0},
        {JOIN, FIRST | SECOND, 0, 0, 0, PLQ_WRONG_SIZE, 0},
        {JOIN, FIRST | SECOND, 15, 1, 0, PLQ_WRONG_SIZE, 0},
        {LIST, FIRST, 0, 0, 2, PLQ_WRONG_SIZE, 0},
        {LIST, SECOND, 0, 0, 2, PLQ_NO_ROOM, 0},
        {LIST, SECOND, 0, 0, 0, PLQ_NOT_ALLOWED, 1},
        {LIST, FIRST | SECOND, 0, 0, 2, PLQ_WRONG_SIZE, 0},
        {PARENTS_OF_TEXT, FIRST, 0, 0, 0, PLQ_NOT_TEXT, 1},
        {PARENTS_OF_TEXT, SECOND, 0, 0, 0, PLQ_NO_ROOM, 0},
        {PARENTS_OF_TEXT, FIRST | SECOND, 0, 0, 0, PLQ_NOT_TEXT, 1},
        {TEXT_OF_PARENTS, FIRST, 0, 0, 0, PLQ_WRONG_SIZE, 0},
        {TEXT_OF_PARENTS, SECOND, 0, 0, 0, PLQ_NO_ROOM, 0},
        {TEXT_OF_PARENTS, FIRST | SECOND, 0, 0, 0, PLQ_WRONG_SIZE, 0},
    };
    group = "NULL with 0";
    for (size_t i = 0; i < COUNT_OF(cases); i++) {
        attempt a = right_attempt(&t, cases[i].call, 0);
        a.bits = cases[i].bits;
        a.trees = cases[i].trees;
        a.node = cases[i].node;
        for (size_t list = 0; list < MOST_LISTS; list++)
            if (cases[i].nulls >> list & 1) lend_null(&a, list);
        plq_answer answer = try(&a, "some lists NULL");
        int right = answer.code == cases[i].code && answer.place == cases[i].place;
        expect(right && answer.first == 0 && answer.second == 0, "%s, lists %u, %zu bits, %zu trees: %u at %u",
               calls[a.call].name, cases[i].nulls, a.bits, a.trees, (unsigned)answer.code, (unsigned)answer.place);
        end(&a);
    }
}

/* Numbers that are no length of the small list that is there, nor of any that is right, but for the first, which a text
 * may have. The last four would be its length, which is `small`, if their high bits were lost, or their product with 2,
 * 4 or 8 had 64 bits. */
enum { FALSE_LENGTHS = 14 };
static void make_false_lengths(uint64_t small, uint64_t lengths[FALSE_LENGTHS])
{
    const uint64_t one = 1;
    const uint64_t all[FALSE_LENGTHS] = {PLQ_MOST_IMAGE_BYTES + PLQ_BLOCK_BYTES,
                                         PLQ_MOST_TEXT + 1,
                                         one << 31,
                                         one << 32,
                                         (one << 32) + 7,
                                         (one << 63) - 1,
                                         one << 63,
                                         UINT64_MAX - 511,
                                         UINT64_MAX - 7,
                                         UINT64_MAX,
                                         small + (one << 32),
                                         small + (one << 61),
                                         small + (one << 62),
                                         small + (one << 63)};
    memcpy(lengths, all, sizeof all);
}

/* A false length of what is read is refused before anything is read: only a small list is there. A room may be any
 * number: the result goes where it belongs and nothing after it, whether the list ends there or more bytes follow. */
static void false_lengths_of_lists(void)
{
    uint64_t lengths[FALSE_LENGTHS];
    for (enum call call = 0; call < CALLS; call++)
        for (size_t list = 0; list < calls[call].lists; list++)
            for (size_t i = 0; i < 2 * FALSE_LENGTHS; i++) {
                attempt a = right_attempt(&t, call, i % 2 * GUARD);
                char what[64];
                make_false_lengths(a.list[list].count, lengths);
                int may_be = call == PARENTS_OF_TEXT && list == 0 && lengths[i / 2] <= PLQ_MOST_TEXT;
                if (!may_be) a.list[list].count = lengths[i / 2];
                snprintf(what, sizeof what, "list %zu said to have %llu", list, (unsigned long long)lengths[i / 2]);
                if (calls[call].list[list].use == READ && !may_be)
                    expect_refused(&a, PLQ_WRONG_SIZE, 0, what);
                else
                    expect_done(&a, &t, what);
                end(&a);
            }
}

/* Parents and metres that are said to be as many as each other, but are not so many. */
static void false_lengths_of_both_lists(void)
{
    uint64_t lengths[FALSE_LENGTHS];
    for (size_t i = 0; i < FALSE_LENGTHS; i++) {
        attempt a = right_attempt(&t, IMAGE_WITH_METRES, 0);
        make_false_lengths(a.list[0].count, lengths);
        a.list[0].count = a.list[1].count = lengths[i];
        expect_refused(&a, PLQ_WRONG_SIZE, 0, "the same false number of parents and of metres");
        end(&a);
    }
}

static void false_bits_and_trees(void)
{
    uint64_t bits[FALSE_LENGTHS], bytes[FALSE_LENGTHS], numbers_of_trees[FALSE_LENGTHS];
    for (enum call call = 0; call < CALLS; call++) {
        if (!reads_bits(call)) continue;
        attempt a = right_attempt(&t, call, 0);
        size_t right_bits = a.bits, right_trees = a.trees, right_bytes = a.list[0].count;
        make_false_lengths(right_bits, bits);
        make_false_lengths(right_bytes, bytes);
        make_false_lengths(right_trees, numbers_of_trees);
        for (size_t i = 0; i < FALSE_LENGTHS; i++) {
            a.bits = bits[i];
            expect_refused(&a, PLQ_WRONG_SIZE, 0, "false bits");
            a.list[0].count = 0; /* as many bytes as would do if bits + 7 were 6 */
            expect_refused(&a, PLQ_WRONG_SIZE, 0, "false bits in no bytes");
            for (size_t j = 0; j < FALSE_LENGTHS; j++) {
                a.list[0].count = bytes[j];
                expect_refused(&a, PLQ_WRONG_SIZE, 0, "false bits in a false number of bytes");
            }
            a.list[0].count = PLQ_BYTES_OF_BITS(bits[i]);
            expect_refused(&a, PLQ_WRONG_SIZE, 0, "false bits in as many bytes");
            a.bits = right_bits;
            a.list[0].count = right_bytes;
            a.trees = numbers_of_trees[i];
            if (call != PARENTS_OF_STRING) expect_refused(&a, PLQ_WRONG_SIZE, 0, "false trees");
            a.trees = right_trees;
        }
        end(&a);
    }
}

/* No count over 256 is right, also where three times it is a small number of 64 bits again. */
static void false_counts_of_questions(void)
{
    const uint64_t third_of_one = UINT64_C(12297829382473034411); /* three times this is 1, modulo 2^64 */
    for (uint64_t product = 0; product <= 3 * PLQ_MOST_QUESTIONS; product++) {
        attempt a = right_attempt(&t, ASK_QUESTIONS, 0);
        a.list[1].count = product * third_of_one;
        if (a.list[1].count > PLQ_MOST_QUESTIONS) expect_refused(&a, PLQ_WRONG_SIZE, 0, "a count whose product wraps");
        end(&a);
    }
    /* and where it is one if 32 bits are all that is kept of the count or of the product */
    for (uint64_t count = 0; count <= 2 * ASKED; count++)
        for (int bit = 32; bit < 64; bit++) {
            attempt a = right_attempt(&t, ASK_QUESTIONS, 0);
            a.list[1].count = count + ((uint64_t)1 << bit);
            expect_refused(&a, PLQ_WRONG_SIZE, 0, "a count over 32 bits");
            a.list[1].count = count + ((uint64_t)1 << bit) / 3;
            expect_refused(&a, PLQ_WRONG_SIZE, 0, "a count whose product has over 32 bits");
            end(&a);
        }
}

static void false_lengths(void)
{
    group = "lengths, numbers and rooms up to 2^64 - 1";
    false_lengths_of_lists();
    false_lengths_of_both_lists();
    false_bits_and_trees();
    false_counts_of_questions();
}

/* The answer and the bytes must be the same wherever bytes lie, and those around them must stay. */
static void every_alignment(void)
{
    group = "alignment";
    placement = AT_AN_OFFSET;
    for (offset = 0; offset < ALIGNMENT; offset += few ? 7 : 1)
        for (size_t i = 0; i < COUNT_OF(trees); i++)
            for (enum call call = 0; call < CALLS; call++) {
                char what[32];
                snprintf(what, sizeof what, "offset %zu", offset);
                attempt a = right_attempt(trees[i], call, 0);
                expect_done(&a, trees[i], what);
                end(&a);
            }
    placement = ON_HEAP;
}

/* The same bytes in a list of another length, and the call is told that one; what is more is unwritten. */
static void resize(attempt *a, size_t list, size_t bytes)
{
    size_t same = a->list[list].bytes < bytes ? a->list[list].bytes : bytes;
    uint8_t *copy = must(malloc(bytes + 1));
    memset(copy, UNWRITTEN, bytes);
    if (same > 0) memcpy(copy, a->list[list].at, same);
    lend(a, list, copy, bytes);
    free(copy);
}

static void put_number(attempt *a, size_t list, size_t entry, uint32_t number)
{
    memcpy(a->list[list].at + 4 * entry, &number, 4);
}

/* A refusal that does not come from the room is the same in every room, and leaves every byte as it was in each. */
static void expect_refused_in_every_room(attempt *a, uint32_t code, uint32_t place, const char *what)
{
    size_t lists = calls[a->call].lists, enough[MOST_LISTS];
    for (size_t list = 0; list < lists; list++) enough[list] = a->list[list].count;
    for (int room = 0; room < 5; room++) {
        for (size_t list = 0; list < lists; list++) {
            const size_t rooms[] = {0, 1, enough[list] - 1, enough[list], enough[list] + 5};
            if (calls[a->call].list[list].use == WRITTEN)
                resize(a, list, calls[a->call].list[list].element * rooms[room]);
            else if (calls[a->call].list[list].use == CHANGED && code != PLQ_WRONG_SIZE)
                resize(a, list, PLQ_BYTES_OF_BITS(a->bits) + (size_t)room);
        }
        expect_refused(a, code, place, what);
    }
    for (size_t list = 0; list < lists; list++)
        if (calls[a->call].list[list].use == WRITTEN) resize(a, list, calls[a->call].list[list].element * enough[list]);
}

/* A parent list that is none, in each call that takes one, with as many metres where there are some. */
static void expect_no_parents(const uint32_t *parents, size_t n, uint32_t code, uint32_t place)
{
    for (enum call call = 0; call < CALLS; call++) {
        if (!takes_parents(call)) continue;
        attempt a = right_attempt(&t, call, 0);
        lend(&a, list_of_parents(call), parents, 4 * n);
        if (call == IMAGE_WITH_METRES) lend(&a, 1, NULL, 4 * n);
        expect_refused_in_every_room(&a, code, place, "no parent list");
        end(&a);
    }
}

static void refused_parents(void)
{
    static const uint32_t root_with_parent[] = {1}, two_roots[] = {0, 0}, own_parent[] = {0, 2};
    static const uint32_t falling[] = {0, 1, 2, 1};
    uint32_t *too_many = bushy_of(PLQ_MOST_NODES + 1, 5);
    expect_no_parents(NULL, 0, PLQ_WRONG_SIZE, 0);
    expect_no_parents(too_many, PLQ_MOST_NODES + 1, PLQ_WRONG_SIZE, 0);
    expect_no_parents(root_with_parent, 1, PLQ_NOT_PARENTS, 1);
    expect_no_parents(two_roots, 2, PLQ_NOT_PARENTS, 2);
    expect_no_parents(own_parent, 2, PLQ_NOT_PARENTS, 2);
    expect_no_parents(falling, 4, PLQ_NOT_PARENTS, 4);
    free(too_many);

    /* one entry of a right list made wrong: the last one too, which is seen when all others have been read */
    for (size_t i = 0; i < COUNT_OF(trees); i++)
        for (enum call call = 0; call < CALLS; call++) {
            size_t list = list_of_parents(call), n = trees[i]->n;
            if (!takes_parents(call)) continue;
            const struct {
                size_t entry;
                uint32_t number;
            } bad[] = {{1, 1}, {2, 0},           {n / 2, UINT32_MAX}, {n / 2, (uint32_t)(n / 2)},
                       {n, 0}, {n, (uint32_t)n}, {n, 1u << 31}};
            for (size_t k = 0; k < COUNT_OF(bad); k++) {
                attempt a = right_attempt(trees[i], call, 0);
                put_number(&a, list, bad[k].entry - 1, bad[k].number);
                expect_refused_in_every_room(&a, PLQ_NOT_PARENTS, (uint32_t)bad[k].entry, "one bad entry");
                end(&a);
            }
        }
}

/* Metres that are more or fewer than the parents, whatever the parents are. */
static void refused_metres(void)
{
    for (size_t i = 0; i < COUNT_OF(trees); i++) {
        const size_t n = trees[i]->n, counts[] = {0, 1, n - 1, n + 1, PLQ_MOST_NODES - 1, PLQ_MOST_NODES + 1};
        for (size_t k = 0; k < COUNT_OF(counts); k++) {
            attempt a = right_attempt(trees[i], IMAGE_WITH_METRES, 0);
            resize(&a, 1, 4 * counts[k]);
            expect_refused_in_every_room(&a, PLQ_WRONG_SIZE, 0, "too many metres, or too few");
            put_number(&a, 0, n - 1, (uint32_t)n);
            expect_refused_in_every_room(&a, PLQ_WRONG_SIZE, 0, "too many metres, or too few, and no parent list");
            end(&a);
        }
    }
}

/* Metres that are not there are refused, and not given as 0: read back from an image of version 1, in every room. */
static void refused_without_metres(void)
{
    for (size_t i = 0; i < COUNT_OF(trees); i++) {
        content alone = trees[i]->use[IMAGE_OF_PARENTS].after[1];
        attempt a = right_attempt(trees[i], METRES_OF_IMAGE, 0);
        lend(&a, 0, alone.at, alone.bytes);
        expect_refused_in_every_room(&a, PLQ_NOT_ALLOWED, 1, "an image without metres");
        end(&a);
    }
}

/* The bytes, bits, codes and places of FORMAT.md, sections 1 and 5: read as one string, or as a pack of `trees`. */
static void refused_bits_of_the_page(void)
{
    static const struct {
        const char *bytes;
        size_t nbytes, bits;
        uint32_t code, place;
    } strings[] = {
        {"\xBB\x21", 2, 15, PLQ_LEFTOVER_SET, 0}, {"\xBB\x20\x00", 3, 15, PLQ_WRONG_SIZE, 0},
        {"\xBB", 1, 15, PLQ_WRONG_SIZE, 0},       {"\xBB\x20", 2, 16, PLQ_NOT_STRING, 16},
        {"\xBB\x00", 2, 9, PLQ_NOT_STRING, 10},   {"", 0, 0, PLQ_NOT_STRING, 1},
        {"\x00", 1, 1, PLQ_NOT_STRING, 1},        {"\xC0", 1, 3, PLQ_NOT_STRING, 2},
        {"\x80", 1, 2, PLQ_NOT_STRING, 3},        {"\x80", 1, 4, PLQ_NOT_STRING, 4},
        {"\x90", 1, 5, PLQ_NOT_STRING, 4},
    };
    static const struct {
        const char *bytes;
        size_t nbytes, bits, trees;
        uint32_t code, place;
    } packs[] = {
        {"", 0, 0, 1, PLQ_OTHER_TREES, 0},         {"\x90", 1, 6, 1, PLQ_OTHER_TREES, 2},
        {"\x92\x00", 2, 9, 1, PLQ_OTHER_TREES, 3}, {"\x90", 1, 4, 1, PLQ_NOT_STRING, 5},
        {"\x98", 1, 6, 2, PLQ_NOT_STRING, 5},      {"\xBB\x21\x01", 3, 18, 2, PLQ_LEFTOVER_SET, 0},
        {"\xBB\x21", 2, 18, 2, PLQ_WRONG_SIZE, 0}, {"\x90", 1, 6, 257, PLQ_WRONG_SIZE, 0},
    };
    for (size_t i = 0; i < COUNT_OF(strings); i++) {
        attempt a = right_attempt(&t, PARENTS_OF_STRING, 0);
        lend(&a, 0, strings[i].bytes, strings[i].nbytes);
        a.bits = strings[i].bits;
        expect_refused_in_every_room(&a, strings[i].code, strings[i].place, "a string of the page");
        end(&a);
    }
    for (size_t i = 0; i < COUNT_OF(packs); i++)
        for (enum call call = SPLIT; call <= JOIN; call++) {
            attempt a = right_attempt(&t, call, 0);
            lend(&a, 0, packs[i].bytes, packs[i].nbytes);
            a.bits = packs[i].bits;
            a.trees = packs[i].trees;
            expect_refused_in_every_room(&a, packs[i].code, packs[i].place, "a pack of the page");
            end(&a);
        }
}

static void change_bit(attempt *a, size_t bit)
{
    a->list[0].at[(bit - 1) / 8] ^= (uint8_t)(0x80 >> (bit - 1) % 8);
}

/* Right strings and packs with one thing made wrong, at their begin or at their very end. */
static void refused_bits(void)
{
    for (size_t i = 0; i < COUNT_OF(trees); i++)
        for (enum call call = 0; call < CALLS; call++) {
            if (!reads_bits(call) || trees[i]->use[call].bits == 0) continue;
            attempt a = right_attempt(trees[i], call, 0);
            size_t bits = a.bits, bytes = PLQ_BYTES_OF_BITS(bits);
            /* a tree that must go on is missed after the last bit; but a tree's 65,536th one is refused where it is */
            const struct {
                size_t bit;
                uint32_t place;
            } changed[] = {{1, 1}, {2, 2}, {bits, (uint32_t)bits + (trees[i]->n < PLQ_MOST_NODES)}};
            for (size_t k = 0; k < COUNT_OF(changed); k++) {
                change_bit(&a, changed[k].bit);
                expect_refused_in_every_room(&a, PLQ_NOT_STRING, changed[k].place, "one changed bit");
                change_bit(&a, changed[k].bit);
            }
            change_bit(&a, 8 * bytes);
            expect_refused_in_every_room(&a, PLQ_LEFTOVER_SET, 0, "a leftover bit");
            change_bit(&a, 8 * bytes);
            if (call != PARENTS_OF_STRING) {
                a.trees++;
                expect_refused_in_every_room(&a, PLQ_OTHER_TREES, (uint32_t)a.trees - 1, "a tree too few");
                a.trees = call == SPLIT ? 257 : 256;
                expect_refused_in_every_room(&a, PLQ_WRONG_SIZE, 0, "too many trees");
            }
            resize(&a, 0, bytes - 1);
            expect_refused_in_every_room(&a, PLQ_WRONG_SIZE, 0, "a byte too few");
            resize(&a, 0, bytes + 1);
            if (call != JOIN) expect_refused_in_every_room(&a, PLQ_WRONG_SIZE, 0, "a byte too many");
            resize(&a, 0, PLQ_BYTES_OF_BITS(PLQ_MOST_BITS + 1));
            a.bits = PLQ_MOST_BITS + 1;
            expect_refused_in_every_room(&a, PLQ_WRONG_SIZE, 0, "a bit too many");
            end(&a);
        }
}

/* Joining counts what is lent to it: a longest tree fits an empty pack alone, whatever its numbers are. */
static void refused_joins(void)
{
    attempt a = right_attempt(&t, JOIN, 0);
    resize(&a, 0, 2 * PLQ_BYTES_OF_BITS(PLQ_MOST_BITS));
    lend(&a, 1, path.parents, 4 * (size_t)path.n);
    expect_refused(&a, PLQ_WRONG_SIZE, 0, "a joined length over the limit");
    put_number(&a, 1, 0, 1);
    expect_refused(&a, PLQ_WRONG_SIZE, 0, "a joined length over the limit, and no parent list");
    end(&a);
}

static void expect_no_text(const void *text, size_t bytes, uint32_t code, uint32_t place, const char *what)
{
    attempt a = right_attempt(&t, PARENTS_OF_TEXT, 0);
    lend(&a, 0, text, bytes);
    expect_refused_in_every_room(&a, code, place, what);
    end(&a);
}

/* Small texts that are not one tree: each with its bytes, its length and the place of the refusal. */
static void refused_small_texts(void)
{
    static const struct {
        const char *text;
        size_t bytes;
        uint32_t place;
    } texts[] = {
        {"", 0, 1},        {" ", 1, 2},        {"\n\r ", 3, 4},      {"(", 1, 2},              {")", 1, 1},
        {"x", 1, 1},       {"[]", 2, 1},       {"(()", 3, 4},        {"()(", 3, 3},            {"())", 3, 3},
        {"()()", 4, 3},    {"() x", 4, 4},     {"( ) )", 5, 5},      {"\n)\n", 3, 2},          {"()\r\n(", 5, 5},
        {" ( ( ( ", 7, 8}, {"(x)", 3, 2},      {"('*)", 4, 2},       {"(*)", 3, 2},            {"(\t)", 3, 2},
        {"(\v)", 3, 2},    {"(\f)", 3, 2},     {"(\0)", 3, 2},       {"()\0", 3, 3},           {"()\x1A", 3, 3},
        {"(\xA8)", 3, 2},  {"\xA8\xA9", 2, 1}, {"(\xC2\xA0)", 4, 2}, {"\xEF\xBB\xBF()", 5, 1},
        {"((()())()(())", 13, 14},
    };
    for (size_t i = 0; i < COUNT_OF(texts); i++)
        expect_no_text(texts[i].text, texts[i].bytes, PLQ_NOT_TEXT, texts[i].place, "a small text");
}

/* Levels that are too many, or just not: the byte is that of the 65th, blanks counted, whatever
 * comes after it. */
static void refused_levels(void)
{
    uint8_t text[300];
    for (size_t blanks = 0; blanks <= 9; blanks += 3) {
        memset(text, '\n', blanks);
        memset(text + blanks, '(', 65);
        memset(text + blanks + 65, ')', 65);
        const uint32_t last = (uint32_t)blanks + 65;
        expect_no_text(text, last + 65, PLQ_TOO_NESTED, last, "65 levels");
        expect_no_text(text, last + 64, PLQ_TOO_NESTED, last, "65 levels that are not all closed");
        expect_no_text(text, last, PLQ_TOO_NESTED, last, "65 levels that are only opened");
        expect_no_text(text, last - 1, PLQ_NOT_TEXT, last, "64 levels that are only opened");
        text[last] = 'x';
        expect_no_text(text, last + 65, PLQ_TOO_NESTED, last, "65 levels, and a wrong byte after them");
        text[last - 1] = 'x';
        expect_no_text(text, last + 65, PLQ_NOT_TEXT, last, "64 levels, and a wrong byte after them");
        text[last - 1] = ')';
        memset(text + last, ')', 64);
        expect_no_text(text, last + 64, PLQ_NOT_TEXT, last + 64, "64 levels, and one closed that is not open");
    }
    /* 64 levels, left again up to any of them, and then one level more than they were */
    for (size_t at = 1; at <= 64; at++) {
        size_t size = 0;
        for (size_t i = 0; i < 64; i++) text[size++] = '(';
        for (size_t i = at; i < 64; i++) text[size++] = ')';
        for (size_t i = at; i < 65; i++) text[size++] = '(';
        uint32_t place = (uint32_t)size;
        for (size_t i = 0; i < 65; i++) text[size++] = ')';
        expect_no_text(text, size, PLQ_TOO_NESTED, place, "65 levels beside 64");
    }
    /* writing: the first node at depth 64, unless the list is none */
    for (uint32_t n = 65; n <= 70; n++) {
        for (uint32_t levels = 65; levels <= n; levels++) {
            uint32_t *parents = levelled(n, levels);
            attempt a = right_attempt(&t, TEXT_OF_PARENTS, 0);
            lend(&a, 0, parents, 4 * (size_t)n);
            expect_refused_in_every_room(&a, PLQ_TOO_DEEP, 65, "a tree of more than 64 levels");
            put_number(&a, 0, n - 1, n);
            expect_refused_in_every_room(&a, PLQ_NOT_PARENTS, n, "65 levels or more, but a bad last entry");
            end(&a);
            free(parents);
        }
    }
    attempt a = right_attempt(&path, TEXT_OF_PARENTS, 0);
    lend(&a, 0, path.parents, 4 * (size_t)path.n);
    expect_refused_in_every_room(&a, PLQ_TOO_DEEP, 65, "the longest path");
    end(&a);
}

/* Too many bytes are refused before anything is read; too many nodes only of what is one tree on at
 * most 64 levels. */
static void refused_long_texts(void)
{
    uint8_t *text = must(malloc(PLQ_MOST_TEXT + 1));
    memset(text, ' ', PLQ_MOST_TEXT + 1);
    expect_no_text(text, PLQ_MOST_TEXT, PLQ_NOT_TEXT, PLQ_MOST_TEXT + 1, "as many blanks as a text may have bytes");
    memcpy(text + 77, "()", 2);
    expect_no_text(text, PLQ_MOST_TEXT + 1, PLQ_WRONG_SIZE, 0, "a tree in a byte too many");
    memset(text, 'x', PLQ_MOST_TEXT + 1);
    expect_no_text(text, PLQ_MOST_TEXT + 1, PLQ_WRONG_SIZE, 0, "no tree in a byte too many");
    expect_no_text(text, PLQ_MOST_TEXT, PLQ_NOT_TEXT, 1, "no tree in as many bytes as there may be");

    const size_t nodes = PLQ_MOST_NODES + 1;
    text[0] = '(';
    for (size_t i = 1; i < nodes; i++) memcpy(text + 2 * i - 1, "()", 2);
    text[2 * nodes - 1] = ')';
    memset(text + 2 * nodes, '\n', 9);
    expect_no_text(text, 2 * nodes + 9, PLQ_WRONG_SIZE, 0, "a node too many");
    expect_no_text(text, 2 * nodes - 1, PLQ_NOT_TEXT, (uint32_t)(2 * nodes), "a node too many in what is not over");
    text[2 * nodes + 9] = '(';
    expect_no_text(text, 2 * nodes + 10, PLQ_NOT_TEXT, (uint32_t)(2 * nodes + 10), "a node and a bracket too many");
    memset(text + 2 * nodes - 1, '(', 64);
    memset(text + 2 * nodes + 63, ')', 65);
    expect_no_text(text, 2 * nodes + 128, PLQ_TOO_NESTED, (uint32_t)(2 * nodes + 63), "nodes and levels too many");
    memset(text, '(', PLQ_MOST_TEXT);
    expect_no_text(text, PLQ_MOST_TEXT, PLQ_TOO_NESTED, 65, "as many opened as a text may have bytes");
    free(text);
}

/* Every text without some of its last bytes, or with one byte that is another. */
static void refused_texts(void)
{
    static const uint8_t others[] = {0, '\t', '\v', '\f', 31, 33, 39, 42, 'A', '[', 127, 128, 160, 168, 169, 255};
    for (size_t i = 0; i < COUNT_OF(trees); i++) {
        content text = trees[i]->use[PARENTS_OF_TEXT].before[0];
        uint8_t *copy = must(malloc(text.bytes + 2));
        const size_t places[] = {1, 2, text.bytes / 2, text.bytes - 1, text.bytes};
        const size_t step = few && is_large(trees[i]) ? COUNT_OF(others) : 1;
        memcpy(copy, text.at, text.bytes);
        for (size_t k = 0; k < COUNT_OF(places); k++) {
            size_t at = places[k] - 1;
            expect_no_text(copy, at, PLQ_NOT_TEXT, (uint32_t)at + 1, "a text that is not over");
            for (size_t other = 0; other < COUNT_OF(others); other += step) {
                copy[at] = others[other];
                expect_no_text(copy, text.bytes, PLQ_NOT_TEXT, (uint32_t)at + 1, "neither bracket nor blank");
            }
            memcpy(copy, text.at, text.bytes);
        }
        for (size_t bytes = text.bytes + 1; bytes <= text.bytes + 2; bytes++) {
            copy[text.bytes] = ' ';
            copy[bytes - 1] = '(';
            expect_no_text(copy, bytes, PLQ_NOT_TEXT, (uint32_t)bytes, "a second tree");
            copy[bytes - 1] = ')';
            expect_no_text(copy, bytes, PLQ_NOT_TEXT, (uint32_t)bytes, "the root closed twice");
        }
        free(copy);
    }
}

static void expect_no_image(const uint8_t *image, size_t bytes, uint32_t code, uint32_t place, const char *what)
{
    for (enum call call = 0; call < CALLS; call++) {
        if (!reads_image(call)) continue;
        attempt a = right_attempt(&t, call, 0);
        lend(&a, 0, image, bytes);
        expect_refused_in_every_room(&a, code, place, what);
        end(&a);
    }
}

/* One byte of an image changed, with its sums made right again where the code is not that of wrong sums. */
static void expect_no_image_with(content image, size_t at, uint8_t byte, uint32_t code, uint32_t place)
{
    uint8_t *copy = must(malloc(image.bytes));
    memcpy(copy, image.at, image.bytes);
    copy[at] = byte;
    if (code != PLQ_WRONG_SUMS) put_sums(copy, image.bytes / PLQ_BLOCK_BYTES);
    expect_no_image(copy, image.bytes, code, place, "a changed byte of the page");
    free(copy);
}

static void refused_images_of_the_page(void)
{
    static const struct {
        size_t at;
        uint8_t byte;
        uint32_t code, place;
    } of_t[] = {{0x000, 0x00, 6, 0},  {0x1F8, 0x10, 6, 0},  {0x300, 0x80, 6, 1},  {0x9FC, 0x77, 6, 4},
                {0x000, 0x00, 11, 0}, {0x000, 0x02, 12, 0}, {0x004, 0x08, 13, 1}, {0x008, 0x01, 12, 0},
                {0x008, 0x03, 13, 1}, {0x00C, 0x06, 12, 0}, {0x010, 0x01, 12, 0}, {0x200, 0x01, 14, 1},
                {0x204, 0x97, 14, 1}, {0x204, 0x69, 13, 1}, {0x404, 0x8B, 13, 1}, {0x600, 0x00, 15, 3},
                {0x604, 0x01, 14, 3}},
      of_t_with_metres[] = {{0x000, 0x01, 12, 0}, {0x000, 0x03, 11, 0}, {0x00C, 0x05, 12, 0},
                            {0xA00, 0x0B, 6, 5},  {0xA1C, 0x01, 14, 5}};
    const content alone = t.use[CHECK_IMAGE].before[0], with_metres = t_with_metres.use[CHECK_IMAGE].before[0];
    const uint8_t *image = alone.at;
    uint8_t copy[5120], *zeros = must(calloc(294400, 1));
    for (size_t i = 0; i < COUNT_OF(of_t); i++)
        expect_no_image_with(alone, of_t[i].at, of_t[i].byte, of_t[i].code, of_t[i].place);
    for (size_t i = 0; i < COUNT_OF(of_t_with_metres); i++)
        expect_no_image_with(with_metres, of_t_with_metres[i].at, of_t_with_metres[i].byte, of_t_with_metres[i].code,
                             of_t_with_metres[i].place);
    expect_no_image(image, 0, PLQ_WRONG_SIZE, 0, "nothing");
    expect_no_image(image, 2559, PLQ_WRONG_SIZE, 0, "T's image without its last byte");
    expect_no_image(image, 2048, PLQ_WRONG_SIZE, 0, "the first four blocks of T's image");
    expect_no_image(zeros, 294400, PLQ_WRONG_SIZE, 0, "zeros, a block more than the largest image");
    expect_no_image(zeros, 293888, PLQ_WRONG_SUMS, 1, "zeros, as many as the largest image has bytes");
    expect_no_image(zeros, 2560, PLQ_WRONG_SUMS, 1, "zeros, as many as T's image has bytes");
    expect_no_image(with_metres.at, 2560, PLQ_WRONG_HEADER, 0, "T's image with metres, without its last block");
    memcpy(copy, with_metres.at, 3072);
    memcpy(copy, image, 512);
    expect_no_image(copy, 3072, PLQ_WRONG_HEADER, 0, "T's image with metres and the header of T's image without");
    memcpy(copy, image, 2560);
    memcpy(copy + 1536, image + 2048, 512);
    memcpy(copy + 2048, image + 1536, 512);
    expect_no_image(copy, 2560, PLQ_WRONG_SUMS, 3, "T's image with its last two blocks exchanged");
    memcpy(copy, image, 2560);
    memcpy(copy + 2560, image, 2560);
    expect_no_image(copy, 5120, PLQ_WRONG_SUMS, 5, "T's image twice");
    memset(copy + 2560, 0, 512);
    put_sums(copy, 6);
    expect_no_image(copy, 3072, PLQ_WRONG_HEADER, 0, "T's image and a block of zeros with right sums");
    memcpy(copy, image, 2560);
    memset(copy, 0, 512);
    expect_no_image(copy, 2560, PLQ_OTHER_VERSION, 0, "T's image with zeros in the place of its header");
    free(zeros);
}

/* A word of an image with another number in it, and how the image is refused once its sums are right again. */
struct fault {
    size_t at;
    uint32_t number, code, place;
};

enum { MOST_FAULTS = 200 };
struct faults {
    size_t count;
    struct fault fault[MOST_FAULTS];
};

/* The place is the block that has the fault, but for the strings, which have one place for all of theirs. */
static void add_fault(struct faults *faults, uint32_t code, size_t block, size_t word, uint32_t number)
{
    if (faults->count == MOST_FAULTS) must(NULL);
    uint32_t place = code == PLQ_WRONG_STRINGS ? 1 : (uint32_t)block;
    faults->fault[faults->count++] = (struct fault){PLQ_BLOCK_BYTES * block + 4 * word, number, code, place};
}

static void add_to_header(struct faults *faults, const struct tree *tree)
{
    const uint32_t n = tree->n, m = tree->m, blocks = (uint32_t)layout_of(n, m, tree->has_metres).blocks;
    const uint32_t version = tree->has_metres ? 2 : 1;
    const struct {
        size_t word;
        uint32_t number, code;
    } header[] = {
        {0, 0, PLQ_OTHER_VERSION},
        {0, 3, PLQ_OTHER_VERSION},
        {0, version + (1u << 8), PLQ_OTHER_VERSION},
        {0, version + (1u << 31), PLQ_OTHER_VERSION},
        {0, 3 - version, PLQ_WRONG_HEADER}, /* the other one, with which an image has more blocks, or fewer */
        {1, 0, PLQ_WRONG_HEADER},
        {1, PLQ_MOST_NODES + 1, PLQ_WRONG_HEADER},
        {1, n + 4000, PLQ_WRONG_HEADER}, /* two blocks more */
        {1, n + (1u << 16), PLQ_WRONG_HEADER},
        {1, UINT32_MAX, PLQ_WRONG_HEADER},
        {2, 0, PLQ_WRONG_HEADER},
        {2, 1, PLQ_WRONG_HEADER}, /* only a tree of one node has no node with children */
        {2, n + 2, PLQ_WRONG_HEADER},
        {2, m + (1u << 16), PLQ_WRONG_HEADER},
        {2, UINT32_MAX, PLQ_WRONG_HEADER},
        {3, 0, PLQ_WRONG_HEADER},
        {3, blocks - 1, PLQ_WRONG_HEADER},
        {3, blocks + 1, PLQ_WRONG_HEADER},
        {3, blocks + (1u << 8), PLQ_WRONG_HEADER},
        {4, 1, PLQ_WRONG_HEADER},
        {125, 1u << 31, PLQ_WRONG_HEADER},
        /* other trees with an image of this length have these, but for the path, whose n and m are the greatest */
        {1, n + 1, n < PLQ_MOST_NODES ? PLQ_WRONG_STRINGS : PLQ_WRONG_HEADER},
        {2, m + 1, m < n ? PLQ_WRONG_STRINGS : PLQ_WRONG_HEADER},
    };
    for (size_t i = 0; i < COUNT_OF(header); i++)
        add_fault(faults, header[i].code, 0, header[i].word, header[i].number);
    if (tree->has_metres) add_fault(faults, PLQ_WRONG_HEADER, 0, 1, n + 126); /* a block of metres more */
}

/* Changes one bit, from 0, of the string whose first block is `first`, or one of those after its end. */
static void add_bit(struct faults *faults, uint32_t code, const uint8_t *image, size_t first, uint32_t bit)
{
    size_t block = first + bit / 4000, byte = 4 + bit % 4000 / 8;
    uint32_t value = 0x80u >> bit % 8 << byte % 4 * 8;
    add_fault(faults, code, block, byte / 4, word_at(image + PLQ_BLOCK_BYTES * block + byte / 4 * 4) ^ value);
}

static void add_to_string(struct faults *faults, const uint8_t *image, size_t first, size_t end, uint32_t bits)
{
    uint32_t room = 4000 * (uint32_t)(end - first);
    add_bit(faults, PLQ_WRONG_STRINGS, image, first, 0);
    add_bit(faults, PLQ_WRONG_STRINGS, image, first, bits / 2);
    add_bit(faults, PLQ_WRONG_STRINGS, image, first, bits - 1);
    for (size_t block = first; block < end; block++)
        add_fault(faults, PLQ_WRONG_COUNTS, block, 0,
                  word_at(image + PLQ_BLOCK_BYTES * block) + (block % 2 == 0 ? 1 : 1u << 16));
    if (bits < room) add_bit(faults, PLQ_WRONG_COUNTS, image, first, bits);
    if (bits < room) add_bit(faults, PLQ_WRONG_COUNTS, image, first, room - 1);
}

static void add_to_samples(struct faults *faults, const uint8_t *image, size_t first, size_t end, uint32_t samples)
{
    uint32_t room = 126 * (uint32_t)(end - first);
    for (size_t block = first; block < end; block++) {
        size_t last = block + 1 < end ? 125 : (samples - 1) % 126;
        const uint8_t *at = image + PLQ_BLOCK_BYTES * block;
        add_fault(faults, PLQ_WRONG_SAMPLES, block, 0, word_at(at) + 1);
        if (last > 0) add_fault(faults, PLQ_WRONG_SAMPLES, block, last, word_at(at + 4 * last) + (1u << 16));
    }
    if (samples < room) add_fault(faults, PLQ_WRONG_COUNTS, end - 1, samples % 126, 1);
    if (samples < room) add_fault(faults, PLQ_WRONG_COUNTS, end - 1, 125, 1u << 31);
}

/* Metres are never wrong, but what is after them can be. */
static void add_to_metres(struct faults *faults, size_t end, uint32_t n)
{
    if (n % 126 == 0) return;
    add_fault(faults, PLQ_WRONG_COUNTS, end - 1, n % 126, 1);
    add_fault(faults, PLQ_WRONG_COUNTS, end - 1, 125, 1u << 31);
}

/* Every kind of fault in every part. None of them makes right what another, in another word, makes wrong. */
static void make_faults(struct faults *faults, const struct tree *tree)
{
    const uint8_t *image = tree->use[CHECK_IMAGE].before[0].at;
    const struct layout first = layout_of(tree->n, tree->m, tree->has_metres);
    uint32_t samples = (tree->m + 63) / 64;
    faults->count = 0;
    add_to_header(faults, tree);
    add_to_string(faults, image, first.r1, first.r0, tree->n);
    add_to_string(faults, image, first.r0, first.r1_samples, tree->n + 1);
    add_to_samples(faults, image, first.r1_samples, first.r0_samples, samples);
    add_to_samples(faults, image, first.r0_samples, first.metres, samples);
    if (tree->has_metres) add_to_metres(faults, first.blocks, tree->n);
}

static void put_faults(uint8_t *copy, content image, const struct fault *one, const struct fault *other)
{
    memcpy(copy, image.at, image.bytes);
    put_word(copy + one->at, one->number);
    put_word(copy + other->at, other->number);
    put_sums(copy, image.bytes / PLQ_BLOCK_BYTES);
}

/* A damaged last block, and every fault that right sums do not show. */
static void refused_images(void)
{
    static struct faults faults;
    for (size_t i = 0; i < COUNT_OF(trees); i++) {
        content image = trees[i]->use[CHECK_IMAGE].before[0];
        /* the blocks of so many metres differ in nothing but in taking time */
        size_t blocks = image.bytes / PLQ_BLOCK_BYTES, every_ninth = few ? is_large(trees[i]) : blocks > 100;
        size_t step = every_ninth ? 9 : 1;
        uint8_t *copy = must(malloc(image.bytes));
        memcpy(copy, image.at, image.bytes);
        copy[image.bytes - 9] ^= 0x40;
        expect_no_image(copy, image.bytes, PLQ_WRONG_SUMS, (uint32_t)blocks - 1, "a damaged last block");
        make_faults(&faults, trees[i]);
        for (size_t k = 0; k < faults.count; k += step) {
            const struct fault *fault = &faults.fault[k];
            char what[120];
            snprintf(what, sizeof what, "%s with word %zu of block %zu changed to %u, sums made right", trees[i]->name,
                     fault->at % PLQ_BLOCK_BYTES / 4, fault->at / PLQ_BLOCK_BYTES, (unsigned)fault->number);
            put_faults(copy, image, fault, fault);
            expect_no_image(copy, image.bytes, fault->code, fault->place, what);
        }
        free(copy);
    }
}

/* Of two faults the one with the lower code is answered, and of two with one code the one in the lower block. */
static void every_two_faults(void)
{
    static struct faults faults;
    group = "two faults";
    for (size_t i = 0; i < COUNT_OF(trees); i++) {
        if (few ? is_large(trees[i]) : trees[i] == &path_with_metres) continue;
        attempt a = right_attempt(trees[i], CHECK_IMAGE, 0);
        content image = trees[i]->use[CHECK_IMAGE].before[0];
        make_faults(&faults, trees[i]);
        for (size_t k = 0; k < faults.count; k++)
            for (size_t l = k + 1; l < faults.count; l++) {
                const struct fault *one = &faults.fault[k], *other = &faults.fault[l];
                if (one->at == other->at) continue;
                int one_first = one->code != other->code ? one->code < other->code : one->place < other->place;
                char what[120];
                snprintf(what, sizeof what, "%s with bytes %zu and %zu changed, sums made right", trees[i]->name,
                         one->at, other->at);
                put_faults(a.list[0].at, image, one, other);
                expect_refused(&a, (one_first ? one : other)->code, (one_first ? one : other)->place, what);
            }
        end(&a);
    }
}

static void refused_questions(void)
{
    for (size_t i = 0; i < COUNT_OF(trees); i++)
        for (enum call call = ASK; call <= ASK_QUESTIONS; call++) {
            const int32_t n = (int32_t)trees[i]->n;
            const plq_question bad[] = {{0, 1, 0},
                                        {12, 1, 0},
                                        {-1, 1, 0},
                                        {INT32_MIN, 1, 0},
                                        {PLQ_METRES, 0, 0},
                                        {PLQ_METRES, n + 1, 0},
                                        {PLQ_METRES, 1, trees[i]->has_metres ? 1 : 0},
                                        {PLQ_METRES, n, trees[i]->has_metres ? -1 : 0},
                                        {PLQ_LEAF, 0, 0},
                                        {PLQ_LEAF, n + 1, 0},
                                        {PLQ_LEAF, -1, 0},
                                        {PLQ_LEAF, INT32_MAX, 0},
                                        {PLQ_LEAF, 1, 1},
                                        {PLQ_PARENT, 1, -1},
                                        {PLQ_DEGREE, INT32_MIN, INT32_MAX}};
            for (size_t k = 0; k < COUNT_OF(bad); k++)
                for (uint32_t question = 1; question <= ASKED; question += ASKED - 1) {
                    attempt a = right_attempt(trees[i], call, 0);
                    memcpy(a.list[1].at + sizeof *bad * (question - 1), &bad[k], sizeof *bad);
                    expect_refused_in_every_room(&a, PLQ_NOT_ALLOWED, question, "a question that is not allowed");
                    end(&a);
                }
        }
    static const size_t numbers[] = {1, 2, 4, 3 * PLQ_MOST_QUESTIONS - 1, 3 * PLQ_MOST_QUESTIONS + 1,
                                     3 * PLQ_MOST_QUESTIONS + 3};
    for (size_t i = 0; i < COUNT_OF(numbers); i++) {
        attempt a = right_attempt(&t, ASK, 0);
        resize(&a, 1, 4 * numbers[i]);
        expect_refused_in_every_room(&a, PLQ_WRONG_SIZE, 0, "numbers not in threes, or too many");
        end(&a);
    }
}

static void refused_listings(void)
{
    for (size_t i = 0; i < COUNT_OF(trees); i++) {
        const uint32_t nodes[] = {0, trees[i]->n + 1, 1u << 31, UINT32_MAX};
        attempt a = right_attempt(trees[i], LIST, 0);
        for (size_t k = 0; k < COUNT_OF(nodes); k++) {
            a.node = nodes[k];
            expect_refused_in_every_room(&a, PLQ_NOT_ALLOWED, 1, "a node that is not there");
        }
        end(&a);
    }
    /* of a path the first node at depth 64 is 64 nodes further down; one level less is the right use of this path */
    static const uint32_t from[] = {1, 2, PLQ_MOST_NODES - 64};
    attempt a = right_attempt(&path, LIST, 0);
    for (size_t k = 0; k < COUNT_OF(from); k++) {
        a.node = from[k];
        expect_refused_in_every_room(&a, PLQ_TOO_DEEP, from[k] + 64, "65 levels");
    }
    end(&a);
}

/* Every room below the one that is needed; of the large trees, some. */
static void refused_rooms(void)
{
    for (size_t i = 0; i < COUNT_OF(trees); i++)
        for (enum call call = 0; call < CALLS; call++)
            for (size_t list = 0; list < calls[call].lists; list++) {
                if (calls[call].list[list].use == READ) continue;
                attempt a = right_attempt(trees[i], call, 0);
                size_t needed = a.list[list].count, least = call == JOIN ? PLQ_BYTES_OF_BITS(a.bits) : 0;
                size_t step = few || is_large(trees[i]) ? needed / 4 + 1 : 1;
                for (size_t room = least; room < needed; room++) {
                    if (room % step != 0 && room != needed - 1) continue;
                    resize(&a, list, calls[call].list[list].element * room);
                    expect_refused(&a, PLQ_NO_ROOM, 0, "too little room");
                }
                end(&a);
            }
}

static void refused_uses(void)
{
    group = "refused";
    memset(was_refused, 0, sizeof was_refused);
    refused_parents();
    refused_metres();
    refused_without_metres();
    refused_bits_of_the_page();
    refused_bits();
    refused_joins();
    refused_images_of_the_page();
    refused_images();
    refused_questions();
    refused_listings();
    refused_small_texts();
    refused_levels();
    refused_long_texts();
    refused_texts();
    refused_rooms();
    for (enum call call = 0; call < CALLS; call++)
        for (size_t i = 0; calls[call].refusals[i] != 0; i++)
            expect(was_refused[call][calls[call].refusals[i]], "%s: no attempt was refused with %u", calls[call].name,
                   (unsigned)calls[call].refusals[i]);
}

/* A change in one word alone is always noticed, so one in one byte is; the place is the block that has it. */
static void every_byte_damaged(void)
{
    group = "damage";
    for (enum call call = 0; call < CALLS; call++) {
        if (!reads_image(call)) continue;
        attempt a = right_attempt(&t_with_metres, call, 0);
        for (size_t byte = 0; byte < a.list[0].bytes; byte += few ? 89 : 1) {
            uint8_t right = a.list[0].at[byte];
            const uint8_t others[] = {right ^ 0x01, right ^ 0x80, right ^ 0xFF, (uint8_t)(right + 3)};
            for (size_t i = 0; i < COUNT_OF(others); i++) {
                a.list[0].at[byte] = others[i];
                expect_refused(&a, PLQ_WRONG_SUMS, (uint32_t)(byte / PLQ_BLOCK_BYTES), "one byte damaged");
            }
            a.list[0].at[byte] = right;
        }
        expect_done(&a, &t_with_metres, "all bytes as they were");
        end(&a);
    }
}

static void fill_by_chance(uint8_t *bytes, size_t count)
{
    for (size_t i = 0; i < count; i++) bytes[i] = (uint8_t)any_number();
}

/* A text with up to `most` blanks before each of its bytes, and after the last. Gives its new
 * number of bytes. */
static size_t add_blanks(const uint8_t *text, size_t bytes, uint8_t *copy, size_t most)
{
    size_t filled = 0;
    for (size_t at = 0; at <= bytes; at++) {
        for (size_t blanks = below(most + 1); blanks > 0; blanks--) copy[filled++] = (uint8_t)" \n\r"[below(3)];
        if (at < bytes) copy[filled++] = text[at];
    }
    return filled;
}

/* Blanks may be anywhere and mean nothing: the tree is the same. Also in as many bytes as a text
 * may have. */
static void blanks_anywhere(void)
{
    group = "blanks";
    uint8_t *copy = must(malloc(PLQ_MOST_TEXT));
    for (size_t i = 0; i < COUNT_OF(trees); i++) {
        content text = trees[i]->use[PARENTS_OF_TEXT].before[0];
        for (size_t most = 1; most <= 6; most += few ? 5 : 1) {
            attempt a = right_attempt(trees[i], PARENTS_OF_TEXT, 0);
            lend(&a, 0, copy, add_blanks(text.at, text.bytes, copy, most));
            expect_done(&a, trees[i], "blanks");
            end(&a);
        }
        attempt a = right_attempt(trees[i], PARENTS_OF_TEXT, 0);
        memset(copy, '\r', PLQ_MOST_TEXT);
        memcpy(copy + PLQ_MOST_TEXT - text.bytes, text.at, text.bytes);
        lend(&a, 0, copy, PLQ_MOST_TEXT);
        expect_done(&a, trees[i], "blanks before it");
        end(&a);
    }
    free(copy);
}

/* One tree with blanks in it, mostly of at most 64 levels, that is over with the last byte. */
static void fill_with_brackets(uint8_t *bytes, size_t count)
{
    size_t open = 0, most = 1 + below(70);
    for (size_t i = 0; i < count; i++) {
        size_t left = count - i;
        int may_open = open == 0 || (open < most && open + 2 <= left);
        if (open > 0 && open == left)
            bytes[i] = ')';
        else if (below(9) == 0)
            bytes[i] = ' ';
        else if (may_open && (open <= 1 || below(2) == 0))
            bytes[i] = '(';
        else
            bytes[i] = open > 1 ? ')' : '\n';
        if (bytes[i] == '(') open++;
        if (bytes[i] == ')') open--;
    }
}

/* Anything in every list that is read, with `length` elements in the first. Strings begin with 101, most texts are of
 * brackets and most numbers are small, so that not all of them are refused at the very first. */
static void try_random_bytes(enum call call, size_t length)
{
    attempt a = right_attempt(&t, call, 0);
    for (size_t list = 0; list < calls[call].lists; list++) {
        size_t element = calls[call].list[list].element, count = list == 0 ? length : below(40);
        lend(&a, list, NULL, element * count);
        if (calls[call].list[list].use == WRITTEN) continue;
        fill_by_chance(a.list[list].at, element * count);
        if (call == PARENTS_OF_TEXT && length % 4 != 0) fill_with_brackets(a.list[list].at, count);
        if (element != 4 || length % 3 == 0) continue;
        for (size_t i = 0; i < count; i++) put_number(&a, list, i, (uint32_t)below(i + 1));
    }
    a.bits = length % 5 == 0 ? any_number() : 8 * length - (length > 0 ? below(8) : 0);
    a.trees = length % 7 == 0 ? any_number() : below(4);
    a.node = (uint32_t)below(9);
    if (reads_bits(call) && length > 0) {
        a.list[0].at[0] = (uint8_t)(0xA0 | (a.list[0].at[0] & 0x1F));
        if (a.bits % 8 != 0) a.list[0].at[length - 1] &= (uint8_t)(0xFF00 >> a.bits % 8);
    }
    (void)try(&a, "random bytes");
    end(&a);
}

/* A right use of a tree, with some things made wrong by chance: bytes, with or without right sums; numbers; rooms. */
static void try_spoiled(const struct tree *tree, enum call call)
{
    attempt a = right_attempt(tree, call, 0);
    size_t list = below(calls[call].lists);
    if (below(3) == 0) {
        size_t shorter = a.bits - (a.bits > 0 ? below(3) : 0);
        if (reads_bits(call) && call != JOIN) resize(&a, 0, PLQ_BYTES_OF_BITS(shorter));
        a.bits = shorter;
    }
    if (below(4) == 0) a.trees = below(260);
    if (below(4) == 0) a.node = (uint32_t)below(2 * tree->n);
    if (calls[call].list[list].use != READ && below(3) == 0)
        resize(&a, list, calls[call].list[list].element * below(a.list[list].count + 9));
    size_t bytes = a.list[list].bytes;
    for (size_t i = below(5); i > 0 && bytes > 0; i--) a.list[list].at[below(bytes)] ^= (uint8_t)(1 << below(8));
    if (reads_image(call) && below(2) == 0) put_sums(a.list[0].at, a.list[0].bytes / PLQ_BLOCK_BYTES);
    (void)try(&a, "something spoiled");
    end(&a);
}

static void random_uses(void)
{
    size_t step = few ? 71 : placement == ON_HEAP ? 1 : 12;
    group = "random bytes";
    for (size_t length = 0; length < 3000; length += step)
        for (enum call call = 0; call < CALLS; call++) try_random_bytes(call, length);
    for (size_t blocks = 0; blocks <= 575; blocks += blocks >= 54 ? 521 : step > 9 ? 9 : step)
        for (enum call call = 0; call < CALLS; call++)
            if (reads_image(call)) try_random_bytes(call, PLQ_BLOCK_BYTES * blocks);

    group = "spoiled by chance";
    for (size_t i = 0; i < 4000; i += step) {
        static const size_t sizes[] = {3, 12, 40, 300};
        uint32_t n = 1 + (uint32_t)below(i % 500 == 0 ? PLQ_MOST_NODES : sizes[i % COUNT_OF(sizes)]);
        struct tree tree;
        make_tree(&tree, "a random tree", n, bushy_of(n, 1 + below(6)), any_metres(n), i % 2 == 0, n);
        for (enum call call = 0; call < CALLS; call++) try_spoiled(&tree, call);
        drop_tree(&tree);
    }
}

int main(int words, char **word)
{
    few = words > 1 && strcmp(word[1], "few") == 0;
    if (words > 2 || (words > 1 && !few)) {
        fputs("usage: bad_use [few]\n", stderr);
        return 2;
    }
    make_trees();
    trees_are_those_of_the_page();
    /* a slow tool sees on the heap what a forbidden page shows without it */
    for (placement = ON_HEAP; placement < AT_AN_OFFSET; placement++) {
        if (few && placement != ON_HEAP) continue;
        all_right();
        blanks_anywhere();
        no_lists();
        false_lengths();
        refused_uses();
        random_uses();
    }
    placement = ON_HEAP;
    every_two_faults();
    every_byte_damaged();
    every_alignment();
    for (size_t i = 0; i < COUNT_OF(trees); i++) drop_tree(trees[i]);
    return wrong;
}
