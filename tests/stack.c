/* How much stack does each call take? Each is made on a painted stack of its own, and the deepest byte that changed is
 * looked for. What the same way down takes with nothing in the place of the call is subtracted.
 *
 *     stack CALL BYTES [CALL BYTES ..]     what is claimed of each of the thirteen calls
 *
 * A claim must have room to spare: it is at least one and a half times what is measured, since another compiler, or
 * another machine, may take more. The inputs are those that go deepest: trees and texts of 64 levels, the largest trees
 * and packs, with metres and without, as many trees and questions as there may be, and refusals that come late.
 * It prints a table, and a line for each claim that does not hold. Exit status: 0 if all hold. */
#define _DEFAULT_SOURCE /* MAP_ANONYMOUS, and ucontext with -std=c11 */
#include <parlaqen.h>
#include <stdio.h>
#include <stdlib.h>
#include <string.h>
#include <sys/mman.h>
#include <ucontext.h>
#include <unistd.h>

enum call {
    STRING_OF_PARENTS,
    PARENTS_OF_STRING,
    IMAGE_OF_PARENTS,
    IMAGE_WITH_METRES,
    PARENTS_OF_IMAGE,
    METRES_OF_IMAGE,
    CHECK_IMAGE,
    ASK,
    SPLIT,
    JOIN,
    LIST,
    PARENTS_OF_TEXT,
    TEXT_OF_PARENTS,
    CALLS,
    NOTHING = CALLS,
    KNOWN
};

static const char *const names[CALLS] = {"plq_string_of_parents", "plq_parents_of_string", "plq_image_of_parents",
                                         "plq_image_with_metres", "plq_parents_of_image",  "plq_metres_of_image",
                                         "plq_check_image",       "plq_ask",               "plq_split",
                                         "plq_join",              "plq_list",              "plq_parents_of_text",
                                         "plq_text_of_parents"};

/* One call: numbers, and the two kinds of lists. What is written goes to lists that are long enough for everything.
 * Where metres are taken, there are as many as parents. */
typedef struct {
    enum call call;
    const uint32_t *parents;
    const uint8_t *bytes;
    const int32_t *questions;
    size_t n, nbytes, numbers, bits, trees, room;
    uint32_t node, code; /* the code that it must end with: else another way than the one meant is measured */
} input;

enum { STACK_BYTES = 1 << 18, KNOWN_BYTES = 4096, LEVELS = 64, MOST_NUMBERS = 2 * PLQ_MOST_NODES };
static uint8_t *stack; /* its lowest byte; a page below it may not be used */
static uint32_t numbers_written[MOST_NUMBERS], more_numbers[PLQ_MOST_TREES], metres[PLQ_MOST_NODES];
static uint8_t bytes_written[PLQ_MOST_IMAGE_BYTES];
static ucontext_t here, there;
static const input *current;
static plq_answer answered;
static size_t measured[CALLS], way_down;
static int wrong;

/* A function that is known to take KNOWN_BYTES and little more, to see that the measure is right. */
__attribute__((noinline)) static plq_answer take_known_bytes(void)
{
    volatile uint8_t bytes[KNOWN_BYTES];
    for (size_t i = 0; i < sizeof bytes; i++) bytes[i] = (uint8_t)i;
    return (plq_answer){bytes[0], 0, 0, 0};
}

__attribute__((noinline)) static plq_answer make_call(const input *in)
{
    switch (in->call) {
    case STRING_OF_PARENTS: return plq_string_of_parents(in->parents, in->n, bytes_written, in->room);
    case PARENTS_OF_STRING: return plq_parents_of_string(in->bytes, in->nbytes, in->bits, numbers_written, in->room);
    case IMAGE_OF_PARENTS: return plq_image_of_parents(in->parents, in->n, bytes_written, in->room);
    case IMAGE_WITH_METRES:
        return plq_image_with_metres(in->parents, in->n, metres, in->n, bytes_written, in->room);
    case PARENTS_OF_IMAGE: return plq_parents_of_image(in->bytes, in->nbytes, numbers_written, in->room);
    case METRES_OF_IMAGE: return plq_metres_of_image(in->bytes, in->nbytes, numbers_written, in->room);
    case CHECK_IMAGE: return plq_check_image(in->bytes, in->nbytes);
    case ASK: return plq_ask(in->bytes, in->nbytes, in->questions, in->numbers, numbers_written, in->room);
    case SPLIT:
        return plq_split(in->bytes, in->nbytes, in->bits, in->trees, numbers_written, in->room, more_numbers, in->room);
    case JOIN: return plq_join(bytes_written, in->room, in->bits, in->trees, in->parents, in->n);
    case LIST: return plq_list(in->bytes, in->nbytes, in->node, numbers_written, in->room);
    case PARENTS_OF_TEXT: return plq_parents_of_text(in->bytes, in->nbytes, numbers_written, in->room);
    case TEXT_OF_PARENTS: return plq_text_of_parents(in->parents, in->n, bytes_written, in->room);
    case KNOWN: return take_known_bytes();
    default: return (plq_answer){0, 0, 0, 0};
    }
}

static void make_current_call(void)
{
    answered = make_call(current);
}

static size_t deepest(const input *in, uint8_t paint)
{
    if (in->call == JOIN) memcpy(bytes_written, in->bytes, in->nbytes); /* it is joined to in its place */
    current = in;
    memset(stack, paint, STACK_BYTES);
    getcontext(&there);
    there.uc_stack.ss_sp = stack;
    there.uc_stack.ss_size = STACK_BYTES;
    there.uc_link = &here;
    makecontext(&there, make_current_call, 0);
    swapcontext(&here, &there);
    size_t unchanged = 0;
    while (stack[unchanged] == paint) unchanged++;
    return STACK_BYTES - unchanged;
}

/* The first time is not counted: in it the dynamic linker may look up memcpy and memset, on the same stack. There are
 * two paints, since a byte that is written with the value of the paint does not show. */
static size_t stack_of(const input *in)
{
    size_t most = 0;
    deepest(in, 0);
    for (int paint = 0x5A; paint <= 0xA5; paint += 0xA5 - 0x5A) {
        size_t depth = deepest(in, (uint8_t)paint);
        if (depth > most) most = depth;
    }
    return most;
}

static void measure(input in)
{
    size_t depth = stack_of(&in);
    if (answered.code != in.code) {
        printf("%s: ended with %u, not with %u\n", names[in.call], (unsigned)answered.code, (unsigned)in.code);
        wrong = 1;
    }
    if (depth - way_down > measured[in.call]) measured[in.call] = depth - way_down;
}

static void prepare(void)
{
    size_t page = (size_t)sysconf(_SC_PAGESIZE);
    uint8_t *block = mmap(NULL, page + STACK_BYTES, PROT_READ | PROT_WRITE, MAP_PRIVATE | MAP_ANONYMOUS, -1, 0);
    if (block == MAP_FAILED || mprotect(block, page, PROT_NONE) < 0) {
        perror("stack: memory");
        exit(2);
    }
    stack = block + page;
    way_down = stack_of(&(input){.call = NOTHING});
    size_t known = stack_of(&(input){.call = KNOWN}) - way_down;
    if (known < KNOWN_BYTES || known > KNOWN_BYTES + 256) {
        printf("the measure: %zu for a function that takes %d and little more\n", known, KNOWN_BYTES);
        wrong = 1;
    }
}

/* ---- Trees ---- */

static void make_path(uint32_t *parents, size_t n)
{
    for (size_t i = 0; i < n; i++) parents[i] = (uint32_t)i;
}

static void make_star(uint32_t *parents, size_t n)
{
    for (size_t i = 0; i < n; i++) parents[i] = i > 0;
}

/* Families of four: every node has four children, up to the last one that has some. */
static void make_fours(uint32_t *parents, size_t n)
{
    for (size_t i = 0; i < n; i++) parents[i] = (uint32_t)((i + 3) / 4);
}

/* So many levels, all below the root of about the same width, with three children to every third node. */
static void make_levels(uint32_t *parents, size_t n, size_t levels)
{
    size_t width = (n - 1) / (levels - 1), above = 1, above_width = 1, at = 1;
    parents[0] = 0;
    for (size_t level = 1; level < levels; level++) {
        size_t this_width = level == levels - 1 ? n - at : width;
        for (size_t i = 0; i < this_width; i++) {
            size_t parent = i / 3 * 3;
            parents[at + i] = (uint32_t)(above + (parent < above_width ? parent : above_width - 1));
        }
        above = at + 1;
        above_width = this_width;
        at += this_width;
    }
}

static void make_sixty_four_levels(uint32_t *parents, size_t n)
{
    make_levels(parents, n, LEVELS);
}

static void make_sixty_five_levels(uint32_t *parents, size_t n)
{
    make_levels(parents, n, LEVELS + 1);
}

/* ---- Inputs ---- */

static void ask_of(const uint8_t *image, size_t nbytes, size_t n, int with_metres)
{
    static int32_t questions[3 * PLQ_MOST_QUESTIONS];
    int32_t last_kind = with_metres ? PLQ_METRES : PLQ_SIBLING_AT;
    for (int32_t i = 0; i < PLQ_MOST_QUESTIONS; i++) {
        int32_t kind = 1 + i % last_kind;
        questions[3 * i] = kind;
        questions[3 * i + 1] = 1 + (int32_t)((size_t)i * 257 % n);
        questions[3 * i + 2] = kind == PLQ_CHILD_NUMBER || kind == PLQ_SIBLING_AT ? i % 5 - 1 : 0;
    }
    input in = {.call = ASK, .bytes = image, .nbytes = nbytes, .questions = questions, .room = PLQ_MOST_QUESTIONS};
    in.numbers = 3 * PLQ_MOST_QUESTIONS;
    measure(in);
    for (int32_t kind = PLQ_PARENT; kind <= last_kind; kind++) {
        const int32_t one_of_the_last[] = {kind, (int32_t)n, 0};
        in.questions = one_of_the_last;
        in.numbers = 3;
        measure(in);
    }
    in.questions = questions;
    in.numbers = 3 * PLQ_MOST_QUESTIONS;
    in.room--;
    in.code = PLQ_NO_ROOM;
    measure(in);
    questions[3 * PLQ_MOST_QUESTIONS - 2] = 0;
    in.code = PLQ_NOT_ALLOWED;
    measure(in);
}

/* Every call that reads an image, and must refuse it. */
static void refuse_image(const uint8_t *image, size_t nbytes, uint32_t code)
{
    for (enum call call = 0; call < CALLS; call++)
        if (call == PARENTS_OF_IMAGE || call == METRES_OF_IMAGE || call == CHECK_IMAGE || call == ASK || call == LIST)
            measure((input){.call = call, .bytes = image, .nbytes = nbytes, .node = 1, .room = 1, .code = code});
}

static void add_to_word(uint8_t *at, uint32_t number)
{
    for (int byte = 0; byte < 4; byte++, number >>= 8) {
        number += at[byte];
        at[byte] = (uint8_t)number;
    }
}

/* Adds to a word of a block and makes its sums right again: s grows by as much, and so does t with this word and with
 * each after it. */
static void add_and_mend(uint8_t *image, size_t block, uint32_t word, uint32_t number)
{
    uint8_t *at = image + PLQ_BLOCK_BYTES * block;
    add_to_word(at + 4 * word, number);
    add_to_word(at + 504, number);
    add_to_word(at + 508, (126 - word) * number);
}

/* Images that no tree gives, although their sums are right: for each code the last thing that can be wrong. */
static void refuse_faults(uint8_t *image, size_t nbytes, uint32_t n, uint32_t m)
{
    size_t last = nbytes / PLQ_BLOCK_BYTES - 1, last_of_r0 = (n + 3999) / 4000 + (n + 1 + 3999) / 4000;
    size_t last_of_samples = PLQ_IMAGE_BYTES(n, m) / PLQ_BLOCK_BYTES - 1;
    uint32_t last_bit = n % 4000, its_value = 0x80u >> last_bit % 8 << last_bit / 8 % 4 * 8; /* from 0 in its block */
    const struct {
        size_t block;
        uint32_t word, number, code;
    } faults[] = {
        {0, 0, 2, PLQ_OTHER_VERSION},
        {0, 125, 1, PLQ_WRONG_HEADER},
        {last_of_r0, 1 + last_bit / 32, 0 - its_value, PLQ_WRONG_STRINGS}, /* R0 without the one that ends it */
        {last_of_samples, 125, 1, PLQ_WRONG_COUNTS},                       /* the last word after the samples */
        {last, 125, 1, PLQ_WRONG_COUNTS},                                  /* and, where there are some, the metres */
        {last_of_samples, (m - 1) / 64 % 126, 1, PLQ_WRONG_SAMPLES},
    };
    for (size_t i = 0; i < sizeof faults / sizeof *faults; i++) {
        add_and_mend(image, faults[i].block, faults[i].word, faults[i].number);
        refuse_image(image, nbytes, faults[i].code);
        add_and_mend(image, faults[i].block, faults[i].word, 0 - faults[i].number);
    }
}

/* Every call that reads a right image: without metres, or with them, in which case all of them can be read back. */
static void read_image(uint8_t *image, plq_answer sealed, uint32_t listed, uint32_t code_of_listing, int with_metres)
{
    size_t bytes = plq_image_bytes(image), n = sealed.first;
    input read = {.call = PARENTS_OF_IMAGE, .bytes = image, .nbytes = bytes, .room = n};
    input read_metres = {.call = METRES_OF_IMAGE, .bytes = image, .nbytes = bytes, .room = n};
    input list = {.call = LIST, .bytes = image, .nbytes = bytes, .node = listed, .room = 2 * n};
    read_metres.code = with_metres ? PLQ_DONE : PLQ_NOT_ALLOWED;
    list.code = code_of_listing;
    measure(read);
    measure(read_metres);
    measure((input){.call = CHECK_IMAGE, .bytes = image, .nbytes = bytes});
    measure(list);
    ask_of(image, bytes, n, with_metres);
    read.room = n - 1;
    read.code = PLQ_NO_ROOM;
    measure(read);
    if (with_metres) {
        read_metres.room = n - 1;
        read_metres.code = PLQ_NO_ROOM;
        measure(read_metres);
    }
    if (code_of_listing == PLQ_DONE) {
        list.room = 1;
        list.code = PLQ_NO_ROOM;
        measure(list);
    }
    refuse_faults(image, bytes, sealed.first, sealed.second);
    add_to_word(image + bytes - 4, 1);
    refuse_image(image, bytes, PLQ_WRONG_SUMS);
}

static void seal_and_read(const uint32_t *parents, size_t n, uint32_t listed, uint32_t code_of_listing)
{
    static uint8_t image[PLQ_MOST_IMAGE_BYTES];
    for (int with_metres = 0; with_metres <= 1; with_metres++) {
        plq_answer sealed = with_metres ? plq_image_with_metres(parents, n, metres, n, image, sizeof image)
                                        : plq_image_of_parents(parents, n, image, sizeof image);
        input seal = {.call = with_metres ? IMAGE_WITH_METRES : IMAGE_OF_PARENTS, .parents = parents, .n = n};
        seal.room = PLQ_MOST_IMAGE_BYTES;
        measure(seal);
        if (sealed.code != PLQ_DONE) continue; /* it was not sealed, which has been said */
        seal.room = plq_image_bytes(image) - 1;
        seal.code = PLQ_NO_ROOM;
        measure(seal);
        read_image(image, sealed, listed, code_of_listing, with_metres);
    }
}

static void write_and_read(const uint32_t *parents, size_t n)
{
    static uint8_t string[PLQ_STRING_BYTES(PLQ_MOST_NODES)];
    size_t bits = PLQ_STRING_BITS(n), bytes = PLQ_STRING_BYTES(n);
    plq_answer made = plq_string_of_parents(parents, n, string, sizeof string);
    input write = {.call = STRING_OF_PARENTS, .parents = parents, .n = n, .room = bytes, .code = made.code};
    input read = {.call = PARENTS_OF_STRING, .bytes = string, .nbytes = bytes, .bits = bits, .room = n};
    input split = {.call = SPLIT, .bytes = string, .nbytes = bytes, .bits = bits, .trees = 1, .room = 1};
    measure(write);
    measure(read);
    measure(split);
    measure((input){.call = JOIN, .bytes = string, .parents = parents, .n = n, .room = bytes});
    write.room = read.room = split.room = 0;
    write.code = read.code = split.code = PLQ_NO_ROOM;
    measure(write);
    measure(read);
    measure(split);
    split.trees = 2;
    split.code = PLQ_OTHER_TREES;
    measure(split);
    string[bytes - 1] ^= 1; /* after the last bit: its number is odd */
    read.code = split.code = PLQ_LEFTOVER_SET;
    measure(read);
    measure(split);
    string[bytes - 1] ^= 1;
    string[(bits - 1) / 8] ^= (uint8_t)(0x80 >> (bits - 1) % 8);
    read.code = split.code = PLQ_NOT_STRING;
    measure(read);
    measure(split);
}

static size_t levels_of(const uint32_t *parents, size_t n)
{
    size_t levels = 1, first_of_level = 1;
    for (size_t node = 2; node <= n; node++)
        if (parents[node - 1] >= first_of_level) {
            levels++;
            first_of_level = node;
        }
    return levels;
}

static void read_text(const uint8_t *text, size_t nbytes, size_t room, uint32_t code)
{
    measure((input){.call = PARENTS_OF_TEXT, .bytes = text, .nbytes = nbytes, .room = room, .code = code});
}

/* The text of a tree, if it has one, written and read, with refusals at its very end: one bracket
 * more, one less, and a byte that is none. */
static void write_and_read_text(const uint32_t *parents, size_t n)
{
    static uint8_t text[PLQ_TEXT_BYTES(PLQ_MOST_NODES) + 1];
    size_t bytes = PLQ_TEXT_BYTES(n);
    input write = {.call = TEXT_OF_PARENTS, .parents = parents, .n = n, .room = bytes};
    write.code = levels_of(parents, n) <= LEVELS ? PLQ_DONE : PLQ_TOO_DEEP;
    measure(write);
    if (plq_text_of_parents(parents, n, text, bytes).code != PLQ_DONE) return;
    read_text(text, bytes, n, PLQ_DONE);
    write.room = bytes - 1;
    write.code = PLQ_NO_ROOM;
    measure(write);
    read_text(text, bytes, n - 1, PLQ_NO_ROOM);
    read_text(text, bytes - 1, n, PLQ_NOT_TEXT);
    text[bytes] = '(';
    read_text(text, bytes + 1, n, PLQ_NOT_TEXT);
    for (size_t at = bytes / 2; at < bytes; at += bytes / 8 + 1) {
        uint8_t right = text[at];
        text[at] = 'x';
        read_text(text, bytes, n, PLQ_NOT_TEXT);
        text[at] = right;
    }
}

/* Texts that no tree of at most 65,535 nodes gives: too many levels, whole or only opened, and too
 * many nodes, on a second level and on the last one. */
static void refuse_texts(void)
{
    enum { NODES = PLQ_MOST_NODES + 1 };
    static uint8_t text[PLQ_MOST_TEXT];
    memset(text, '(', sizeof text);
    read_text(text, LEVELS, PLQ_MOST_NODES, PLQ_NOT_TEXT);
    read_text(text, sizeof text, PLQ_MOST_NODES, PLQ_TOO_NESTED);
    memset(text + LEVELS + 1, ')', LEVELS + 1);
    read_text(text, 2 * (LEVELS + 1), PLQ_MOST_NODES, PLQ_TOO_NESTED);
    for (size_t above = 1; above < LEVELS; above += LEVELS - 2) {
        memset(text, '(', above);
        for (size_t i = 0; i < NODES - above; i++) memcpy(text + above + 2 * i, "()", 2);
        memset(text + 2 * NODES - above, ')', above);
        read_text(text, 2 * NODES, PLQ_MOST_NODES, PLQ_WRONG_SIZE);
    }
    memset(text, ' ', sizeof text);
    read_text(text, sizeof text, PLQ_MOST_NODES, PLQ_NOT_TEXT);
}

/* A list that is none only by its last entry. */
static void refuse_parents(uint32_t *parents, size_t n)
{
    static const uint8_t empty[1];
    uint32_t last = parents[n - 1];
    parents[n - 1] = (uint32_t)n;
    for (enum call call = 0; call < CALLS; call++)
        if (call == STRING_OF_PARENTS || call == IMAGE_OF_PARENTS || call == IMAGE_WITH_METRES || call == JOIN ||
            call == TEXT_OF_PARENTS)
            measure((input){.call = call, .parents = parents, .n = n, .bytes = empty, .room = PLQ_MOST_IMAGE_BYTES,
                            .code = PLQ_NOT_PARENTS});
    parents[n - 1] = last;
}

static void use_tree(void (*make)(uint32_t *parents, size_t n), size_t n, uint32_t listed, uint32_t code_of_listing)
{
    static uint32_t parents[PLQ_MOST_NODES];
    make(parents, n);
    seal_and_read(parents, n, listed, code_of_listing);
    write_and_read(parents, n);
    write_and_read_text(parents, n);
    refuse_parents(parents, n);
}

/* As many trees as there may be, of n nodes each: split, and the last one joined to the others. */
static void use_pack(void (*make)(uint32_t *parents, size_t n), size_t n)
{
    static uint8_t pack[PLQ_BYTES_OF_BITS(PLQ_MOST_BITS)], all_but_one[sizeof pack];
    uint32_t parents[PLQ_MOST_NODES / PLQ_MOST_TREES];
    size_t bits = 0, bits_of_one = PLQ_STRING_BITS(n);
    make(parents, n);
    for (size_t tree = 0; tree < PLQ_MOST_TREES; tree++) {
        memcpy(all_but_one, pack, sizeof pack);
        bits = plq_join(pack, sizeof pack, bits, tree, parents, n).first;
    }
    input split = {.call = SPLIT, .bytes = pack, .nbytes = PLQ_BYTES_OF_BITS(bits), .bits = bits};
    split.trees = split.room = PLQ_MOST_TREES;
    input join = {.call = JOIN, .bytes = all_but_one, .nbytes = sizeof pack, .bits = bits - bits_of_one};
    join.trees = PLQ_MOST_TREES - 1;
    join.parents = parents;
    join.n = n;
    join.room = sizeof pack;
    measure(split);
    measure(join);
    split.trees--;
    join.trees--;
    split.code = join.code = PLQ_OTHER_TREES;
    measure(split);
    measure(join);
}

static void use_all(void)
{
    static const size_t sizes[] = {PLQ_MOST_NODES, 5000, 200};
    for (size_t i = 0; i < PLQ_MOST_NODES; i++) metres[i] = (uint32_t)(UINT32_MAX - i);
    use_tree(make_path, 1, 1, PLQ_DONE);
    use_tree(make_path, LEVELS, 1, PLQ_DONE);
    use_tree(make_path, PLQ_MOST_NODES, PLQ_MOST_NODES - LEVELS + 1, PLQ_DONE);
    use_tree(make_path, PLQ_MOST_NODES, 1, PLQ_TOO_DEEP);
    for (size_t i = 0; i < sizeof sizes / sizeof *sizes; i++) {
        use_tree(make_star, sizes[i], 1, PLQ_DONE);
        use_tree(make_fours, sizes[i], 1, PLQ_DONE);
        use_tree(make_sixty_four_levels, sizes[i], 1, PLQ_DONE);
        use_tree(make_sixty_five_levels, sizes[i], 1, PLQ_TOO_DEEP);
    }
    use_pack(make_path, 1);
    use_pack(make_path, 255);
    use_pack(make_fours, 255);
    refuse_image(bytes_written, PLQ_MOST_IMAGE_BYTES + 1, PLQ_WRONG_SIZE);
    refuse_texts();
}

/* ---- Claims ---- */

static void compare(enum call call, size_t claimed)
{
    if (measured[call] > claimed)
        printf("%s takes more than is claimed\n", names[call]);
    else if (3 * measured[call] > 2 * claimed)
        printf("%s: the claim is less than one and a half times what was measured\n", names[call]);
    else
        return;
    wrong = 1;
}

int main(int words, char **word)
{
    size_t claimed[CALLS] = {0};
    for (int i = 1; i < words; i += 2) {
        enum call call = 0;
        while (call < CALLS && strcmp(word[i], names[call]) != 0) call++;
        char *end = NULL;
        if (call < CALLS && i + 1 < words) claimed[call] = strtoul(word[i + 1], &end, 10);
        if (!end || end == word[i + 1] || *end) {
            fputs("usage: stack CALL BYTES [CALL BYTES ..]\n", stderr);
            return 2;
        }
    }
    prepare();
    use_all();
    for (enum call call = 0; call < CALLS; call++) printf("%s %zu %zu\n", names[call], measured[call], claimed[call]);
    for (enum call call = 0; call < CALLS; call++) {
        if (claimed[call] > 0) {
            compare(call, claimed[call]);
        } else {
            printf("%s: nothing is claimed\n", names[call]);
            wrong = 1;
        }
    }
    return wrong;
}
