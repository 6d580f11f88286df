/* What the header adds to the library, beside what the library takes and gives: each size is exactly enough, and one
 * less is refused; the number of blocks is read from a whole word; questions are counted as questions; each code has a
 * text. Exit status: 0 if all is as expected. */
#include <parlaqen.h>
#include <stdio.h>
#include <string.h>

/* Constant expressions, and the values that docs/FORMAT.md has for them. */
static uint32_t parents[PLQ_MOST_NODES], back[PLQ_MOST_NODES], pairs[PLQ_LISTING_NUMBERS(PLQ_MOST_NODES)];
static uint32_t metres[PLQ_MOST_NODES];
static uint8_t image[PLQ_IMAGE_ROOM(PLQ_MOST_NODES)], string[PLQ_STRING_BYTES(PLQ_MOST_NODES)];
static uint8_t text[PLQ_TEXT_BYTES(PLQ_MOST_NODES)], long_text[1048576 + 1];
static uint8_t with_metres[PLQ_IMAGE_ROOM(PLQ_MOST_NODES) + PLQ_METRES_BYTES(PLQ_MOST_NODES)];
_Static_assert(PLQ_IMAGE_BYTES(1, 1) == 2560, "the smallest image");
_Static_assert(PLQ_IMAGE_BYTES(3999, 2) == 2560 && PLQ_IMAGE_BYTES(4000, 2) == 3072, "R0 has one bit more than R1");
_Static_assert(PLQ_IMAGE_BYTES(4001, 2) == 3584, "R1 goes on in another block");
_Static_assert(PLQ_IMAGE_BYTES(8064, 8064) == 4608 && PLQ_IMAGE_BYTES(8065, 8065) == 5632, "127 samples of each");
_Static_assert(PLQ_IMAGE_BYTES(65535, 2) == 18944 && PLQ_IMAGE_BYTES(65535, 65535) == 27136, "65,535 nodes");
_Static_assert(PLQ_IMAGE_ROOM(PLQ_MOST_NODES) == PLQ_MOST_TREE_IMAGE_BYTES, "the largest image without metres");
_Static_assert(PLQ_METRES_BYTES(126) == 512 && PLQ_METRES_BYTES(127) == 1024, "126 metres to a block");
_Static_assert(PLQ_METRES_BYTES(PLQ_MOST_NODES) == 266752, "the most metres");
_Static_assert(sizeof with_metres == PLQ_MOST_IMAGE_BYTES && PLQ_MOST_IMAGE_BYTES == 293888, "the largest image");
_Static_assert(PLQ_STRING_BITS(7) == 15 && PLQ_STRING_BYTES(7) == 2, "the string of T");
_Static_assert(PLQ_STRING_BITS(PLQ_MOST_NODES) == PLQ_MOST_BITS, "the longest string");
_Static_assert(PLQ_BYTES_OF_BITS(0) == 0 && PLQ_BYTES_OF_BITS(8) == 1 && PLQ_BYTES_OF_BITS(9) == 2, "whole bytes");
_Static_assert(PLQ_BYTES_OF_BITS(SIZE_MAX) == SIZE_MAX / 8 + 1, "no sum wraps");
_Static_assert(PLQ_TEXT_BYTES(7) == 14 && PLQ_TEXT_BYTES(PLQ_MOST_NODES) == 131070, "two brackets a node");
_Static_assert(PLQ_NOT_TEXT == 16 && PLQ_TOO_NESTED == 17, "the codes of a text");
_Static_assert(sizeof(PLQ_IMAGE_BYTES(1, 1)) == sizeof(size_t), "the type of a size");
_Static_assert(sizeof(plq_question) == 3 * sizeof(int32_t) && sizeof(plq_answer) == 4 * sizeof(uint32_t), "no gaps");

static int wrong;

static void expect(const char *what, size_t n, size_t m, int as_expected)
{
    if (as_expected) return;
    if (wrong++ < 10) printf("%s: not as the library has it, for n %zu and m %zu\n", what, n, m);
}

/* A tree of n nodes, m - 1 of them with children: a path that ends in a node with all the rest below it. */
static void make_tree(size_t n, size_t m)
{
    parents[0] = 0;
    for (size_t node = 2; node <= n; node++) parents[node - 1] = (uint32_t)(node - 1 < m - 1 ? node - 1 : m - 1);
}

/* A size that is not what it should be is seen by what it is compared with, and leads to no access outside. */
static size_t at_most(size_t size, size_t most) { return size < most ? size : most; }

static void try_image(size_t n, size_t m)
{
    size_t size = PLQ_IMAGE_BYTES(n, m);
    expect("PLQ_IMAGE_ROOM", n, m, size <= PLQ_IMAGE_ROOM(n) && PLQ_IMAGE_ROOM(n) == PLQ_IMAGE_BYTES(n, n));
    memset(image, 0xEE, sizeof image);
    plq_answer sealed = plq_image_of_parents(parents, n, image, at_most(size, sizeof image));
    expect("PLQ_IMAGE_BYTES is enough", n, m, sealed.code == PLQ_DONE && sealed.first == n && sealed.second == m);
    if (sealed.code != PLQ_DONE) return;
    expect("plq_image_bytes", n, m, plq_image_bytes(image) == PLQ_IMAGE_BYTES(sealed.first, sealed.second));
    expect("the check", n, m, plq_check_image(image, size).code == PLQ_DONE);
    expect("a byte less", n, m, plq_image_of_parents(parents, n, image, size - 1).code == PLQ_NO_ROOM);
}

/* The same with metres: all of it is as large as said, they come back, and they are what PLQ_METRES asks for. */
static void try_metres(size_t n, size_t m)
{
    size_t size = at_most(PLQ_IMAGE_BYTES(n, m) + PLQ_METRES_BYTES(n), sizeof with_metres);
    plq_question of_the_last = {PLQ_METRES, (int32_t)n, 0};
    uint32_t answer = 0;
    for (size_t i = 0; i < n; i++) metres[i] = (uint32_t)(i * 2654435761u); /* all of the 32 bits are used */
    memset(with_metres, 0xEE, size);
    plq_answer sealed = plq_image_with_metres(parents, n, metres, n, with_metres, size);
    expect("PLQ_METRES_BYTES is enough", n, m, sealed.code == PLQ_DONE && sealed.first == n && sealed.second == m);
    if (sealed.code != PLQ_DONE) return;
    expect("plq_image_bytes with metres", n, m, plq_image_bytes(with_metres) == size);
    plq_answer read = plq_metres_of_image(with_metres, size, back, n);
    expect("metres read back", n, m, read.code == PLQ_DONE && memcmp(metres, back, n * sizeof *back) == 0);
    plq_answer asked = plq_ask_questions(with_metres, size, &of_the_last, 1, &answer, 1);
    expect("PLQ_METRES", n, m, asked.code == PLQ_DONE && answer == metres[n - 1]);
    plq_answer less = plq_image_with_metres(parents, n, metres, n, with_metres, size - 1);
    expect("a byte less with metres", n, m, less.code == PLQ_NO_ROOM);
    /* with no room the code tells whether there are metres */
    expect("no room for metres", n, m, plq_metres_of_image(with_metres, size, NULL, 0).code == PLQ_NO_ROOM);
    plq_answer none = plq_metres_of_image(image, plq_image_bytes(image), NULL, 0);
    expect("no metres", n, m, none.code == PLQ_NOT_ALLOWED && none.place == 1);
    asked = plq_ask_questions(image, plq_image_bytes(image), &of_the_last, 1, &answer, 1);
    expect("PLQ_METRES where there are none", n, m, asked.code == PLQ_NOT_ALLOWED && asked.place == 1);
}

static void try_string(size_t n, size_t m)
{
    size_t bits = PLQ_STRING_BITS(n), bytes = PLQ_STRING_BYTES(n);
    plq_answer made = plq_string_of_parents(parents, n, string, at_most(bytes, sizeof string));
    expect("PLQ_STRING_BITS, PLQ_STRING_BYTES", n, m, made.code == PLQ_DONE && made.first == bits);
    expect("a byte less", n, m, plq_string_of_parents(parents, n, string, bytes - 1).code == PLQ_NO_ROOM);
    plq_answer read = plq_parents_of_string(string, PLQ_BYTES_OF_BITS(bits), bits, back, n);
    expect("PLQ_BYTES_OF_BITS", n, m, read.code == PLQ_DONE && memcmp(parents, back, n * sizeof *back) == 0);
    size_t less = PLQ_BYTES_OF_BITS(bits) - 1;
    expect("a byte less", n, m, plq_parents_of_string(string, less, bits, back, n).code == PLQ_WRONG_SIZE);
}

static void try_listing(size_t n, size_t m)
{
    size_t numbers = PLQ_LISTING_NUMBERS(n), bytes = plq_image_bytes(image);
    plq_answer listed = plq_list(image, bytes, 1, pairs, at_most(numbers, sizeof pairs / sizeof *pairs));
    expect("PLQ_LISTING_NUMBERS", n, m, listed.code == PLQ_DONE && listed.first == n);
    expect("a number less", n, m, plq_list(image, bytes, 1, pairs, numbers - 1).code == PLQ_NO_ROOM);
}

/* Of the trees here, which have m levels, those of at most 64 have a text; of others node 65 is the
 * first at depth 64. */
static void try_text(size_t n, size_t m)
{
    size_t bytes = PLQ_TEXT_BYTES(n), room = at_most(bytes, sizeof text);
    plq_answer made = plq_text_of_parents(parents, n, text, room);
    if (m > 64) {
        expect("PLQ_TOO_DEEP of a text", n, m, made.code == PLQ_TOO_DEEP && made.place == 65);
        return;
    }
    expect("PLQ_TEXT_BYTES", n, m, made.code == PLQ_DONE && made.first == bytes && made.second == 0);
    expect("a byte less", n, m, plq_text_of_parents(parents, n, text, bytes - 1).code == PLQ_NO_ROOM);
    plq_answer read = plq_parents_of_text(text, room, back, n);
    expect("the text read back", n, m, read.code == PLQ_DONE && read.first == n && read.second == 0);
    expect("its parents", n, m, memcmp(parents, back, n * sizeof *back) == 0);
    expect("a number less", n, m, plq_parents_of_text(text, room, back, n - 1).code == PLQ_NO_ROOM);
    read = plq_parents_of_text(text, room - 1, back, n);
    expect("PLQ_NOT_TEXT", n, m, read.code == PLQ_NOT_TEXT && read.place == room);
}

/* The longest text, most of it blanks, and one a byte longer; and one that opens a level too many.
 * */
static void try_long_texts(void)
{
    const size_t most = sizeof long_text - 1;
    memset(long_text, ' ', most + 1);
    memcpy(long_text + most - 2, "()", 2);
    plq_answer read = plq_parents_of_text(long_text, at_most(PLQ_MOST_TEXT, most), back, 1);
    expect("PLQ_MOST_TEXT", most, 0, PLQ_MOST_TEXT == most && read.code == PLQ_DONE && read.first == 1);
    read = plq_parents_of_text(long_text, most + 1, back, 1);
    expect("a text of a byte more", most + 1, 0, read.code == PLQ_WRONG_SIZE && read.place == 0);
    memset(long_text, '(', 65);
    read = plq_parents_of_text(long_text, 65, back, PLQ_MOST_NODES);
    expect("PLQ_TOO_NESTED", 65, 0, read.code == PLQ_TOO_NESTED && read.place == 65);
}

static void try_tree(size_t n, size_t m)
{
    if (n > PLQ_MOST_NODES || m > n || (n > 1 && m < 2)) return;
    make_tree(n, m);
    try_string(n, m);
    try_image(n, m);
    if (m <= 2 || m == n) try_metres(n, m); /* their bytes do not depend on m */
    if (m <= 64) try_listing(n, m);
    try_text(n, m);
}

/* Every n up to 300 with every m, and n and m around each number at which an image gets another block. */
static void try_trees(void)
{
    for (size_t n = 1; n <= 300; n++)
        for (size_t m = 1; m <= n; m++) try_tree(n, m);
    for (size_t block = 0; block <= 17; block++)
        for (size_t n = 4000 * block; n <= 4000 * block + 2; n++)
            for (size_t samples = 0; samples <= 9; samples++)
                for (size_t m = 8064 * samples; m <= 8064 * samples + 2; m++)
                    if (n > 300) try_tree(n, m);
    for (size_t metre_blocks = 3; metre_blocks <= 520; metre_blocks += 47)
        for (size_t n = 126 * metre_blocks - 1; n <= 126 * metre_blocks + 1; n++) try_tree(n, 2);
    for (size_t n = PLQ_MOST_NODES - 1; n <= PLQ_MOST_NODES; n++)
        for (size_t m = 2; m <= n; m += 8063) try_tree(n, m);
    try_tree(PLQ_MOST_NODES, PLQ_MOST_NODES);
}

/* The number of blocks is a whole word, whatever it says. */
static void try_words(void)
{
    static const uint32_t blocks[] = {0, 5, 53, 255, 256, 574, 65536, 0x01020304, UINT32_MAX};
    for (size_t i = 0; i < sizeof blocks / sizeof *blocks; i++) {
        memset(image, 0xEE, 20);
        for (int byte = 0; byte < 4; byte++) image[12 + byte] = (uint8_t)(blocks[i] >> 8 * byte);
        expect("plq_image_bytes of the whole word", blocks[i], 0, plq_image_bytes(image) == 512 * (size_t)blocks[i]);
    }
}

/* plq_ask counts numbers: told 3, it takes one question and gives one answer, although more are there.
 * plq_ask_questions counts questions: told 3, it gives three answers. */
static void try_questions(void)
{
    enum { COUNT = PLQ_MOST_QUESTIONS + 1 };
    static plq_question questions[COUNT];
    static const size_t counts[] = {0, 1, 2, 3, 255, 256, 257, 258, 768, SIZE_MAX / 3, SIZE_MAX / 3 + 1, SIZE_MAX};
    make_tree(1000, 300);
    plq_answer sealed = plq_image_of_parents(parents, 1000, image, sizeof image);
    expect("sealing", 1000, 300, sealed.code == PLQ_DONE);
    for (int32_t i = 0; i < COUNT; i++) questions[i] = (plq_question){PLQ_PARENT, i + 2, 0};
    for (size_t i = 0; i < sizeof counts / sizeof *counts; i++) {
        uint32_t answers[COUNT];
        memset(answers, 0xEE, sizeof answers);
        plq_answer done = plq_ask_questions(image, plq_image_bytes(image), questions, counts[i], answers, COUNT);
        size_t right = 0, kept = 0;
        while (right < COUNT && answers[right] == right + 1) right++;
        while (right + kept < COUNT && answers[right + kept] == 0xEEEEEEEE) kept++;
        size_t wanted = counts[i] <= PLQ_MOST_QUESTIONS ? counts[i] : 0;
        uint32_t code = counts[i] <= PLQ_MOST_QUESTIONS ? PLQ_DONE : PLQ_WRONG_SIZE;
        expect("plq_ask_questions", counts[i], 0, done.code == code && done.first == wanted && right == wanted);
        expect("answers after the last one", counts[i], 0, right + kept == COUNT);
    }
    uint32_t answers[3] = {0};
    plq_answer one = plq_ask(image, plq_image_bytes(image), &questions[0].kind, 3, answers, 3);
    expect("plq_ask with 3", 3, 0, one.code == PLQ_DONE && one.first == 1 && answers[0] == 1 && answers[1] == 0);
}

static int same_text(uint32_t code, uint32_t other) { return strcmp(plq_code_text(code), plq_code_text(other)) == 0; }

/* Each code has a text of its own, and all numbers that are no code have one; 7 is none, since it is retired. */
static void try_texts(void)
{
    static const uint32_t unknown[] = {7, 18, 19, 99, 255, 256, 1u << 16, 1u << 31, UINT32_MAX};
    for (uint32_t code = PLQ_DONE; code <= PLQ_TOO_NESTED; code++) {
        if (code == 7) continue;
        expect("a text", code, 0, plq_code_text(code)[0] != '\0' && !same_text(code, UINT32_MAX));
        for (uint32_t other = PLQ_DONE; other < code; other++)
            expect("two texts", code, other, !same_text(code, other));
    }
    for (size_t i = 0; i < sizeof unknown / sizeof *unknown; i++)
        expect("no code", unknown[i], 0, same_text(unknown[i], UINT32_MAX));
}

static void try_version(void)
{
    char version[32];
    snprintf(version, sizeof version, "%d.%d.%d", PLQ_VERSION_MAJOR, PLQ_VERSION_MINOR, PLQ_VERSION_PATCH);
    expect("PLQ_VERSION_STRING", 0, 0, strcmp(version, PLQ_VERSION_STRING) == 0);
}

int main(void)
{
    try_trees();
    try_long_texts();
    try_words();
    try_questions();
    try_texts();
    try_version();
    return wrong != 0;
}
