/* Each of the thirteen calls once through the header, done, and one refusal: with lists and numbers that are all
 * different, so that two parameters of a call, or two fields of the answer, that the header had in another order than
 * the library would give other answers or other lists. tests/order.sh compiles it with every such exchange and expects
 * that it is seen. It is not among the examples, since it shows nobody how to use the calls.
 *
 * What is expected is that of docs/FORMAT.md: T has parents 0 1 1 1 2 2 4, string 101110110010000 (bytes BB 20) and
 * m = 4, its metres are 10 20 .. 70, and its text is ((()())()(())); the path 0 1 2 has string 1010100.
 * Exit status: 0 if all is as expected. */
#include <parlaqen.h>
#include <stdio.h>
#include <string.h>

/* Every list is far longer than it is said to be: a length that comes from the wrong place does no harm before that.
 * What no call writes keeps the value 0xEE in every byte. */
enum { ROOM = 4096 };
static uint8_t image[ROOM], with_metres[ROOM], pack[ROOM];
static uint32_t parents[ROOM], metres[ROOM], first_list[ROOM], second_list[ROOM];
static int32_t questions[ROOM];

static int wrong;

static void expect(const char *what, int as_expected)
{
    if (as_expected) return;
    printf("%s: not as docs/FORMAT.md has it\n", what);
    wrong = 1;
}

static int answers(plq_answer answer, uint32_t code, uint32_t place, uint32_t first, uint32_t second)
{
    return answer.code == code && answer.place == place && answer.first == first && answer.second == second;
}

/* Has each block of an image these two sums at its end? */
static int has_sums(const uint8_t *blocks, const uint32_t (*sums)[2], size_t count)
{
    for (size_t block = 0; block < count; block++)
        if (memcmp(blocks + 512 * block + 504, sums[block], 8) != 0) return 0;
    return 1;
}

/* Does `list` begin with these numbers, and is what follows them as it was? */
static int has(const void *list, const void *numbers, size_t bytes)
{
    uint8_t kept[16];
    memset(kept, 0xEE, sizeof kept);
    return memcmp(list, numbers, bytes) == 0 && memcmp((const uint8_t *)list + bytes, kept, sizeof kept) == 0;
}

static void afresh(void)
{
    memset(first_list, 0xEE, sizeof first_list);
    memset(second_list, 0xEE, sizeof second_list);
    memset(pack, 0xEE, sizeof pack);
}

int main(void)
{
    static const uint32_t t[] = {0, 1, 1, 1, 2, 2, 4}, no_list[] = {0, 1, 2, 1}, path[] = {0, 1, 2};
    static const uint8_t string_of_t[] = {0xBB, 0x20};
    static const uint8_t t_and_one[] = {0xBB, 0x21, 0x00}, t_and_path[] = {0xBB, 0x21, 0x50};
    static const char text_of_t[] = "((()())()(()))";
    static const int32_t asked[] = {PLQ_PARENT, 7, 0, PLQ_CHILD_NUMBER, 2, 2};
    static const uint32_t metres_of_t[] = {10, 20, 30, 40, 50, 60, 70};
    static const uint32_t sums[][2] = {{17, 2112}, {151, 18876}, {211, 26377}, {4, 504}, {5, 630}};
    static const uint32_t sums_with_metres[][2] = {{19, 2361}, {151, 18876}, {211, 26377},
                                                   {4, 504},   {5, 630},     {285, 34790}};
    static const uint32_t answered[] = {4, 6}, listed[] = {2, 0, 5, 1, 6, 1}, starts[] = {1, 16}, sizes[] = {7, 1};
    memset(image, 0xEE, sizeof image);
    memset(with_metres, 0xEE, sizeof with_metres);
    memset(parents, 0xEE, sizeof parents);
    memset(metres, 0xEE, sizeof metres);
    memset(questions, 0xEE, sizeof questions);
    memcpy(parents, t, sizeof t);
    memcpy(metres, metres_of_t, sizeof metres_of_t);
    memcpy(questions, asked, sizeof asked);

    afresh();
    expect("plq_string_of_parents", answers(plq_string_of_parents(parents, 7, pack, 5), PLQ_DONE, 0, 15, 1));
    expect("its string", has(pack, string_of_t, sizeof string_of_t));

    expect("plq_parents_of_string", answers(plq_parents_of_string(pack, 2, 15, first_list, 9), PLQ_DONE, 0, 7, 0));
    expect("its parents", has(first_list, t, sizeof t));

    expect("plq_image_of_parents", answers(plq_image_of_parents(parents, 7, image, 3000), PLQ_DONE, 0, 7, 4));
    expect("its sums", has_sums(image, sums, 5));

    plq_answer sealed = plq_image_with_metres(parents, 7, metres, 7, with_metres, 3500);
    expect("plq_image_with_metres", answers(sealed, PLQ_DONE, 0, 7, 4));
    expect("its sums", has_sums(with_metres, sums_with_metres, 6));

    afresh();
    expect("plq_parents_of_image", answers(plq_parents_of_image(image, 2560, first_list, 9), PLQ_DONE, 0, 7, 0));
    expect("its parents", has(first_list, t, sizeof t));

    afresh();
    expect("plq_metres_of_image", answers(plq_metres_of_image(with_metres, 3072, first_list, 9), PLQ_DONE, 0, 7, 0));
    expect("its metres", has(first_list, metres_of_t, sizeof metres_of_t));

    expect("plq_check_image", answers(plq_check_image(image, 2560), PLQ_DONE, 0, 7, 4));

    afresh();
    expect("plq_ask", answers(plq_ask(image, 2560, questions, 6, first_list, 3), PLQ_DONE, 0, 2, 0));
    expect("its answers", has(first_list, answered, sizeof answered));

    afresh();
    memcpy(pack, t_and_one, sizeof t_and_one); /* T's string and 100 */
    expect("plq_split", answers(plq_split(pack, 3, 18, 2, first_list, 5, second_list, 6), PLQ_DONE, 0, 18, 2));
    expect("its starts", has(first_list, starts, sizeof starts));
    expect("its sizes", has(second_list, sizes, sizeof sizes));

    afresh();
    memcpy(pack, string_of_t, sizeof string_of_t);
    memcpy(first_list, path, sizeof path);
    expect("plq_join", answers(plq_join(pack, 8, 15, 1, first_list, 3), PLQ_DONE, 0, 22, 2));
    expect("its pack", has(pack, t_and_path, sizeof t_and_path));

    afresh();
    expect("plq_list", answers(plq_list(image, 2560, 2, first_list, 7), PLQ_DONE, 0, 3, 0));
    expect("its pairs", has(first_list, listed, sizeof listed));

    afresh();
    expect("plq_text_of_parents", answers(plq_text_of_parents(parents, 7, pack, 20), PLQ_DONE, 0, 14, 0));
    expect("its text", has(pack, text_of_t, 14));

    expect("plq_parents_of_text", answers(plq_parents_of_text(pack, 14, first_list, 9), PLQ_DONE, 0, 7, 0));
    expect("its parents", has(first_list, t, sizeof t));

    memcpy(first_list, no_list, sizeof no_list);
    expect("a refusal", answers(plq_string_of_parents(first_list, 4, pack, 5), PLQ_NOT_PARENTS, 4, 0, 0));
    return wrong;
}
