/* Sixteen threads use one sealed image at the same time: each asks, lists, checks and reads parents and metres back,
 * into lists of its own, and compares with what it was made of. In between each seals, joins and splits data of its
 * own, and writes it as text and reads it.
 *
 *     threads [ROUNDS]     how often each thread does all of it
 *
 * Nothing is kept between calls and nothing is allocated, says the header, so all of it must come out as in one thread.
 * It prints a line for each thing that is not as expected. Exit status: 0 if there was none. */
#define _DEFAULT_SOURCE /* pthread_barrier_t */
#include <parlaqen.h>
#include <pthread.h>
#include <stdio.h>
#include <stdlib.h>
#include <string.h>

enum { THREADS = 16, NODES = 60000, OWN_NODES = 3000, PACKED = 8, ROUNDS = 400 };

/* The tree that all of them read. What is expected of it is made here from the two lists alone, before they start. */
static uint32_t parents[NODES], metres[NODES];
static uint32_t first_child[NODES + 2];             /* by node; where it has none, the node that would come there */
static uint32_t listing[2 * NODES];                 /* of the root */
static uint32_t place[NODES + 1], below[NODES + 1]; /* by node: its place in the listing, how many are below it */
static uint8_t image[PLQ_IMAGE_ROOM(NODES) + PLQ_METRES_BYTES(NODES)];
static size_t image_bytes;
static uint32_t nodes_with_children;

static unsigned rounds = ROUNDS;
static pthread_barrier_t start;

/* What one thread writes. */
struct worker {
    uint64_t chance;
    unsigned number;
    int wrong;
    pthread_t thread;
    int32_t questions[3 * PLQ_MOST_QUESTIONS];
    uint32_t answers[PLQ_MOST_QUESTIONS], expected[PLQ_MOST_QUESTIONS];
    uint32_t pairs[2 * NODES], read_back[NODES];
    uint32_t own_parents[OWN_NODES], own_metres[OWN_NODES];
    uint8_t own_image[PLQ_IMAGE_ROOM(OWN_NODES) + PLQ_METRES_BYTES(OWN_NODES)];
    uint8_t own_string[PLQ_STRING_BYTES(OWN_NODES)], own_text[PLQ_TEXT_BYTES(OWN_NODES)];
    uint8_t pack[PLQ_BYTES_OF_BITS(PACKED * PLQ_STRING_BITS(OWN_NODES))];
};

static void expect(struct worker *worker, const char *what, int as_expected)
{
    if (as_expected) return;
    printf("thread %u: %s: not as expected\n", worker->number, what);
    worker->wrong = 1;
}

static int answers(plq_answer answer, uint32_t first, uint32_t second)
{
    return answer.code == PLQ_DONE && answer.place == 0 && answer.first == first && answer.second == second;
}

/* splitmix64: the same numbers in every run */
static uint32_t number_below(uint64_t *chance, uint32_t limit)
{
    uint64_t x = *chance += UINT64_C(0x9E3779B97F4A7C15);
    x = (x ^ x >> 30) * UINT64_C(0xBF58476D1CE4E5B9);
    x = (x ^ x >> 27) * UINT64_C(0x94D049BB133111EB);
    return (uint32_t)((x ^ x >> 31) % limit);
}

/* A bushy tree: families of some six, with leaves between them. */
static void make_parents(uint64_t *chance, uint32_t *list, uint32_t n)
{
    list[0] = 0;
    for (uint32_t i = 1; i < n; i++) {
        list[i] = i == 1 ? 1 : list[i - 1] + (number_below(chance, 6) == 0 ? 1 + number_below(chance, 2) : 0);
        if (list[i] > i) list[i] = i;
    }
}

static void make_metres(uint64_t *chance, uint32_t *list, uint32_t n)
{
    for (uint32_t i = 0; i < n; i++) list[i] = number_below(chance, UINT32_MAX);
}

static uint32_t degree(uint32_t node)
{
    return first_child[node + 1] - first_child[node];
}

/* Writes `node` and everything below it from place `at` on, and gives the place after them. */
static uint32_t make_listing(uint32_t node, uint32_t depth, uint32_t at)
{
    place[node] = at;
    listing[2 * at] = node;
    listing[2 * at + 1] = depth;
    uint32_t next = at + 1;
    for (uint32_t child = first_child[node]; child < first_child[node + 1]; child++)
        next = make_listing(child, depth + 1, next);
    below[node] = next - at - 1;
    return next;
}

static void make_shared_tree(void)
{
    uint64_t chance = 1;
    make_parents(&chance, parents, NODES);
    make_metres(&chance, metres, NODES);
    for (uint32_t node = 1, child = 2; node <= NODES + 1; node++) {
        while (child <= NODES && parents[child - 1] < node) child++;
        first_child[node] = child;
    }
    for (uint32_t node = 1; node <= NODES; node++) nodes_with_children += degree(node) > 0;
    make_listing(1, 0, 0);
}

static uint32_t answer_by_lists(int32_t kind, uint32_t node, int32_t argument)
{
    uint32_t parent = parents[node - 1], eldest = node == 1 ? 1 : first_child[parent];
    uint32_t youngest = node == 1 ? 1 : first_child[parent + 1] - 1;
    int64_t sibling = (int64_t)node + argument;
    switch (kind) {
    case PLQ_PARENT: return parent;
    case PLQ_FIRST_CHILD: return degree(node) > 0 ? first_child[node] : 0;
    case PLQ_LAST_CHILD: return degree(node) > 0 ? first_child[node + 1] - 1 : 0;
    case PLQ_NEXT_SIBLING: return node < youngest ? node + 1 : 0;
    case PLQ_PREVIOUS_SIBLING: return node > eldest ? node - 1 : 0;
    case PLQ_DEGREE: return degree(node);
    case PLQ_CHILD_RANK: return node == 1 ? 0 : node - eldest + 1;
    case PLQ_CHILD_NUMBER:
        return argument >= 1 && (uint32_t)argument <= degree(node) ? first_child[node] + (uint32_t)argument - 1 : 0;
    case PLQ_LEAF: return degree(node) == 0;
    case PLQ_METRES: return metres[node - 1];
    default: return sibling >= eldest && sibling <= youngest ? (uint32_t)sibling : 0;
    }
}

static void ask(struct worker *worker)
{
    for (size_t i = 0; i < PLQ_MOST_QUESTIONS; i++) {
        int32_t kind = 1 + (int32_t)number_below(&worker->chance, PLQ_METRES), argument = 0;
        uint32_t node = 1 + number_below(&worker->chance, NODES);
        if (kind == PLQ_CHILD_NUMBER || kind == PLQ_SIBLING_AT)
            argument = (int32_t)number_below(&worker->chance, 9) - 4;
        worker->questions[3 * i] = kind;
        worker->questions[3 * i + 1] = (int32_t)node;
        worker->questions[3 * i + 2] = argument;
        worker->expected[i] = answer_by_lists(kind, node, argument);
    }
    plq_answer asked = plq_ask(image, image_bytes, worker->questions, 3 * PLQ_MOST_QUESTIONS, worker->answers,
                               PLQ_MOST_QUESTIONS);
    expect(worker, "plq_ask", answers(asked, PLQ_MOST_QUESTIONS, 0));
    expect(worker, "its answers", memcmp(worker->answers, worker->expected, sizeof worker->answers) == 0);
}

static void list(struct worker *worker, uint32_t node)
{
    uint32_t listed = below[node] + 1, depth = listing[2 * place[node] + 1];
    plq_answer answer = plq_list(image, image_bytes, node, worker->pairs, 2 * NODES);
    expect(worker, "plq_list", answers(answer, listed, 0));
    for (uint32_t i = 0; i < listed; i++) {
        const uint32_t *pair = listing + 2 * (place[node] + i);
        if (worker->pairs[2 * i] == pair[0] && worker->pairs[2 * i + 1] == pair[1] - depth) continue;
        expect(worker, "its pairs", 0);
        break;
    }
}

static void check_and_read(struct worker *worker)
{
    expect(worker, "plq_check_image", answers(plq_check_image(image, image_bytes), NODES, nodes_with_children + 1));
    plq_answer read = plq_parents_of_image(image, image_bytes, worker->read_back, NODES);
    expect(worker, "plq_parents_of_image", answers(read, NODES, 0));
    expect(worker, "its parents", memcmp(worker->read_back, parents, sizeof parents) == 0);
    read = plq_metres_of_image(image, image_bytes, worker->read_back, NODES);
    expect(worker, "plq_metres_of_image", answers(read, NODES, 0));
    expect(worker, "its metres", memcmp(worker->read_back, metres, sizeof metres) == 0);
}

/* Its own image, which must have been sealed with the counts n and m, back to what it was made of. */
static void read_own(struct worker *worker, plq_answer sealed, uint32_t n, uint32_t m, int with_metres)
{
    size_t bytes = plq_image_bytes(worker->own_image), list_bytes = 4 * (size_t)n;
    expect(worker, "its own tree sealed", answers(sealed, n, m));
    plq_answer read = plq_parents_of_image(worker->own_image, bytes, worker->read_back, NODES);
    expect(worker, "its own image read back", answers(read, n, 0));
    expect(worker, "its own parents by image", memcmp(worker->read_back, worker->own_parents, list_bytes) == 0);
    read = plq_metres_of_image(worker->own_image, bytes, worker->read_back, NODES);
    if (with_metres) {
        expect(worker, "its own metres read back", answers(read, n, 0));
        expect(worker, "its own metres", memcmp(worker->read_back, worker->own_metres, list_bytes) == 0);
    } else {
        expect(worker, "no metres of its own", read.code == PLQ_NOT_ALLOWED && read.place == 1);
    }
}

/* A tree that no other thread has, as a string, as text and as an image, without metres and with them, and back. */
static void seal_own(struct worker *worker)
{
    uint32_t n = 1 + number_below(&worker->chance, OWN_NODES), with_children = 0;
    make_parents(&worker->chance, worker->own_parents, n);
    make_metres(&worker->chance, worker->own_metres, n);
    for (uint32_t i = 1; i < n; i++) with_children += worker->own_parents[i] != worker->own_parents[i - 1];

    plq_answer sealed = plq_image_of_parents(worker->own_parents, n, worker->own_image, sizeof worker->own_image);
    read_own(worker, sealed, n, with_children + 1, 0);
    sealed = plq_image_with_metres(worker->own_parents, n, worker->own_metres, n, worker->own_image,
                                   sizeof worker->own_image);
    read_own(worker, sealed, n, with_children + 1, 1);

    plq_answer string = plq_string_of_parents(worker->own_parents, n, worker->own_string, sizeof worker->own_string);
    expect(worker, "plq_string_of_parents", answers(string, 2 * n + 1, 1));
    memset(worker->read_back, 0, 4 * (size_t)n);
    plq_answer read =
        plq_parents_of_string(worker->own_string, PLQ_STRING_BYTES(n), 2 * n + 1, worker->read_back, NODES);
    expect(worker, "plq_parents_of_string", answers(read, n, 0));
    expect(worker, "its own parents by string", memcmp(worker->read_back, worker->own_parents, 4 * (size_t)n) == 0);

    plq_answer text = plq_text_of_parents(worker->own_parents, n, worker->own_text, sizeof worker->own_text);
    expect(worker, "plq_text_of_parents", answers(text, 2 * n, 0));
    memset(worker->read_back, 0, 4 * (size_t)n);
    read = plq_parents_of_text(worker->own_text, PLQ_TEXT_BYTES(n), worker->read_back, NODES);
    expect(worker, "plq_parents_of_text", answers(read, n, 0));
    expect(worker, "its own parents by text", memcmp(worker->read_back, worker->own_parents, 4 * (size_t)n) == 0);
}

/* Trees of its own, end to end, and where each of them begins. */
static void join_and_split_own(struct worker *worker)
{
    uint32_t expected_starts[PACKED], expected_sizes[PACKED], starts[PACKED], sizes[PACKED], bits = 0;
    for (uint32_t tree = 0; tree < PACKED; tree++) {
        uint32_t n = 1 + number_below(&worker->chance, OWN_NODES);
        make_parents(&worker->chance, worker->own_parents, n);
        plq_answer joined = plq_join(worker->pack, sizeof worker->pack, bits, tree, worker->own_parents, n);
        expected_starts[tree] = bits + 1;
        expected_sizes[tree] = n;
        bits += 2 * n + 1;
        expect(worker, "plq_join", answers(joined, bits, tree + 1));
    }
    plq_answer split = plq_split(worker->pack, PLQ_BYTES_OF_BITS(bits), bits, PACKED, starts, PACKED, sizes, PACKED);
    expect(worker, "plq_split", answers(split, bits, PACKED));
    expect(worker, "its starts", memcmp(starts, expected_starts, sizeof starts) == 0);
    expect(worker, "its sizes", memcmp(sizes, expected_sizes, sizeof sizes) == 0);
}

static void *work(void *argument)
{
    struct worker *worker = argument;
    pthread_barrier_wait(&start);
    for (unsigned round = 0; round < rounds; round++) {
        ask(worker);
        list(worker, round % 8 == 0 ? 1 : 1 + number_below(&worker->chance, NODES));
        check_and_read(worker);
        seal_own(worker);
        join_and_split_own(worker);
    }
    return NULL;
}

int main(int words, char **word)
{
    static struct worker workers[THREADS];
    int wrong = 0;
    if (words > 1) rounds = (unsigned)strtoul(word[1], NULL, 10);
    if (words > 2 || rounds < 1) {
        fputs("usage: threads [ROUNDS]\n", stderr);
        return 2;
    }
    make_shared_tree();
    plq_answer sealed = plq_image_with_metres(parents, NODES, metres, NODES, image, sizeof image);
    if (!answers(sealed, NODES, nodes_with_children + 1)) {
        puts("plq_image_with_metres, of the tree for all: not as expected");
        return 1;
    }
    image_bytes = plq_image_bytes(image);

    pthread_barrier_init(&start, NULL, THREADS);
    for (unsigned i = 0; i < THREADS; i++) {
        workers[i].number = i;
        workers[i].chance = 1000 + i;
        if (pthread_create(&workers[i].thread, NULL, work, &workers[i]) != 0) {
            fputs("threads: no thread could be started\n", stderr);
            return 2;
        }
    }
    for (unsigned i = 0; i < THREADS; i++) {
        pthread_join(workers[i].thread, NULL);
        wrong |= workers[i].wrong;
    }
    pthread_barrier_destroy(&start);
    return wrong;
}
