/* Times every call of the library beside the plain C store and the peers, on the same trees, and prints one table of ratios,
 * and a short one of what the named forms of sums, metres and listing cost plain C.
 *
 *   bench ROUNDS                                 the tables
 *   bench STORE CALL SHAPE NODES TIMES           that many calls and nothing else, for a profiler or a counter of
 *                                                instructions; STORE is library, plain_o2, faster_o2, plain_o3 or
 *                                                before, CALL as name_of_call names it
 *
 * Made with WITH_BEFORE it holds an earlier archive of the library too, with `before_` for `plq_` in the names of its calls; with
 * BEFORE_HAS_METRES that one has the two calls about metres, with BEFORE_HAS_TEXT the two about text.
 *
 * Other work on the machine moves a time by far more than the differences looked for. So the contestants take turns in
 * short samples, a ratio is always one of two samples of the same round, and the table has the median of these ratios,
 * with the ratio of the two least times beside it. */
#define _POSIX_C_SOURCE 200809L
#include "calls.h"
#include "compare.h"
#include "peers.h"
#include "shapes.h"

#include <stdio.h>
#include <stdlib.h>
#include <string.h>
#include <time.h>

enum {
    MOST_TURNS = 32,
    LISTS = 8, /* of questions for each tree */
    PACK_BYTES = (PLQ_MOST_BITS + 7) / 8,
    MOST_ROUNDS = 1001,
    SEED = 5
};

static const double sample_ns = 4e5; /* a sample takes about so long, or one call on each tree if that is longer */

static const struct store library = {"the library", CALLS_OF(plq_)};

#ifdef WITH_BEFORE
#define BEFORE(call) extern __typeof__(plq_##call) before_##call
BEFORE(string_of_parents);
BEFORE(parents_of_string);
BEFORE(image_of_parents);
BEFORE(parents_of_image);
BEFORE(check_image);
BEFORE(ask);
BEFORE(split);
BEFORE(join);
BEFORE(list);
#ifdef BEFORE_HAS_METRES
BEFORE(image_with_metres);
BEFORE(metres_of_image);
#else
#define before_image_with_metres NULL
#define before_metres_of_image NULL
#endif
#ifdef BEFORE_HAS_TEXT
BEFORE(parents_of_text);
BEFORE(text_of_parents);
#else
#define before_parents_of_text NULL
#define before_text_of_parents NULL
#endif
static const struct store before = {"the archive before", CALLS_OF(before_)};
#endif

/* ---- what is measured ---- */

/* Of each shape and size several trees are taken in turn: the processor would learn the branches of a single one by heart,
 * and with it what no reader of a new image has. Of the last one only the calls about text are timed: with one line a node it
 * is nearly the longest text that there may be, and that of a larger deep60 would be longer. */
static const struct kind {
    enum shape shape;
    uint32_t n, turns;
    int for_text_alone;
} kinds[] = {{RANDOM, 65535, 4, 0}, {DIARY, 65535, 4, 0}, {DEEP60, 65535, 4, 0}, {SPINE, 65535, 4, 0},
             {RANDOM, 4000, 32, 0}, {DIARY, 4000, 32, 0}, {DEEP60, 16000, 8, 1}};

enum { KINDS = sizeof kinds / sizeof *kinds };

/* What a peer does that is shown beside a call of the library. */
enum beside {
    NOTHING,
    OPEN,            /* beside the check: what it takes before the first question */
    OPEN_AND_ANSWER, /* beside a whole ask */
    ANSWER,
    SAVE, /* beside sealing */
    WALK  /* a listing, by a tree that is open */
};

#define ON_ALL(target) {target, target, target, target, target, target}
#define ON_TEXTS(target) {0, target, target, 0, 0, target, target}
_Static_assert(KINDS == 7, "ON_ALL has a target for each of them that is not for text alone, ON_TEXTS for those with a text");

static const struct row {
    const char *name;
    enum call call;
    double targets[KINDS]; /* the most that library / plain C at -O2 should be on each kind of trees; 0: none was set */
    int answers_alone;     /* less what the same call takes without a question */
    int named_form;        /* makes sums, copies metres or lists, for all of which there is a faster form than the named one */
    enum beside beside;
} rows[] = {
    {"`plq_check_image`", CHECK_IMAGE, ON_ALL(1.0), 0, 1, OPEN},
    {"`plq_check_image`, metres", CHECK_METRES, {1.0, 0, 0, 1.0, 0, 0}, 0, 1, NOTHING},
    {"`plq_check_image`, wrong sample", REFUSE_IMAGE, ON_ALL(1.5), 0, 1, NOTHING},
    {"`plq_ask`, 256 mixed", ASK, ON_ALL(1.0), 0, 1, OPEN_AND_ANSWER},
    {"the 256 answers alone", ASK, ON_ALL(1.0), 1, 0, ANSWER},
    {"`plq_ask`, 256 for metres", ASK_METRES, ON_ALL(1.0), 0, 1, NOTHING},
    {"`plq_string_of_parents`", STRING_OF_PARENTS, ON_ALL(1.0), 0, 0, NOTHING},
    {"`plq_parents_of_string`", PARENTS_OF_STRING, ON_ALL(1.0), 0, 0, NOTHING},
    {"`plq_parents_of_string`, tree 256 of the pack", PARENTS_OF_PART, {0}, 0, 0, NOTHING},
    {"`plq_image_of_parents`", IMAGE_OF_PARENTS, ON_ALL(1.0), 0, 1, SAVE},
    {"`plq_image_with_metres`", IMAGE_WITH_METRES, {1.25, 1.0, 1.25, 1.0, 1.25, 1.0}, 0, 1, NOTHING},
    {"`plq_parents_of_image`", PARENTS_OF_IMAGE, ON_ALL(1.0), 0, 1, NOTHING},
    {"`plq_metres_of_image`", METRES_OF_IMAGE, ON_ALL(1.0), 0, 1, NOTHING},
    {"`plq_split`, 256 trees", SPLIT, ON_ALL(1.5), 0, 0, NOTHING},
    {"`plq_join`, tree 256", JOIN, ON_ALL(1.5), 0, 0, NOTHING},
    {"`plq_list`", LIST, ON_ALL(1.5), 0, 1, WALK},
    {"`plq_parents_of_text`", PARENTS_OF_TEXT, ON_TEXTS(1.5), 0, 0, NOTHING},
    {"`plq_parents_of_text`, one line a node", PARENTS_OF_LINES, ON_TEXTS(1.5), 0, 0, NOTHING},
    {"`plq_text_of_parents`", TEXT_OF_PARENTS, ON_TEXTS(1.0), 0, 0, NOTHING},
};

enum { ROWS = sizeof rows / sizeof *rows };

/* Who is measured: a store or a peer. Every ratio of the table is the time of the first to that of another. */
static const struct contestant {
    const struct store *store;
    const struct peer *peer;
} contestants[] = {
    {&library, NULL},
    {&plain_o2, NULL},
    {&faster_o2, NULL},
    {&plain_o3, NULL},
    {NULL, &arrays_peer},
#ifdef WITH_SDSL
    {NULL, &sdsl_peer},
#endif
#ifdef WITH_BEFORE
    {&before, NULL},
#endif
};

enum { CONTESTANTS = sizeof contestants / sizeof *contestants, LIBRARY = 0, PLAIN_O2 = 1, FASTER_O2 = 2 };

/* An earlier archive may answer otherwise than this one. */
static int is_earlier(const struct store *store)
{
#ifdef WITH_BEFORE
    return store == &before;
#else
    (void)store;
    return 0;
#endif
}

/* One tree with all that the calls are given. */
struct tree {
    uint32_t n;
    uint32_t *parents;
    uint32_t joined_tree[PLQ_MOST_NODES / PLQ_MOST_TREES];
    uint8_t image[PLQ_MOST_TREE_IMAGE_BYTES], refused[PLQ_MOST_TREE_IMAGE_BYTES];
    uint8_t string[PACK_BYTES], pack[PACK_BYTES], pack_to_join[PACK_BYTES], part[PACK_BYTES / PLQ_MOST_TREES + 1];
    int32_t questions[LISTS][3 * PLQ_MOST_QUESTIONS], for_metres[LISTS][3 * PLQ_MOST_QUESTIONS];
    uint32_t *metres;
    uint8_t *image_with_metres, *text, *lines;
    struct request requests[CALLS]; /* where a call is not made of this tree, all zeros */
    uint32_t listed; /* nodes that the listing has */
    void *peers[CONTESTANTS];
};

/* The trees of one kind, and what the calls may write to. */
struct bed {
    const struct kind *kind;
    struct tree *trees[MOST_TURNS];
    uint32_t turn; /* of the trees and their lists of questions */
    struct lent lent;
};

static void *allocate(size_t bytes)
{
    void *at = calloc(bytes, 1);
    if (at == NULL) abort();
    return at;
}

static void require(int fine, const char *what)
{
    if (fine) return;
    fprintf(stderr, "bench: %s\n", what);
    exit(1);
}

/* Is this call made of this tree? Of one that is too deep no text is. */
static int has_request(const struct tree *tree, enum call call)
{
    return tree->requests[call].call == call;
}

static const uint8_t *image_for(const struct tree *tree, enum call call)
{
    return is_of_metres(call) ? tree->image_with_metres : tree->image;
}

static const int32_t *questions_for(const struct tree *tree, enum call call, uint32_t list)
{
    return call == ASK_METRES ? tree->for_metres[list] : tree->questions[list];
}

/* The node with the most nodes below it among those that can be listed: the root, unless the tree is too deep. */
static uint32_t node_to_list(const uint32_t *parents, uint32_t n)
{
    uint32_t *height = allocate((n + 1) * sizeof *height), *size = allocate((n + 1) * sizeof *size), best = n;
    for (uint32_t x = n; x >= 1; x--) {
        uint32_t parent = parents[x - 1];
        size[x]++;
        size[parent] += size[x];
        if (height[parent] < height[x] + 1) height[parent] = height[x] + 1;
        if (height[x] < 64 && size[x] >= size[best]) best = x;
    }
    free(height);
    free(size);
    return best;
}

/* Mixed questions that have an answer: children that are there, siblings up to three places away; and questions for metres. */
static void make_questions(struct tree *tree, uint64_t seed)
{
    struct chance chance = {seed};
    uint32_t *degree = allocate((tree->n + 1) * sizeof *degree);
    for (uint32_t x = 0; x < tree->n; x++) degree[tree->parents[x]]++;
    for (uint32_t list = 0; list < LISTS; list++)
        for (int32_t *q = tree->questions[list]; q < tree->questions[list] + 3 * PLQ_MOST_QUESTIONS; q += 3) {
            q[0] = 1 + (int32_t)below(&chance, 10);
            do q[1] = 1 + (int32_t)below(&chance, tree->n);
            while (q[0] == PLQ_CHILD_NUMBER && degree[q[1]] == 0);
            if (q[0] == PLQ_CHILD_NUMBER) q[2] = 1 + (int32_t)below(&chance, degree[q[1]]);
            if (q[0] == PLQ_SIBLING_AT) q[2] = (int32_t)below(&chance, 7) - 3;
        }
    for (uint32_t list = 0; list < LISTS; list++)
        for (int32_t *q = tree->for_metres[list]; q < tree->for_metres[list] + 3 * PLQ_MOST_QUESTIONS; q += 3) {
            q[0] = PLQ_METRES;
            q[1] = 1 + (int32_t)below(&chance, tree->n);
        }
    free(degree);
}

/* The image with one wrong sample in its last block. Every store must refuse it for that, with that block, before it is timed. */
static void make_refused(struct tree *tree, uint64_t seed)
{
    struct request *check = &tree->requests[REFUSE_IMAGE];
    *check = (struct request){.call = REFUSE_IMAGE, .bytes = tree->refused, .nbytes = plq_image_bytes(tree->image)};
    memcpy(tree->refused, tree->image, check->nbytes);
    uint32_t block = break_sample(&(struct chance){seed}, tree->refused);
    require(block + 1 == check->nbytes / PLQ_BLOCK_BYTES, "the last block of an image has no samples");
    for (size_t i = 0; i < CONTESTANTS; i++) {
        const struct store *store = contestants[i].store;
        if (store == NULL || is_earlier(store)) continue;
        plq_answer answer = make_call(store, check, &(struct lent){0});
        if (answer.code == PLQ_WRONG_SAMPLES && answer.place == block && answer.first == 0 && answer.second == 0) continue;
        fprintf(stderr, "bench: a sample in block %u is wrong: %s answers %u %u %u %u\n", block, store->name, answer.code, answer.place,
                answer.first, answer.second);
        exit(1);
    }
}

/* 256 trees of this shape end to end, together nearly as long as the tree's own string; and the last of them alone. */
static void make_pack(struct tree *tree, enum shape shape, uint64_t seed)
{
    uint32_t each = (tree->n - PLQ_MOST_TREES / 2) / PLQ_MOST_TREES;
    struct request *join = &tree->requests[JOIN];
    plq_answer joined = {0};
    *join = (struct request){.call = JOIN, .bytes = tree->pack_to_join, .nbytes = PACK_BYTES, .parents = tree->joined_tree, .n = each};
    for (uint32_t k = 0; k < PLQ_MOST_TREES; k++) {
        join->bits = joined.first;
        join->trees = k;
        make_tree(shape, each, PLQ_MOST_TREES * seed + k, tree->joined_tree);
        memcpy(tree->pack_to_join, tree->pack, PACK_BYTES);
        joined = make_call(&plain_o2, join, &(struct lent){.bytes = tree->pack});
        require(joined.code == PLQ_DONE, "a pack cannot be made");
    }
    tree->requests[SPLIT] = (struct request){.call = SPLIT, .bytes = tree->pack, .nbytes = (joined.first + 7) / 8, .bits = joined.first,
                                             .trees = PLQ_MOST_TREES, .room = PLQ_MOST_TREES, .second_room = PLQ_MOST_TREES};
    const struct request write = {.call = STRING_OF_PARENTS, .parents = tree->joined_tree, .n = each, .room = sizeof tree->part};
    plq_answer part = make_call(&plain_o2, &write, &(struct lent){.bytes = tree->part});
    require(part.code == PLQ_DONE, "a tree of a pack has no string");
    tree->requests[PARENTS_OF_PART] =
        (struct request){.call = PARENTS_OF_PART, .bytes = tree->part, .nbytes = (part.first + 7) / 8, .bits = part.first, .room = each};
}

/* The text of the tree, if it is not too deep for one, as it is written and with one line a node,
 * if that is not too long. */
static void make_texts(struct tree *tree)
{
    uint32_t n = tree->n;
    struct request *r = tree->requests, write = {.call = TEXT_OF_PARENTS, .parents = tree->parents, .n = n, .room = PLQ_TEXT_BYTES(n)};
    tree->text = allocate(PLQ_TEXT_BYTES(n));
    plq_answer text = make_call(&plain_o2, &write, &(struct lent){.bytes = tree->text});
    if (text.code == PLQ_TOO_DEEP) return;
    require(text.code == PLQ_DONE, "a text cannot be made");
    r[TEXT_OF_PARENTS] = write;
    r[PARENTS_OF_TEXT] = (struct request){.call = PARENTS_OF_TEXT, .bytes = tree->text, .nbytes = text.first, .room = n};

    tree->lines = allocate(PLQ_MOST_TEXT);
    size_t bytes = text_by_lines(tree->text, text.first, tree->lines, PLQ_MOST_TEXT);
    if (bytes > 0) r[PARENTS_OF_LINES] = (struct request){.call = PARENTS_OF_LINES, .bytes = tree->lines, .nbytes = bytes, .room = n};
}

static struct tree *new_tree(const struct kind *kind, uint64_t seed, const struct lent *lent)
{
    struct tree *tree = allocate(sizeof *tree);
    uint32_t n = tree->n = kind->n;
    tree->parents = allocate(n * sizeof *tree->parents);
    tree->metres = allocate(n * sizeof *tree->metres);
    tree->image_with_metres = allocate(PLQ_MOST_IMAGE_BYTES);
    make_tree(kind->shape, n, seed, tree->parents);
    make_metres(n, seed, tree->metres);
    struct request *r = tree->requests;
    r[IMAGE_OF_PARENTS] = (struct request){.call = IMAGE_OF_PARENTS, .parents = tree->parents, .n = n, .room = PLQ_MOST_TREE_IMAGE_BYTES};
    r[IMAGE_WITH_METRES] = (struct request){.call = IMAGE_WITH_METRES, .parents = tree->parents, .n = n, .metres = tree->metres,
                                            .metres_count = n, .room = PLQ_MOST_IMAGE_BYTES};
    r[STRING_OF_PARENTS] = (struct request){.call = STRING_OF_PARENTS, .parents = tree->parents, .n = n, .room = PACK_BYTES};
    plq_answer image = make_call(&plain_o2, &r[IMAGE_OF_PARENTS], &(struct lent){.bytes = tree->image});
    plq_answer with_metres = make_call(&plain_o2, &r[IMAGE_WITH_METRES], &(struct lent){.bytes = tree->image_with_metres});
    plq_answer string = make_call(&plain_o2, &r[STRING_OF_PARENTS], &(struct lent){.bytes = tree->string});
    require(image.code == PLQ_DONE && with_metres.code == PLQ_DONE && string.code == PLQ_DONE, "a tree cannot be sealed");
    const enum call of_image[] = {CHECK_IMAGE, CHECK_METRES, ASK, ASK_METRES, PARENTS_OF_IMAGE, METRES_OF_IMAGE, LIST};
    for (size_t i = 0; i < sizeof of_image / sizeof *of_image; i++) {
        const uint8_t *bytes = image_for(tree, of_image[i]);
        r[of_image[i]] = (struct request){.call = of_image[i], .bytes = bytes, .nbytes = plq_image_bytes(bytes), .room = 2 * (size_t)n};
    }
    r[ASK].numbers = r[ASK_METRES].numbers = 3 * PLQ_MOST_QUESTIONS;
    r[LIST].node = node_to_list(tree->parents, n);
    r[PARENTS_OF_STRING] =
        (struct request){.call = PARENTS_OF_STRING, .bytes = tree->string, .nbytes = (string.first + 7) / 8, .bits = string.first, .room = n};
    make_refused(tree, seed);
    make_questions(tree, seed);
    make_pack(tree, kind->shape, seed);
    make_texts(tree);
    tree->listed = make_call(&plain_o2, &r[LIST], lent).first;
    for (size_t i = 0; i < CONTESTANTS; i++)
        if (contestants[i].peer != NULL) {
            tree->peers[i] = contestants[i].peer->make(tree->parents, n);
            contestants[i].peer->open(tree->peers[i]);
        }
    return tree;
}

static struct bed *new_bed(const struct kind *kind)
{
    struct bed *bed = allocate(sizeof *bed);
    bed->kind = kind;
    bed->lent.bytes = allocate(PLQ_MOST_IMAGE_BYTES);
    bed->lent.numbers = allocate(2 * (size_t)kind->n * sizeof(uint32_t));
    bed->lent.second = allocate(PLQ_MOST_TREES * sizeof(uint32_t));
    for (uint32_t t = 0; t < kind->turns; t++) bed->trees[t] = new_tree(kind, SEED + t, &bed->lent);
    return bed;
}

static void free_bed(struct bed *bed)
{
    for (uint32_t t = 0; t < bed->kind->turns; t++) {
        for (size_t i = 0; i < CONTESTANTS; i++)
            if (contestants[i].peer != NULL) contestants[i].peer->free(bed->trees[t]->peers[i]);
        free(bed->trees[t]->parents);
        free(bed->trees[t]->metres);
        free(bed->trees[t]->image_with_metres);
        free(bed->trees[t]->text);
        free(bed->trees[t]->lines);
        free(bed->trees[t]);
    }
    free(bed->lent.bytes);
    free(bed->lent.numbers);
    free(bed->lent.second);
    free(bed);
}

static size_t blocks_of(const uint8_t *image)
{
    return plq_image_bytes(image) / PLQ_BLOCK_BYTES;
}

/* ---- do they all do the same? ---- */

/* A peer's answers and its listing against those of the library. */
static void compare_peer(const struct tree *tree, const struct peer *peer, const void *its_tree, const struct lent *lent)
{
    uint32_t expected[PLQ_MOST_QUESTIONS], answers[PLQ_MOST_QUESTIONS], *pairs = allocate(2 * (size_t)tree->n * sizeof *pairs);
    struct request ask = tree->requests[ASK];
    for (uint32_t list = 0; list < LISTS; list++) {
        ask.questions = tree->questions[list];
        make_call(&library, &ask, &(struct lent){.numbers = expected});
        peer->answer(its_tree, ask.questions, PLQ_MOST_QUESTIONS, answers);
        require(memcmp(answers, expected, sizeof answers) == 0, "a peer answers otherwise");
    }
    make_call(&library, &tree->requests[LIST], lent);
    require(peer->list(its_tree, tree->requests[LIST].node, pairs) == tree->listed, "a peer lists other nodes");
    require(memcmp(pairs, lent->numbers, 2 * (size_t)tree->listed * sizeof *pairs) == 0, "a peer lists in another order");
    free(pairs);
}

/* Every call that will be timed, of each store. */
static void compare_requests(struct comparison *comparison, const struct tree *tree)
{
    for (enum call call = 0; call < CALLS; call++) {
        struct request request = tree->requests[call];
        if (!has_request(tree, call)) continue;
        for (uint32_t list = 0; list < (is_ask(call) ? LISTS : 1); list++) {
            request.questions = questions_for(tree, call, list);
            compare_call(comparison, request);
        }
    }
}

static uint64_t compare_all(struct bed *const beds[KINDS])
{
    static const struct store *const stores[] = {&library, &plain_o2, &faster_o2, &plain_o3};
    enum { BY_SQUARES = 60, SMALL_TREES = 63, MOST_SMALL = 300, MANY_DAMAGES = 16, FEW_DAMAGES = 2, RETIRED_CODE = 7 };
    uint32_t parents[MOST_SMALL];
    struct comparison comparison;
    begin_comparison(&comparison, stores, sizeof stores / sizeof *stores, SEED);
    for (uint32_t i = 0; i < SMALL_TREES; i++) {
        uint32_t n = i < BY_SQUARES ? 1 + i * i % MOST_SMALL : 125 + i - BY_SQUARES; /* the last: 126 metres fill a block */
        make_tree((enum shape)(i % 4), n, i, parents);
        compare_tree(&comparison, parents, n, MANY_DAMAGES);
    }
    for (size_t k = 0; k < KINDS; k++)
        for (uint32_t t = 0; t < kinds[k].turns; t++) {
            const struct tree *tree = beds[k]->trees[t];
            compare_requests(&comparison, tree);
            compare_tree(&comparison, tree->parents, tree->n, t == 0 ? MANY_DAMAGES : FEW_DAMAGES);
            for (size_t i = 0; i < CONTESTANTS; i++)
                if (contestants[i].peer != NULL) compare_peer(tree, contestants[i].peer, tree->peers[i], &beds[k]->lent);
        }
    end_comparison(&comparison);
    for (uint32_t code = 0; code <= MOST_CODE; code++)
        require((comparison.codes[code] == 0) == (code == RETIRED_CODE), "a code was never answered, or the retired one was");
    return comparison.calls;
}

/* ---- time ---- */

/* Processor time of this thread alone: what other programs take between is not counted. */
static double now_ns(void)
{
    struct timespec t;
    clock_gettime(CLOCK_THREAD_CPUTIME_ID, &t);
    return 1e9 * (double)t.tv_sec + (double)t.tv_nsec;
}

static struct tree *next_tree(struct bed *bed, enum call call, const int32_t **questions)
{
    uint32_t turns = bed->kind->turns;
    struct tree *tree = bed->trees[bed->turn % turns];
    *questions = questions_for(tree, call, bed->turn / turns % LISTS);
    bed->turn++;
    return tree;
}

static plq_answer call_once(struct bed *bed, const struct store *store, enum call call, size_t numbers)
{
    const int32_t *questions;
    struct tree *tree = next_tree(bed, call, &questions);
    struct request r = tree->requests[call];
    struct lent lent = bed->lent;
    if (is_ask(call)) {
        r.questions = questions;
        r.numbers = numbers;
    }
    if (call == JOIN) {
        lent.bytes = tree->pack_to_join;
        if (r.bits % 8 != 0) lent.bytes[r.bits / 8] &= (uint8_t)(0xFF00 >> r.bits % 8); /* away with what an earlier call put there */
    }
    return make_call(store, &r, &lent);
}

static void call_store(struct bed *bed, const struct store *store, enum call call, size_t numbers, uint32_t times)
{
    for (uint32_t i = 0; i < times; i++) call_once(bed, store, call, numbers);
}

static void call_peer(struct bed *bed, size_t contestant, enum beside beside, uint32_t times)
{
    const struct peer *peer = contestants[contestant].peer;
    for (uint32_t i = 0; i < times; i++) {
        const int32_t *questions;
        struct tree *tree = next_tree(bed, ASK, &questions);
        void *its_tree = tree->peers[contestant];
        if (beside == OPEN || beside == OPEN_AND_ANSWER) peer->open(its_tree);
        if (beside == ANSWER || beside == OPEN_AND_ANSWER) peer->answer(its_tree, questions, PLQ_MOST_QUESTIONS, bed->lent.numbers);
        if (beside == SAVE) peer->save(its_tree);
        if (beside == WALK) peer->list(its_tree, tree->requests[LIST].node, bed->lent.numbers);
    }
}

/* Does a store answer the call of a row as the library does, on every tree of a bed? */
static int answers_alike(struct bed *bed, const struct store *store, const struct row *row)
{
    for (uint32_t t = 0; t < bed->kind->turns; t++) {
        bed->turn = t;
        plq_answer ours = call_once(bed, &library, row->call, 3 * PLQ_MOST_QUESTIONS);
        bed->turn = t;
        plq_answer theirs = call_once(bed, store, row->call, 3 * PLQ_MOST_QUESTIONS);
        if (memcmp(&ours, &theirs, sizeof ours) != 0) return 0;
    }
    return 1;
}

static int takes_part(struct bed *bed, size_t contestant, const struct row *row)
{
    const struct contestant *who = &contestants[contestant];
    if (who->store != NULL) return !is_earlier(who->store) || (has_call(who->store, row->call) && answers_alike(bed, who->store, row));
    return row->beside != NOTHING && (row->beside != SAVE || who->peer->save != NULL);
}

/* Nanoseconds of one call: the mean of so many on each tree. */
static double sample(struct bed *bed, size_t contestant, const struct row *row, uint32_t on_each)
{
    const struct contestant *who = &contestants[contestant];
    uint32_t times = on_each * bed->kind->turns;
    double start = now_ns();
    if (who->peer != NULL)
        call_peer(bed, contestant, row->beside, times);
    else
        call_store(bed, who->store, row->call, 3 * PLQ_MOST_QUESTIONS, times);
    double took = now_ns() - start;
    if (who->peer == NULL && row->answers_alone) {
        start = now_ns();
        call_store(bed, who->store, row->call, 0, times);
        took -= now_ns() - start;
    }
    return took / times;
}

static uint32_t calls_for_a_sample(struct bed *bed, size_t contestant, const struct row *row)
{
    sample(bed, contestant, row, 1); /* once for the caches */
    double one = sample(bed, contestant, row, 1);
    return one < 100 ? 100 : (uint32_t)(sample_ns / one / bed->kind->turns) + 1;
}

/* What one row took on one bed: nanoseconds of each contestant in each round. */
struct times {
    uint32_t rounds;
    int took_part[CONTESTANTS];
    double ns[CONTESTANTS][MOST_ROUNDS];
};

static void measure(struct bed *bed, const struct row *row, struct times *times)
{
    uint32_t calls[CONTESTANTS] = {0};
    for (size_t i = 0; i < CONTESTANTS; i++) {
        times->took_part[i] = takes_part(bed, i, row);
        if (times->took_part[i]) calls[i] = calls_for_a_sample(bed, i, row);
    }
    for (uint32_t round = 0; round < times->rounds; round++)
        for (size_t turn = 0; turn < CONTESTANTS; turn++) {
            size_t i = (turn + round) % CONTESTANTS; /* nobody always comes first */
            if (times->took_part[i]) times->ns[i][round] = sample(bed, i, row, calls[i]);
        }
}

static int by_size(const void *a, const void *b)
{
    double x = *(const double *)a, y = *(const double *)b;
    return (x > y) - (x < y);
}

static double median(const double *numbers, uint32_t count)
{
    double sorted[MOST_ROUNDS];
    memcpy(sorted, numbers, count * sizeof *numbers);
    qsort(sorted, count, sizeof *sorted, by_size);
    return (sorted[(count - 1) / 2] + sorted[count / 2]) / 2;
}

static double least(const double *numbers, uint32_t count)
{
    double found = numbers[0];
    for (uint32_t i = 1; i < count; i++)
        if (numbers[i] < found) found = numbers[i];
    return found;
}

/* The median over the rounds of one contestant's time over another's. */
static double ratio_of(const struct times *times, size_t one, size_t other)
{
    double ratios[MOST_ROUNDS];
    for (uint32_t round = 0; round < times->rounds; round++) ratios[round] = times->ns[one][round] / times->ns[other][round];
    return median(ratios, times->rounds);
}

/* ---- the table ---- */

static void print_number(double x)
{
    printf(x < 10 ? "%.2f" : x < 100 ? "%.1f" : "%.0f", x);
}

/* A number, and in brackets the same of the least times; a difference of two times has no least that says anything. */
static void print_both(double middle, double of_least, const struct row *row)
{
    printf(" ");
    print_number(middle);
    if (!row->answers_alone) {
        printf(" (");
        print_number(of_least);
        printf(")");
    }
    printf(" |");
}

/* Is this row timed on the trees of this bed? */
static int is_timed(const struct bed *bed, const struct row *row)
{
    for (uint32_t t = 0; t < bed->kind->turns; t++)
        if (!has_request(bed->trees[t], row->call)) return 0;
    return is_of_text(row->call) || !bed->kind->for_text_alone;
}

static void print_kind(const struct bed *bed, const char *row, const uint8_t *image)
{
    printf("| %s | %s, %u nodes | %zu |", row, name_of_shape(bed->kind->shape), bed->kind->n, blocks_of(image));
}

/* What the named forms of sums, metres and listing cost plain C on one bed. */
struct cost {
    double ratio, ns; /* time in the named form over that in the faster one, and the difference of the medians */
};

static struct cost cost_of(const struct times *times)
{
    return (struct cost){ratio_of(times, PLAIN_O2, FASTER_O2),
                         median(times->ns[PLAIN_O2], times->rounds) - median(times->ns[FASTER_O2], times->rounds)};
}

/* The name of a row and, for a listing or a tree of a pack, how many nodes it has, for a text, how many bytes: in the mean
 * of the trees. */
static void name_of_row(const struct bed *bed, const struct row *row, char *name, size_t room)
{
    size_t nodes = 0, bytes = 0, turns = bed->kind->turns;
    for (uint32_t t = 0; t < turns; t++) {
        const struct request *request = &bed->trees[t]->requests[row->call];
        nodes += row->call == LIST ? bed->trees[t]->listed : request->room;
        bytes += row->call == TEXT_OF_PARENTS ? request->room : request->nbytes;
    }
    if (row->call == LIST || row->call == PARENTS_OF_PART)
        snprintf(name, room, "%s, %zu nodes", row->name, nodes / turns);
    else if (is_of_text(row->call))
        snprintf(name, room, "%s, %zu bytes", row->name, bytes / turns);
    else
        snprintf(name, room, "%s", row->name);
}

/* Answers whether a target was missed. */
static int print_row(struct bed *bed, const struct row *row, struct times *times)
{
    measure(bed, row, times);
    char name[96];
    name_of_row(bed, row, name, sizeof name);
    print_kind(bed, name, image_for(bed->trees[0], row->call));
    double library_least = least(times->ns[LIBRARY], times->rounds), ratio = ratio_of(times, LIBRARY, PLAIN_O2);
    double target = row->targets[bed->kind - kinds];
    int missed = target != 0 && ratio >= target + 0.005; /* as it is printed */
    print_both(median(times->ns[LIBRARY], times->rounds) / 1000, library_least / 1000, row);
    print_both(ratio, library_least / least(times->ns[PLAIN_O2], times->rounds), row);
    if (target == 0)
        printf(" | |");
    else
        printf(" %.*f | %s |", 10 * target == (int)(10 * target) ? 1 : 2, target, missed ? "missed" : "met");
    for (size_t i = PLAIN_O2 + 1; i < CONTESTANTS; i++) {
        printf(" ");
        if (times->took_part[i]) print_number(ratio_of(times, LIBRARY, i));
        printf(" |");
    }
    printf("\n");
    fflush(stdout);
    return missed;
}

static void print_space(const struct bed *bed)
{
    const struct tree *tree = bed->trees[0];
    double bytes = (double)plq_image_bytes(tree->image);
    print_kind(bed, "space, bits a node", tree->image);
    printf(" ");
    print_number(8 * bytes / tree->n);
    printf(" | | | |");
    for (size_t i = PLAIN_O2 + 1; i < CONTESTANTS; i++) {
        printf(" ");
        if (contestants[i].peer != NULL) print_number(bytes / (double)contestants[i].peer->bytes(tree->peers[i]));
        printf(" |");
    }
    printf("\n");
}

static void print_costs(const struct cost costs[ROWS][KINDS])
{
    printf("\nWhat the named forms cost plain C: time of `%s` / time of `%s`, and in brackets the difference in µs.\n\n| call |",
           plain_o2.name, faster_o2.name);
    for (size_t k = 0; k < KINDS; k++)
        if (!kinds[k].for_text_alone) printf(" %s, %u |", name_of_shape(kinds[k].shape), kinds[k].n);
    printf("\n|---|");
    for (size_t k = 0; k < KINDS; k++)
        if (!kinds[k].for_text_alone) printf("--:|");
    printf("\n");
    for (size_t row = 0; row < ROWS; row++) {
        if (!rows[row].named_form) continue;
        printf("| %s |", rows[row].name);
        for (size_t k = 0; k < KINDS; k++)
            if (!kinds[k].for_text_alone) printf(" %.2f (%+.2f) |", costs[row][k].ratio, costs[row][k].ns / 1000);
        printf("\n");
    }
}

static void print_table(uint32_t rounds)
{
    static struct times times;
    struct bed *beds[KINDS];
    struct cost costs[ROWS][KINDS];
    int targets = 0, missed = 0;
    times.rounds = rounds;
    for (size_t k = 0; k < KINDS; k++) beds[k] = new_bed(&kinds[k]);
    printf("Compared before timing: %llu calls, all the same.\n\n", (unsigned long long)compare_all(beds));
    printf("| call | tree | blocks | library, µs (least) | / %s (least) | target | |", plain_o2.name);
    for (size_t i = PLAIN_O2 + 1; i < CONTESTANTS; i++)
        printf(" / %s |", contestants[i].peer != NULL ? contestants[i].peer->name : contestants[i].store->name);
    printf("\n|---|---|--:|--:|--:|--:|---|");
    for (size_t i = PLAIN_O2 + 1; i < CONTESTANTS; i++) printf("--:|");
    printf("\n");
    for (size_t row = 0; row < ROWS; row++)
        for (size_t k = 0; k < KINDS; k++) {
            if (!is_timed(beds[k], &rows[row])) continue;
            missed += print_row(beds[k], &rows[row], &times);
            targets += rows[row].targets[k] != 0;
            costs[row][k] = cost_of(&times);
        }
    for (size_t k = 0; k < KINDS; k++) {
        if (!kinds[k].for_text_alone) print_space(beds[k]);
        free_bed(beds[k]);
    }
    printf("\n%d of %d targets missed.\n", missed, targets);
    print_costs(costs);
}

/* ---- one call alone ---- */

static void repeat_call(const char *store, const char *call, const char *shape, const char *nodes, const char *times)
{
    static const struct {
        const char *name;
        const struct store *store;
    } stores[] = {{"library", &library},
                  {"plain_o2", &plain_o2},
                  {"faster_o2", &faster_o2},
                  {"plain_o3", &plain_o3},
#ifdef WITH_BEFORE
                  {"before", &before},
#endif
    };
    const struct store *the_store = NULL;
    const struct kind *kind = NULL;
    enum call the_call = CALLS;
    for (size_t s = 0; s < sizeof stores / sizeof *stores; s++)
        if (strcmp(stores[s].name, store) == 0) the_store = stores[s].store;
    for (enum call c = 0; c < CALLS; c++)
        if (strcmp(name_of_call(c), call) == 0) the_call = c;
    for (size_t k = 0; k < KINDS; k++)
        if (strcmp(name_of_shape(kinds[k].shape), shape) == 0 && kinds[k].n == strtoul(nodes, NULL, 10)) kind = &kinds[k];
    require(the_store != NULL && the_call != CALLS && kind != NULL && has_call(the_store, the_call), "no such store, call, or tree");
    struct bed *bed = new_bed(kind);
    for (uint32_t t = 0; t < kind->turns; t++) require(has_request(bed->trees[t], the_call), "the call is not made of such a tree");
    call_store(bed, the_store, the_call, 3 * PLQ_MOST_QUESTIONS, (uint32_t)strtoul(times, NULL, 10));
    free_bed(bed);
}

int main(int argc, char **argv)
{
    if (argc == 6) {
        repeat_call(argv[1], argv[2], argv[3], argv[4], argv[5]);
    } else {
        unsigned long rounds = argc == 2 ? strtoul(argv[1], NULL, 10) : 0;
        require(rounds >= 1 && rounds <= MOST_ROUNDS, "give a number of rounds, 1 to 1001, or: STORE CALL SHAPE NODES TIMES");
        print_table((uint32_t)rounds);
    }
    return 0;
}
