/* The tree as four arrays of numbers: parent, first child, next sibling, degree of each node. Kept as its parent list. */
#include "parlaqen.h"
#include "peers.h"

#include <stdlib.h>
#include <string.h>

struct tree {
    const uint32_t *parents; /* the list it is opened from */
    uint32_t n;
    uint32_t *parent, *first_child, *next_sibling, *degree; /* by number; entry 0 and n + 1 are nobody's */
};

static void *make(const uint32_t *parents, uint32_t n)
{
    struct tree *tree = malloc(sizeof *tree);
    tree->parents = parents;
    tree->n = n;
    tree->parent = calloc(4 * (n + 2), sizeof *tree->parent);
    tree->first_child = tree->parent + n + 2;
    tree->next_sibling = tree->first_child + n + 2;
    tree->degree = tree->next_sibling + n + 2;
    return tree;
}

static void free_tree(void *of)
{
    struct tree *tree = of;
    free(tree->parent);
    free(tree);
}

/* Checks the list as it goes, as anything read from a file would be. */
static void open_tree(void *of)
{
    struct tree *tree = of;
    uint32_t before = 0;
    memset(tree->parent, 0, 4 * (size_t)(tree->n + 2) * sizeof *tree->parent);
    if (tree->parents[0] != 0) abort();
    for (uint32_t x = 2; x <= tree->n; x++) {
        uint32_t parent = tree->parents[x - 1];
        if (parent < 1 || parent >= x || parent < before) abort();
        tree->parent[x] = parent;
        if (parent == before)
            tree->next_sibling[x - 1] = x;
        else
            tree->first_child[parent] = x;
        tree->degree[parent]++;
        before = parent;
    }
}

/* The place of x among its siblings, from 1; the root is an only child. */
static uint32_t place(const struct tree *tree, uint32_t x)
{
    return x == 1 ? 1 : x - tree->first_child[tree->parent[x]] + 1;
}

/* Child `number` of x; of parent 0 the root is the only child. */
static uint32_t child(const struct tree *tree, uint32_t x, int64_t number)
{
    if (x == 0) return number == 1;
    return number >= 1 && number <= tree->degree[x] ? tree->first_child[x] + (uint32_t)number - 1 : 0;
}

static uint32_t answer_one(const struct tree *tree, int32_t kind, uint32_t x, int32_t argument)
{
    switch (kind) {
    case PLQ_PARENT: return tree->parent[x];
    case PLQ_FIRST_CHILD: return tree->first_child[x];
    case PLQ_LAST_CHILD: return child(tree, x, tree->degree[x]);
    case PLQ_NEXT_SIBLING: return tree->next_sibling[x];
    case PLQ_PREVIOUS_SIBLING: return tree->next_sibling[x - 1] == 0 ? 0 : x - 1;
    case PLQ_DEGREE: return tree->degree[x];
    case PLQ_CHILD_RANK: return x == 1 ? 0 : place(tree, x);
    case PLQ_CHILD_NUMBER: return child(tree, x, argument);
    case PLQ_LEAF: return tree->first_child[x] == 0;
    default: return child(tree, tree->parent[x], (int64_t)place(tree, x) + argument);
    }
}

static void answer(const void *of, const int32_t *questions, size_t count, uint32_t *answers)
{
    for (size_t i = 0; i < count; i++) answers[i] = answer_one(of, questions[3 * i], (uint32_t)questions[3 * i + 1], questions[3 * i + 2]);
}

static size_t list(const void *of, uint32_t node, uint32_t *pairs)
{
    const struct tree *tree = of;
    size_t count = 0;
    uint32_t x = node, depth = 0;
    for (;;) {
        pairs[2 * count] = x;
        pairs[2 * count + 1] = depth;
        count++;
        if (tree->first_child[x] != 0) {
            x = tree->first_child[x];
            depth++;
            continue;
        }
        while (depth > 0 && tree->next_sibling[x] == 0) {
            x = tree->parent[x];
            depth--;
        }
        if (depth == 0) return count;
        x = tree->next_sibling[x];
    }
}

static size_t bytes(const void *of)
{
    return 4 * (size_t)((const struct tree *)of)->n * sizeof(uint32_t);
}

const struct peer arrays_peer = {"arrays", make, free_tree, open_tree, NULL, answer, list, bytes};
