// LOUDS++ made of sdsl's parts: R1 and R0 as bit vectors, each with a rank and a select support. Kept as what they write themselves
// into a stream. Nothing is checked.
#include "parlaqen.h"
#include "peers.h"

#include <sdsl/bit_vectors.hpp>
#include <sdsl/rank_support_v5.hpp>
#include <sdsl/select_support_mcl.hpp>
#include <sstream>
#include <string>

namespace {

struct Bits {
    sdsl::bit_vector bits;
    sdsl::rank_support_v5<1> rank;
    sdsl::select_support_mcl<1> select;

    void support()
    {
        sdsl::util::init_support(rank, &bits);
        sdsl::util::init_support(select, &bits);
    }
    void write(std::ostream &to) const
    {
        bits.serialize(to);
        rank.serialize(to);
        select.serialize(to);
    }
    void read(std::istream &from)
    {
        bits.load(from);
        rank.load(from, &bits);
        select.load(from, &bits);
    }
    size_t bytes() const { return sdsl::size_in_bytes(bits) + sdsl::size_in_bytes(rank) + sdsl::size_in_bytes(select); }
    bool has_one(uint32_t i) const { return bits[i - 1]; }
    uint32_t ones_left(uint32_t i) const { return (uint32_t)rank.rank(i - 1); }
    uint32_t place_of(uint32_t number) const { return number == 0 ? 0 : (uint32_t)select.select(number) + 1; }
};

struct Tree {
    const uint32_t *parents;
    uint32_t n;
    std::string saved;
    Bits r1, r0;

    uint32_t nodes_before_zero(uint32_t z) const { return r1.place_of(1 + r0.ones_left(z)); }
    uint32_t last_sibling(uint32_t x) const { return r1.place_of(1 + r1.ones_left(x)); }
    uint32_t before_siblings(uint32_t x) const { return r1.place_of(r1.ones_left(x)); }
    uint32_t first_child(uint32_t x) const { return r0.has_one(x) ? nodes_before_zero(x) + 1 : 0; }
    uint32_t child(uint32_t x, int64_t number) const
    {
        if (number < 1 || !r0.has_one(x)) return 0;
        uint32_t run = 1 + r0.ones_left(x), before = r1.place_of(run);
        return before + number <= r1.place_of(run + 1) ? before + (uint32_t)number : 0;
    }
    uint32_t sibling(uint32_t x, int64_t distance) const
    {
        int64_t y = x + distance;
        if (y < 1 || y > n) return 0;
        if (distance > 0) return y <= last_sibling(x) ? (uint32_t)y : 0;
        if (distance < 0) return y > before_siblings(x) ? (uint32_t)y : 0;
        return x;
    }
    uint32_t degree(uint32_t x) const
    {
        if (!r0.has_one(x)) return 0;
        uint32_t run = 1 + r0.ones_left(x);
        return r1.place_of(run + 1) - r1.place_of(run);
    }
    uint32_t answer(int32_t kind, uint32_t x, int32_t argument) const
    {
        switch (kind) {
        case PLQ_PARENT: return r0.place_of(r1.ones_left(x));
        case PLQ_FIRST_CHILD: return first_child(x);
        case PLQ_LAST_CHILD: return r0.has_one(x) ? nodes_before_zero(x + 1) : 0;
        case PLQ_NEXT_SIBLING: return r1.has_one(x) ? 0 : x + 1;
        case PLQ_PREVIOUS_SIBLING: return x == 1 || r1.has_one(x - 1) ? 0 : x - 1;
        case PLQ_DEGREE: return degree(x);
        case PLQ_CHILD_RANK: return x == 1 ? 0 : x - before_siblings(x);
        case PLQ_CHILD_NUMBER: return child(x, argument);
        case PLQ_LEAF: return !r0.has_one(x);
        default: return sibling(x, argument);
        }
    }
};

void save(void *of)
{
    Tree *tree = static_cast<Tree *>(of);
    Bits r1, r0;
    r1.bits = sdsl::bit_vector(tree->n, 0);
    r0.bits = sdsl::bit_vector(tree->n + 1, 0);
    for (uint32_t x = 1; x < tree->n; x++) {
        if (tree->parents[x] != tree->parents[x - 1]) r1.bits[x - 1] = 1;
        r0.bits[tree->parents[x] - 1] = 1;
    }
    r1.bits[tree->n - 1] = 1;
    r0.bits[tree->n] = 1;
    r1.support();
    r0.support();
    std::ostringstream to;
    r1.write(to);
    r0.write(to);
    tree->saved = to.str();
}

void open(void *of)
{
    Tree *tree = static_cast<Tree *>(of);
    std::istringstream from(tree->saved);
    tree->r1.read(from);
    tree->r0.read(from);
}

void *make(const uint32_t *parents, uint32_t n)
{
    Tree *tree = new Tree;
    tree->parents = parents;
    tree->n = n;
    save(tree);
    return tree;
}

void free_tree(void *of) { delete static_cast<Tree *>(of); }

void answer(const void *of, const int32_t *questions, size_t count, uint32_t *answers)
{
    const Tree *tree = static_cast<const Tree *>(of);
    for (size_t i = 0; i < count; i++) answers[i] = tree->answer(questions[3 * i], (uint32_t)questions[3 * i + 1], questions[3 * i + 2]);
}

size_t list(const void *of, uint32_t node, uint32_t *pairs)
{
    const Tree *tree = static_cast<const Tree *>(of);
    std::vector<uint32_t> above; // from `node` down to the parent of x
    size_t count = 0;
    uint32_t x = node;
    for (;;) {
        pairs[2 * count] = x;
        pairs[2 * count + 1] = (uint32_t)above.size();
        count++;
        if (uint32_t first = tree->first_child(x)) {
            above.push_back(x);
            x = first;
            continue;
        }
        while (!above.empty() && tree->r1.has_one(x)) {
            x = above.back();
            above.pop_back();
        }
        if (above.empty()) return count;
        x++;
    }
}

size_t bytes(const void *of)
{
    const Tree *tree = static_cast<const Tree *>(of);
    return tree->r1.bytes() + tree->r0.bytes();
}

} // namespace

extern const struct peer sdsl_peer = {"sdsl", make, free_tree, open, save, answer, list, bytes};
