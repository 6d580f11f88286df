/* Other forms of the same tree, which are no sealed store: they check nothing or only the parent list, and keep their
 * tree in memory. */
#ifndef BENCH_PEERS_H
#define BENCH_PEERS_H

#include <stddef.h>
#include <stdint.h>

#ifdef __cplusplus
extern "C" {
#endif

struct peer {
    const char *name;
    /* A tree with all that the other calls need; `parents` stays the caller's and must stay. */
    void *(*make)(const uint32_t *parents, uint32_t n);
    void (*free)(void *tree);
    /* From the form in which it would be kept in a file to a tree that can be asked. */
    void (*open)(void *tree);
    /* From the parent list to the form in which it would be kept. Null where that is the parent list itself. */
    void (*save)(void *tree);
    /* As plq_ask, but without any check: the questions are allowed ones. */
    void (*answer)(const void *tree, const int32_t *questions, size_t count, uint32_t *answers);
    /* As plq_list, with any depth. */
    size_t (*list)(const void *tree, uint32_t node, uint32_t *pairs);
    size_t (*bytes)(const void *tree);
};

extern const struct peer arrays_peer;
#ifdef WITH_SDSL
extern const struct peer sdsl_peer; /* sdsl is a namespace of its headers */
#endif

#ifdef __cplusplus
}
#endif

#endif
