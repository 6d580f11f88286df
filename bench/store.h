/* A plain C store: the thirteen calls of parlaqen.h once more, written by hand from the same rules, with the same answers and
 * refusals. Nothing of it is proved. It is what the benchmark holds the library against. */
#ifndef BENCH_STORE_H
#define BENCH_STORE_H

#include "parlaqen.h"

/* One store as the benchmark sees it: its name and its thirteen calls, each as parlaqen.h describes it. */
struct store {
    const char *name;
    plq_answer (*string_of_parents)(const uint32_t *parents, size_t n, uint8_t *bytes, size_t room);
    plq_answer (*parents_of_string)(const uint8_t *bytes, size_t nbytes, size_t bits, uint32_t *parents, size_t room);
    plq_answer (*image_of_parents)(const uint32_t *parents, size_t n, uint8_t *image, size_t room);
    plq_answer (*image_with_metres)(const uint32_t *parents, size_t n, const uint32_t *metres, size_t metres_count, uint8_t *image, size_t room);
    plq_answer (*parents_of_image)(const uint8_t *image, size_t nbytes, uint32_t *parents, size_t room);
    plq_answer (*metres_of_image)(const uint8_t *image, size_t nbytes, uint32_t *metres, size_t room);
    plq_answer (*check_image)(const uint8_t *image, size_t nbytes);
    plq_answer (*ask)(const uint8_t *image, size_t nbytes, const int32_t *questions, size_t numbers, uint32_t *answers, size_t room);
    plq_answer (*split)(const uint8_t *bytes, size_t nbytes, size_t bits, size_t trees, uint32_t *starts, size_t starts_room,
                        uint32_t *sizes, size_t sizes_room);
    plq_answer (*join)(uint8_t *pack, size_t nbytes, size_t bits, size_t trees, const uint32_t *parents, size_t n);
    plq_answer (*list)(const uint8_t *image, size_t nbytes, uint32_t node, uint32_t *pairs, size_t room);
    plq_answer (*parents_of_text)(const uint8_t *text, size_t nbytes, uint32_t *parents, size_t room);
    plq_answer (*text_of_parents)(const uint32_t *parents, size_t n, uint8_t *text, size_t room);
};

/* The thirteen calls whose names begin with `prefix`, in the order of struct store. */
#define CALLS_OF(prefix) \
    prefix##string_of_parents, prefix##parents_of_string, prefix##image_of_parents, prefix##image_with_metres, \
    prefix##parents_of_image, prefix##metres_of_image, prefix##check_image, prefix##ask, prefix##split, prefix##join, prefix##list, \
    prefix##parents_of_text, prefix##text_of_parents

/* store.c is compiled once for each of these, with other flags each time, so that one program holds them all. The plain ones
 * have the sums, the copying of metres and the listing in the form that is named for the library too; faster_o2 has all three in
 * a faster one. */
extern const struct store plain_o2, faster_o2, plain_o3;

#endif
