/* A call of a store as data, so that the same call can be compared and timed for several stores. */
#ifndef BENCH_CALLS_H
#define BENCH_CALLS_H

#include "store.h"

/* Some are others once more, so that what is timed of them is kept apart: CHECK_METRES and ASK_METRES are CHECK_IMAGE and ASK
 * for an image with metres and questions for them, REFUSE_IMAGE is CHECK_IMAGE for an image that is to be refused,
 * PARENTS_OF_PART is PARENTS_OF_STRING for one tree of a pack, PARENTS_OF_LINES is PARENTS_OF_TEXT for a text with blanks. */
enum call {
    CHECK_IMAGE,
    CHECK_METRES,
    REFUSE_IMAGE,
    ASK,
    ASK_METRES,
    STRING_OF_PARENTS,
    PARENTS_OF_STRING,
    PARENTS_OF_PART,
    IMAGE_OF_PARENTS,
    IMAGE_WITH_METRES,
    PARENTS_OF_IMAGE,
    METRES_OF_IMAGE,
    SPLIT,
    JOIN,
    LIST,
    PARENTS_OF_TEXT,
    PARENTS_OF_LINES,
    TEXT_OF_PARENTS,
    CALLS
};

const char *name_of_call(enum call call);

static inline int is_check(enum call call)
{
    return call == CHECK_IMAGE || call == CHECK_METRES || call == REFUSE_IMAGE;
}

static inline int is_ask(enum call call)
{
    return call == ASK || call == ASK_METRES;
}

/* Is it about an image with metres? */
static inline int is_of_metres(enum call call)
{
    return call == CHECK_METRES || call == ASK_METRES || call == IMAGE_WITH_METRES || call == METRES_OF_IMAGE;
}

/* Is it about text? A tree may be too deep for one, or its text too long. */
static inline int is_of_text(enum call call)
{
    return call == PARENTS_OF_TEXT || call == PARENTS_OF_LINES || call == TEXT_OF_PARENTS;
}

/* What a call is given; a call takes from it what parlaqen.h says it takes. */
struct request {
    enum call call;
    const uint32_t *parents, *metres;
    size_t n, metres_count;
    const uint8_t *bytes; /* an image, a string, a pack or a text */
    size_t nbytes, bits, trees;
    const int32_t *questions;
    size_t numbers;
    uint32_t node;
    size_t room, second_room; /* in entries of what is lent */
};

/* What a call may write to. */
struct lent {
    uint8_t *bytes;    /* strings, images, texts; for join the pack itself */
    uint32_t *numbers; /* parents, metres, answers, pairs, starts */
    uint32_t *second;  /* sizes */
};

/* Has the store this call? An earlier archive may have fewer. */
int has_call(const struct store *store, enum call call);

plq_answer make_call(const struct store *store, const struct request *request, const struct lent *lent);

#endif
