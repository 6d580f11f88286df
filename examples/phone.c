/* What the phone does with a sealed diary.
 *
 *     phone CONTAINER [NODE]     the seasons and weeks of the diary, and what is around NODE; metres if it has some
 *
 * 1. Lock. The lock is for reading, on a file beside the container; a writer waits for it, other readers do not.
 * 2. Copy. At most 293,888 bytes go into a buffer of this program. Nothing is parsed, checked or shown meanwhile.
 * 3. Unlock, at once, also where copying failed. The lock was held for one read of one small file. So far this is
 *    copy_container in container.h.
 * 4. Ask the copy. The check, the listing and the questions see the copy alone, so nobody can change it under them. It
 *    may be minutes until the owner has scrolled to the end, or the phone may go to sleep in the middle: the container
 *    is free, the watch can write its lap, and the system has no lock to end this program for.
 *
 * The copy is as it was when it was made. Who wants to see newer laps copies again; a sealed diary is never edited, so
 * there is nothing to merge. The check comes after the copy, since damage is found in the copy as well as in the file.
 * Exit status: 0 shown, 1 refused by the library, 2 wrong words, or the container could not be read or shown. */
#define _DEFAULT_SOURCE
#include "container.h"
#include "refusal.h"
#include <stdlib.h>

enum { DIARY, SEASON, WEEK, RUN, LAP }; /* depths */

/* A line for each season and week, with the number of weeks, runs and laps in it: all from one listing. `metres` has
 * those of node x at x - 1, and is NULL where the diary has none. */
static int show_seasons(const uint8_t *image, size_t size, const uint32_t *metres)
{
    static uint32_t pairs[PLQ_LISTING_NUMBERS(PLQ_MOST_NODES)];
    plq_answer listed = plq_list(image, size, 1, pairs, PLQ_LISTING_NUMBERS(PLQ_MOST_NODES));
    if (listed.code != PLQ_DONE) return refused("the listing", listed);

    for (size_t at = 0; at < listed.first; at++) {
        uint32_t node = pairs[2 * at], depth = pairs[2 * at + 1];
        if (depth != SEASON && depth != WEEK) continue;
        unsigned below[LAP + 1] = {0};
        for (size_t next = at + 1; next < listed.first && pairs[2 * next + 1] > depth; next++)
            if (pairs[2 * next + 1] <= LAP) below[pairs[2 * next + 1]]++;
        if (depth == SEASON)
            printf("season, node %u: weeks %u, ", (unsigned)node, below[WEEK]);
        else
            printf("  week, node %u: ", (unsigned)node);
        printf("runs %u, laps %u", below[RUN], below[LAP]);
        if (metres) printf(", metres %u", (unsigned)metres[node - 1]);
        printf("\n");
    }
    return 0;
}

/* All that is asked of one node goes into one call, which makes the whole check once. A question for metres is not
 * allowed where there are none, so it is the last and is then left out. */
static int show_around(const uint8_t *image, size_t size, int32_t node, int has_metres)
{
    static const struct {
        const char *name;
        int32_t kind, argument;
        int zero_is_none; /* for a node, and for a rank, which the root has not; else 0 is a number like any other */
    } asked[] = {
        {"parent", PLQ_PARENT, 0, 1},
        {"children", PLQ_DEGREE, 0, 0},
        {"first child", PLQ_FIRST_CHILD, 0, 1},
        {"second child", PLQ_CHILD_NUMBER, 2, 1},
        {"last child", PLQ_LAST_CHILD, 0, 1},
        {"leaf", PLQ_LEAF, 0, 0},
        {"rank among its siblings", PLQ_CHILD_RANK, 0, 1},
        {"previous sibling", PLQ_PREVIOUS_SIBLING, 0, 1},
        {"next sibling", PLQ_NEXT_SIBLING, 0, 1},
        {"sibling two to the left", PLQ_SIBLING_AT, -2, 1},
        {"metres", PLQ_METRES, 0, 0},
    };
    enum { COUNT = sizeof asked / sizeof *asked };
    plq_question questions[COUNT];
    uint32_t answers[COUNT];
    size_t count = has_metres ? COUNT : COUNT - 1;

    for (size_t i = 0; i < count; i++) questions[i] = (plq_question){asked[i].kind, node, asked[i].argument};
    plq_answer done = plq_ask_questions(image, size, questions, count, answers, COUNT);
    if (done.code != PLQ_DONE) return refused("the questions", done);

    printf("node %d\n", (int)node);
    for (size_t i = 0; i < count; i++)
        if (asked[i].zero_is_none && answers[i] == 0)
            printf("  %s: none\n", asked[i].name);
        else
            printf("  %s: %u\n", asked[i].name, (unsigned)answers[i]);
    return 0;
}

int main(int words, char **word)
{
    static uint8_t copy[PLQ_MOST_IMAGE_BYTES + 1]; /* one more, so that a file that is too long is refused as such */
    static uint32_t metres[PLQ_MOST_NODES];
    long node = 1;
    char *end = NULL;

    if (words == 3) node = strtol(word[2], &end, 10);
    if (words < 2 || words > 3 || (end && (end == word[2] || *end)) || node < INT32_MIN || node > INT32_MAX) {
        fputs("usage: phone CONTAINER [NODE]\n", stderr);
        return 2;
    }
    size_t size;
    int status = copy_container(word[1], copy, sizeof copy, &size);
    if (status != 0) return status;

    /* from here on nothing is locked */
    plq_answer checked = plq_check_image(copy, size);
    if (checked.code != PLQ_DONE) return refused(word[1], checked);
    unsigned nodes = checked.first, with_children = checked.second - 1;
    printf("a diary of %u nodes, %u of them with others below\n", nodes, with_children);

    /* no metres are no fault: where there are none nothing is shown, and not 0 */
    plq_answer measured = plq_metres_of_image(copy, size, metres, PLQ_MOST_NODES);
    int has_metres = measured.code != PLQ_NOT_ALLOWED;
    if (has_metres && measured.code != PLQ_DONE) return refused("the metres", measured);
    status = show_seasons(copy, size, has_metres ? metres : NULL);
    if (status == 0) status = show_around(copy, size, (int32_t)node, has_metres);
    return status != 0 ? status : shown();
}
