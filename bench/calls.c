#include "calls.h"

const char *name_of_call(enum call call)
{
    static const char *const names[CALLS] = {[CHECK_IMAGE] = "plq_check_image",
                                             [CHECK_METRES] = "plq_check_image:metres",
                                             [REFUSE_IMAGE] = "plq_check_image:wrong_sample",
                                             [ASK] = "plq_ask",
                                             [ASK_METRES] = "plq_ask:metres",
                                             [STRING_OF_PARENTS] = "plq_string_of_parents",
                                             [PARENTS_OF_STRING] = "plq_parents_of_string",
                                             [PARENTS_OF_PART] = "plq_parents_of_string:part",
                                             [IMAGE_OF_PARENTS] = "plq_image_of_parents",
                                             [IMAGE_WITH_METRES] = "plq_image_with_metres",
                                             [PARENTS_OF_IMAGE] = "plq_parents_of_image",
                                             [METRES_OF_IMAGE] = "plq_metres_of_image",
                                             [SPLIT] = "plq_split",
                                             [JOIN] = "plq_join",
                                             [LIST] = "plq_list",
                                             [PARENTS_OF_TEXT] = "plq_parents_of_text",
                                             [PARENTS_OF_LINES] = "plq_parents_of_text:lines",
                                             [TEXT_OF_PARENTS] = "plq_text_of_parents"};
    return names[call];
}

int has_call(const struct store *store, enum call call)
{
    if (call == IMAGE_WITH_METRES) return store->image_with_metres != NULL;
    if (call == METRES_OF_IMAGE) return store->metres_of_image != NULL;
    if (is_of_text(call)) return store->parents_of_text != NULL && store->text_of_parents != NULL;
    return 1;
}

plq_answer make_call(const struct store *store, const struct request *r, const struct lent *lent)
{
    switch (r->call) {
    case CHECK_IMAGE:
    case CHECK_METRES:
    case REFUSE_IMAGE: return store->check_image(r->bytes, r->nbytes);
    case ASK:
    case ASK_METRES: return store->ask(r->bytes, r->nbytes, r->questions, r->numbers, lent->numbers, r->room);
    case STRING_OF_PARENTS: return store->string_of_parents(r->parents, r->n, lent->bytes, r->room);
    case PARENTS_OF_STRING:
    case PARENTS_OF_PART: return store->parents_of_string(r->bytes, r->nbytes, r->bits, lent->numbers, r->room);
    case IMAGE_OF_PARENTS: return store->image_of_parents(r->parents, r->n, lent->bytes, r->room);
    case IMAGE_WITH_METRES: return store->image_with_metres(r->parents, r->n, r->metres, r->metres_count, lent->bytes, r->room);
    case PARENTS_OF_IMAGE: return store->parents_of_image(r->bytes, r->nbytes, lent->numbers, r->room);
    case METRES_OF_IMAGE: return store->metres_of_image(r->bytes, r->nbytes, lent->numbers, r->room);
    case SPLIT: return store->split(r->bytes, r->nbytes, r->bits, r->trees, lent->numbers, r->room, lent->second, r->second_room);
    case JOIN: return store->join(lent->bytes, r->nbytes, r->bits, r->trees, r->parents, r->n);
    case PARENTS_OF_TEXT:
    case PARENTS_OF_LINES: return store->parents_of_text(r->bytes, r->nbytes, lent->numbers, r->room);
    case TEXT_OF_PARENTS: return store->text_of_parents(r->parents, r->n, lent->bytes, r->room);
    default: return store->list(r->bytes, r->nbytes, r->node, lent->numbers, r->room);
    }
}
