/* same.h: whether two machines, or two lists of boards, are the same; for the programs that compare them. */
#ifndef SAME_H
#define SAME_H

#include <string.h>

#include "model.h"

/* Two places of the table. */
static inline bool same_row(const struct model_row *a, const struct model_row *b)
{
    return a->address == b->address && a->ticket == b->ticket && a->unknown == b->unknown
        && a->identity == b->identity && a->from_static == b->from_static;
}

/* All of two machines. */
static inline bool same_machine(const struct model_machine *a, const struct model_machine *b)
{
    for (size_t i = 0; i < MODEL_ROWS; i++)
        if (!same_row(&a->rows[i], &b->rows[i]))
            return false;
    return a->facts.flags == b->facts.flags && memcmp(a->facts.legacy, b->facts.legacy, MODEL_LEGACY) == 0
        && a->facts.last == b->facts.last && a->moment == b->moment && a->choice == b->choice
        && a->asked == b->asked && a->wanted == b->wanted && a->identity == b->identity
        && a->offered == b->offered && a->refusals == b->refusals;
}

/* So many boards of two lists. */
static inline bool same_boards(const struct model_board *a, const struct model_board *b, size_t count)
{
    for (size_t i = 0; i < count; i++)
        if (a[i].identity != b[i].identity || a[i].address != b[i].address)
            return false;
    return true;
}

#endif
