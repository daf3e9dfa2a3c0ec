/*
 * breaks.h: edits of a sound machine: each breaks one single rule for machines, or keeps them all where it
 * just may.
 */
#ifndef BREAKS_H
#define BREAKS_H

#include "../model/model.h"

/*
 * What an edit alone must lead to: refusal 28, no refusal 28, or what the rules say to what chance has
 * chosen.
 */
enum outcome { REFUSED, ACCEPTED, EITHER };

enum { ANY_MOMENT = 255 };

struct edit {
    const char *name;
    enum outcome outcome;
    uint8_t moment; /* at which the machine stands that is edited */
    bool (*apply)(struct model_machine *machine, uint32_t what); /* whether it could be applied to this one */
    uint32_t what;
};

extern const struct edit edits[];
size_t edits_length(void);

#endif
