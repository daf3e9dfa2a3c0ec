/* records.h: records of cells, as the machine writes them or built from the layouts, and damaged ones. */
#ifndef RECORDS_H
#define RECORDS_H

#include "script.h"

struct record {
    size_t length;
    uint16_t cells[CELLS_MOST];
};

/* A record by chance: one that the model's machine wrote, or one built from the layouts. */
void any_record(struct record *record);

/* The same with about so many offers, built from the layout of assign. */
void long_record(struct record *record, size_t offers);

/* One damage by chance. */
void damage(struct record *record);

/* How many offers the first cells seem to have, for a buffer of the right length. */
size_t offers_of(const struct record *record);

#endif
