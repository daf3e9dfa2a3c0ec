/* walks.h: calls chosen with the machine in view. */
#ifndef WALKS_H
#define WALKS_H

#include "played.h"

/* How many cells are lent: nearly always enough; sometimes 0, 7 or far more. */
uint16_t any_lent(void);

/* A start on facts that mostly keep the rules, or a sound machine made by hand. */
void play_opening(struct played *played);

/* A call of that letter, with good arguments (as far as there are any), or with some near an edge. */
void play_letter(struct played *played, char letter, bool good);

/* A call that the machine's moment suggests. */
void play_step(struct played *played);

#endif
