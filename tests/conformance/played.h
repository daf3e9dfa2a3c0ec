/*
 * played.h: calls that are put into a script and played by the model at the same time, so that the next call
 * can be chosen with the machine in view; and the record of the cells that they wrote.
 */
#ifndef PLAYED_H
#define PLAYED_H

#include "script.h"

struct played {
    struct script *script; /* null: the calls are played only */
    struct model_machine machine;
    uint8_t refusal; /* of the last call */
    size_t record_length;
    uint16_t record[4 * LENT_MOST]; /* cells since the last START that opened a record */
};

/* A machine as it stands before the first call. */
void play_nothing(struct played *played, struct script *script);

void play_start(struct played *played, uint8_t flags, const uint8_t *legacy, uint8_t length, uint32_t last);
void play_machine(struct played *played, const struct model_machine *machine);
void play_begin(struct played *played, uint16_t lent, uint8_t choice, uint8_t from_static, uint8_t address,
                uint32_t ticket);
void play_answer(struct played *played, uint16_t lent, uint8_t answered);
void play_identity(struct played *played, uint16_t lent, const uint8_t *bytes, uint8_t length);
void play_give_up(struct played *played, uint16_t lent);
void play_join(struct played *played, uint16_t lent, uint8_t choice);
void play_retire(struct played *played, uint32_t ticket);
void play_ask(struct played *played, uint32_t ticket);
void play_run(struct played *played, uint16_t lent, const uint8_t *flips, uint8_t flips_length,
              const struct model_board *boards, uint8_t count);

/* Eight bytes of an identity, played as a call. */
void play_number(struct played *played, uint16_t lent, uint64_t identity);

#endif
