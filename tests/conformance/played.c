/* played.c: calls that are put into a script and played by the model at the same time. */
#include "played.h"

#include <string.h>

static uint16_t cells[LENT_MOST];

/*
 * The machine that a call handed back, and its cells at the end of the record; an opening call begins a new
 * one.
 */
static void take(struct played *played, const struct model_step *step, bool opens)
{
    played->machine = step->machine;
    played->refusal = step->refusal;
    if (opens && step->wrote > 0) {
        played->record_length = 0;
    }
    for (size_t place = 0; place < step->wrote && played->record_length < 4 * LENT_MOST; place++) {
        played->record[played->record_length++] = cells[place];
    }
}

void play_nothing(struct played *played, struct script *script)
{
    const struct model_step step = model_start(0, NULL, 0, 0);
    played->script = script;
    played->record_length = 0;
    take(played, &step, true);
}

void play_start(struct played *played, uint8_t flags, const uint8_t *legacy, uint8_t length, uint32_t last)
{
    const struct model_step step = model_start(flags, legacy, length, last);
    take(played, &step, true);
    if (played->script != NULL) {
        put_start(played->script, flags, legacy, length, last);
    }
}

void play_machine(struct played *played, const struct model_machine *machine)
{
    played->machine = *machine;
    played->refusal = 0;
    if (played->script != NULL) {
        put_machine(played->script, machine);
    }
}

void play_begin(struct played *played, uint16_t lent, uint8_t choice, uint8_t from_static, uint8_t address,
                uint32_t ticket)
{
    const struct model_step step =
        model_begin(played->machine, choice, from_static, address, ticket, cells, lent);
    take(played, &step, true);
    if (played->script != NULL) {
        put_begin(played->script, lent, choice, from_static, address, ticket);
    }
}

void play_answer(struct played *played, uint16_t lent, uint8_t answered)
{
    const struct model_step step = model_answer(played->machine, answered != 0, cells, lent);
    take(played, &step, false);
    if (played->script != NULL) {
        put_answer(played->script, lent, answered);
    }
}

void play_identity(struct played *played, uint16_t lent, const uint8_t *bytes, uint8_t length)
{
    const struct model_step step = model_identity(played->machine, bytes, length, cells, lent);
    take(played, &step, false);
    if (played->script != NULL) {
        put_identity(played->script, lent, bytes, length);
    }
}

void play_give_up(struct played *played, uint16_t lent)
{
    const struct model_step step = model_give_up(played->machine, cells, lent);
    take(played, &step, false);
    if (played->script != NULL) {
        put_give_up(played->script, lent);
    }
}

void play_join(struct played *played, uint16_t lent, uint8_t choice)
{
    const struct model_step step = model_join(played->machine, choice, cells, lent);
    take(played, &step, true);
    if (played->script != NULL) {
        put_join(played->script, lent, choice);
    }
}

void play_retire(struct played *played, uint32_t ticket)
{
    const struct model_step step = model_retire(played->machine, ticket);
    take(played, &step, false);
    if (played->script != NULL) {
        put_retire(played->script, ticket);
    }
}

void play_ask(struct played *played, uint32_t ticket)
{
    played->refusal = model_ask(played->machine, ticket).refusal;
    if (played->script != NULL) {
        put_ask(played->script, ticket);
    }
}

void play_run(struct played *played, uint16_t lent, const uint8_t *flips, uint8_t flips_length,
              const struct model_board *boards, uint8_t count)
{
    struct model_board lent_boards[BOARDS_MOST];
    struct model_run run;
    if (count > 0) {
        memcpy(lent_boards, boards, count * sizeof *boards);
    }
    run = model_run_wire(played->machine, lent_boards, count, flips, flips_length, cells, lent);
    const struct model_step step = { run.machine, run.wrote, run.refusal };
    take(played, &step, true);
    if (played->script != NULL) {
        put_run(played->script, lent, flips, flips_length, boards, count);
    }
}

void play_number(struct played *played, uint16_t lent, uint64_t identity)
{
    uint8_t bytes[8];
    for (size_t place = 0; place < 8; place++) {
        bytes[place] = (uint8_t)(identity >> (56 - 8 * place));
    }
    play_identity(played, lent, bytes, 8);
}
