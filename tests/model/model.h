/*
 * model.h: the rules of the rack a second time, in C, to hold the proved core to.
 *
 * The model is told from the paper alone: nothing in it is taken from the core's
 * code or its definitions. Each function takes every input, judges all that the
 * paper has it judge, and hands the machine back by value. Numbers of choices,
 * commands, refusals and endings are the paper's.
 */
#ifndef MODEL_H
#define MODEL_H

#include <stdbool.h>
#include <stddef.h>
#include <stdint.h>

enum { MODEL_ROWS = 32, MODEL_LEGACY = 16 };

enum model_moment { MODEL_IDLE, MODEL_OPENED, MODEL_ROUND, MODEL_LISTENING, MODEL_OFFERED, MODEL_DIRECT };

/* Bus facts. */
struct model_facts {
    uint8_t flags;
    uint8_t legacy[MODEL_LEGACY];
    uint32_t last; /* the last ticket given */
};

/* A place of the table; it is used when its address is not 0. */
struct model_row {
    uint8_t address;
    uint32_t ticket;
    bool unknown; /* the mark "identity unknown" */
    uint64_t identity;
    uint8_t from_static; /* the static address that it was set from, 0 if none */
};

/* The machine: facts, rows, its moment (an enum model_moment, never another number), and what the moment
 * remembers; the rest is 0. */
struct model_machine {
    struct model_facts facts;
    struct model_row rows[MODEL_ROWS];
    uint8_t moment;
    uint8_t choice;
    uint8_t asked;  /* static address of choice 2, present address of choice 3 */
    uint8_t wanted; /* new address of choices 2 and 3 */
    uint64_t identity;
    uint8_t offered;
    uint8_t refusals; /* in succession */
};

/* ---- slots */

struct model_slot {
    uint8_t refusal;
    bool open;
};

struct model_slot model_slot_test(uint8_t flags, const uint8_t *legacy, size_t legacy_length, uint32_t last,
                                  uint8_t address);

/* ---- the machine's calls: the machine handed back, how many cells were written, the refusal (0: none) */

struct model_step {
    struct model_machine machine;
    size_t wrote;
    uint8_t refusal;
};

struct model_step model_start(uint8_t flags, const uint8_t *legacy, size_t legacy_length, uint32_t last);
struct model_step model_begin(struct model_machine m, uint8_t choice, uint8_t from_static, uint8_t address,
                              uint32_t ticket, uint16_t *cells, size_t lent);
struct model_step model_answer(struct model_machine m, bool answered, uint16_t *cells, size_t lent);
struct model_step model_identity(struct model_machine m, const uint8_t *bytes, size_t length, uint16_t *cells,
                                 size_t lent);
struct model_step model_give_up(struct model_machine m, uint16_t *cells, size_t lent);
struct model_step model_join(struct model_machine m, uint8_t choice, uint16_t *cells, size_t lent);
struct model_step model_retire(struct model_machine m, uint32_t ticket);

struct model_ticket {
    uint8_t refusal;
    uint8_t address;
};

struct model_ticket model_ask(struct model_machine m, uint32_t ticket);

/* ---- records */

/* What a record says. joining: 0 none, 1 refused, 2 answered; command: 0 none, 1 assign, 2 reset all,
 * 3 set from static, 4 move, 5 silence, 6 allow. */
struct model_reading {
    uint8_t joining;
    uint8_t command;
    uint8_t header;
    uint8_t new_address;
    bool direct; /* whether the direct header answered */
    bool last;   /* whether the last round header answered */
    size_t offers;
};

struct model_told {
    uint8_t refusal;
    size_t place;
    struct model_reading reading;
};

struct model_written {
    uint8_t refusal;
    size_t place;
    size_t wrote;
};

/* offers: 10 bytes an offer. */
struct model_told model_read(const uint16_t *cells, size_t length, uint8_t *offers, size_t lent);
struct model_written model_write(struct model_reading reading, const uint8_t *offers, size_t offers_length,
                                 uint16_t *cells, size_t lent);

/* ---- the bench */

struct model_board {
    uint64_t identity;
    uint8_t address; /* or 0 */
};

struct model_run {
    struct model_machine machine;
    size_t wrote;
    uint8_t ending;
    size_t rounds; /* answered ones */
    size_t clocks;
    uint8_t refusal;
};

/* On the wire, bit by bit, with the machine's own calls. The boards' list is lent: a run writes the taken
 * addresses into it. */
struct model_run model_run_wire(struct model_machine m, struct model_board *boards, size_t count,
                                const uint8_t *flips, size_t flips_length, uint16_t *cells, size_t lent);

/* The same run by the plain rule, without identity bits and without the machine's calls. */
struct model_run model_run_plain(struct model_machine m, struct model_board *boards, size_t count,
                                 const uint8_t *flips, size_t flips_length, uint16_t *cells, size_t lent);

/* ---- the sheet run, played on the wire: the refusal, or 0 and the listing's length */

struct model_listing {
    uint8_t refusal;
    size_t length;
};

struct model_listing model_sheet_run(const uint8_t *sheet, size_t sheet_length, uint8_t *out, size_t lent);

#endif
