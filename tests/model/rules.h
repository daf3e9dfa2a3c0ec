/* rules.h: what the parts of the model share; no other code takes it in. */
#ifndef RULES_H
#define RULES_H

#include "model.h"

/* Cells without clocks, and the headers 7Eh/W and 7Eh/R with and without an answer. */
enum {
    CELL_START = 512,
    CELL_AGAIN = 513,
    CELL_STOP = 514,
    CELL_IDENTITY = 1024,
    CELL_OPEN_YES = 504,
    CELL_OPEN_NO = 505,
    CELL_ROUND_YES = 506,
    CELL_ROUND_NO = 507
};

/* Choices of Begin. */
enum { ASSIGN, RESET_ALL, SET_FROM_STATIC, MOVE, SILENCE, ALLOW };

enum { LEAST_CELLS = 8, RECORD_CELLS = 1024, OFFER_BYTES = 10, MOST_BOARDS = 32, NO_FLIP = 8 };

#define LAST_OF_ALL UINT32_C(4294967295)

/* ---- slots.c */

/* Whether the count of ones is odd. */
bool odd_ones(unsigned number);

/* The ninth-bit cell of a command or data byte: nine bits with an odd count of ones. */
uint16_t data_cell(uint8_t byte);

/* The offered byte: address times 2 plus the bit that makes its count of ones odd. */
uint8_t offered_byte(uint8_t address);

bool facts_sound(const struct model_facts *facts);
bool is_legacy(const struct model_facts *facts, uint8_t address);
bool is_open(const struct model_facts *facts, uint8_t address);
bool is_static(uint8_t address);

/* ---- machine.c */

/* Facts, rows, tickets and what the moment remembers: refusal 28 is given when this fails. */
bool machine_sound(const struct model_machine *m);

size_t rows_used(const struct model_machine *m);

/* The lowest free address of a sound table; 0 if none. */
uint8_t lowest_free(const struct model_machine *m);

#endif
