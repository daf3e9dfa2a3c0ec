/* script.h: a script of calls as bytes: one letter, then its numbers, high byte first. */
#ifndef SCRIPT_H
#define SCRIPT_H

#include <stddef.h>
#include <stdint.h>

#include "../model/model.h"

/* What a script may have: bytes, bytes or cells lent to a call, cells of a record, boards. */
enum { SCRIPT_MOST = 262144, LENT_MOST = 1024, CELLS_MOST = 1100, BOARDS_MOST = 40 };

/* One that outgrows its room would not be played to its end: that ends the program. */
struct script {
    size_t length;
    uint8_t bytes[SCRIPT_MOST];
};

/* A number of so many bytes; and bytes as they are. */
void put(struct script *script, uint64_t number, size_t bytes);
void put_all(struct script *script, const uint8_t *bytes, size_t length);

/* The calls, one each. */
void put_start(struct script *script, uint8_t flags, const uint8_t *legacy, uint8_t length, uint32_t last);
void put_begin(struct script *script, uint16_t lent, uint8_t choice, uint8_t from_static, uint8_t address,
               uint32_t ticket);
void put_answer(struct script *script, uint16_t lent, uint8_t answered);
void put_identity(struct script *script, uint16_t lent, const uint8_t *bytes, uint8_t length);
void put_give_up(struct script *script, uint16_t lent);
void put_join(struct script *script, uint16_t lent, uint8_t choice);
void put_retire(struct script *script, uint32_t ticket);
void put_ask(struct script *script, uint32_t ticket);
void put_slot(struct script *script, uint8_t flags, const uint8_t *legacy, uint8_t length, uint32_t last,
              uint8_t address);
void put_machine(struct script *script, const struct model_machine *machine);
void put_run(struct script *script, uint16_t lent, const uint8_t *flips, uint8_t flips_length,
             const struct model_board *boards, uint8_t count);
void put_read(struct script *script, uint16_t lent, const uint16_t *cells, uint16_t length);
void put_write(struct script *script, uint16_t lent, const struct model_reading *reading,
               const uint8_t *offers, uint16_t length);

#endif
