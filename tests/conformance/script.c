/* script.c: a script of calls as bytes. */
#include "script.h"

#include <stdio.h>
#include <stdlib.h>
#include <string.h>

/* Room for so many bytes more; a script that outgrows its room is a mistake of this program. */
static void need(const struct script *script, size_t more)
{
    if (more > SCRIPT_MOST - script->length) {
        fputs("generate: a script outgrows its room\n", stderr);
        exit(2);
    }
}

void put(struct script *script, uint64_t number, size_t bytes)
{
    need(script, bytes);
    for (size_t left = bytes; left > 0; left--) {
        script->bytes[script->length++] = (uint8_t)(number >> (8 * (left - 1)));
    }
}

void put_all(struct script *script, const uint8_t *bytes, size_t length)
{
    need(script, length);
    if (length > 0) {
        memcpy(script->bytes + script->length, bytes, length);
        script->length += length;
    }
}

void put_start(struct script *script, uint8_t flags, const uint8_t *legacy, uint8_t length, uint32_t last)
{
    put(script, 's', 1);
    put(script, flags, 1);
    put(script, length, 1);
    put_all(script, legacy, length);
    put(script, last, 4);
}

void put_begin(struct script *script, uint16_t lent, uint8_t choice, uint8_t from_static, uint8_t address,
               uint32_t ticket)
{
    put(script, 'b', 1);
    put(script, lent, 2);
    put(script, choice, 1);
    put(script, from_static, 1);
    put(script, address, 1);
    put(script, ticket, 4);
}

void put_answer(struct script *script, uint16_t lent, uint8_t answered)
{
    put(script, 'a', 1);
    put(script, lent, 2);
    put(script, answered, 1);
}

void put_identity(struct script *script, uint16_t lent, const uint8_t *bytes, uint8_t length)
{
    put(script, 'i', 1);
    put(script, lent, 2);
    put(script, length, 1);
    put_all(script, bytes, length);
}

void put_give_up(struct script *script, uint16_t lent)
{
    put(script, 'g', 1);
    put(script, lent, 2);
}

void put_join(struct script *script, uint16_t lent, uint8_t choice)
{
    put(script, 'j', 1);
    put(script, lent, 2);
    put(script, choice, 1);
}

void put_retire(struct script *script, uint32_t ticket)
{
    put(script, 'r', 1);
    put(script, ticket, 4);
}

void put_ask(struct script *script, uint32_t ticket)
{
    put(script, 'q', 1);
    put(script, ticket, 4);
}

void put_slot(struct script *script, uint8_t flags, const uint8_t *legacy, uint8_t length, uint32_t last,
              uint8_t address)
{
    put(script, 't', 1);
    put(script, flags, 1);
    put(script, length, 1);
    put_all(script, legacy, length);
    put(script, last, 4);
    put(script, address, 1);
}

/* One place of the table. */
static void put_row(struct script *script, const struct model_row *row)
{
    put(script, row->address, 1);
    put(script, row->ticket, 4);
    put(script, row->unknown, 1);
    put(script, row->identity, 8);
    put(script, row->from_static, 1);
}

void put_machine(struct script *script, const struct model_machine *machine)
{
    put(script, 'm', 1);
    put(script, machine->facts.flags, 1);
    put_all(script, machine->facts.legacy, MODEL_LEGACY);
    put(script, machine->facts.last, 4);
    put(script, machine->moment, 1);
    put(script, machine->choice, 1);
    put(script, machine->asked, 1);
    put(script, machine->wanted, 1);
    put(script, machine->identity, 8);
    put(script, machine->offered, 1);
    put(script, machine->refusals, 1);
    for (size_t place = 0; place < MODEL_ROWS; place++) {
        put_row(script, &machine->rows[place]);
    }
}

void put_run(struct script *script, uint16_t lent, const uint8_t *flips, uint8_t flips_length,
             const struct model_board *boards, uint8_t count)
{
    put(script, 'n', 1);
    put(script, lent, 2);
    put(script, flips_length, 1);
    put_all(script, flips, flips_length);
    put(script, count, 1);
    for (size_t board = 0; board < count; board++) {
        put(script, boards[board].identity, 8);
        put(script, boards[board].address, 1);
    }
}

void put_read(struct script *script, uint16_t lent, const uint16_t *cells, uint16_t length)
{
    put(script, 'd', 1);
    put(script, lent, 2);
    put(script, length, 2);
    for (size_t place = 0; place < length; place++) {
        put(script, cells[place], 2);
    }
}

void put_write(struct script *script, uint16_t lent, const struct model_reading *reading,
               const uint8_t *offers, uint16_t length)
{
    put(script, 'w', 1);
    put(script, lent, 2);
    put(script, reading->joining, 1);
    put(script, reading->command, 1);
    put(script, reading->header, 1);
    put(script, reading->new_address, 1);
    put(script, reading->direct, 1);
    put(script, reading->last, 1);
    put(script, reading->offers, 1);
    put(script, length, 2);
    put_all(script, offers, length);
}
