/* records.c: records as the machine writes them, or built from the layouts, and damaged ones. */
#include "records.h"

#include <string.h>

#include "chance.h"
#include "families.h"
#include "played.h"
#include "tables.h"

enum { START = 512, AGAIN = 513, STOP = 514 };
enum { ANSWERED = 504, SILENT = 505, ROUND_ANSWERED = 506, ROUND_SILENT = 507 };

/* The bit that makes the count of ones odd. */
static uint8_t odd_bit(uint8_t byte)
{
    uint8_t bit = 1;
    for (; byte != 0; byte = (uint8_t)(byte >> 1)) {
        bit ^= byte & 1;
    }
    return bit;
}

/* The cell of a command or data byte. */
static uint16_t odd_cell(uint8_t byte)
{
    return (uint16_t)(byte * 2 + odd_bit(byte));
}

uint8_t offer_byte(uint8_t address)
{
    return (uint8_t)(address * 2 + odd_bit((uint8_t)(address * 2)));
}

static void add(struct record *record, uint16_t cell)
{
    if (record->length < CELLS_MOST) {
        record->cells[record->length++] = cell;
    }
}

/* ---- as the machine writes them */

/* The record of one order of a sound machine, from its START to its STOP; some are given up. */
static void walked_record(struct record *record)
{
    static struct played played;
    const struct model_machine machine = sound_machine();
    const uint32_t patience = chance(96) ? 300 : below(12);
    play_nothing(&played, NULL);
    play_machine(&played, &machine);
    if (chance(35)) {
        play_join(&played, 8, (uint8_t)below(3));
    } else {
        play_good_begin(&played, (uint8_t)below(6));
    }
    for (uint32_t step = 0; step < patience && played.machine.moment != MODEL_IDLE; step++) {
        if (played.machine.moment == MODEL_LISTENING) {
            play_number(&played, 8, edge_identity(&played.machine));
        } else {
            play_answer(&played, 8, chance(85));
        }
    }
    if (played.machine.moment != MODEL_IDLE) {
        play_give_up(&played, 8);
    }
    record->length = 0;
    for (size_t place = 0; place < played.record_length; place++) {
        add(record, played.record[place]);
    }
}

/* ---- built from the layouts */

/* A round header that answers, an identity, an offered address that is accepted or refused. */
static void add_offer(struct record *record)
{
    add(record, AGAIN);
    add(record, ROUND_ANSWERED);
    for (int byte = 0; byte < 8; byte++) {
        add(record, (uint16_t)(1024 + below(256)));
    }
    const uint8_t byte_offered = offer_byte((uint8_t)below(128));
    add(record, (uint16_t)(byte_offered * 2 + chance(25)));
}

/* Assign: offers, then a silent round header or none. */
static void add_assign(struct record *record, size_t offers)
{
    const bool silent = offers == 0 || chance(50);
    add(record, odd_cell(0x07));
    for (size_t offer = 0; offer < offers; offer++) {
        add_offer(record);
    }
    if (silent) {
        add(record, AGAIN);
        add(record, ROUND_SILENT);
    }
}

/* Set from static or move: a header that answers, and the new address; or one that does not. */
static void add_direct(struct record *record, uint8_t command)
{
    const uint8_t header = (uint8_t)below(128);
    add(record, odd_cell(command));
    add(record, AGAIN);
    if (chance(70)) {
        add(record, (uint16_t)(header * 4));
        add(record, odd_cell((uint8_t)(below(128) * 2)));
    } else {
        add(record, (uint16_t)(header * 4 + 1));
    }
}

/* What follows an answered header, and the STOP. */
static void add_command(struct record *record, size_t offers)
{
    switch (below(6)) {
    case 0: add(record, odd_cell(0x06)); break;
    case 1: add_direct(record, 0x87); break;
    case 2: add_direct(record, 0x88); break;
    case 3:
        add(record, odd_cell(0x01));
        add(record, odd_cell(0x08));
        break;
    case 4:
        add(record, odd_cell(0x00));
        add(record, odd_cell(0x08));
        break;
    default: add_assign(record, offers); break;
    }
}

/* START, and a joining that was answered, or none. */
static void add_opening(struct record *record, bool joined)
{
    record->length = 0;
    add(record, START);
    if (joined) {
        add(record, 8);
        add(record, AGAIN);
    }
}

/* Any layout: joining or not, silent or a command. Behind a joining some commands may not stand: 14. */
static void built_record(struct record *record)
{
    add_opening(record, chance(30));
    if (record->length == 1 && chance(6)) {
        add(record, 9);
    } else if (chance(10)) {
        add(record, SILENT);
    } else {
        add(record, ANSWERED);
        add_command(record, chance(80) ? below(4) : below(20));
    }
    add(record, STOP);
}

void long_record(struct record *record, size_t offers)
{
    add_opening(record, chance(40));
    add(record, ANSWERED);
    add_assign(record, offers);
    add(record, STOP);
}

void any_record(struct record *record)
{
    if (chance(40)) {
        walked_record(record);
    } else {
        built_record(record);
    }
}

/* ---- damage */

/* A cell of some kind. */
static uint16_t any_cell(void)
{
    static const uint32_t cells[] = {
        512, 513, 514, 504, 505, 506, 507, 8, 9, 13, 14, 271, 273, 1, 2, 16, 17, 12, 15, 0,
        503, 508, 511, 515, 1023, 1024, 1279, 1280,
    };
    switch (below(4)) {
    case 0: return (uint16_t)from(1020, 1284);
    case 1: return (uint16_t)below(516);
    case 2: return (uint16_t)any();
    default: return (uint16_t)ONE_OF(cells);
    }
}

/* Opens a place, or closes it. */
static void insert(struct record *record, size_t place, uint16_t cell)
{
    if (record->length < CELLS_MOST) {
        memmove(record->cells + place + 1, record->cells + place, (record->length - place) * sizeof cell);
        record->cells[place] = cell;
        record->length++;
    }
}

static void leave_out(struct record *record, size_t place)
{
    record->length--;
    memmove(record->cells + place, record->cells + place + 1,
            (record->length - place) * sizeof record->cells[0]);
}

/* Noise: any cells, or cells of the kinds that records have. */
static void noise(struct record *record)
{
    const size_t length = chance(80) ? below(30) : from(1000, CELLS_MOST);
    record->length = 0;
    while (record->length < length) {
        add(record, chance(50) ? any_cell() : (uint16_t)any());
    }
}

/* Another record behind it. */
static void append_record(struct record *record)
{
    static struct record more;
    any_record(&more);
    for (size_t place = 0; place < more.length; place++) {
        add(record, more.cells[place]);
    }
}

/* The place of a damage: anywhere, or near the beginning or the end. */
static size_t any_place(const struct record *record)
{
    const size_t at = below((uint32_t)record->length), near = below(4);
    switch (below(4)) {
    case 0: return near < record->length ? near : at;
    case 1: return near < record->length ? record->length - 1 - near : at;
    default: return at;
    }
}

void damage(struct record *record)
{
    const size_t place = record->length > 0 ? any_place(record) : 0;
    uint16_t *cell = &record->cells[place];
    const uint32_t kind = record->length > 0 ? below(11) : from(7, 9);
    switch (kind) {
    case 0: record->length = place; break;
    case 1: *cell = (uint16_t)(*cell ^ 1 << below(16)); break;
    case 2: *cell = (uint16_t)(*cell ^ 1 << below(2)); break;
    case 3: *cell = (uint16_t)(chance(50) ? *cell + 1 : *cell - 1); break;
    case 4: *cell = any_cell(); break;
    case 5: leave_out(record, place); break;
    case 6: insert(record, place, *cell); break;
    case 7: add(record, chance(50) ? STOP : any_cell()); break;
    case 8: append_record(record); break;
    case 9: noise(record); break;
    default: *cell = (uint16_t)(*cell < 1024 ? *cell ^ 512 : chance(50) ? 1280 : 1023); break;
    }
}

size_t offers_of(const struct record *record)
{
    size_t bytes = 0;
    for (size_t place = 0; place < record->length; place++) {
        bytes += record->cells[place] >= 1024 && record->cells[place] < 1280;
    }
    return bytes / 8;
}
