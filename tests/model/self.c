/* self.c: the model held to the paper's numbers and to itself. */
#include <inttypes.h>
#include <stdio.h>
#include <string.h>

#include "rules.h"
#include "same.h"

static unsigned passed, failed;

static void check(bool held, const char *words)
{
    if (held) {
        passed++;
    } else {
        failed++;
        printf("failed: %s\n", words);
    }
}

/* ---- random numbers, the same on each run */

static uint64_t seed = UINT64_C(0x9E3779B97F4A7C15);

static uint64_t draw(void)
{
    seed ^= seed << 13;
    seed ^= seed >> 7;
    seed ^= seed << 17;
    return seed * UINT64_C(0x2545F4914F6CDD1D) >> 11;
}

static size_t below(size_t n)
{
    return (size_t)(draw() % n);
}

/* ---- helpers */

static const uint8_t no_legacy[MODEL_LEGACY];

static bool is_legacy_place(unsigned a)
{
    return a >= 0x08 && a <= 0x77;
}

static void set_legacy(uint8_t *legacy, unsigned a)
{
    legacy[a / 8] |= (uint8_t)(1u << a % 8);
}

static bool cells_are(const uint16_t *cells, size_t wrote, const uint16_t *wanted, size_t count)
{
    return wrote == count && memcmp(cells, wanted, count * sizeof *cells) == 0;
}

#define CELLS_ARE(cells, wrote, ...)                                                                     \
    cells_are(cells, wrote, (const uint16_t[]){ __VA_ARGS__ },                                           \
              sizeof((const uint16_t[]){ __VA_ARGS__ }) / sizeof(uint16_t))

static struct model_machine started(uint8_t flags, const uint8_t *legacy, uint32_t last)
{
    return model_start(flags, legacy, MODEL_LEGACY, last).machine;
}

/* ---- the paper's numbers */

static void test_vectors(void)
{
    check(offered_byte(0x08) == 0x10 && offered_byte(0x09) == 0x13, "offered bytes of 08h, 09h");
    check(offered_byte(0x0B) == 0x16 && offered_byte(0x77) == 0xEF, "offered bytes of 0Bh, 77h");
    check(data_cell(0x07) == 14 && data_cell(0x06) == 13, "ninth-bit cells of 07h, 06h");
    check(data_cell(0x87) == 271 && data_cell(0x88) == 273, "ninth-bit cells of 87h, 88h");
    check(data_cell(0x01) == 2 && data_cell(0x00) == 1 && data_cell(0x08) == 16, "cells of 01h, 00h, 08h");
}

static bool slot(uint8_t flags, uint8_t address)
{
    return model_slot_test(flags, no_legacy, MODEL_LEGACY, 0, address).open;
}

static void test_slots(void)
{
    unsigned open[4] = { 0 };
    for (uint8_t flags = 0; flags < 4; flags++)
        for (uint8_t a = 0; a < 128; a++)
            open[flags] += slot(flags, a);
    check(open[1] == 108 && open[0] == 112 && open[2] == 113 && open[3] == 109, "open addresses counted");
    check(!slot(1, 0x3E) && slot(1, 0x3F) && !slot(1, 0x07) && slot(1, 0x08), "3Eh, 3Fh, 07h, 08h");
    for (unsigned bit = 0; bit < 7; bit++)
        check(!slot(2, (uint8_t)(0x7E ^ 1u << bit)), "one bit away from 7Eh");
    uint8_t legacy[MODEL_LEGACY] = { 0 };
    set_legacy(legacy, 0x20);
    check(!model_slot_test(0, legacy, 16, 0, 0x20).open, "legacy is not open");
    check(model_slot_test(0, legacy, 15, 0, 200).refusal == 1, "legacy not 16 bytes");
    check(model_slot_test(4, legacy, 16, 0, 200).refusal == 1, "flags over 3 before a bad address");
    check(model_slot_test(3, legacy, 16, 0, 128).refusal == 2, "address over 127");
    for (unsigned a = 0; a < 128; a++) {
        uint8_t one[MODEL_LEGACY] = { 0 };
        set_legacy(one, a);
        check((model_start(0, one, 16, 0).refusal == 0) == is_legacy_place(a), "legacy in 08h to 77h");
    }
}

static void test_start(void)
{
    struct model_step s = model_start(4, no_legacy, 16, 7);
    struct model_machine none = { .facts.last = LAST_OF_ALL };
    check(s.refusal == 1 && s.wrote == 0 && same_machine(&s.machine, &none), "a refused start");
    check(lowest_free(&(struct model_machine){ .facts.flags = 1 }) == 0x08, "lowest free, flags 1");
    check(lowest_free(&(struct model_machine){ .facts.flags = 0 }) == 0x04, "lowest free, flags 0");
    check(lowest_free(&(struct model_machine){ .facts.flags = 2 }) == 0x03, "lowest free, flags 2");
}

static void test_full(void)
{
    uint16_t cells[RECORD_CELLS];
    uint8_t all[MODEL_LEGACY] = { 0 };
    for (unsigned a = 0x08; a <= 0x77; a++)
        set_legacy(all, a);
    check(model_begin(started(1, all, 0), ASSIGN, 0, 0, 0, cells, 8).refusal == 6, "all legacy: refusal 6");
    struct model_machine spent = started(1, no_legacy, LAST_OF_ALL);
    check(model_begin(spent, ASSIGN, 0, 0, 0, cells, 8).refusal == 7, "no ticket");
    struct model_machine m = started(1, no_legacy, 0);
    struct model_board boards[MOST_BOARDS];
    for (size_t i = 0; i < MOST_BOARDS; i++)
        boards[i] = (struct model_board){ 1000 - i, 0 };
    struct model_run run = model_run_wire(m, boards, 32, NULL, 0, cells, RECORD_CELLS);
    check(run.refusal == 0 && run.ending == 2 && run.rounds == 32, "32nd row: the run");
    check(rows_used(&run.machine) == 32, "32nd row");
    check(model_begin(run.machine, ASSIGN, 0, 0, 0, cells, 8).refusal == 5, "33rd refused");
    check(model_run_plain(run.machine, boards, 0, NULL, 0, cells, 1024).refusal == 5, "33rd on the bench");
    check(boards[31].address == 8 && boards[0].address == 8 + 31, "the smallest first");
}

static void test_no_boards(void)
{
    uint16_t cells[RECORD_CELLS];
    struct model_machine m = started(1, no_legacy, 0);
    struct model_run run = model_run_wire(m, NULL, 0, NULL, 0, cells, RECORD_CELLS);
    check(CELLS_ARE(cells, run.wrote, 512, 505, 514), "no boards: the cells");
    check(run.ending == 5 && run.clocks == 9 && run.rounds == 0 && run.refusal == 0, "no boards: the ending");
    check(same_machine(&run.machine, &m), "no boards: nothing changed");
    check(model_run_wire(m, NULL, 0, NULL, 0, cells, 1023).refusal == 11, "bench lent too little");
    struct model_board board = { 0, 127 };
    run = model_run_wire(m, &board, 1, NULL, 0, cells, RECORD_CELLS);
    check(CELLS_ARE(cells, run.wrote, 512, 504, 14, 513, 507, 514), "a board with an address: the cells");
    check(run.ending == 0 && run.clocks == 27 && run.refusal == 0, "a board with an address: the ending");
    board.address = 128;
    check(model_run_wire(m, &board, 1, (uint8_t[]){ 9 }, 1, cells, RECORD_CELLS).refusal == 2, "2 before 17");
}

static size_t make_sheet(uint8_t *sheet)
{
    static const uint8_t table[] = { 4, 1, 0, 17, 21, 2, 0, 38, 8, 2, 0, 46, 8, 3, 0, 54, 1 };
    static const uint8_t boards[] = { 2, 0, 0, 0, 0x10, 0, 6, 0x41, 2, 0, 0, 0, 0, 0, 6, 0x41, 3 };
    memset(sheet, 0, 55);
    memcpy(sheet, table, sizeof table);
    sheet[17] = 1;
    memcpy(sheet + 38, boards, sizeof boards);
    return 55;
}

static void test_sheet(void)
{
    static const char listing[] = "addr ticket identity\n08 1 0200000000000641\n09 2 0200000010000641\n"
                                  "end 0 rounds 3 clocks 273\n";
    uint8_t sheet[512], out[1100];
    size_t n = make_sheet(sheet);
    struct model_listing l = model_sheet_run(sheet, n, out, 1100);
    check(l.refusal == 0 && l.length == sizeof listing - 1, "the sheet's listing, its length");
    check(memcmp(out, listing, sizeof listing - 1) == 0, "the sheet's listing");
    check(model_sheet_run(sheet, n, out, 1099).refusal == 11, "sheet run lent too little");
    for (size_t cut = 0; cut < n; cut++)
        check(model_sheet_run(sheet, cut, out, 1100).refusal == 18, "a cut sheet");
    check(model_sheet_run(sheet, n + 1, out, 1100).refusal == 18, "a sheet with a byte behind");
    for (size_t i = 0; i < 17; i++) {
        make_sheet(sheet);
        sheet[i] ^= 0x80;
        check(model_sheet_run(sheet, n, out, 1100).refusal == 18, "a damaged contents table");
    }
    make_sheet(sheet);
    sheet[54] = 9;
    check(model_sheet_run(sheet, n, out, 1100).refusal == 17, "a flip over 8");
    memset(sheet + 34, 255, 4);
    check(model_sheet_run(sheet, n, out, 1100).refusal == 17, "17 before 7");
    sheet[54] = 8;
    check(model_sheet_run(sheet, n, out, 1100).refusal == 7, "no ticket left");
    sheet[17] = 4;
    check(model_sheet_run(sheet, n, out, 1100).refusal == 1, "bad flags");
}

/* A sheet with these kinds, bodies all zero, flips so many; the refusal of its run. */
static uint8_t run_kinds(const char *kinds, size_t flips)
{
    uint8_t sheet[1024] = { (uint8_t)strlen(kinds) }, out[1100];
    size_t body = 1 + 4 * strlen(kinds);
    for (size_t i = 0; kinds[i] != 0; i++) {
        uint8_t *entry = sheet + 1 + 4 * i;
        entry[0] = (uint8_t)(kinds[i] - '0');
        entry[1] = (uint8_t)(body >> 8);
        entry[2] = (uint8_t)(body & 255);
        entry[3] = (uint8_t)(kinds[i] == '1' ? 21 : kinds[i] == '2' ? 8 : flips);
        body += entry[3];
    }
    return model_sheet_run(sheet, body, out, 1100).refusal;
}

#define EIGHT "22222222"

static void test_kinds(void)
{
    check(run_kinds("1", 0) == 0 && run_kinds("13", 0) == 0 && run_kinds("123", 64) == 0, "sheets taken");
    check(run_kinds("1" EIGHT EIGHT EIGHT EIGHT "3", 64) == 0, "a sheet of 32 boards and 64 flips");
    check(run_kinds("1" EIGHT EIGHT EIGHT EIGHT "2", 0) == 16, "a sheet of 33 boards");
    check(run_kinds("1" EIGHT EIGHT EIGHT EIGHT "22", 0) == 18, "35 entries");
    check(run_kinds("123", 65) == 18, "65 flips");
    check(run_kinds("132", 1) == 18 && run_kinds("133", 1) == 18, "flips not last, or twice");
    check(run_kinds("21", 0) == 18 && run_kinds("3", 21) == 18, "facts not first");
    check(run_kinds("11", 0) == 18, "facts twice");
    check(run_kinds("", 0) == 18, "no entries");
    check(run_kinds("14", 8) == 18 && run_kinds("10", 8) == 18, "no such kind");
}

/* ---- single steps */

static void test_steps(void)
{
    uint16_t cells[8];
    struct model_machine m = started(1, no_legacy, 5);
    struct model_step s = model_begin(m, SET_FROM_STATIC, 0x10, 0x20, 0, cells, 8);
    check(s.refusal == 0 && CELLS_ARE(cells, s.wrote, 512), "begin writes START");
    s = model_answer(s.machine, true, cells, 8);
    check(CELLS_ARE(cells, s.wrote, 504, 271, 513), "set from static: the command");
    s = model_answer(s.machine, true, cells, 8);
    check(CELLS_ARE(cells, s.wrote, 64, 128, 514), "set from static: the header and the address");
    struct model_row row = { 0x20, 6, true, 0, 0x10 };
    check(same_row(&s.machine.rows[0], &row) && s.machine.moment == MODEL_IDLE, "set from static: the row");
    m = s.machine;
    check(model_begin(m, SET_FROM_STATIC, 0x20, 0x21, 0, cells, 8).refusal == 4, "static held as dynamic");
    check(model_begin(m, SET_FROM_STATIC, 0x10, 0x21, 0, cells, 8).refusal == 4, "static held as static");
    check(model_begin(m, MOVE, 0, 0x20, 6, cells, 8).refusal == 4, "moved to its own address");
    check(model_begin(m, MOVE, 0, 0x3E, 5, cells, 8).refusal == 9, "retired before not open");
    check(model_begin(m, MOVE, 0, 0x3E, 7, cells, 8).refusal == 8, "unknown ticket");
    s = model_begin(m, MOVE, 200, 0x30, 6, cells, 8);
    s = model_answer(s.machine, true, cells, 8);
    check(CELLS_ARE(cells, s.wrote, 504, 273, 513), "move: the command");
    s = model_answer(s.machine, true, cells, 8);
    check(CELLS_ARE(cells, s.wrote, 128, 193, 514), "move: the header and the address");
    check(s.machine.rows[0].address == 0x30 && s.machine.rows[0].ticket == 6, "move: the row");
    s = model_join(m, 0, cells, 8);
    check(CELLS_ARE(cells, s.wrote, 512, 9, 514) && s.machine.moment == MODEL_IDLE, "a joining refused");
    s = model_join(m, 1, cells, 8);
    check(CELLS_ARE(cells, s.wrote, 512, 8, 513) && s.machine.choice == SILENCE, "a joining answered");
    s = model_answer(s.machine, true, cells, 8);
    check(CELLS_ARE(cells, s.wrote, 504, 2, 16, 514), "silence");
    s = model_answer(model_begin(m, ALLOW, 0, 0, 0, cells, 8).machine, true, cells, 8);
    check(CELLS_ARE(cells, s.wrote, 504, 1, 16, 514), "allow");
    s = model_answer(model_begin(m, RESET_ALL, 0, 0, 0, cells, 8).machine, true, cells, 8);
    check(CELLS_ARE(cells, s.wrote, 504, 13, 514) && rows_used(&s.machine) == 0, "reset all");
    check(model_ask(m, 6).address == 0x20 && model_ask(m, 3).refusal == 9, "asking");
    s = model_retire(m, 6);
    check(s.refusal == 0 && rows_used(&s.machine) == 0 && model_ask(s.machine, 6).refusal == 9, "retiring");
}

/* A board that comes back gets a new ticket and keeps its address; identity 0 is not "unknown". */
static void test_known(void)
{
    uint16_t cells[RECORD_CELLS];
    struct model_machine m = started(1, no_legacy, 9);
    m.rows[0] = (struct model_row){ 0x10, 4, true, 0, 0x11 };
    m.rows[1] = (struct model_row){ 0x12, 5, false, 77, 0x13 };
    struct model_board boards[] = { { 77, 0 }, { 0, 0 }, { 0, 0 } };
    struct model_run run = model_run_wire(m, boards, 3, NULL, 0, cells, RECORD_CELLS);
    struct model_row zero = { 0x08, 10, false, 0, 0 }, back = { 0x12, 11, false, 77, 0 };
    check(run.refusal == 0 && run.ending == 0 && run.rounds == 2, "a board that comes back: the run");
    check(same_row(&run.machine.rows[0], &zero), "a board's own identity 0 is known");
    check(same_row(&run.machine.rows[2], &back), "a board that comes back gets a new ticket");
    check(boards[0].address == 0x12 && boards[1].address == 8 && boards[2].address == 8, "equal identities");
}

/* ---- machines that break each single rule */

static struct model_machine sound_machine(void)
{
    struct model_machine m = started(1, no_legacy, 9);
    set_legacy(m.facts.legacy, 0x50);
    m.rows[0] = (struct model_row){ 0x10, 4, true, 0, 0x11 };
    m.rows[1] = (struct model_row){ 0x12, 5, false, 0, 0x13 };
    m.rows[2] = (struct model_row){ 0x20, 9, false, 7, 0x10 };
    return m;
}

static bool is_28(struct model_machine m)
{
    return model_ask(m, 0).refusal == 28;
}

#define BREAKS(what)                                                                                     \
    do {                                                                                                 \
        struct model_machine m = sound_machine();                                                        \
        what;                                                                                            \
        check(is_28(m), "28: " #what);                                                                   \
    } while (0)

#define KEEPS(what)                                                                                      \
    do {                                                                                                 \
        struct model_machine m = sound_machine();                                                        \
        what;                                                                                            \
        check(!is_28(m), "sound: " #what);                                                               \
    } while (0)

static void test_rows(void)
{
    KEEPS(m.moment = MODEL_IDLE);
    BREAKS(m.facts.flags = 4);
    BREAKS(m.facts.legacy[0] = 1);
    BREAKS(m.facts.legacy[15] = 1);
    BREAKS(m.facts.last = 8);
    BREAKS(m.rows[1].ticket = 0);
    BREAKS(m.rows[1].ticket = 10);
    BREAKS(m.rows[1].ticket = 4);
    BREAKS(m.rows[0].identity = 1);
    BREAKS(m.rows[1].identity = 7);
    KEEPS(m.rows[1].unknown = true);
    BREAKS(m.rows[0].unknown = false);
    BREAKS(m.rows[1].from_static = 0x10);
    BREAKS(m.rows[1].from_static = 0x07);
    BREAKS(m.rows[1].from_static = 0x78);
    BREAKS(m.rows[1].from_static = 0x50);
    KEEPS(m.rows[1].from_static = 0x3E);
    KEEPS(m.rows[1].from_static = 0);
    BREAKS(m.rows[1].address = 0x10);
    BREAKS(m.rows[1].address = 0x0F);
    BREAKS(m.rows[2].address = 0x50);
    BREAKS(m.rows[2].address = 0x3E);
    BREAKS(m.rows[2].address = 0x88);
    BREAKS(m.rows[1] = (struct model_row){ 0 });
    BREAKS(m.rows[3].ticket = 1);
    BREAKS(m.rows[31].unknown = true);
    BREAKS(m.rows[31].identity = 1);
    BREAKS(m.rows[31].from_static = 8);
}

static void test_moments(void)
{
    BREAKS(m.choice = 1);
    BREAKS(m.asked = 0x30);
    BREAKS(m.wanted = 0x30);
    BREAKS(m.identity = 1);
    BREAKS(m.offered = 8);
    BREAKS(m.refusals = 1);
    KEEPS(m.moment = MODEL_OPENED);
    KEEPS(m.moment = MODEL_OPENED; m.choice = 5);
    BREAKS(m.moment = MODEL_OPENED; m.choice = 6);
    BREAKS(m.moment = MODEL_OPENED; m.refusals = 1);
    BREAKS(m.moment = MODEL_OPENED; m.choice = 1; m.asked = 0x10);
    BREAKS(m.moment = MODEL_OPENED; m.facts.last = LAST_OF_ALL);
    KEEPS(m.moment = MODEL_OPENED; m.choice = 2; m.asked = 0x30; m.wanted = 0x30);
    BREAKS(m.moment = MODEL_OPENED; m.choice = 2; m.asked = 0x12; m.wanted = 0x30);
    BREAKS(m.moment = MODEL_OPENED; m.choice = 2; m.asked = 0x13; m.wanted = 0x30);
    BREAKS(m.moment = MODEL_OPENED; m.choice = 2; m.asked = 0x50; m.wanted = 0x30);
    BREAKS(m.moment = MODEL_OPENED; m.choice = 2; m.asked = 0x30; m.wanted = 0x10);
    KEEPS(m.moment = MODEL_DIRECT; m.choice = 3; m.asked = 0x12; m.wanted = 0x13);
    BREAKS(m.moment = MODEL_DIRECT; m.choice = 3; m.asked = 0x13; m.wanted = 0x30);
    BREAKS(m.moment = MODEL_DIRECT; m.choice = 3; m.asked = 0; m.wanted = 0x30);
    BREAKS(m.moment = MODEL_DIRECT; m.choice = 3; m.asked = 0x12; m.wanted = 0x12);
    BREAKS(m.moment = MODEL_DIRECT; m.choice = 3; m.asked = 0x12; m.wanted = 0xB0);
    BREAKS(m.moment = MODEL_DIRECT; m.choice = 0);
    KEEPS(m.moment = MODEL_DIRECT; m.choice = 3; m.asked = 0x12; m.wanted = 0x30; m.facts.last = LAST_OF_ALL);
    KEEPS(m.moment = MODEL_DIRECT; m.choice = 2; m.asked = 0x30; m.wanted = 0x31);
    BREAKS(m.moment = MODEL_DIRECT; m.choice = 2; m.asked = m.wanted = 0x30; m.facts.last = LAST_OF_ALL);
    KEEPS(m.moment = MODEL_ROUND; m.refusals = 1);
    BREAKS(m.moment = MODEL_ROUND; m.refusals = 2);
    BREAKS(m.moment = MODEL_ROUND; m.choice = 1);
    KEEPS(m.moment = MODEL_LISTENING);
    BREAKS(m.moment = MODEL_LISTENING; m.identity = 1);
    BREAKS(m.moment = MODEL_LISTENING; m.facts.last = LAST_OF_ALL);
    KEEPS(m.moment = MODEL_OFFERED; m.identity = 7; m.offered = 0x20; m.refusals = 1);
    KEEPS(m.moment = MODEL_OFFERED; m.identity = 0; m.offered = 0x12);
    KEEPS(m.moment = MODEL_OFFERED; m.identity = 5; m.offered = 0x08);
    BREAKS(m.moment = MODEL_OFFERED; m.identity = 5; m.offered = 0x09);
    BREAKS(m.moment = MODEL_OFFERED; m.identity = 7; m.offered = 0x08);
    BREAKS(m.moment = MODEL_OFFERED; m.identity = 7; m.offered = 0x20; m.refusals = 2);
}

/* ---- records */

static void fill(uint8_t *bytes, size_t n, uint8_t byte)
{
    memset(bytes, byte, n);
}

/* Writes what was read, and compares the cells. */
static bool writes_back(const uint16_t *cells, size_t length)
{
    uint8_t offers[1100];
    uint16_t again[RECORD_CELLS];
    fill(offers, sizeof offers, 255);
    struct model_told told = model_read(cells, length, offers, sizeof offers);
    if (told.refusal != 0)
        return false;
    struct model_written w = model_write(told.reading, offers, told.reading.offers * 10, again, RECORD_CELLS);
    return w.refusal == 0 && cells_are(again, w.wrote, cells, length);
}

/* The place of a refused record: the cells before it may continue, the cell at it may not. */
static bool place_right(const uint16_t *cells, size_t length)
{
    uint8_t offers[1100];
    struct model_told told = model_read(cells, length, offers, sizeof offers);
    if (told.refusal != 14)
        return told.refusal == 0;
    struct model_told before = model_read(cells, told.place, offers, sizeof offers);
    if (told.place == length)
        return true;
    struct model_told with = model_read(cells, told.place + 1, offers, sizeof offers);
    return with.refusal == 14 && with.place == told.place
        && (before.refusal == 0 || (before.refusal == 14 && before.place == told.place));
}

static size_t place_of(const uint16_t *cells, size_t length)
{
    uint8_t offers[1100];
    struct model_told told = model_read(cells, length, offers, sizeof offers);
    return told.refusal == 14 ? told.place : 9999;
}

#define PLACE_OF(...)                                                                                    \
    place_of((const uint16_t[]){ __VA_ARGS__ }, sizeof((const uint16_t[]){ __VA_ARGS__ }) / sizeof(uint16_t))

static void test_places(void)
{
    uint16_t many[1100] = { 512 };
    check(place_of(many, 0) == 0 && place_of(many, 1) == 1, "records that break off");
    check(model_read(many, 1025, NULL, 0).refusal == 13, "record over 1,024 cells");
    check(PLACE_OF(512, 514) == 1, "given up when opened");
    check(PLACE_OF(512, 504, 14, 514) == 3, "after 14 a 513 must stand");
    check(PLACE_OF(512, 504, 14, 513, 514) == 4, "given up in a round");
    check(PLACE_OF(512, 504, 14, 513, 506, 514) == 5, "given up when listening");
    check(PLACE_OF(512, 504, 271, 513, 514) == 4, "given up when direct");
    check(PLACE_OF(512, 8, 513, 504, 13) == 4, "reset all after a joining");
    check(PLACE_OF(512, 8, 513, 504, 1) == 4, "allow after a joining");
    check(PLACE_OF(512, 8, 513, 504, 271) == 4, "static after a joining");
    check(PLACE_OF(512, 8, 514) == 2 && PLACE_OF(512, 9, 513) == 2, "after a joining's header");
    check(PLACE_OF(512, 8, 513, 505, 514) == 9999, "a silent 7Eh after a joining");
    check(PLACE_OF(512, 505, 514, 514) == 3, "a cell behind STOP");
    check(PLACE_OF(512, 504, 273, 513, 66) == 4, "the write bit of a header");
    check(PLACE_OF(512, 504, 273, 513, 64, 129) == 5, "the ninth bit of data");
    check(PLACE_OF(512, 504, 273, 513, 64, 131) == 5, "the 0 bit below a new address");
    check(PLACE_OF(512, 504, 273, 513, 65, 128) == 5, "an unanswered header ends");
    check(PLACE_OF(512, 504, 273, 513, 508, 508, 514) == 9999, "address 127 passes");
    check(PLACE_OF(512, 504, 273, 513, 0, 1, 514) == 9999, "address 0 passes");
#define ROUND 512, 504, 14, 513, 506, 1024, 1279, 1024, 1024, 1024, 1024, 1024, 1024
    check(PLACE_OF(ROUND, 514) == 13, "given up when offered");
    check(PLACE_OF(ROUND, 34, 514) == 13 && PLACE_OF(ROUND, 35, 514) == 13, "an offered byte's own bit");
    check(PLACE_OF(ROUND, 32, 514) == 9999 && PLACE_OF(ROUND, 33, 514) == 9999, "an offer last");
    check(PLACE_OF(ROUND, 32, 513, 514) == 15 && PLACE_OF(ROUND, 32, 506) == 14, "after an offer");
#undef ROUND
}

/* Offers with a refusal each, any number: the reader does not judge the two-in-succession rule. */
static void make_offers(uint8_t *offers, size_t count)
{
    for (size_t i = 0; i < count; i++) {
        for (size_t b = 0; b < 8; b++)
            offers[10 * i + b] = (uint8_t)below(256);
        offers[10 * i + 8] = offered_byte((uint8_t)below(128));
        offers[10 * i + 9] = (uint8_t)below(2);
    }
}

static void test_writer(void)
{
    uint8_t offers[1100] = { 0 }, read[1100];
    uint16_t cells[RECORD_CELLS];
    struct model_reading r = { .joining = 2, .command = 1 };
    for (r.offers = 0; r.offers <= 110; r.offers++) {
        for (int last = 0; last < 2; last++) {
            make_offers(offers, r.offers);
            r.last = last != 0;
            struct model_written w = model_write(r, offers, r.offers * 10, cells, RECORD_CELLS);
            bool possible = r.offers <= 92 && !(r.last && r.offers == 0);
            check((w.refusal == 0) == possible && w.place == 0, "so many offers written");
            if (w.refusal != 0)
                continue;
            struct model_told told = model_read(cells, w.wrote, read, r.offers * 10);
            check(told.refusal == 0 && told.reading.offers == r.offers && told.reading.last == r.last
                      && memcmp(read, offers, r.offers * 10) == 0 && writes_back(cells, w.wrote),
                  "written and read back");
            if (r.offers > 0)
                check(model_read(cells, w.wrote, read, r.offers * 10 - 1).refusal == 15, "offers short");
        }
    }
    check(model_write(r, offers, 0, cells, 1023).refusal == 11, "writer lent too little");
}

/* Readings of any numbers: what is written reads as what was given. */
static void test_any_readings(void)
{
    uint8_t offers[100], read[100];
    uint16_t cells[RECORD_CELLS];
    unsigned wrote = 0;
    for (size_t n = 0; n < 20000; n++) {
        struct model_reading r = { .joining = (uint8_t)below(4), .command = (uint8_t)below(8) };
        r.direct = below(2) != 0;
        r.last = below(2) != 0;
        r.header = (uint8_t)(below(2) ? below(140) : 0);
        r.new_address = (uint8_t)(below(2) ? below(140) : 0);
        r.offers = below(2) ? below(4) : 0;
        make_offers(offers, r.offers);
        if (r.offers > 0 && below(4) == 0)
            offers[8 + below(2)] ^= (uint8_t)(1 + below(3));
        struct model_written w = model_write(r, offers, 10 * r.offers, cells, RECORD_CELLS);
        if (w.refusal != 0)
            continue;
        wrote++;
        struct model_told t = model_read(cells, w.wrote, read, sizeof read);
        check(t.refusal == 0 && t.reading.joining == r.joining && t.reading.command == r.command
                  && t.reading.header == r.header && t.reading.new_address == r.new_address
                  && t.reading.direct == r.direct && t.reading.last == r.last && t.reading.offers == r.offers
                  && memcmp(read, offers, 10 * r.offers) == 0,
              "reads as what was given");
    }
    check(wrote > 300, "readings that can be written");
}

/* Any single change of a record is refused at a right place, or reads as another record that writes back. */
static void damage(const uint16_t *cells, size_t length)
{
    uint16_t other[RECORD_CELLS];
    uint8_t offers[1100];
    memcpy(other, cells, length * sizeof *cells);
    size_t place = below(length);
    other[place] = (uint16_t)(below(2) ? other[place] ^ 1u << below(11) : below(1300));
    bool reads = model_read(other, length, offers, sizeof offers).refusal == 0;
    check(place_right(other, length) && (!reads || writes_back(other, length)), "a damaged record");
    check(place == 0 || place_of(cells, place) == place, "a cut record");
}

/* ---- runs on random tables with random boards */

static void random_facts(struct model_machine *m)
{
    size_t kind = below(4);
    m->facts.flags = (uint8_t)below(4);
    for (unsigned a = 0x08; a <= 0x77; a++)
        if ((kind == 1 && below(3) == 0) || (kind == 2 && below(40) != 0) || (kind == 3 && below(112) >= 30))
            set_legacy(m->facts.legacy, a);
    m->facts.last = below(4) == 0 ? LAST_OF_ALL - (uint32_t)below(20) : (uint32_t)(40 + below(1000));
}

/* Small identities, so that boards are often equal or known; sometimes they differ in a single high bit. */
static uint64_t random_identity(void)
{
    uint64_t identity = below(3) ? below(40) : UINT64_C(1) << below(64);
    return below(8) == 0 ? draw() << 11 ^ draw() : identity;
}

static bool known_twice(const struct model_machine *m, size_t rows, uint64_t identity)
{
    for (size_t i = 0; i < rows; i++)
        if (!m->rows[i].unknown && m->rows[i].identity == identity)
            return true;
    return false;
}

static struct model_machine random_machine(void)
{
    struct model_machine m = { 0 };
    size_t rows = 0, chance = 1 + below(12);
    random_facts(&m);
    for (uint8_t a = 3; a < 0x78 && rows < MODEL_ROWS; a++) {
        if (!is_open(&m.facts, a) || below(12) >= chance || below(3) == 0)
            continue;
        struct model_row row = { .address = a, .ticket = (uint32_t)(m.facts.last - rows) };
        row.identity = random_identity();
        row.unknown = below(3) == 0 || known_twice(&m, rows, row.identity);
        if (row.unknown)
            row.identity = 0;
        if (below(3) == 0 && is_static(a))
            row.from_static = a;
        m.rows[rows++] = row;
    }
    return m;
}

struct bench_input {
    struct model_machine m;
    struct model_board boards[34];
    size_t count;
    uint8_t flips[70];
    size_t flips_length;
};

static struct bench_input random_input(void)
{
    struct bench_input in = { .m = random_machine() };
    in.count = below(35);
    in.flips_length = below(3) ? below(8) : below(70);
    size_t flip = below(4) == 0 ? 2 : 12, over = below(10) == 0 ? 10 : 9;
    for (size_t i = 0; i < in.flips_length; i++)
        in.flips[i] = (uint8_t)(below(flip) == 0 ? below(over) : 8);
    for (size_t i = 0; i < in.count; i++) {
        in.boards[i].identity = random_identity();
        in.boards[i].address = (uint8_t)(below(5) == 0 ? below(below(30) ? 128 : 256) : 0);
    }
    return in;
}

static bool same_run(const struct model_run *a, const struct model_run *b)
{
    return a->refusal == b->refusal && a->wrote == b->wrote && a->ending == b->ending
        && a->rounds == b->rounds && a->clocks == b->clocks && same_machine(&a->machine, &b->machine);
}

/* Accepted identities strictly rise, and answered rounds are at most twice the boards without an address. */
static bool plain_promises(const struct bench_input *in, const struct model_run *run, const uint16_t *cells)
{
    uint8_t offers[1100];
    struct model_told told = model_read(cells, run->wrote, offers, sizeof offers);
    size_t without = 0;
    const uint8_t *accepted = NULL;
    for (size_t i = 0; i < in->count; i++)
        without += in->boards[i].address == 0;
    if (told.refusal != 0 || told.reading.offers != run->rounds || run->rounds > 2 * without)
        return false;
    for (size_t i = 0; i < told.reading.offers; i++) {
        const uint8_t *offer = offers + 10 * i;
        if (offer[9] == 0 && accepted != NULL && memcmp(accepted, offer, 8) >= 0)
            return false;
        if (offer[9] == 0)
            accepted = offer;
    }
    return true;
}

static unsigned endings[6], refusals[29];

static void test_run(void)
{
    static uint16_t on_wire[RECORD_CELLS], by_rule[RECORD_CELLS];
    struct bench_input in = random_input(), a = in, b = in;
    memset(on_wire, 255, sizeof on_wire);
    memset(by_rule, 255, sizeof by_rule);
    size_t f = in.flips_length;
    struct model_run wire = model_run_wire(in.m, a.boards, in.count, in.flips, f, on_wire, 1024);
    struct model_run plain = model_run_plain(in.m, b.boards, in.count, in.flips, f, by_rule, 1024);
    check(same_run(&wire, &plain), "wire and plain: numbers and machine");
    check(same_boards(a.boards, b.boards, in.count), "wire and plain: boards");
    check(memcmp(on_wire, by_rule, sizeof on_wire) == 0, "wire and plain: cells");
    check(wire.refusal != 28, "a random machine is sound");
    refusals[wire.refusal]++;
    if (wire.refusal != 0) {
        check(wire.wrote == 0 && on_wire[0] == 65535 && same_machine(&wire.machine, &in.m), "a refused run");
        check(same_boards(a.boards, in.boards, in.count), "a refused run leaves the boards");
        return;
    }
    endings[wire.ending]++;
    check(machine_sound(&wire.machine) && wire.machine.moment == MODEL_IDLE, "a run ends sound and idle");
    check(plain_promises(&in, &wire, on_wire), "what operators reason by");
    check(writes_back(on_wire, wire.wrote), "the record writes back");
    for (size_t i = 0; i < 3; i++)
        damage(on_wire, wire.wrote);
}

static void test_runs(void)
{
    for (size_t i = 0; i < 6000; i++)
        test_run();
    for (size_t i = 0; i < 6; i++)
        check(endings[i] > 0, "every ending is met");
    check(refusals[16] > 0 && refusals[2] > 0 && refusals[17] > 0, "16, 2, 17 are met");
    check(refusals[5] > 0 && refusals[6] > 0 && refusals[7] > 0, "5, 6, 7 are met");
}

/* ---- walks: whatever is called, the machine stays sound, and what is refused changes nothing */

static struct model_step random_call(struct model_machine m, uint16_t *cells, size_t lent)
{
    uint8_t bytes[8];
    uint64_t identity = random_identity();
    for (size_t i = 0; i < 8; i++)
        bytes[i] = (uint8_t)(identity >> (56 - 8 * i));
    if (below(2)) {
        bytes[6] = (uint8_t)below(130);
        bytes[7] = (uint8_t)below(130);
    }
    uint32_t ticket = below(2) ? m.rows[below(MODEL_ROWS)].ticket : (uint32_t)(m.facts.last - below(40) + 1);
    switch (below(8)) {
    case 0:
    case 1:
        return model_begin(m, (uint8_t)below(7), bytes[6], bytes[7], ticket, cells, lent);
    case 2:
    case 3:
    case 4:
        return model_answer(m, below(4) != 0, cells, lent);
    case 5:
        return model_identity(m, bytes, below(20) ? 8 : below(8), cells, lent);
    case 6:
        return below(4) == 0 ? model_give_up(m, cells, lent) : model_join(m, (uint8_t)below(4), cells, lent);
    default:
        return model_retire(m, ticket);
    }
}

static void walk(void)
{
    struct model_machine m = random_machine();
    for (size_t i = 0; i < 60; i++) {
        uint16_t cells[9];
        memset(cells, 255, sizeof cells);
        struct model_step s = random_call(m, cells, below(20) ? 8 : below(8));
        check(machine_sound(&s.machine) && s.refusal != 28, "a walk stays sound");
        check(s.machine.facts.last >= m.facts.last, "the last ticket does not fall");
        size_t n = 9;
        while (n > 0 && cells[n - 1] == 65535)
            n--;
        check(n == s.wrote && n <= 8, "a call writes as many cells as it says");
        check(s.refusal == 0 || (same_machine(&s.machine, &m) && n == 0), "a refusal changes nothing");
        m = s.machine;
    }
}

int main(void)
{
    test_vectors();
    test_slots();
    test_start();
    test_full();
    test_no_boards();
    test_sheet();
    test_kinds();
    test_steps();
    test_known();
    test_rows();
    test_moments();
    test_places();
    test_writer();
    test_any_readings();
    test_runs();
    for (size_t i = 0; i < 2000; i++)
        walk();
    printf("%u passed, %u failed\n", passed, failed);
    return failed != 0;
}
