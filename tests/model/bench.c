/* bench.c: boards and wire; a run played bit by bit, and the same run told by the plain rule. */
#include <string.h>

#include "rules.h"

/* Endings. */
enum { END_SILENT, END_TWO_REFUSALS, END_ROWS_FULL, END_NO_ADDRESS, END_NO_TICKET, END_NO_BOARD };

/* Refusals 11, 28, 10, 16, 2, 17; then 5, 6, 7 stay to be judged. */
static uint8_t judge_bench(const struct model_machine *m, const struct model_board *boards, size_t count,
                           const uint8_t *flips, size_t flips_length, size_t lent)
{
    if (lent < RECORD_CELLS)
        return 11;
    if (!machine_sound(m))
        return 28;
    if (m->moment != MODEL_IDLE)
        return 10;
    if (count > MOST_BOARDS)
        return 16;
    for (size_t i = 0; i < count; i++)
        if (boards[i].address > 127)
            return 2;
    for (size_t i = 0; i < flips_length; i++)
        if (flips[i] > NO_FLIP)
            return 17;
    return 0;
}

static struct model_run refused_run(const struct model_machine *m, uint8_t refusal)
{
    return (struct model_run){ .machine = *m, .refusal = refusal };
}

/* The byte as the boards see it: each offer uses the next flip. */
static uint8_t flipped(uint8_t byte, const uint8_t *flips, size_t flips_length, size_t offer)
{
    if (offer >= flips_length || flips[offer] == NO_FLIP)
        return byte;
    return (uint8_t)(byte ^ 1u << flips[offer]);
}

/* ---- on the wire */

struct wire {
    struct model_board *boards;
    size_t count;
    bool in[MOST_BOARDS]; /* still in the round */
};

/* Boards without an address answer 7Eh/R and are in the round. */
static bool hear_round(struct wire *w)
{
    bool answered = false;
    for (size_t i = 0; i < w->count; i++) {
        w->in[i] = w->boards[i].address == 0;
        answered = answered || w->in[i];
    }
    return answered;
}

/* A bit is 0 if any board still in sends 0; a board that sent 1 and sees 0 leaves the round. */
static unsigned send_bit(struct wire *w, unsigned bit)
{
    unsigned seen = 1;
    for (size_t i = 0; i < w->count; i++)
        if (w->in[i])
            seen &= (unsigned)(w->boards[i].identity >> bit & 1);
    if (seen == 0)
        for (size_t i = 0; i < w->count; i++)
            if (w->in[i] && (w->boards[i].identity >> bit & 1) != 0)
                w->in[i] = false;
    return seen;
}

/* Eight identity bytes, highest bit first. */
static void send_identity(struct wire *w, uint8_t bytes[8])
{
    for (unsigned i = 0; i < 8; i++) {
        unsigned byte = 0;
        for (unsigned b = 0; b < 8; b++)
            byte = byte << 1 | send_bit(w, 63 - 8 * i - b);
        bytes[i] = (uint8_t)byte;
    }
}

/* The boards still in take the address when the byte's ones are odd; says whether any answered. */
static bool see_address(struct wire *w, uint8_t byte)
{
    bool answered = false;
    if (!odd_ones(byte))
        return false;
    for (size_t i = 0; i < w->count; i++) {
        if (w->in[i]) {
            w->boards[i].address = byte / 2;
            answered = true;
        }
    }
    return answered;
}

static size_t cell_clocks(uint16_t cell)
{
    if (cell < 512)
        return 9;
    return cell >= CELL_IDENTITY ? 8 : 0;
}

static size_t record_clocks(const uint16_t *cells, size_t length)
{
    size_t sum = 0;
    for (size_t i = 0; i < length; i++)
        sum += cell_clocks(cells[i]);
    return sum;
}

/* Why a machine went idle after an answered offer: the first of 2, 3, 4 that applies. */
static uint8_t full_ending(const struct model_machine *m)
{
    if (rows_used(m) == MODEL_ROWS)
        return END_ROWS_FULL;
    return lowest_free(m) == 0 ? END_NO_ADDRESS : END_NO_TICKET;
}

/* The ending of a run whose last step was an answer (or none) at this moment. */
static uint8_t wire_ending(const struct model_machine *m, uint8_t moment, bool answered)
{
    if (moment == MODEL_OPENED)
        return END_NO_BOARD;
    if (moment == MODEL_ROUND)
        return END_SILENT;
    return answered ? full_ending(m) : END_TWO_REFUSALS;
}

struct model_run model_run_wire(struct model_machine m, struct model_board *boards, size_t count,
                                const uint8_t *flips, size_t flips_length, uint16_t *cells, size_t lent)
{
    uint8_t refusal = judge_bench(&m, boards, count, flips, flips_length, lent);
    if (refusal != 0)
        return refused_run(&m, refusal);
    struct model_step step = model_begin(m, ASSIGN, 0, 0, 0, cells, lent);
    if (step.refusal != 0)
        return refused_run(&m, step.refusal);

    struct model_run run = { .wrote = step.wrote };
    struct wire w = { .boards = boards, .count = count };
    uint8_t moment = MODEL_OPENED;
    bool answered = false;
    size_t offers = 0;
    while (step.machine.moment != MODEL_IDLE) {
        uint16_t *next = cells + run.wrote;
        size_t left = lent - run.wrote;
        moment = step.machine.moment;
        if (moment == MODEL_LISTENING) {
            uint8_t bytes[8];
            send_identity(&w, bytes);
            step = model_identity(step.machine, bytes, 8, next, left);
        } else {
            if (moment == MODEL_OPENED) {
                answered = count > 0;
            } else if (moment == MODEL_ROUND) {
                answered = hear_round(&w);
                run.rounds += answered;
            } else {
                uint8_t byte = offered_byte(step.machine.offered);
                answered = see_address(&w, flipped(byte, flips, flips_length, offers++));
            }
            step = model_answer(step.machine, answered, next, left);
        }
        run.wrote += step.wrote;
    }
    run.machine = step.machine;
    run.ending = wire_ending(&step.machine, moment, answered);
    run.clocks = record_clocks(cells, run.wrote);
    return run;
}

/* ---- by the plain rule */

/* The run told so far: its table, its cells. */
struct tale {
    struct model_machine table;
    uint16_t *cells;
    struct model_run run;
};

static void tell(struct tale *t, unsigned cell, size_t clocks)
{
    t->cells[t->run.wrote++] = (uint16_t)cell;
    t->run.clocks += clocks;
}

/* The lowest address that is open and that no row holds; 0 if none. */
static uint8_t plain_free(const struct model_machine *table)
{
    bool held[128] = { false };
    for (size_t i = 0; i < MODEL_ROWS; i++)
        held[table->rows[i].address] = true;
    for (uint8_t a = 1; a < 128; a++)
        if (!held[a] && is_open(&table->facts, a))
            return a;
    return 0;
}

/* The row that knows this identity, or NULL. */
static struct model_row *plain_row(struct model_machine *table, uint64_t identity)
{
    for (size_t i = 0; i < MODEL_ROWS; i++) {
        struct model_row *row = &table->rows[i];
        if (row->address != 0 && !row->unknown && row->identity == identity)
            return row;
    }
    return NULL;
}

/* Puts a new row where the order of addresses wants it. */
static void plain_add(struct model_machine *table, struct model_row row)
{
    size_t place = 0, behind = 0;
    while (table->rows[place].address != 0 && table->rows[place].address < row.address)
        place++;
    while (place + behind < MODEL_ROWS && table->rows[place + behind].address != 0)
        behind++;
    memmove(&table->rows[place + 1], &table->rows[place], behind * sizeof row);
    table->rows[place] = row;
}

static void plain_accept(struct model_machine *table, uint64_t identity, uint8_t address)
{
    struct model_row *row = plain_row(table, identity);
    table->facts.last += 1;
    if (row != NULL) {
        row->ticket = table->facts.last;
        row->from_static = 0;
    } else {
        plain_add(table, (struct model_row){ address, table->facts.last, false, identity, 0 });
    }
}

/* What keeps a round from being opened: 0, or ending 2, 3 or 4. */
static uint8_t plain_full(const struct model_machine *table)
{
    if (table->rows[MODEL_ROWS - 1].address != 0)
        return END_ROWS_FULL;
    if (plain_free(table) == 0)
        return END_NO_ADDRESS;
    return table->facts.last == LAST_OF_ALL ? END_NO_TICKET : 0;
}

/* The smallest identity among boards without an address; says whether there is one. */
static bool plain_smallest(const struct model_board *boards, size_t count, uint64_t *smallest)
{
    bool any = false;
    for (size_t i = 0; i < count; i++) {
        if (boards[i].address == 0 && (!any || boards[i].identity < *smallest)) {
            *smallest = boards[i].identity;
            any = true;
        }
    }
    return any;
}

/* All bearers of the identity without an address take it together. */
static void plain_take(struct model_board *boards, size_t count, uint64_t identity, uint8_t address)
{
    for (size_t i = 0; i < count; i++)
        if (boards[i].address == 0 && boards[i].identity == identity)
            boards[i].address = address;
}

static void tell_end(struct tale *t, uint8_t ending)
{
    tell(t, CELL_STOP, 0);
    t->run.ending = ending;
}

static void tell_offer(struct tale *t, uint64_t identity, uint8_t byte, bool taken)
{
    tell(t, CELL_ROUND_YES, 9);
    for (int shift = 56; shift >= 0; shift -= 8)
        tell(t, CELL_IDENTITY + (unsigned)(identity >> shift & 255), 8);
    tell(t, byte * 2u + (taken ? 0 : 1), 9);
    t->run.rounds++;
}

/* The rounds of a run that may begin. */
static void tell_rounds(struct tale *t, struct model_board *boards, size_t count, const uint8_t *flips,
                        size_t flips_length)
{
    uint64_t identity = 0;
    unsigned refusals = 0;
    while (refusals < 2) {
        if (plain_full(&t->table) != 0) {
            tell_end(t, plain_full(&t->table));
            return;
        }
        tell(t, CELL_AGAIN, 0);
        if (!plain_smallest(boards, count, &identity)) {
            tell(t, CELL_ROUND_NO, 9);
            tell_end(t, END_SILENT);
            return;
        }
        const struct model_row *row = plain_row(&t->table, identity);
        uint8_t address = row != NULL ? row->address : plain_free(&t->table);
        uint8_t seen = flipped(offered_byte(address), flips, flips_length, t->run.rounds);
        tell_offer(t, identity, offered_byte(address), odd_ones(seen));
        if (odd_ones(seen)) {
            plain_take(boards, count, identity, seen / 2);
            plain_accept(&t->table, identity, address);
            refusals = 0;
        } else {
            refusals++;
        }
    }
    tell_end(t, END_TWO_REFUSALS);
}

/* Refusals 5, 6, 7: what keeps the first round from being opened keeps the run from beginning. */
static uint8_t judge_plain(const struct model_machine *table)
{
    static const uint8_t refusal[] = { [END_ROWS_FULL] = 5, [END_NO_ADDRESS] = 6, [END_NO_TICKET] = 7 };
    return refusal[plain_full(table)];
}

struct model_run model_run_plain(struct model_machine m, struct model_board *boards, size_t count,
                                 const uint8_t *flips, size_t flips_length, uint16_t *cells, size_t lent)
{
    uint8_t refusal = judge_bench(&m, boards, count, flips, flips_length, lent);
    if (refusal == 0)
        refusal = judge_plain(&m);
    if (refusal != 0)
        return refused_run(&m, refusal);
    struct tale t = { .table = m, .cells = cells };
    tell(&t, CELL_START, 0);
    if (count == 0) {
        tell(&t, CELL_OPEN_NO, 9);
        tell_end(&t, END_NO_BOARD);
    } else {
        tell(&t, CELL_OPEN_YES, 9);
        tell(&t, data_cell(0x07), 9);
        tell_rounds(&t, boards, count, flips, flips_length);
    }
    t.run.machine = t.table;
    return t.run;
}
