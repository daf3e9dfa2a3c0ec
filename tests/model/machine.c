/* machine.c: the table, the tickets and the machine's calls. */
#include <string.h>

#include "rules.h"

/* ---- the table */

/* How many places are used; used places stand before unused ones. */
size_t rows_used(const struct model_machine *m)
{
    size_t used = 0;
    while (used < MODEL_ROWS && m->rows[used].address != 0)
        used++;
    return used;
}

/* The row that holds the dynamic address; MODEL_ROWS if none. */
static size_t row_at(const struct model_machine *m, uint8_t address)
{
    size_t i = 0;
    while (i < MODEL_ROWS && (address == 0 || m->rows[i].address != address))
        i++;
    return i;
}

/* The row of a ticket that is not 0; MODEL_ROWS if none. */
static size_t row_of_ticket(const struct model_machine *m, uint32_t ticket)
{
    size_t i = 0;
    while (i < MODEL_ROWS && m->rows[i].ticket != ticket)
        i++;
    return i;
}

/* The row that holds the identity as a known one; MODEL_ROWS if none. */
static size_t row_of_identity(const struct model_machine *m, uint64_t identity)
{
    size_t i = 0;
    for (; i < MODEL_ROWS; i++)
        if (m->rows[i].address != 0 && !m->rows[i].unknown && m->rows[i].identity == identity)
            break;
    return i;
}

/* Whether a row was set from the static address, or holds it as dynamic address. */
static bool static_held(const struct model_machine *m, uint8_t from_static)
{
    for (size_t i = 0; i < MODEL_ROWS && m->rows[i].address != 0; i++)
        if (m->rows[i].from_static == from_static || m->rows[i].address == from_static)
            return true;
    return false;
}

/* Rows stand in order of address, so one walk over both suffices. */
uint8_t lowest_free(const struct model_machine *m)
{
    size_t row = 0;
    for (uint8_t a = 0; a <= 127; a++) {
        if (row < MODEL_ROWS && m->rows[row].address != 0 && m->rows[row].address == a)
            row++;
        else if (is_open(&m->facts, a))
            return a;
    }
    return 0;
}

static void insert_row(struct model_machine *m, struct model_row row)
{
    size_t i = rows_used(m);
    for (; i > 0 && m->rows[i - 1].address > row.address; i--)
        m->rows[i] = m->rows[i - 1];
    m->rows[i] = row;
}

static void remove_row(struct model_machine *m, size_t i)
{
    for (; i + 1 < MODEL_ROWS; i++)
        m->rows[i] = m->rows[i + 1];
    m->rows[MODEL_ROWS - 1] = (struct model_row){ 0 };
}

/* ---- what a choice may ask for: refusals 12, 2, 8, 9, 3, 4, 5, 6, 7 */

static uint8_t judge_ticket(const struct model_machine *m, uint32_t ticket)
{
    if (ticket == 0 || ticket > m->facts.last)
        return 8;
    return row_of_ticket(m, ticket) == MODEL_ROWS ? 9 : 0;
}

static uint8_t judge_assign(const struct model_machine *m)
{
    if (rows_used(m) == MODEL_ROWS)
        return 5;
    if (lowest_free(m) == 0)
        return 6;
    return m->facts.last == LAST_OF_ALL ? 7 : 0;
}

static uint8_t judge_set(const struct model_machine *m, uint8_t from_static, uint8_t address)
{
    if (address > 127 || !is_static(from_static))
        return 2;
    if (!is_open(&m->facts, address) || is_legacy(&m->facts, from_static))
        return 3;
    if (row_at(m, address) != MODEL_ROWS || static_held(m, from_static))
        return 4;
    if (rows_used(m) == MODEL_ROWS)
        return 5;
    return m->facts.last == LAST_OF_ALL ? 7 : 0;
}

static uint8_t judge_move(const struct model_machine *m, uint8_t address, uint32_t ticket)
{
    if (address > 127)
        return 2;
    uint8_t refusal = judge_ticket(m, ticket);
    if (refusal != 0)
        return refusal;
    if (!is_open(&m->facts, address))
        return 3;
    return row_at(m, address) != MODEL_ROWS ? 4 : 0;
}

/* Arguments that the choice does not use are not judged. */
static uint8_t judge_choice(const struct model_machine *m, uint8_t choice, uint8_t from_static,
                            uint8_t address, uint32_t ticket)
{
    switch (choice) {
    case ASSIGN:
        return judge_assign(m);
    case SET_FROM_STATIC:
        return judge_set(m, from_static, address);
    case MOVE:
        return judge_move(m, address, ticket);
    case RESET_ALL:
    case SILENCE:
    case ALLOW:
        return 0;
    default:
        return 12;
    }
}

/* ---- a machine handed in */

static bool row_sound(const struct model_facts *facts, const struct model_row *row)
{
    if (row->address > 127 || !is_open(facts, row->address))
        return false;
    if (row->ticket == 0 || row->ticket > facts->last)
        return false;
    if (row->unknown && row->identity != 0)
        return false;
    return row->from_static == 0 || (is_static(row->from_static) && !is_legacy(facts, row->from_static));
}

static bool place_zero(const struct model_row *row)
{
    return row->address == 0 && row->ticket == 0 && !row->unknown && row->identity == 0
        && row->from_static == 0;
}

/* Two rows, the first before the second: addresses rise, the rest is distinct. */
static bool rows_apart(const struct model_row *a, const struct model_row *b)
{
    return a->address < b->address && a->ticket != b->ticket
        && (a->unknown || b->unknown || a->identity != b->identity)
        && (a->from_static == 0 || a->from_static != b->from_static);
}

static bool rows_sound(const struct model_machine *m)
{
    size_t used = rows_used(m);
    for (size_t i = used; i < MODEL_ROWS; i++)
        if (!place_zero(&m->rows[i]))
            return false;
    for (size_t i = 0; i < used; i++) {
        if (!row_sound(&m->facts, &m->rows[i]))
            return false;
        for (size_t j = 0; j < i; j++)
            if (!rows_apart(&m->rows[j], &m->rows[i]))
                return false;
    }
    return true;
}

/* Choice and addresses asked: what Begin would let through with these rows; a move asks a row's address. */
static bool asking_sound(const struct model_machine *m)
{
    if (m->choice == MOVE) {
        size_t i = row_at(m, m->asked);
        return i != MODEL_ROWS && judge_move(m, m->wanted, m->rows[i].ticket) == 0;
    }
    if (m->choice != SET_FROM_STATIC && (m->asked != 0 || m->wanted != 0))
        return false;
    return judge_choice(m, m->choice, m->asked, m->wanted, 0) == 0;
}

static bool asks_nothing(const struct model_machine *m)
{
    return m->choice == 0 && m->asked == 0 && m->wanted == 0;
}

static bool offers_nothing(const struct model_machine *m)
{
    return m->identity == 0 && m->offered == 0;
}

/* The row's address for an identity that a row holds, else the lowest free one. */
static uint8_t address_for(const struct model_machine *m, uint64_t identity)
{
    size_t i = row_of_identity(m, identity);
    return i != MODEL_ROWS ? m->rows[i].address : lowest_free(m);
}

/* A round stands only where the round rule opened one, and at most one refusal came before it. */
static bool round_sound(const struct model_machine *m)
{
    return asks_nothing(m) && m->refusals <= 1 && judge_assign(m) == 0;
}

static bool moment_sound(const struct model_machine *m)
{
    switch (m->moment) {
    case MODEL_IDLE:
        return asks_nothing(m) && offers_nothing(m) && m->refusals == 0;
    case MODEL_OPENED:
        return offers_nothing(m) && m->refusals == 0 && asking_sound(m);
    case MODEL_ROUND:
    case MODEL_LISTENING:
        return offers_nothing(m) && round_sound(m);
    case MODEL_OFFERED:
        return round_sound(m) && m->offered == address_for(m, m->identity);
    case MODEL_DIRECT:
        return offers_nothing(m) && m->refusals == 0 && (m->choice == SET_FROM_STATIC || m->choice == MOVE)
            && asking_sound(m);
    default:
        return false;
    }
}

bool machine_sound(const struct model_machine *m)
{
    return facts_sound(&m->facts) && rows_sound(m) && moment_sound(m);
}

/* ---- steps */

/* Refusals 11, 28, 10 of a stepping call for one moment. */
static uint8_t judge_call(const struct model_machine *m, size_t lent, bool of_this_moment)
{
    if (lent < LEAST_CELLS)
        return 11;
    if (!machine_sound(m))
        return 28;
    return of_this_moment ? 0 : 10;
}

/* Goes to a moment, and remembers nothing. */
static void enter(struct model_machine *m, enum model_moment moment)
{
    m->moment = (uint8_t)moment;
    m->choice = 0;
    m->asked = 0;
    m->wanted = 0;
    m->identity = 0;
    m->offered = 0;
    m->refusals = 0;
}

/* Writes STOP; idle. */
static size_t stop(struct model_machine *m, uint16_t *cells, size_t n)
{
    cells[n++] = CELL_STOP;
    enter(m, MODEL_IDLE);
    return n;
}

static size_t round_rule(struct model_machine *m, uint16_t *cells, size_t n)
{
    if (judge_assign(m) != 0)
        return stop(m, cells, n);
    cells[n++] = CELL_AGAIN;
    enter(m, MODEL_ROUND);
    return n;
}

static size_t answer_opened(struct model_machine *m, bool answered, uint16_t *cells)
{
    static const uint8_t command[] = { 0x07, 0x06, 0x87, 0x88, 0x01, 0x00 };
    size_t n = 0;
    cells[n++] = answered ? CELL_OPEN_YES : CELL_OPEN_NO;
    if (!answered)
        return stop(m, cells, n);
    cells[n++] = data_cell(command[m->choice]);
    switch (m->choice) {
    case ASSIGN:
        return round_rule(m, cells, n);
    case RESET_ALL:
        memset(m->rows, 0, sizeof m->rows);
        return stop(m, cells, n);
    case SILENCE:
    case ALLOW:
        cells[n++] = data_cell(0x08);
        return stop(m, cells, n);
    default: /* set from static, move: the choice and its addresses are still needed */
        cells[n++] = CELL_AGAIN;
        m->moment = MODEL_DIRECT;
        return n;
    }
}

static size_t answer_round(struct model_machine *m, bool answered, uint16_t *cells)
{
    cells[0] = answered ? CELL_ROUND_YES : CELL_ROUND_NO;
    if (!answered)
        return stop(m, cells, 1);
    m->moment = MODEL_LISTENING;
    return 1;
}

/* A known identity's row gets a new ticket and static address 0; any other identity a new row. */
static void accept_offer(struct model_machine *m)
{
    uint32_t ticket = ++m->facts.last;
    size_t i = row_of_identity(m, m->identity);
    if (i != MODEL_ROWS) {
        m->rows[i].ticket = ticket;
        m->rows[i].from_static = 0;
    } else {
        struct model_row row = { .address = m->offered, .ticket = ticket, .identity = m->identity };
        insert_row(m, row);
    }
}

static size_t answer_offered(struct model_machine *m, bool answered, uint16_t *cells)
{
    cells[0] = (uint16_t)(offered_byte(m->offered) * 2 + (answered ? 0 : 1));
    if (answered) {
        accept_offer(m);
        return round_rule(m, cells, 1);
    }
    if (m->refusals == 1)
        return stop(m, cells, 1);
    cells[1] = CELL_AGAIN;
    enter(m, MODEL_ROUND);
    m->refusals = 1;
    return 2;
}

static void take_static(struct model_machine *m)
{
    struct model_row row = { .address = m->wanted, .unknown = true, .from_static = m->asked };
    row.ticket = ++m->facts.last;
    insert_row(m, row);
}

static void take_move(struct model_machine *m)
{
    size_t i = row_at(m, m->asked);
    struct model_row row = m->rows[i];
    row.address = m->wanted;
    remove_row(m, i);
    insert_row(m, row);
}

static size_t answer_direct(struct model_machine *m, bool answered, uint16_t *cells)
{
    size_t n = 0;
    cells[n++] = (uint16_t)(m->asked * 4 + (answered ? 0 : 1));
    if (answered) {
        cells[n++] = data_cell((uint8_t)(m->wanted * 2));
        if (m->choice == SET_FROM_STATIC)
            take_static(m);
        else
            take_move(m);
    }
    return stop(m, cells, n);
}

/* ---- the calls */

struct model_step model_start(uint8_t flags, const uint8_t *legacy, size_t legacy_length, uint32_t last)
{
    struct model_step step = { .machine.facts = { .flags = flags, .last = last } };
    if (legacy_length == MODEL_LEGACY)
        memcpy(step.machine.facts.legacy, legacy, MODEL_LEGACY);
    if (legacy_length == MODEL_LEGACY && facts_sound(&step.machine.facts))
        return step;
    return (struct model_step){ .machine.facts.last = LAST_OF_ALL, .refusal = 1 };
}

struct model_step model_begin(struct model_machine m, uint8_t choice, uint8_t from_static, uint8_t address,
                              uint32_t ticket, uint16_t *cells, size_t lent)
{
    struct model_step step = { .machine = m };
    step.refusal = judge_call(&m, lent, m.moment == MODEL_IDLE);
    if (step.refusal == 0)
        step.refusal = judge_choice(&m, choice, from_static, address, ticket);
    if (step.refusal != 0)
        return step;
    step.machine.moment = MODEL_OPENED;
    step.machine.choice = choice;
    if (choice == SET_FROM_STATIC)
        step.machine.asked = from_static;
    if (choice == MOVE)
        step.machine.asked = m.rows[row_of_ticket(&m, ticket)].address;
    if (choice == SET_FROM_STATIC || choice == MOVE)
        step.machine.wanted = address;
    cells[0] = CELL_START;
    step.wrote = 1;
    return step;
}

struct model_step model_answer(struct model_machine m, bool answered, uint16_t *cells, size_t lent)
{
    struct model_step step = { .machine = m };
    step.refusal = judge_call(&m, lent, m.moment != MODEL_IDLE && m.moment != MODEL_LISTENING);
    if (step.refusal != 0)
        return step;
    switch (m.moment) {
    case MODEL_OPENED:
        step.wrote = answer_opened(&step.machine, answered, cells);
        break;
    case MODEL_ROUND:
        step.wrote = answer_round(&step.machine, answered, cells);
        break;
    case MODEL_OFFERED:
        step.wrote = answer_offered(&step.machine, answered, cells);
        break;
    default:
        step.wrote = answer_direct(&step.machine, answered, cells);
        break;
    }
    return step;
}

struct model_step model_identity(struct model_machine m, const uint8_t *bytes, size_t length, uint16_t *cells,
                                 size_t lent)
{
    struct model_step step = { .machine = m };
    step.refusal = judge_call(&m, lent, m.moment == MODEL_LISTENING);
    if (step.refusal == 0 && length != 8)
        step.refusal = 2;
    if (step.refusal != 0)
        return step;
    for (size_t i = 0; i < 8; i++) {
        cells[i] = (uint16_t)(CELL_IDENTITY + bytes[i]);
        step.machine.identity = step.machine.identity << 8 | bytes[i];
    }
    step.machine.moment = MODEL_OFFERED;
    step.machine.offered = address_for(&m, step.machine.identity);
    step.wrote = 8;
    return step;
}

struct model_step model_give_up(struct model_machine m, uint16_t *cells, size_t lent)
{
    struct model_step step = { .machine = m };
    step.refusal = judge_call(&m, lent, m.moment != MODEL_IDLE);
    if (step.refusal == 0)
        step.wrote = stop(&step.machine, cells, 0);
    return step;
}

/* Choice 0 turns the joining away, 1 answers it for silence, 2 for assign. */
static uint8_t judge_join(const struct model_machine *m, uint8_t choice)
{
    if (choice > 2)
        return 12;
    return choice == 2 ? judge_assign(m) : 0;
}

struct model_step model_join(struct model_machine m, uint8_t choice, uint16_t *cells, size_t lent)
{
    struct model_step step = { .machine = m };
    step.refusal = judge_call(&m, lent, m.moment == MODEL_IDLE);
    if (step.refusal == 0)
        step.refusal = judge_join(&m, choice);
    if (step.refusal != 0)
        return step;
    cells[0] = CELL_START;
    cells[1] = choice == 0 ? 9 : 8;
    cells[2] = choice == 0 ? CELL_STOP : CELL_AGAIN;
    step.wrote = 3;
    if (choice != 0) {
        step.machine.moment = MODEL_OPENED;
        step.machine.choice = choice == 1 ? SILENCE : ASSIGN;
    }
    return step;
}

struct model_step model_retire(struct model_machine m, uint32_t ticket)
{
    struct model_step step = { .machine = m };
    if (!machine_sound(&m))
        step.refusal = 28;
    else if (m.moment != MODEL_IDLE)
        step.refusal = 10;
    else
        step.refusal = judge_ticket(&m, ticket);
    if (step.refusal == 0)
        remove_row(&step.machine, row_of_ticket(&m, ticket));
    return step;
}

struct model_ticket model_ask(struct model_machine m, uint32_t ticket)
{
    struct model_ticket told = { 0 };
    told.refusal = machine_sound(&m) ? judge_ticket(&m, ticket) : 28;
    if (told.refusal == 0)
        told.address = m.rows[row_of_ticket(&m, ticket)].address;
    return told;
}
