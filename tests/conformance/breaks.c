/* breaks.c: edits of a sound machine, one for each single rule. */
#include "breaks.h"

#include <string.h>

#include "chance.h"
#include "tables.h"

typedef struct model_machine machine_t;

/* ---- facts */

static bool unknown_flag(machine_t *m, uint32_t what)
{
    (void)what;
    m->facts.flags = (uint8_t)(m->facts.flags | 1 << from(2, 7));
    return true;
}

/* A legacy address of eight from this one on. */
static bool legacy_outside(machine_t *m, uint32_t first)
{
    flip_legacy(&m->facts, (uint8_t)(first + below(8)));
    return true;
}

/* ---- rows */

/* An address that is never open, between those of the neighbours of its row. */
static bool row_barred(machine_t *m, uint32_t what)
{
    static const uint32_t barred[] = {
        0x01, 0x02, 0x3E, 0x5E, 0x6E, 0x76, 0x78, 0x79, 0x7A, 0x7B, 0x7C, 0x7D, 0x7E, 0x7F,
    };
    const size_t place = any_row(m), rows = rows_of(m);
    const uint8_t address = (uint8_t)ONE_OF(barred);
    (void)what;
    if (rows == 0 || (place > 0 && m->rows[place - 1].address >= address)
        || (place + 1 < rows && m->rows[place + 1].address <= address)) {
        return false;
    }
    m->rows[place].address = address;
    return true;
}

static bool row_over_127(machine_t *m, uint32_t what)
{
    const size_t rows = rows_of(m);
    (void)what;
    if (rows > 0) {
        m->rows[rows - 1].address = (uint8_t)(chance(50) ? m->rows[rows - 1].address + 128u : from(128, 255));
    }
    return rows > 0;
}

static bool row_legacy(machine_t *m, uint32_t what)
{
    const uint8_t address = m->rows[any_row(m)].address;
    (void)what;
    if (address < 0x08) {
        return false;
    }
    flip_legacy(&m->facts, address);
    return true;
}

/* A row's address that the flags had opened is closed by a flag the other way. */
static bool row_closed_by_flag(machine_t *m, uint32_t flag)
{
    for (size_t place = 0; place < rows_of(m); place++) {
        const uint8_t address = m->rows[place].address;
        if ((flag == 1 && address >= 4 && address <= 7) || (flag == 2 && address == 3)) {
            m->facts.flags ^= (uint8_t)flag;
            return true;
        }
    }
    return false;
}

static bool rows_swapped(machine_t *m, uint32_t what)
{
    const size_t place = any_row(m);
    const struct model_row row = m->rows[place];
    (void)what;
    if (place + 1 >= rows_of(m)) {
        return false;
    }
    m->rows[place] = m->rows[place + 1];
    m->rows[place + 1] = row;
    return true;
}

/* Two different rows by chance; whether there are two. */
static bool two_rows(const machine_t *m, size_t *one, size_t *other)
{
    const size_t rows = rows_of(m);
    if (rows < 2) {
        return false;
    }
    *one = below((uint32_t)rows);
    *other = (*one + from(1, (uint32_t)rows - 1)) % rows;
    return true;
}

static bool equal_addresses(machine_t *m, uint32_t what)
{
    const size_t place = any_row(m);
    (void)what;
    if (place + 1 >= rows_of(m)) {
        return false;
    }
    m->rows[place + 1].address = m->rows[place].address;
    return true;
}

static bool equal_tickets(machine_t *m, uint32_t what)
{
    size_t one, other;
    (void)what;
    if (!two_rows(m, &one, &other)) {
        return false;
    }
    m->rows[one].ticket = m->rows[other].ticket;
    return true;
}

static bool equal_identities(machine_t *m, uint32_t what)
{
    size_t one, other;
    (void)what;
    if (!two_rows(m, &one, &other) || m->rows[one].unknown || m->rows[other].unknown) {
        return false;
    }
    m->rows[one].identity = m->rows[other].identity;
    return true;
}

static bool equal_statics(machine_t *m, uint32_t what)
{
    size_t one, other;
    (void)what;
    if (!two_rows(m, &one, &other) || m->rows[other].from_static == 0) {
        return false;
    }
    m->rows[one].from_static = m->rows[other].from_static;
    return true;
}

static bool ticket_0(machine_t *m, uint32_t what)
{
    (void)what;
    m->rows[any_row(m)].ticket = 0;
    return rows_of(m) > 0;
}

static bool ticket_above_last(machine_t *m, uint32_t what)
{
    struct model_row *row = &m->rows[any_row(m)];
    const uint32_t last = m->facts.last;
    (void)what;
    if (rows_of(m) == 0 || last == UINT32_MAX) {
        return false;
    }
    row->ticket = chance(60) ? last + 1 : chance(50) ? UINT32_MAX : from(last + 1, UINT32_MAX);
    return true;
}

static bool last_lowered(machine_t *m, uint32_t what)
{
    (void)what;
    m->facts.last = m->rows[any_row(m)].ticket - 1;
    return rows_of(m) > 0;
}

static bool unknown_with_identity(machine_t *m, uint32_t what)
{
    struct model_row *row = &m->rows[any_row(m)];
    (void)what;
    if (rows_of(m) == 0 || (!row->unknown && row->identity == 0)) {
        return false;
    }
    row->unknown = true;
    row->identity = row->identity != 0 ? row->identity : chance(50) ? 1 : any() | 1;
    return true;
}

/* A row's static address below 08h (1) or above 77h (2). */
static bool static_outside(machine_t *m, uint32_t what)
{
    struct model_row *row = &m->rows[any_row(m)];
    row->from_static = (uint8_t)(what == 1 ? from(1, 7) : chance(50) ? from(0x78, 0x7F) : from(0x78, 0xFF));
    return rows_of(m) > 0;
}

static bool static_legacy(machine_t *m, uint32_t what)
{
    const uint8_t from_static = m->rows[any_row(m)].from_static;
    (void)what;
    if (rows_of(m) == 0 || from_static == 0 || held_dynamic(m, from_static)) {
        return false;
    }
    flip_legacy(&m->facts, from_static);
    return true;
}

/* ---- unused places */

static bool gap(machine_t *m, uint32_t what)
{
    const size_t place = any_row(m);
    (void)what;
    if (place + 1 >= rows_of(m)) {
        return false;
    }
    memset(&m->rows[place], 0, sizeof m->rows[place]);
    return true;
}

/* The last row, some places further on. */
static bool row_too_far(machine_t *m, uint32_t what)
{
    const size_t rows = rows_of(m);
    (void)what;
    if (rows == 0 || rows == MODEL_ROWS) {
        return false;
    }
    m->rows[from((uint32_t)rows, MODEL_ROWS - 1)] = m->rows[rows - 1];
    memset(&m->rows[rows - 1], 0, sizeof m->rows[rows - 1]);
    return true;
}

/* One number of an unused place: ticket (0), mark (1), identity (2), static address (3). */
static bool dirty(machine_t *m, uint32_t what)
{
    const size_t rows = rows_of(m);
    struct model_row *row;
    if (rows == MODEL_ROWS) {
        return false;
    }
    row = &m->rows[chance(40) ? rows : chance(50) ? MODEL_ROWS - 1 : from((uint32_t)rows, MODEL_ROWS - 1)];
    switch (what) {
    case 0: row->ticket = chance(50) ? 1 : (uint32_t)1 << below(32); break;
    case 1: row->unknown = true; break;
    case 2: row->identity = chance(50) ? 1 : (uint64_t)1 << below(64); break;
    default: row->from_static = (uint8_t)from(1, 255); break;
    }
    return true;
}

/* ---- what the rules just allow, at idle */

static bool unknown_beside_0(machine_t *m, uint32_t what)
{
    size_t one, other;
    (void)what;
    if (!two_rows(m, &one, &other)) {
        return false;
    }
    for (size_t place = 0; place < rows_of(m); place++) {
        if (place != one && (m->rows[place].unknown || m->rows[place].identity == 0)) {
            return false;
        }
    }
    m->rows[one].unknown = true;
    m->rows[one].identity = 0;
    m->rows[other].identity = 0;
    return true;
}

static bool two_unknown(machine_t *m, uint32_t what)
{
    size_t one, other;
    (void)what;
    if (!two_rows(m, &one, &other)) {
        return false;
    }
    m->rows[one].unknown = m->rows[other].unknown = true;
    m->rows[one].identity = m->rows[other].identity = 0;
    return true;
}

static bool static_is_address(machine_t *m, uint32_t what)
{
    size_t one, other;
    (void)what;
    if (!two_rows(m, &one, &other) || m->rows[other].address < 0x08
        || held_static(m, m->rows[other].address)) {
        return false;
    }
    m->rows[chance(50) ? one : other].from_static = m->rows[other].address;
    return true;
}

static bool last_at_end(machine_t *m, uint32_t what)
{
    (void)what;
    m->facts.last = UINT32_MAX;
    return true;
}

static bool nothing(machine_t *m, uint32_t what)
{
    (void)m;
    (void)what;
    return true;
}

/* ---- what the moment remembers */

enum field { CHOICE, ASKED, WANTED, IDENTITY, OFFERED, REFUSALS };

static uint64_t get(const machine_t *m, uint32_t field)
{
    const uint64_t numbers[] = { m->choice, m->asked, m->wanted, m->identity, m->offered, m->refusals };
    return numbers[field];
}

static void set(machine_t *m, uint32_t field, uint64_t number)
{
    switch (field) {
    case CHOICE: m->choice = (uint8_t)number; break;
    case ASKED: m->asked = (uint8_t)number; break;
    case WANTED: m->wanted = (uint8_t)number; break;
    case IDENTITY: m->identity = number; break;
    case OFFERED: m->offered = (uint8_t)number; break;
    default: m->refusals = (uint8_t)number; break;
    }
}

/* A number that must be 0 is not: 1, a single bit, an address of the table, or any. */
static bool not_0(machine_t *m, uint32_t field)
{
    uint64_t number = 1;
    if ((field == ASKED || field == WANTED) && m->moment == MODEL_OPENED
        && (m->choice == 2 || m->choice == 3)) {
        return false;
    }
    switch (below(4)) {
    case 0: number = (uint64_t)1 << below(field == IDENTITY ? 64 : 8); break;
    case 1: number = field == IDENTITY ? edge_identity(m) : edge_address(m); break;
    case 2: number = field == CHOICE ? from(1, 5) : field == IDENTITY ? any() : from(1, 255); break;
    default: break;
    }
    set(m, field, number != 0 ? number : 1);
    return true;
}

/* A number is another one by one up or down, or any. */
static bool another(machine_t *m, uint32_t field)
{
    const uint64_t number = get(m, field);
    set(m, field, chance(40) ? number + 1 : chance(60) ? number - 1 : any());
    return get(m, field) != number;
}

static bool no_choice(machine_t *m, uint32_t what)
{
    (void)what;
    if (m->choice == 2 || m->choice == 3) {
        m->asked = m->wanted = 0;
    }
    m->choice = (uint8_t)(chance(50) ? 6 : from(6, 255));
    return true;
}

/* Choice 2 or 3 while no address is remembered. */
static bool choice_without_addresses(machine_t *m, uint32_t choice)
{
    if (m->asked != 0 || m->wanted != 0) {
        return false;
    }
    m->choice = (uint8_t)choice;
    return true;
}

/* A direct moment for a choice that has none; with the addresses, or without. */
static bool never_direct(machine_t *m, uint32_t what)
{
    static const uint32_t choices[] = { 0, 1, 4, 5, 6, 255 };
    (void)what;
    m->choice = (uint8_t)ONE_OF(choices);
    if (chance(50)) {
        m->asked = m->wanted = 0;
    }
    return true;
}

/*
 * The static address asked for: outside 08h to 77h, legacy, a row's static address, a row's dynamic address.
 */
static bool asked_static(machine_t *m, uint32_t what)
{
    static const uint32_t outside[] = { 0x00, 0x01, 0x07, 0x78, 0x7E, 0x7F, 0x80, 0xFF };
    const struct model_row *row = &m->rows[any_row(m)];
    if (m->choice != 2) {
        return false;
    }
    switch (what) {
    case 0: m->asked = (uint8_t)ONE_OF(outside); return true;
    case 1: flip_legacy(&m->facts, m->asked); return m->asked != m->wanted;
    case 2: m->asked = row->from_static; return m->asked != 0 && !held_dynamic(m, m->asked);
    default: m->asked = row->address; return m->asked >= 0x08 && !held_static(m, m->asked);
    }
}

/* The present address asked for is no row's. */
static bool asked_no_row(machine_t *m, uint32_t what)
{
    (void)what;
    if (m->choice != 3) {
        return false;
    }
    m->asked = chance(40) ? m->wanted : chance(30) ? 0 : (uint8_t)any();
    return !held_dynamic(m, m->asked);
}

/* The present address asked for is another row's. */
static bool asked_other_row(machine_t *m, uint32_t what)
{
    (void)what;
    if (m->choice != 3) {
        return false;
    }
    m->asked = m->rows[any_row(m)].address;
    return true;
}

/* The new address: over 127, never open, legacy, a row's. */
static bool wanted_not_free(machine_t *m, uint32_t what)
{
    static const uint32_t barred[] = {
        0x00, 0x01, 0x02, 0x3E, 0x5E, 0x6E, 0x76, 0x78, 0x7A, 0x7D, 0x7E, 0x7F,
    };
    if (m->choice != 2 && m->choice != 3) {
        return false;
    }
    switch (what) {
    case 0: m->wanted = (uint8_t)(chance(50) ? m->wanted + 128u : from(128, 255)); return true;
    case 1: m->wanted = (uint8_t)ONE_OF(barred); return true;
    case 2:
        if (m->wanted < 0x08 || m->wanted == m->asked) {
            return false;
        }
        flip_legacy(&m->facts, m->wanted);
        return true;
    default:
        m->wanted = chance(50) && m->choice == 3 ? m->asked : m->rows[any_row(m)].address;
        return rows_of(m) > 0;
    }
}

static bool refusals_2(machine_t *m, uint32_t what)
{
    (void)what;
    m->refusals = (uint8_t)(chance(60) ? 2 : from(2, 255));
    return true;
}

static bool refusals_other(machine_t *m, uint32_t what)
{
    (void)what;
    m->refusals ^= 1;
    return true;
}

/* The lowest free address; 0 if there is none. */
static uint8_t lowest_free(const machine_t *m)
{
    for (uint8_t address = 0; address < 128; address++) {
        if (open_at(&m->facts, address) && !held_dynamic(m, address)) {
            return address;
        }
    }
    return 0;
}

/* The place of the row that has this identity; MODEL_ROWS if none has. */
static size_t row_with(const machine_t *m, uint64_t identity)
{
    size_t place = 0;
    while (place < MODEL_ROWS
           && (m->rows[place].address == 0 || m->rows[place].unknown
               || m->rows[place].identity != identity)) {
        place++;
    }
    return place;
}

/* The offered address: free but not the lowest, a row's, 0, over 127, any other. */
static bool offered_wrong(machine_t *m, uint32_t what)
{
    const uint8_t right = m->offered;
    switch (what) {
    case 0: m->offered = free_address(m); break;
    case 1: m->offered = m->rows[any_row(m)].address; break;
    case 2: m->offered = 0; break;
    case 3: m->offered = (uint8_t)(m->offered + 128); break;
    default: m->offered = (uint8_t)any(); break;
    }
    return m->offered != right;
}

/* A known identity that is offered the lowest free address; one that no row has, offered a row's. */
static bool known_offered_free(machine_t *m, uint32_t what)
{
    const struct model_row *row = &m->rows[any_row(m)];
    (void)what;
    if (rows_of(m) == 0 || row->unknown) {
        return false;
    }
    m->identity = row->identity;
    m->offered = lowest_free(m);
    return true;
}

static bool new_offered_held(machine_t *m, uint32_t what)
{
    (void)what;
    m->identity = chance(30) ? 0 : any();
    m->offered = m->rows[any_row(m)].address;
    return rows_of(m) > 0 && row_with(m, m->identity) == MODEL_ROWS;
}

/* Another identity that no row has, offered the lowest free address: as the rules have it. */
static bool other_new_identity(machine_t *m, uint32_t what)
{
    (void)what;
    m->identity = any_identity();
    m->offered = lowest_free(m);
    return row_with(m, m->identity) == MODEL_ROWS;
}

/* An idle machine is made to stand at a moment, with all that the rules want remembered there. */
static bool remember(machine_t *m, uint8_t moment, uint8_t choice)
{
    const uint64_t identity = edge_identity(m);
    const size_t place = row_with(m, identity);
    m->moment = moment;
    m->choice = choice;
    if (choice == 2 || choice == 3) {
        m->asked = choice == 2 ? free_static(m) : m->rows[any_row(m)].address;
        m->wanted = free_address(m);
    }
    if (moment == MODEL_ROUND || moment == MODEL_LISTENING || moment == MODEL_OFFERED) {
        m->refusals = (uint8_t)below(2);
    }
    if (moment == MODEL_OFFERED) {
        m->identity = identity;
        m->offered = place < MODEL_ROWS ? m->rows[place].address : lowest_free(m);
    }
    return (choice != 2 && choice != 3) || (m->asked != 0 && m->wanted != 0);
}

/*
 * A moment that needs a row, an address or a ticket to give, without it. What: moment plus 10 times choice.
 */
static bool rows_full(machine_t *m, uint32_t what)
{
    struct model_facts facts = any_facts();
    if (chance(80)) {
        memset(facts.legacy, 0, sizeof facts.legacy);
    }
    facts.last = chance(50) ? from(32, 100) : UINT32_MAX - 1;
    *m = sound_machine_of(facts, MODEL_ROWS);
    return rows_of(m) == MODEL_ROWS && remember(m, (uint8_t)(what % 10), (uint8_t)(what / 10));
}

static bool none_free(machine_t *m, uint32_t what)
{
    struct model_facts facts = any_facts();
    facts.flags |= 1;
    memset(facts.legacy + 1, 0xFF, 14);
    for (uint32_t times = below(4); times > 0; times--) {
        flip_legacy(&facts, (uint8_t)from(0x08, 0x75));
    }
    facts.last = chance(50) ? from(32, 100) : UINT32_MAX - 1;
    *m = sound_machine_of(facts, 5);
    return lowest_free(m) == 0 && remember(m, (uint8_t)(what % 10), (uint8_t)(what / 10));
}

static bool no_ticket(machine_t *m, uint32_t what)
{
    struct model_facts facts = any_facts();
    facts.last = UINT32_MAX;
    *m = sound_machine_of(facts, below(5));
    return lowest_free(m) != 0 && remember(m, (uint8_t)(what % 10), (uint8_t)(what / 10));
}

/* The same where one row, one address or one ticket is left: as the rules have it. */
static bool just_enough(machine_t *m, uint32_t what)
{
    struct model_facts facts = any_facts();
    if (chance(50)) {
        memset(facts.legacy, 0, sizeof facts.legacy);
    }
    facts.last = UINT32_MAX - 1;
    *m = sound_machine_of(facts, chance(50) ? 31 : below(6));
    return lowest_free(m) != 0 && remember(m, (uint8_t)(what % 10), (uint8_t)(what / 10));
}

/* ---- any */

static bool other_moment(machine_t *m, uint32_t what)
{
    (void)what;
    m->moment = (uint8_t)((m->moment + from(1, 5)) % 6);
    return true;
}

static bool any_byte(machine_t *m, uint32_t what)
{
    struct model_row *row = &m->rows[chance(80) ? any_row(m) : below(MODEL_ROWS)];
    (void)what;
    switch (below(8)) {
    case 0: m->facts.flags = (uint8_t)below(8); break;
    case 1: flip_legacy(&m->facts, (uint8_t)below(128)); break;
    case 2: m->facts.last = edge_last(); break;
    case 3: row->address = edge_address(m); break;
    case 4: row->ticket = edge_ticket(m); break;
    case 5: row->unknown = !row->unknown; break;
    case 6: row->identity = edge_identity(m); break;
    default: row->from_static = edge_static(m); break;
    }
    return true;
}

/* ---- the list */

const struct edit edits[] = {
    { "no edit", ACCEPTED, ANY_MOMENT, nothing, 0 },
    { "an unknown flag", REFUSED, ANY_MOMENT, unknown_flag, 0 },
    { "a legacy address below 08h", REFUSED, ANY_MOMENT, legacy_outside, 0x00 },
    { "a legacy address above 77h", REFUSED, ANY_MOMENT, legacy_outside, 0x78 },
    { "a row's address is never open", REFUSED, MODEL_IDLE, row_barred, 0 },
    { "a row's address over 127", REFUSED, ANY_MOMENT, row_over_127, 0 },
    { "a row's address is legacy", REFUSED, ANY_MOMENT, row_legacy, 0 },
    { "a row at 04h to 07h with flag 1", REFUSED, ANY_MOMENT, row_closed_by_flag, 1 },
    { "a row at 03h without flag 2", REFUSED, ANY_MOMENT, row_closed_by_flag, 2 },
    { "rows out of order", REFUSED, ANY_MOMENT, rows_swapped, 0 },
    { "equal dynamic addresses", REFUSED, MODEL_IDLE, equal_addresses, 0 },
    { "equal tickets", REFUSED, ANY_MOMENT, equal_tickets, 0 },
    { "equal identities", REFUSED, ANY_MOMENT, equal_identities, 0 },
    { "equal static addresses", REFUSED, ANY_MOMENT, equal_statics, 0 },
    { "ticket 0", REFUSED, ANY_MOMENT, ticket_0, 0 },
    { "a ticket above the last", REFUSED, ANY_MOMENT, ticket_above_last, 0 },
    { "a last ticket below a row's", REFUSED, ANY_MOMENT, last_lowered, 0 },
    { "an unknown identity that is not 0", REFUSED, ANY_MOMENT, unknown_with_identity, 0 },
    { "a row's static address below 08h", REFUSED, ANY_MOMENT, static_outside, 1 },
    { "a row's static address above 77h", REFUSED, ANY_MOMENT, static_outside, 2 },
    { "a row's static address is legacy", REFUSED, MODEL_IDLE, static_legacy, 0 },
    { "a gap between the rows", REFUSED, MODEL_IDLE, gap, 0 },
    { "a row behind unused places", REFUSED, ANY_MOMENT, row_too_far, 0 },
    { "an unused place with a ticket", REFUSED, ANY_MOMENT, dirty, 0 },
    { "an unused place with the mark", REFUSED, ANY_MOMENT, dirty, 1 },
    { "an unused place with an identity", REFUSED, ANY_MOMENT, dirty, 2 },
    { "an unused place with a static address", REFUSED, ANY_MOMENT, dirty, 3 },
    { "an unknown identity beside a known 0", ACCEPTED, MODEL_IDLE, unknown_beside_0, 0 },
    { "two unknown identities", ACCEPTED, MODEL_IDLE, two_unknown, 0 },
    { "a static address that is a row's address", ACCEPTED, MODEL_IDLE, static_is_address, 0 },
    { "idle without a ticket left", ACCEPTED, MODEL_IDLE, last_at_end, 0 },

    { "idle remembers a choice", REFUSED, MODEL_IDLE, not_0, CHOICE },
    { "idle remembers an address asked", REFUSED, MODEL_IDLE, not_0, ASKED },
    { "idle remembers a new address", REFUSED, MODEL_IDLE, not_0, WANTED },
    { "idle remembers an identity", REFUSED, MODEL_IDLE, not_0, IDENTITY },
    { "idle remembers an offer", REFUSED, MODEL_IDLE, not_0, OFFERED },
    { "idle remembers refusals", REFUSED, MODEL_IDLE, not_0, REFUSALS },
    { "opened remembers an identity", REFUSED, MODEL_OPENED, not_0, IDENTITY },
    { "opened remembers an offer", REFUSED, MODEL_OPENED, not_0, OFFERED },
    { "opened remembers refusals", REFUSED, MODEL_OPENED, not_0, REFUSALS },
    { "opened remembers an address its choice does not ask", REFUSED, MODEL_OPENED, not_0, ASKED },
    { "opened remembers a new address its choice does not want", REFUSED, MODEL_OPENED, not_0, WANTED },
    { "round remembers a choice", REFUSED, MODEL_ROUND, not_0, CHOICE },
    { "round remembers an address asked", REFUSED, MODEL_ROUND, not_0, ASKED },
    { "round remembers a new address", REFUSED, MODEL_ROUND, not_0, WANTED },
    { "round remembers an identity", REFUSED, MODEL_ROUND, not_0, IDENTITY },
    { "round remembers an offer", REFUSED, MODEL_ROUND, not_0, OFFERED },
    { "listening remembers a choice", REFUSED, MODEL_LISTENING, not_0, CHOICE },
    { "listening remembers an address asked", REFUSED, MODEL_LISTENING, not_0, ASKED },
    { "listening remembers a new address", REFUSED, MODEL_LISTENING, not_0, WANTED },
    { "listening remembers an identity", REFUSED, MODEL_LISTENING, not_0, IDENTITY },
    { "listening remembers an offer", REFUSED, MODEL_LISTENING, not_0, OFFERED },
    { "offered remembers a choice", REFUSED, MODEL_OFFERED, not_0, CHOICE },
    { "offered remembers an address asked", REFUSED, MODEL_OFFERED, not_0, ASKED },
    { "offered remembers a new address", REFUSED, MODEL_OFFERED, not_0, WANTED },
    { "direct remembers an identity", REFUSED, MODEL_DIRECT, not_0, IDENTITY },
    { "direct remembers an offer", REFUSED, MODEL_DIRECT, not_0, OFFERED },
    { "direct remembers refusals", REFUSED, MODEL_DIRECT, not_0, REFUSALS },

    { "opened for no choice", REFUSED, MODEL_OPENED, no_choice, 0 },
    { "opened for choice 2 without addresses", REFUSED, MODEL_OPENED, choice_without_addresses, 2 },
    { "opened for choice 3 without addresses", REFUSED, MODEL_OPENED, choice_without_addresses, 3 },
    { "opened for another choice", EITHER, MODEL_OPENED, another, CHOICE },
    { "direct for a choice that is never", REFUSED, MODEL_DIRECT, never_direct, 0 },
    { "direct for another choice", EITHER, MODEL_DIRECT, another, CHOICE },
    { "opened: static address asked outside 08h to 77h", REFUSED, MODEL_OPENED, asked_static, 0 },
    { "opened: static address asked is legacy", REFUSED, MODEL_OPENED, asked_static, 1 },
    { "opened: static address asked is a row's static", REFUSED, MODEL_OPENED, asked_static, 2 },
    { "opened: static address asked is a row's dynamic", REFUSED, MODEL_OPENED, asked_static, 3 },
    { "direct: static address asked outside 08h to 77h", REFUSED, MODEL_DIRECT, asked_static, 0 },
    { "direct: static address asked is legacy", REFUSED, MODEL_DIRECT, asked_static, 1 },
    { "direct: static address asked is a row's static", REFUSED, MODEL_DIRECT, asked_static, 2 },
    { "direct: static address asked is a row's dynamic", REFUSED, MODEL_DIRECT, asked_static, 3 },
    { "opened: present address asked is no row's", REFUSED, MODEL_OPENED, asked_no_row, 0 },
    { "direct: present address asked is no row's", REFUSED, MODEL_DIRECT, asked_no_row, 0 },
    { "opened: present address asked is another row's", ACCEPTED, MODEL_OPENED, asked_other_row, 0 },
    { "direct: present address asked is another row's", ACCEPTED, MODEL_DIRECT, asked_other_row, 0 },
    { "opened: new address over 127", REFUSED, MODEL_OPENED, wanted_not_free, 0 },
    { "opened: new address is never open", REFUSED, MODEL_OPENED, wanted_not_free, 1 },
    { "opened: new address is legacy", REFUSED, MODEL_OPENED, wanted_not_free, 2 },
    { "opened: new address is held", REFUSED, MODEL_OPENED, wanted_not_free, 3 },
    { "direct: new address over 127", REFUSED, MODEL_DIRECT, wanted_not_free, 0 },
    { "direct: new address is never open", REFUSED, MODEL_DIRECT, wanted_not_free, 1 },
    { "direct: new address is legacy", REFUSED, MODEL_DIRECT, wanted_not_free, 2 },
    { "direct: new address is held", REFUSED, MODEL_DIRECT, wanted_not_free, 3 },
    { "opened: another address asked", EITHER, MODEL_OPENED, another, ASKED },
    { "opened: another new address", EITHER, MODEL_OPENED, another, WANTED },
    { "direct: another address asked", EITHER, MODEL_DIRECT, another, ASKED },
    { "direct: another new address", EITHER, MODEL_DIRECT, another, WANTED },

    { "round: two refusals", REFUSED, MODEL_ROUND, refusals_2, 0 },
    { "listening: two refusals", REFUSED, MODEL_LISTENING, refusals_2, 0 },
    { "offered: two refusals", REFUSED, MODEL_OFFERED, refusals_2, 0 },
    { "round: one refusal, or none", ACCEPTED, MODEL_ROUND, refusals_other, 0 },
    { "listening: one refusal, or none", ACCEPTED, MODEL_LISTENING, refusals_other, 0 },
    { "offered: one refusal, or none", ACCEPTED, MODEL_OFFERED, refusals_other, 0 },
    { "offered: another free address", REFUSED, MODEL_OFFERED, offered_wrong, 0 },
    { "offered: a row's address", REFUSED, MODEL_OFFERED, offered_wrong, 1 },
    { "offered: address 0", REFUSED, MODEL_OFFERED, offered_wrong, 2 },
    { "offered: an address over 127", REFUSED, MODEL_OFFERED, offered_wrong, 3 },
    { "offered: any other address", REFUSED, MODEL_OFFERED, offered_wrong, 4 },
    { "offered: a known identity, the lowest free address", REFUSED, MODEL_OFFERED, known_offered_free, 0 },
    { "offered: a new identity, a row's address", REFUSED, MODEL_OFFERED, new_offered_held, 0 },
    { "offered: another new identity", ACCEPTED, MODEL_OFFERED, other_new_identity, 0 },
    { "offered: another identity", EITHER, MODEL_OFFERED, another, IDENTITY },

    { "opened for assign with 32 rows", REFUSED, MODEL_IDLE, rows_full, 1 },
    { "opened for static with 32 rows", REFUSED, MODEL_IDLE, rows_full, 21 },
    { "round with 32 rows", REFUSED, MODEL_IDLE, rows_full, 2 },
    { "listening with 32 rows", REFUSED, MODEL_IDLE, rows_full, 3 },
    { "offered with 32 rows", REFUSED, MODEL_IDLE, rows_full, 4 },
    { "direct for static with 32 rows", REFUSED, MODEL_IDLE, rows_full, 25 },
    { "opened for assign without a free address", REFUSED, MODEL_IDLE, none_free, 1 },
    { "round without a free address", REFUSED, MODEL_IDLE, none_free, 2 },
    { "listening without a free address", REFUSED, MODEL_IDLE, none_free, 3 },
    { "offered without a free address", REFUSED, MODEL_IDLE, none_free, 4 },
    { "opened for assign without a ticket", REFUSED, MODEL_IDLE, no_ticket, 1 },
    { "opened for static without a ticket", REFUSED, MODEL_IDLE, no_ticket, 21 },
    { "round without a ticket", REFUSED, MODEL_IDLE, no_ticket, 2 },
    { "listening without a ticket", REFUSED, MODEL_IDLE, no_ticket, 3 },
    { "offered without a ticket", REFUSED, MODEL_IDLE, no_ticket, 4 },
    { "direct for static without a ticket", REFUSED, MODEL_IDLE, no_ticket, 25 },
    { "opened for assign with just enough", ACCEPTED, MODEL_IDLE, just_enough, 1 },
    { "opened for static with just enough", ACCEPTED, MODEL_IDLE, just_enough, 21 },
    { "round with just enough", ACCEPTED, MODEL_IDLE, just_enough, 2 },
    { "listening with just enough", ACCEPTED, MODEL_IDLE, just_enough, 3 },
    { "offered with just enough", ACCEPTED, MODEL_IDLE, just_enough, 4 },
    { "direct for static with just enough", ACCEPTED, MODEL_IDLE, just_enough, 25 },
    { "opened for move with 32 rows", ACCEPTED, MODEL_IDLE, rows_full, 31 },
    { "direct for move with 32 rows", ACCEPTED, MODEL_IDLE, rows_full, 35 },
    { "opened for move without a ticket", ACCEPTED, MODEL_IDLE, no_ticket, 31 },
    { "direct for move without a ticket", ACCEPTED, MODEL_IDLE, no_ticket, 35 },
    { "opened for reset with 32 rows", ACCEPTED, MODEL_IDLE, rows_full, 11 },
    { "opened for silence without a free address", ACCEPTED, MODEL_IDLE, none_free, 41 },
    { "opened for allow without a ticket", ACCEPTED, MODEL_IDLE, no_ticket, 51 },

    { "another moment", EITHER, ANY_MOMENT, other_moment, 0 },
    { "any other number", EITHER, ANY_MOMENT, any_byte, 0 },
};

size_t edits_length(void)
{
    return sizeof edits / sizeof edits[0];
}
