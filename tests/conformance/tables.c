/* tables.c: bus facts, identities and sound machines by chance, and arguments near an edge. */
#include "tables.h"

#include <string.h>

#include "chance.h"

static const uint32_t addresses_at_edges[] = {
    0x00, 0x01, 0x02, 0x03, 0x04, 0x05, 0x06, 0x07, 0x08, 0x09, 0x3D, 0x3E, 0x3F, 0x5D, 0x5E, 0x5F, 0x6D,
    0x6E, 0x6F, 0x75, 0x76, 0x77, 0x78, 0x79, 0x7A, 0x7B, 0x7C, 0x7D, 0x7E, 0x7F, 0x80, 0x81, 0xFE, 0xFF,
};
static const uint32_t statics_at_edges[] = {
    0x00, 0x01, 0x07, 0x08, 0x3E, 0x76, 0x77, 0x78, 0x7E, 0x7F, 0x80, 0xFF,
};

/* ---- identities */

static uint64_t shared_identity;

void new_identities(void)
{
    shared_identity = any();
}

uint64_t any_identity(void)
{
    static const uint32_t kinds[] = { 45, 15, 10, 5, 5, 20 };
    switch (BY_WEIGHT(kinds)) {
    case 0: return shared_identity ^ below(8);
    case 1: return shared_identity ^ (uint64_t)1 << below(64);
    case 2: return shared_identity ^ (uint64_t)from(1, 255) << 8;
    case 3: return below(3);
    case 4: return UINT64_MAX - below(3);
    default: return any();
    }
}

/* ---- facts */

bool legacy_at(const struct model_facts *facts, uint8_t address)
{
    return address < 128 && (facts->legacy[address / 8] >> address % 8 & 1) != 0;
}

void flip_legacy(struct model_facts *facts, uint8_t address)
{
    if (address < 128) {
        facts->legacy[address / 8] ^= (uint8_t)(1 << address % 8);
    }
}

/* All of 08h to 77h. */
static void all_legacy(struct model_facts *facts)
{
    memset(facts->legacy + 1, 0xFF, 14);
}

/* A legacy set: none, few, many, nearly all, all. */
static void any_legacy(struct model_facts *facts)
{
    static const uint32_t kinds[] = { 40, 30, 8, 19, 3 };
    const size_t kind = BY_WEIGHT(kinds);
    uint32_t times = 0;
    if (kind >= 3) {
        all_legacy(facts);
    }
    switch (kind) {
    case 1: times = from(1, 6); break;
    case 2: times = from(20, 90); break;
    case 3: times = from(1, 8); break;
    default: break;
    }
    for (; times > 0; times--) {
        flip_legacy(facts, (uint8_t)from(0x08, 0x77));
    }
}

uint32_t edge_last(void)
{
    static const uint32_t kinds[] = { 25, 35, 20, 10, 10 };
    switch (BY_WEIGHT(kinds)) {
    case 0: return 0;
    case 1: return from(1, 60);
    case 2: return UINT32_MAX - below(4);
    case 3: return UINT32_MAX - below(60);
    default: return (uint32_t)any();
    }
}

struct model_facts any_facts(void)
{
    static const uint32_t flags[] = { 0, 1, 1, 2, 3 };
    struct model_facts facts = { 0, { 0 }, 0 };
    facts.flags = (uint8_t)ONE_OF(flags);
    any_legacy(&facts);
    facts.last = edge_last();
    return facts;
}

bool open_at(const struct model_facts *facts, uint8_t address)
{
    return model_slot_test(facts->flags, facts->legacy, MODEL_LEGACY, facts->last, address).open;
}

/* ---- rows */

size_t rows_of(const struct model_machine *machine)
{
    size_t rows = 0;
    while (rows < MODEL_ROWS && machine->rows[rows].address != 0) {
        rows++;
    }
    return rows;
}

size_t any_row(const struct model_machine *machine)
{
    const size_t rows = rows_of(machine);
    return rows == 0 ? 0 : below((uint32_t)rows);
}

bool held_dynamic(const struct model_machine *machine, uint8_t address)
{
    for (size_t place = 0; place < MODEL_ROWS; place++) {
        if (machine->rows[place].address != 0 && machine->rows[place].address == address) {
            return true;
        }
    }
    return false;
}

bool held_static(const struct model_machine *machine, uint8_t address)
{
    for (size_t place = 0; place < MODEL_ROWS; place++) {
        if (machine->rows[place].address != 0 && machine->rows[place].from_static == address) {
            return true;
        }
    }
    return false;
}

/* Whether a ticket, or a known identity, is among the first rows. */
static bool has_ticket(const struct model_machine *machine, size_t rows, uint32_t ticket)
{
    for (size_t place = 0; place < rows; place++) {
        if (machine->rows[place].ticket == ticket) {
            return true;
        }
    }
    return false;
}

static bool has_identity(const struct model_machine *machine, size_t rows, uint64_t identity)
{
    for (size_t place = 0; place < rows; place++) {
        if (!machine->rows[place].unknown && machine->rows[place].identity == identity) {
            return true;
        }
    }
    return false;
}

/* The rest of a row of that address: ticket, identity or its mark, static address. */
static void fill_row(struct model_machine *machine, size_t place)
{
    struct model_row *row = &machine->rows[place];
    const uint32_t last = machine->facts.last;
    do {
        row->ticket = chance(70) ? last - below(last < 64 ? last : 64) : from(1, last > 1 ? last - 1 : 1);
    } while (has_ticket(machine, place, row->ticket));
    row->unknown = chance(25);
    if (!row->unknown) {
        do {
            row->identity = any_identity();
        } while (has_identity(machine, place, row->identity));
    }
    if (chance(35)) {
        const uint8_t from_static = (uint8_t)from(0x08, 0x77);
        if (!legacy_at(&machine->facts, from_static) && !held_static(machine, from_static)) {
            row->from_static = from_static;
        }
    }
}

struct model_machine sound_machine_of(struct model_facts facts, size_t rows)
{
    struct model_machine machine;
    uint8_t open[128];
    size_t left = 0, place = 0;
    memset(&machine, 0, sizeof machine);
    machine.facts = facts;
    for (uint8_t address = 0; address < 128; address++) {
        if (open_at(&facts, address)) {
            open[left++] = address;
        }
    }
    rows = rows > MODEL_ROWS ? MODEL_ROWS : rows;
    if (machine.facts.last < rows) {
        machine.facts.last = (uint32_t)rows;
    }
    /*
     * Each open address is taken with the chance that the number of rows asks for; so the rows come in order.
     */
    for (size_t at = 0; left > 0 && place < rows; at++, left--) {
        if (below((uint32_t)left) < rows - place) {
            machine.rows[place].address = open[at];
            fill_row(&machine, place++);
        }
    }
    return machine;
}

/* Facts with few open addresses: nearly all are legacy, and 04h to 07h are closed. */
static struct model_facts tight_facts(void)
{
    struct model_facts facts = any_facts();
    memset(facts.legacy, 0, sizeof facts.legacy);
    all_legacy(&facts);
    facts.flags = chance(70) ? 1 : 3;
    for (uint32_t time = below(5); time > 0; time--) {
        flip_legacy(&facts, (uint8_t)from(0x08, 0x77));
    }
    return facts;
}

struct model_machine sound_machine(void)
{
    static const uint32_t kinds[] = { 15, 35, 15, 15, 10, 10 };
    struct model_facts facts = any_facts();
    switch (BY_WEIGHT(kinds)) {
    case 0: return sound_machine_of(facts, 0);
    case 1: return sound_machine_of(facts, from(1, 6));
    case 2: return sound_machine_of(facts, from(7, 31));
    case 3:
        if (chance(70)) {
            memset(facts.legacy, 0, sizeof facts.legacy);
        }
        return sound_machine_of(facts, from(30, 32));
    case 4:
        facts = tight_facts();
        return sound_machine_of(facts, from(0, 4));
    default:
        facts.last = UINT32_MAX - below(3);
        return sound_machine_of(facts, from(0, 8));
    }
}

void play_good_begin(struct played *played, uint8_t choice)
{
    const struct model_machine *machine = &played->machine;
    const uint8_t from_static = free_static(machine);
    const uint8_t address = free_address(machine);
    play_begin(played, 8, choice, from_static, address, live_ticket(machine));
}

/* Plays a begin with good arguments, of a choice that can lead to the moment. */
static void begin_for(struct played *played, uint8_t moment)
{
    uint8_t choice = 0;
    if (moment == MODEL_OPENED) {
        choice = (uint8_t)below(6);
    } else if (moment == MODEL_DIRECT) {
        choice = (uint8_t)from(2, 3);
    }
    play_good_begin(played, choice);
}

/* Steps from the opened moment towards another: answered, but with a refused offer now and then. */
static void step_to(struct played *played, uint8_t moment)
{
    for (int step = 0; step < 40 && played->machine.moment != moment; step++) {
        if (played->machine.moment == MODEL_IDLE) {
            return;
        }
        if (played->machine.moment == MODEL_LISTENING) {
            play_number(played, 8, edge_identity(&played->machine));
        } else {
            play_answer(played, 8, played->machine.moment != MODEL_OFFERED || chance(50));
        }
    }
}

struct model_machine sound_machine_at(uint8_t moment)
{
    struct played played;
    play_nothing(&played, NULL);
    for (int time = 0; time < 20; time++) {
        const struct model_machine machine = sound_machine();
        play_machine(&played, &machine);
        if (moment != MODEL_IDLE) {
            begin_for(&played, moment);
            step_to(&played, moment);
            if (chance(40) && played.machine.moment == moment && moment >= MODEL_ROUND
                && moment != MODEL_DIRECT) {
                play_answer(&played, 8, moment != MODEL_OFFERED || chance(50));
                step_to(&played, moment);
            }
        }
        if (played.machine.moment == moment) {
            break;
        }
    }
    return played.machine;
}

/* ---- arguments */

uint8_t free_address(const struct model_machine *machine)
{
    uint8_t free[128];
    uint32_t count = 0;
    for (uint8_t address = 0; address < 128; address++) {
        if (open_at(&machine->facts, address) && !held_dynamic(machine, address)) {
            free[count++] = address;
        }
    }
    return count == 0 ? 0 : free[below(count)];
}

uint8_t free_static(const struct model_machine *machine)
{
    for (int time = 0; time < 200; time++) {
        const uint8_t address = (uint8_t)from(0x08, 0x77);
        if (!legacy_at(&machine->facts, address) && !held_dynamic(machine, address)
            && !held_static(machine, address)) {
            return address;
        }
    }
    return 0;
}

uint32_t live_ticket(const struct model_machine *machine)
{
    return machine->rows[any_row(machine)].ticket;
}

/* A legacy address by chance, or 08h where there is none. */
static uint8_t legacy_address(const struct model_facts *facts)
{
    for (int time = 0; time < 200; time++) {
        const uint8_t address = (uint8_t)from(0x08, 0x77);
        if (legacy_at(facts, address)) {
            return address;
        }
    }
    return 0x08;
}

uint8_t edge_address(const struct model_machine *machine)
{
    static const uint32_t kinds[] = { 25, 20, 15, 25, 15 };
    switch (BY_WEIGHT(kinds)) {
    case 0: return free_address(machine);
    case 1: return machine->rows[any_row(machine)].address;
    case 2: return legacy_address(&machine->facts);
    case 3: return (uint8_t)ONE_OF(addresses_at_edges);
    default: return (uint8_t)any();
    }
}

uint8_t edge_static(const struct model_machine *machine)
{
    static const uint32_t kinds[] = { 25, 15, 15, 15, 20, 10 };
    switch (BY_WEIGHT(kinds)) {
    case 0: return free_static(machine);
    case 1: return machine->rows[any_row(machine)].from_static;
    case 2: return machine->rows[any_row(machine)].address;
    case 3: return legacy_address(&machine->facts);
    case 4: return (uint8_t)ONE_OF(statics_at_edges);
    default: return (uint8_t)any();
    }
}

uint32_t edge_ticket(const struct model_machine *machine)
{
    static const uint32_t kinds[] = { 30, 10, 15, 10, 10, 15, 10 };
    const uint32_t last = machine->facts.last;
    switch (BY_WEIGHT(kinds)) {
    case 0: return live_ticket(machine);
    case 1: return last;
    case 2: return last + 1;
    case 3: return 0;
    case 4: return 1;
    case 5: return last < 2 ? 1 : from(1, last - 1);
    default: return (uint32_t)any();
    }
}

uint64_t edge_identity(const struct model_machine *machine)
{
    static const uint32_t kinds[] = { 35, 10, 55 };
    const struct model_row *row = &machine->rows[any_row(machine)];
    switch (BY_WEIGHT(kinds)) {
    case 0: return row->identity;
    case 1: return row->identity ^ 1;
    default: return any_identity();
    }
}
