/* runs.c: bench runs with 0 to 40 boards. */
#include "breaks.h"
#include "chance.h"
#include "families.h"
#include "tables.h"
#include "walks.h"

/* What a run is given. */
struct given {
    uint16_t lent;
    uint8_t count, flips_length;
    uint8_t flips[255];
    struct model_board boards[BOARDS_MOST];
};

/*
 * The boards: equal identities, those of rows, and boards that have an address already; rarely one over 127.
 */
static void any_boards(struct given *given, const struct model_machine *machine)
{
    const uint32_t with_address = chance(60) ? 0 : chance(80) ? from(1, 40) : 100;
    const uint32_t of_rows = chance(50) ? 5 : 50;
    const uint32_t equal = chance(70) ? 10 : 70;
    for (size_t board = 0; board < given->count; board++) {
        uint64_t identity = chance(of_rows) ? edge_identity(machine) : chance(60) ? any_identity() : any();
        if (board > 0 && chance(equal)) {
            identity = given->boards[below((uint32_t)board)].identity;
        }
        given->boards[board].identity = identity;
        given->boards[board].address = (uint8_t)(chance(with_address) ? from(1, 127) : 0);
    }
    if (given->count > 0 && chance(4)) {
        const size_t board = below(given->count);
        given->boards[board].address = (uint8_t)(chance(50) ? 128 : from(128, 255));
    }
}

/* The flips: none, few, many; most change nothing, or most change a bit; rarely one over 8. */
static void any_flips(struct given *given)
{
    static const uint32_t kinds[] = { 35, 45, 15, 5 };
    const uint32_t changing = chance(50) ? 15 : chance(60) ? 45 : 90;
    switch (BY_WEIGHT(kinds)) {
    case 0: given->flips_length = 0; break;
    case 1: given->flips_length = (uint8_t)from(1, 8); break;
    case 2: given->flips_length = (uint8_t)from(9, 70); break;
    default: given->flips_length = 255; break;
    }
    for (size_t place = 0; place < given->flips_length; place++) {
        given->flips[place] = (uint8_t)(chance(changing) ? below(8) : 8);
    }
    if (given->flips_length > 0 && chance(6)) {
        const size_t place = chance(50) ? given->flips_length - 1u : below(given->flips_length);
        given->flips[place] = (uint8_t)(chance(50) ? 9 : from(9, 255));
    }
}

/* One run on the machine as it stands. */
static void play_any_run(struct played *played, uint8_t count)
{
    static const uint32_t lents[] = { 0, 8, 1023 };
    struct given given;
    given.lent = chance(97) ? LENT_MOST : (uint16_t)ONE_OF(lents);
    given.count = count;
    any_boards(&given, &played->machine);
    any_flips(&given);
    play_run(played, given.lent, given.flips, given.flips_length, given.boards, given.count);
}

/* How many boards, by chance: mostly few. */
static uint8_t any_count(void)
{
    static const uint32_t kinds[] = { 45, 30, 20, 5 };
    switch (BY_WEIGHT(kinds)) {
    case 0: return (uint8_t)below(6);
    case 1: return (uint8_t)from(4, 16);
    case 2: return (uint8_t)from(17, 32);
    default: return (uint8_t)from(31, 40);
    }
}

/* The machine that runs begin on: a start, a sound machine, one that is not idle, one that breaks a rule. */
static void play_before_run(struct played *played)
{
    static const uint32_t kinds[] = { 45, 45, 5, 5 };
    struct model_machine machine;
    struct model_facts facts;
    const struct edit *edit = &edits[below((uint32_t)edits_length())];
    switch (BY_WEIGHT(kinds)) {
    case 0:
        facts = any_facts();
        facts.last = chance(70) ? below(100) : facts.last;
        play_start(played, facts.flags, facts.legacy, MODEL_LEGACY, facts.last);
        return;
    case 1: machine = sound_machine(); break;
    case 2: machine = sound_machine_at((uint8_t)from(MODEL_OPENED, MODEL_DIRECT)); break;
    default:
        machine = sound_machine();
        edit->apply(&machine, edit->what);
        break;
    }
    play_machine(played, &machine);
}

/* Between two runs: a ticket retired, a joining, or some steps of a walk. */
static void play_between(struct played *played)
{
    static const uint32_t kinds[] = { 40, 30, 10, 20 };
    switch (BY_WEIGHT(kinds)) {
    case 0: break;
    case 1: play_letter(played, 'r', true); break;
    case 2: play_letter(played, 'j', true); break;
    default:
        play_step(played);
        play_step(played);
        break;
    }
}

/* A run on which each of so many boards gets a row: there is room, and all identities differ. */
static void play_ample_run(struct played *played, uint8_t count)
{
    static const uint8_t legacy[MODEL_LEGACY];
    struct model_board boards[BOARDS_MOST];
    for (size_t board = 0; board < count; board++) {
        boards[board].identity = any() << 8 | board;
        boards[board].address = 0;
    }
    const uint8_t flags = (uint8_t)below(4);
    play_start(played, flags, legacy, MODEL_LEGACY, below(1000));
    play_run(played, LENT_MOST, NULL, 0, boards, count);
}

/*
 * Every eighth script begins with an ample run, of 0 to 32 boards in turn; the first run of about half of the
 * others has the script's number of boards, from 0 to 40 and anew.
 */
void make_runs(struct script *script, size_t number)
{
    struct played played;
    play_nothing(&played, script);
    new_identities();
    if (number % 8 == 0) {
        play_ample_run(&played, (uint8_t)(number / 8 % 33));
    } else {
        play_before_run(&played);
        play_any_run(&played, (uint8_t)(chance(50) ? number % 41 : any_count()));
    }
    for (uint32_t more = chance(60) ? 0 : from(1, 2); more > 0; more--) {
        play_between(&played);
        play_any_run(&played, any_count());
    }
    if (chance(20)) {
        play_letter(&played, 'q', true);
    }
}
