/*
 * walks.c: walks of the machine: calls chosen with the machine in view, so that every moment is reached and
 * left.
 */
#include "walks.h"

#include <string.h>

#include "chance.h"
#include "families.h"
#include "tables.h"

uint16_t any_lent(void)
{
    static const uint32_t kinds[] = { 55, 20, 15, 4, 3, 2, 1 };
    switch (BY_WEIGHT(kinds)) {
    case 0: return 8;
    case 1: return 9;
    case 2: return (uint16_t)from(10, 40);
    case 3: return 7;
    case 4: return (uint16_t)below(8);
    case 5: return (uint16_t)from(1000, LENT_MOST);
    default: return 0;
    }
}

/* A yes or no byte: any byte but 0 is a yes. */
static uint8_t yes(bool answered)
{
    return (uint8_t)(!answered ? 0 : chance(80) ? 1 : from(2, 255));
}

/* A start whose facts break one rule. */
static void play_wrong_start(struct played *played)
{
    static const uint32_t lengths[] = { 0, 1, 15, 17, 32, 255 };
    struct model_facts facts = any_facts();
    uint8_t legacy[255] = { 0 };
    uint8_t length = MODEL_LEGACY;
    switch (below(4)) {
    case 0: facts.flags = (uint8_t)(facts.flags | 1 << from(2, 7)); break;
    case 1: flip_legacy(&facts, (uint8_t)below(8)); break;
    case 2: flip_legacy(&facts, (uint8_t)from(0x78, 0x7F)); break;
    default: length = (uint8_t)ONE_OF(lengths); break;
    }
    memcpy(legacy, facts.legacy, MODEL_LEGACY);
    play_start(played, facts.flags, legacy, length, facts.last);
}

void play_opening(struct played *played)
{
    static const uint32_t kinds[] = { 60, 25, 11, 4 };
    struct model_facts facts;
    struct model_machine machine;
    switch (BY_WEIGHT(kinds)) {
    case 0:
        facts = any_facts();
        play_start(played, facts.flags, facts.legacy, MODEL_LEGACY, facts.last);
        break;
    case 1:
        machine = sound_machine();
        play_machine(played, &machine);
        break;
    case 2:
        machine = sound_machine_at((uint8_t)from(MODEL_OPENED, MODEL_DIRECT));
        play_machine(played, &machine);
        break;
    default: play_wrong_start(played); break;
    }
}

/* Begin; with good arguments one of them may still lie at an edge. */
static void letter_b(struct played *played, uint16_t lent, bool good)
{
    static const uint32_t choices[] = { 30, 6, 25, 25, 7, 7 };
    static const uint32_t unknown[] = { 6, 7, 255 };
    const struct model_machine *machine = &played->machine;
    uint8_t choice = (uint8_t)BY_WEIGHT(choices);
    uint8_t from_static = free_static(machine), address = free_address(machine);
    uint32_t ticket = live_ticket(machine);
    if (!good || chance(25)) {
        switch (below(4)) {
        case 0: choice = (uint8_t)ONE_OF(unknown); break;
        case 1: from_static = edge_static(machine); break;
        case 2: address = edge_address(machine); break;
        default: ticket = edge_ticket(machine); break;
        }
    }
    if (!good && chance(50)) {
        from_static = edge_static(machine);
        address = edge_address(machine);
        ticket = edge_ticket(machine);
    }
    play_begin(played, lent, choice, from_static, address, ticket);
}

/* Identity: eight bytes, or some other number of them. */
static void letter_i(struct played *played, uint16_t lent, bool good)
{
    static const uint32_t lengths[] = { 0, 1, 7, 9, 16, 255 };
    uint8_t bytes[255];
    if (good || chance(40)) {
        play_number(played, lent, edge_identity(&played->machine));
        return;
    }
    for (size_t place = 0; place < sizeof bytes; place++) {
        bytes[place] = (uint8_t)any();
    }
    play_identity(played, lent, bytes, (uint8_t)ONE_OF(lengths));
}

/* Join: a choice, or a number that is none. */
static void letter_j(struct played *played, uint16_t lent, bool good)
{
    play_join(played, lent, (uint8_t)(good || chance(60) ? below(3) : chance(50) ? 3 : from(4, 255)));
}

/* A small bench run. */
static void letter_n(struct played *played, bool good)
{
    struct model_board boards[4];
    uint8_t flips[3];
    const uint8_t count = (uint8_t)below(5), flips_length = (uint8_t)below(4);
    for (size_t board = 0; board < count; board++) {
        boards[board].identity = edge_identity(&played->machine);
        boards[board].address = (uint8_t)(chance(80) ? 0 : from(1, good ? 127 : 255));
    }
    for (size_t place = 0; place < flips_length; place++) {
        flips[place] = (uint8_t)below(good ? 9 : 11);
    }
    play_run(played, good || chance(70) ? LENT_MOST : LENT_MOST - 1, flips, flips_length, boards, count);
}

void play_letter(struct played *played, char letter, bool good)
{
    const uint16_t lent = good ? (uint16_t)from(8, 12) : any_lent();
    switch (letter) {
    case 'b': letter_b(played, lent, good); break;
    case 'a': play_answer(played, lent, yes(chance(70))); break;
    case 'i': letter_i(played, lent, good); break;
    case 'g': play_give_up(played, lent); break;
    case 'j': letter_j(played, lent, good); break;
    case 'r': play_retire(played, (good ? live_ticket : edge_ticket)(&played->machine)); break;
    case 'q': play_ask(played, edge_ticket(&played->machine)); break;
    default: letter_n(played, good); break;
    }
}

/* A letter by chance, whether of the moment or not. */
static char any_letter(void)
{
    return "baigjrqn"[chance(95) ? below(7) : 7];
}

/* At idle: mostly a begin or a join. */
static void step_idle(struct played *played, bool good)
{
    static const uint32_t letters[] = { 64, 16, 10, 10 };
    play_letter(played, "bjrq"[BY_WEIGHT(letters)], good);
}

void play_step(struct played *played)
{
    /* How often each moment is answered; a given-up one comes by play_letter. */
    static const uint32_t answered[] = { 0, 90, 88, 0, 70, 70 };
    const uint8_t moment = played->machine.moment;
    const bool good = chance(80);
    if (chance(12)) {
        const char letter = any_letter();
        play_letter(played, letter, chance(70));
    } else if (moment == MODEL_IDLE) {
        step_idle(played, good);
    } else if (chance(4)) {
        play_letter(played, 'g', good);
    } else if (moment == MODEL_LISTENING) {
        play_letter(played, 'i', good);
    } else {
        const uint16_t lent = good ? 8 : any_lent();
        play_answer(played, lent, yes(chance(answered[moment])));
    }
}

/* A table filled by accepted offers, from no row to as many as can be had, then some steps more. */
static void play_filling(struct played *played)
{
    struct model_facts facts = any_facts();
    if (chance(80)) {
        memset(facts.legacy, 0, sizeof facts.legacy);
        facts.last = chance(80) ? below(1000) : UINT32_MAX - from(20, 40);
    }
    play_start(played, facts.flags, facts.legacy, MODEL_LEGACY, facts.last);
    play_begin(played, 8, 0, 0, 0, 0);
    play_answer(played, 8, 1);
    for (int round = 0; round < 40 && played->machine.moment == MODEL_ROUND; round++) {
        play_answer(played, 8, 1);
        play_number(played, 8, chance(85) ? any() : edge_identity(&played->machine));
        play_answer(played, 8, yes(chance(95)));
    }
}

void make_walk(struct script *script, size_t number)
{
    struct played played;
    uint32_t steps = chance(70) ? from(5, 12) : from(13, 40);
    play_nothing(&played, script);
    new_identities();
    if (number % 200 == 7) {
        play_filling(&played);
    } else {
        play_opening(&played);
    }
    for (; steps > 0; steps--) {
        play_step(&played);
    }
}
