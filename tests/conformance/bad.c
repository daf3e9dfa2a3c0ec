/* bad.c: scripts that are none: unknown letters, calls that break off, numbers that make it no call. */
#include <stdio.h>
#include <stdlib.h>
#include <string.h>

#include "chance.h"
#include "families.h"
#include "tables.h"

/* One good call of each letter. */
static void put_good(struct script *script, char letter)
{
    static const uint16_t cells[] = { 512, 505, 514 };
    static const uint8_t flips[] = { 8, 3 };
    static const struct model_board boards[] = { { 5, 0 }, { 6, 9 } };
    static const struct model_reading reading = { 0, 1, 0, 0, false, false, 1 };
    static const uint8_t bytes[] = { 1, 2, 3, 4, 5, 6, 7, 8, 16, 0 };
    const struct model_facts facts = any_facts();
    const struct model_machine machine = sound_machine_of(facts, 3);
    switch (letter) {
    case 's': put_start(script, facts.flags, facts.legacy, MODEL_LEGACY, facts.last); break;
    case 'b': put_begin(script, 8, 0, 0, 0, 0); break;
    case 'a': put_answer(script, 8, 1); break;
    case 'i': put_identity(script, 8, bytes, 8); break;
    case 'g': put_give_up(script, 8); break;
    case 'j': put_join(script, 8, 1); break;
    case 'r': put_retire(script, 1); break;
    case 'q': put_ask(script, 1); break;
    case 't': put_slot(script, facts.flags, facts.legacy, MODEL_LEGACY, facts.last, 8); break;
    case 'm': put_machine(script, &machine); break;
    case 'n': put_run(script, LENT_MOST, flips, 2, boards, 2); break;
    case 'd': put_read(script, 20, cells, 3); break;
    default: put_write(script, LENT_MOST, &reading, bytes, 10); break;
    }
}

/* A good call with one of its bytes (or two, from there on) set to another number. */
struct spoiled {
    char letter;
    size_t place;
    uint16_t number;
    size_t bytes;
};

static const struct spoiled spoiled[] = {
    { 'b', 1, 1025, 2 }, { 'b', 1, 65535, 2 }, { 'a', 1, 1025, 2 }, { 'i', 1, 1025, 2 }, { 'g', 1, 1025, 2 },
    { 'j', 1, 1025, 2 }, { 'n', 1, 1025, 2 }, { 'd', 1, 1025, 2 }, { 'w', 1, 1025, 2 }, { 'n', 6, 41, 1 },
    { 'n', 6, 255, 1 }, { 'm', 22, 6, 1 }, { 'm', 22, 255, 1 }, { 'w', 3, 3, 1 }, { 'w', 3, 255, 1 },
    { 'w', 4, 7, 1 }, { 'w', 4, 255, 1 }, { 'd', 3, 1101, 2 }, { 'd', 3, 65535, 2 },
    /* Just within: these are calls, and what follows them is not judged as part of them. */
    { 'b', 1, 1024, 2 }, { 'n', 6, 0, 1 }, { 'm', 22, 5, 1 }, { 'w', 3, 2, 1 }, { 'w', 4, 6, 1 },
    { 'd', 3, 0, 2 },
};

enum { SPOILED = sizeof spoiled / sizeof spoiled[0], LETTERS = 13, CUTS = 4, STRANGERS = 8, LONG = 5 };

/* Which script of this family has which number. */
enum {
    EMPTY,
    EVERY_LETTER, /* before any s or m */
    FIRST_SPOILED,
    FIRST_CUT = FIRST_SPOILED + SPOILED,
    LONG_BUFFER = FIRST_CUT + LETTERS * CUTS, /* a cut too: a buffer that is longer than what follows */
    FIRST_STRANGER,
    FIRST_LONG = FIRST_STRANGER + STRANGERS,
    BAD_SCRIPTS = FIRST_LONG + LONG
};

/* A spoiled call, and so many bytes behind it. */
static void make_spoiled(struct script *script, const struct spoiled *how, size_t behind)
{
    const size_t at = script->length;
    put_good(script, how->letter);
    for (size_t byte = 0; byte < how->bytes; byte++) {
        script->bytes[at + how->place + byte] = (uint8_t)(how->number >> (8 * (how->bytes - 1 - byte)));
    }
    for (; behind > 0; behind--) {
        put(script, 'g', 1);
    }
}

/* How many bytes follow a call of the list: all that it asks for, so that it is none by its number alone. */
static size_t enough_behind(const struct spoiled *how)
{
    return 3000 + 2 * (size_t)how->number;
}

/* A call that breaks off: behind its letter, one byte before its end, in the middle, anywhere. */
static void make_cut(struct script *script, char letter, size_t cut)
{
    const size_t at = script->length;
    put_good(script, letter);
    const size_t length = script->length - at;
    const size_t kept[CUTS] = { 1, length - 1, length / 2, from(1, (uint32_t)length - 1) };
    script->length = at + kept[cut];
}

/* A letter that is none. */
static void make_stranger(struct script *script, size_t which)
{
    static const uint8_t letters[STRANGERS] = { 'x', 0, 255, ' ', '\n', 'S', 'c', 'p' };
    put(script, letters[which], 1);
    if (which % 2 == 0) {
        put_good(script, 'a');
    }
}

/* Adds a script's bytes behind so many others, and hands back how many there are then. */
static size_t append(uint8_t *bytes, size_t room, size_t length, const struct script *script)
{
    if (script->length > room - length) {
        fputs("generate: a bad script outgrows its room\n", stderr);
        exit(2);
    }
    memcpy(bytes + length, script->bytes, script->length);
    return length + script->length;
}

/*
 * Scripts of about the longest length: the last call ends with the last byte taken, one byte before it, one
 * behind it; and the last call begins there, or two bytes before. The script is made of calls of writing with
 * a long buffer.
 */
static size_t make_longest(uint8_t *bytes, size_t room, size_t which)
{
    static struct script call;
    static const struct model_reading reading = { 0, 2, 0, 0, false, false, 0 };
    static const uint8_t buffer[65535];
    const size_t targets[LONG] = {
        SCRIPT_MOST, SCRIPT_MOST - 1, SCRIPT_MOST + 1, SCRIPT_MOST, SCRIPT_MOST - 2,
    };
    const size_t empty = 12; /* bytes of a call of writing without its buffer */
    size_t length = 0;
    while (length < targets[which]) {
        const size_t left = targets[which] - length;
        const size_t body = left > 65535 + 2 * empty ? 65535 : left > 65535 + empty ? 30000 : left - empty;
        call.length = 0;
        put_write(&call, LENT_MOST, &reading, buffer, (uint16_t)body);
        length = append(bytes, room, length, &call);
    }
    if (which >= 3) {
        call.length = 0;
        put_give_up(&call, 8);
        length = append(bytes, room, length, &call);
    }
    return length;
}

size_t bad_scripts(void)
{
    return BAD_SCRIPTS;
}

/* The script of a number that is not of the longest. */
static void make_short(struct script *script, size_t number)
{
    static const struct spoiled long_buffer = { 'w', 10, 65535, 2 };
    if (number > EVERY_LETTER && chance(60)) {
        put_good(script, chance(50) ? 's' : 'm');
        put_good(script, "baigjrqtndw"[below(11)]);
    }
    if (number == EVERY_LETTER) {
        for (size_t place = 0; place < 11; place++) {
            put_good(script, "qbaigjrtndw"[place]);
        }
    } else if (number >= FIRST_STRANGER) {
        make_stranger(script, number - FIRST_STRANGER);
    } else if (number == LONG_BUFFER) {
        make_spoiled(script, &long_buffer, 3000);
    } else if (number >= FIRST_CUT) {
        make_cut(script, "sbaigjrqtmndw"[(number - FIRST_CUT) / CUTS], (number - FIRST_CUT) % CUTS);
    } else if (number >= FIRST_SPOILED) {
        const struct spoiled *how = &spoiled[number - FIRST_SPOILED];
        make_spoiled(script, how, enough_behind(how));
    }
}

size_t make_bad(uint8_t *bytes, size_t room, size_t number)
{
    static struct script script;
    script.length = 0;
    new_identities();
    if (number >= FIRST_LONG) {
        return make_longest(bytes, room, number - FIRST_LONG);
    }
    make_short(&script, number);
    return append(bytes, room, 0, &script);
}
