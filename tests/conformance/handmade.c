/* handmade.c: machines made by hand: sound ones with one edit (or two), then calls of every kind. */
#include <stdlib.h>

#include "breaks.h"
#include "chance.h"
#include "families.h"
#include "tables.h"
#include "walks.h"

enum { EDITS_ROOM = 256, REFUSED_BY_RULES = 28 };

static size_t tried[EDITS_ROOM], refused[EDITS_ROOM];

/* A machine with this edit; whether one was found that it can be applied to. */
static bool edited_machine(const struct edit *edit, struct model_machine *machine)
{
    for (int time = 0; time < 200; time++) {
        *machine = sound_machine_at(edit->moment == ANY_MOMENT ? (uint8_t)below(6) : edit->moment);
        const struct model_machine sound = *machine;
        if ((edit->moment == ANY_MOMENT || machine->moment == edit->moment)
            && edit->apply(machine, edit->what)) {
            return true;
        }
        *machine = sound;
    }
    return false;
}

/*
 * Counts a single edit by what the model says to it: asking for a ticket judges nothing before the machine.
 */
static void count_edit(size_t place, const struct model_machine *machine)
{
    tried[place]++;
    refused[place] += model_ask(*machine, 1).refusal == REFUSED_BY_RULES;
}

/* Calls of all kinds in turn, or a few. */
static void play_kinds(struct played *played)
{
    static const char letters[] = "qbaigjrn";
    if (chance(15)) {
        for (size_t place = 0; letters[place] != '\0'; place++) {
            play_letter(played, letters[place], chance(80));
        }
        return;
    }
    for (uint32_t times = from(1, 3); times > 0; times--) {
        const char letter = letters[chance(92) ? below(7) : 7];
        play_letter(played, letter, chance(80));
    }
}

void make_handmade(struct script *script, size_t number)
{
    const size_t place = number % edits_length();
    struct played played;
    struct model_machine machine;
    play_nothing(&played, script);
    new_identities();
    if (edits_length() > EDITS_ROOM) {
        abort();
    }
    if (edited_machine(&edits[place], &machine)) {
        count_edit(place, &machine);
        if (number >= 2 * edits_length() && chance(8)) {
            const struct edit *more = &edits[below((uint32_t)edits_length())];
            more->apply(&machine, more->what);
        }
    }
    play_machine(&played, &machine);
    play_kinds(&played);
    if (chance(20)) {
        play_step(&played);
    }
}

/* Whether the model said to each try of an edit what it must. */
static bool as_told(size_t place)
{
    switch (edits[place].outcome) {
    case REFUSED: return tried[place] > 0 && refused[place] == tried[place];
    case ACCEPTED: return tried[place] > 0 && refused[place] == 0;
    default: return tried[place] > 0;
    }
}

void tell_breaks(FILE *file)
{
    for (size_t place = 0; place < edits_length(); place++) {
        fprintf(file, "%s %s: %lu times, refused %lu\n", as_told(place) ? "good" : "bad", edits[place].name,
                (unsigned long)tried[place], (unsigned long)refused[place]);
    }
}
