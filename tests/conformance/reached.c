/*
 * reached.c: tells what a file of scripts or sheets has reached, from the model's lines: one point a line,
 * each once; then how much was played: `played S scripts C calls H sheets`.
 *
 *     reached script SCRIPTS LINES    scripts, of which each begins with s or m and none is bad
 *     reached bad SCRIPT LINES        one script, which may be bad
 *     reached sheets SHEETS LINES
 *
 * It ends with status 1 if there is not one line for each call (or sheet), or if a script is bad that may not
 * be.
 */
#include <stdarg.h>
#include <stdio.h>
#include <stdlib.h>
#include <string.h>

#include "../model/model.h"
#include "calls.h"

/* ---- the points reached, each once */

enum { POINTS = 8192, NAME = 40 };

static char points[POINTS][NAME];
static unsigned long scripts, calls, sheets_played;

/* A point, by its words. */
static void reach(const char *words, ...)
{
    char name[NAME];
    size_t place = 5381;
    va_list numbers;
    va_start(numbers, words);
    vsnprintf(name, sizeof name, words, numbers);
    va_end(numbers);
    for (const char *letter = name; *letter != '\0'; letter++) {
        place = place * 33 + (uint8_t)*letter;
    }
    for (place %= POINTS; points[place][0] != '\0'; place = (place + 1) % POINTS) {
        if (strcmp(points[place], name) == 0) {
            return;
        }
    }
    strcpy(points[place], name);
}

/* ---- what a line says */

/* What stands behind a word of the line, which must be there. */
static const char *behind(const char *line, const char *word)
{
    const char *found = strstr(line, word);
    if (found == NULL) {
        fprintf(stderr, "reached: there is no%sin a line of the model\n", word);
        exit(2);
    }
    return found + strlen(word);
}

/* The number behind a word of the line; the word stands between blanks. */
static long number_behind(const char *line, const char *word)
{
    return strtol(behind(line, word), NULL, 10);
}

/* The same for a number of one byte. */
static uint8_t byte_behind(const char *line, const char *word)
{
    return (uint8_t)strtoul(behind(line, word), NULL, 10);
}

/* The rows of a machine: address, ticket, mark, identity and static address, with colons between them. */
static void rows_behind(const char *at, struct model_machine *machine)
{
    char *end;
    for (size_t place = 0; place < MODEL_ROWS && at[0] == ' ' && at[1] != 'd'; place++) {
        struct model_row *row = &machine->rows[place];
        row->address = (uint8_t)strtoul(at, &end, 10);
        row->ticket = (uint32_t)strtoull(end + 1, &end, 10);
        row->unknown = strtoul(end + 1, &end, 10) != 0;
        row->identity = strtoull(end + 1, &end, 16);
        row->from_static = (uint8_t)strtoul(end + 1, &end, 10);
        at = end;
    }
}

/* The machine on a line; of unused places it has nothing. */
static struct model_machine machine_on(const char *line)
{
    struct model_machine machine;
    const char *at = behind(line, " machine"), *legacy = behind(at, " legacy ");
    memset(&machine, 0, sizeof machine);
    machine.facts.flags = byte_behind(at, " flags ");
    for (size_t place = 0; place < MODEL_LEGACY; place++) {
        const char digits[] = { legacy[2 * place], legacy[2 * place + 1], '\0' };
        machine.facts.legacy[place] = (uint8_t)strtoul(digits, NULL, 16);
    }
    machine.facts.last = (uint32_t)strtoull(behind(at, " last "), NULL, 10);
    machine.moment = byte_behind(at, " moment ");
    machine.choice = byte_behind(at, " choice ");
    machine.identity = strtoull(behind(at, " identity "), NULL, 16);
    machine.offered = byte_behind(at, " offered ");
    machine.refusals = byte_behind(at, " refusals ");
    rows_behind(behind(at, " rows"), &machine);
    return machine;
}

/* ---- what a machine has */

/* How many rows there are. */
static size_t rows_of(const struct model_machine *machine)
{
    size_t rows = 0;
    while (rows < MODEL_ROWS && machine->rows[rows].address != 0) {
        rows++;
    }
    return rows;
}

/* The row that has this identity; null if none has. */
static const struct model_row *row_with(const struct model_machine *machine, uint64_t identity)
{
    for (size_t place = 0; place < rows_of(machine); place++) {
        const struct model_row *row = &machine->rows[place];
        if (!row->unknown && row->identity == identity) {
            return row;
        }
    }
    return NULL;
}

/* Whether an open address is no row's. */
static bool any_free(const struct model_machine *machine)
{
    const struct model_facts *facts = &machine->facts;
    for (uint8_t address = 0; address < 128; address++) {
        bool held = false;
        for (size_t place = 0; place < MODEL_ROWS; place++) {
            held = held || machine->rows[place].address == address;
        }
        if (!held && model_slot_test(facts->flags, facts->legacy, MODEL_LEGACY, facts->last, address).open) {
            return true;
        }
    }
    return false;
}

/* ---- the machine's calls */

/* An offer that was accepted: what became of the table, and why the rounds end if they do. */
static void reach_accepted(const struct model_machine *before, const struct model_machine *now)
{
    const struct model_row *known = row_with(before, before->identity);
    const struct model_row *row = row_with(now, before->identity);
    if (known == NULL) {
        reach("a 4 new row");
    } else if (row != NULL && row->ticket != known->ticket) {
        reach("a 4 renewed");
        if (known->from_static != 0) {
            reach("a 4 renewed with static");
        }
    }
    if (now->moment != MODEL_IDLE) {
        reach("a 4 accepted after %d", before->refusals);
    } else if (rows_of(now) == MODEL_ROWS) {
        reach("a 4 to 0 full");
    } else {
        reach(any_free(now) ? "a 4 to 0 no ticket" : "a 4 to 0 no address");
    }
}

/* An answer that was taken, or a silence. */
static void reach_answer(bool answered, const struct model_machine *before, const struct model_machine *now)
{
    if (before->moment == MODEL_OPENED || before->moment == MODEL_DIRECT) {
        reach("a %d choice %d %s", before->moment, before->choice, answered ? "answered" : "silent");
    } else if (before->moment == MODEL_OFFERED && answered) {
        reach_accepted(before, now);
    } else if (before->moment == MODEL_OFFERED) {
        reach("a 4 to %d refused after %d", now->moment, before->refusals);
    }
}

/* A call of the machine by its numbers: what tells its choices and its cases apart. */
static void reach_case(struct bytes script, size_t place, long refusal, const struct model_machine *before,
                       const struct model_machine *now)
{
    const int number = (int)number_at(script, place + 3, 1);
    switch (script.at[place]) {
    case 'b':
    case 'j': reach("%c %ld choice %d", script.at[place], refusal, number); break;
    case 'a':
        if (refusal == 0) {
            reach_answer(number != 0, before, now);
        }
        break;
    case 'i':
        if (refusal == 0) {
            reach(row_with(before, now->identity) != NULL ? "i 3 known" : "i 3 new");
        }
        break;
    default: break;
    }
}

/* A line with a machine: its moment, where the call came from, and the rows. */
static void reach_machine(char letter, long refusal, const struct model_machine *before,
                          const struct model_machine *now)
{
    reach("moment %d", now->moment);
    reach("rows %d", (int)rows_of(now));
    if (letter != 's' && letter != 'm') {
        if (refusal == 0) {
            reach("%c %d to %d", letter, before->moment, now->moment);
        } else if (refusal == 10 || refusal == 28) {
            reach("%c %ld at %d", letter, refusal, before->moment);
        }
    }
}

/* ---- runs and records */

/* A run: its boards, and if it was played its ending and the rows. */
static void reach_run(struct bytes script, size_t place, const char *line, long refusal)
{
    const size_t flips = (size_t)number_at(script, place + 3, 1);
    const int boards = (int)number_at(script, place + 4 + flips, 1);
    reach("n boards %d", boards);
    if (refusal == 0) {
        const struct model_machine now = machine_on(line);
        reach("n end %ld", number_behind(line, " end "));
        reach("n boards %d played", boards);
        reach("n rows %d", (int)rows_of(&now));
    }
}

/* A record that was read: all that it says, or the place where it cannot be one. */
static void reach_reading(struct bytes script, size_t place, const char *line, long refusal)
{
    const long told = number_behind(line, " place "), cells = (long)number_at(script, place + 3, 2);
    if (refusal == 14) {
        reach("d place %ld", told);
        reach(told == cells ? "d breaks off" : "d does not go on");
    } else if (refusal == 0) {
        reach("d joining %ld", number_behind(line, " joining "));
        reach("d command %ld", number_behind(line, " command "));
        reach("d joining %ld command %ld", number_behind(line, " joining "),
              number_behind(line, " command "));
        reach("d direct %ld", number_behind(line, " direct "));
        reach("d last %ld", number_behind(line, " last "));
        reach("d offers %ld", number_behind(line, " offers "));
    }
}

/* A record that was written: what it was given. */
static void reach_writing(struct bytes script, size_t place, long refusal)
{
    if (refusal == 0) {
        reach("w joining %d", (int)script.at[place + 3]);
        reach("w command %d", (int)script.at[place + 4]);
        reach("w offers %d", (int)script.at[place + 9]);
    }
}

/* ---- files */

/* One call and its line; the machine becomes the one on the line, if there is one. */
static void reach_call(struct bytes script, size_t place, const char *line, struct model_machine *machine)
{
    const char letter = (char)script.at[place];
    const long refusal = number_behind(line, "refused ");
    reach("%c %ld", letter, refusal);
    if (strchr("sbaigjrmn", letter) != NULL) {
        const struct model_machine now = machine_on(line);
        reach_machine(letter, refusal, machine, &now);
        reach_case(script, place, refusal, machine, &now);
        if (strstr(line, " dirty") != NULL) {
            reach("dirty");
        }
        *machine = now;
    }
    switch (letter) {
    case 'q': reach("q %ld at %d", refusal, machine->moment); break;
    case 't': reach("t open %ld", number_behind(line, " open ")); break;
    case 'n': reach_run(script, place, line, refusal); break;
    case 'd': reach_reading(script, place, line, refusal); break;
    case 'w': reach_writing(script, place, refusal); break;
    default: break;
    }
    calls++;
    scripts += letter == 's' || letter == 'm';
}

/* All lines of a file of scripts; what is wrong with them, or null. The line of a bad script is the last. */
static const char *reach_scripts(struct bytes script, struct bytes lines, bool may_be_bad)
{
    static struct model_machine machine;
    size_t place = 0, at = 0;
    char *line = next_line(lines, &at);
    for (size_t length; line != NULL && (length = call_length(script, place)) > 0; place += length) {
        reach_call(script, place, line, &machine);
        line = next_line(lines, &at);
    }
    if (line != NULL && place < script.length) {
        char told[NAME];
        snprintf(told, sizeof told, "bad script at %lu", (unsigned long)place);
        if (!may_be_bad || strcmp(line, told) != 0) {
            return may_be_bad ? "the model does not say where the script is bad" : "a script of it is bad";
        }
        reach("bad script");
        line = next_line(lines, &at);
        place = script.length;
    }
    if (may_be_bad) {
        scripts = 1;
    }
    return line == NULL && place == script.length ? NULL : "the model has not printed one line for each call";
}

/* The same for sheets. */
static const char *reach_sheets(struct bytes sheets, struct bytes lines)
{
    size_t place = 0, at = 0;
    char *line = next_line(lines, &at);
    for (; line != NULL && place < sheets.length; place += 4 + (size_t)number_at(sheets, place + 2, 2)) {
        const long refusal = number_behind(line, "refused ");
        int ends = 0;
        reach("sheet %ld", refusal);
        for (const char *end = line; (end = strstr(end, "\\0A")) != NULL; end++) {
            ends++;
        }
        if (refusal == 0) {
            reach("sheet rows %d", ends - 2);
            reach("sheet end %ld", number_behind(line, "\\0Aend "));
        }
        line = next_line(lines, &at);
        sheets_played++;
    }
    return line == NULL && place == sheets.length ? NULL
                                                  : "the model has not printed one line for each sheet";
}

int main(int words, char **word)
{
    if (words != 4) {
        fputs("usage: reached script|bad|sheets INPUT LINES\n", stderr);
        return 2;
    }
    const struct bytes input = file_bytes(word[2]), lines = file_bytes(word[3]);
    const char *wrong;
    if (strcmp(word[1], "sheets") == 0) {
        wrong = reach_sheets(input, lines);
    } else {
        wrong = reach_scripts(input, lines, strcmp(word[1], "bad") == 0);
    }
    for (size_t place = 0; place < POINTS; place++) {
        if (points[place][0] != '\0') {
            puts(points[place]);
        }
    }
    printf("played %lu scripts %lu calls %lu sheets\n", scripts, calls, sheets_played);
    free(input.at);
    free(lines.at);
    if (wrong != NULL) {
        fprintf(stderr, "%s: %s\n", word[2], wrong);
    }
    return wrong == NULL ? 0 : 1;
}
