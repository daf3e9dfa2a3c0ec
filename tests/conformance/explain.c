/*
 * explain.c: shows where two players' lines part.
 *
 *     explain script SCRIPT MODEL-LINES OTHER-LINES    the first line that differs, its call, those before it
 *     explain bad SCRIPT MODEL-LINES OTHER-LINES       the same
 *     explain sheets SHEETS MODEL-LINES OTHER-LINES    the same for sheets
 *
 * It decides nothing: whether two files are equal is judged byte by byte by cmp.
 */
#include <stdio.h>
#include <string.h>

#include "calls.h"

enum { SHOWN = 2400 };

static void print_hex(const uint8_t *bytes, size_t length)
{
    for (size_t place = 0; place < length && place < SHOWN; place++) {
        printf("%02X", bytes[place]);
    }
    puts(length > SHOWN ? " .." : "");
}

/* A call as its letter and its bytes. */
static void print_call(struct bytes script, size_t place, size_t length)
{
    if (length == 0) {
        length = script.length - place < 40 ? script.length - place : 40;
        printf("  no call: ");
        print_hex(script.at + place, length);
        return;
    }
    printf("  %c ", script.at[place]);
    print_hex(script.at + place + 1, length - 1);
}

/* The call with so many before it, and those before it from its s or m on. */
static void print_calls(struct bytes script, size_t number)
{
    size_t place = 0, first = 0, call = 0;
    for (; call < number && call_length(script, place) > 0; call++) {
        if (script.at[place] == 's' || script.at[place] == 'm') {
            first = place;
        }
        place += call_length(script, place);
    }
    printf("call %lu, at byte %lu:\n", (unsigned long)call + 1, (unsigned long)place);
    print_call(script, place, call_length(script, place));
    if (first < place) {
        puts("calls before it, from its s or m on:");
    }
    for (size_t at = first; at < place; at += call_length(script, at)) {
        print_call(script, at, call_length(script, at));
    }
}

/* The sheet with so many before it. */
static void print_sheet(struct bytes sheets, size_t number)
{
    size_t place = 0;
    for (size_t sheet = 0; sheet < number; sheet++) {
        place += 4 + (size_t)number_at(sheets, place + 2, 2);
    }
    printf("sheet %lu, lent %lu:\n  ", (unsigned long)number + 1, (unsigned long)number_at(sheets, place, 2));
    print_hex(sheets.at + place + 4, (size_t)number_at(sheets, place + 2, 2));
}

int main(int words, char **word)
{
    if (words != 5) {
        fputs("usage: explain script|bad|sheets INPUT MODEL-LINES OTHER-LINES\n", stderr);
        return 2;
    }
    const struct bytes input = file_bytes(word[2]), model = file_bytes(word[3]), other = file_bytes(word[4]);
    size_t model_place = 0, other_place = 0, number = 0;
    const char *one = next_line(model, &model_place), *two = next_line(other, &other_place);
    while (one != NULL && two != NULL && strcmp(one, two) == 0) {
        one = next_line(model, &model_place);
        two = next_line(other, &other_place);
        number++;
    }
    printf("%s differs at line %lu\n", word[2], (unsigned long)number + 1);
    if (strcmp(word[1], "sheets") == 0) {
        print_sheet(input, number);
    } else {
        print_calls(input, number);
    }
    printf("the model:\n  %s\n", one != NULL ? one : "(no line)");
    printf("the code that is proved:\n  %s\n", two != NULL ? two : "(no line)");
    return 0;
}
