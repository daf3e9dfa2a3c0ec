/*
 * speed.c: the library and the C model of tests/model in one process, on the same inputs.
 *
 *     speed check               both give the same bytes on every case
 *     speed time                nanoseconds a call, the best of several repetitions, and the ratio
 *     speed cases               the names of the cases
 *     speed one SIDE CASE N     exactly N calls of one side, for whoever counts instructions: the difference of
 *                               two calls and one is what one call costs
 *
 * The sides are `library` and `model`, and `no-library` and `no-model`, which are called in the same ways and do nothing:
 * what they cost is not the library's or the model's. One call of a case of the slot test asks all 256 address bytes; of a
 * sheet run, it plays the sheet.
 */
#define _POSIX_C_SOURCE 199309L

#include <stdbool.h>
#include <stddef.h>
#include <stdint.h>
#include <stdio.h>
#include <stdlib.h>
#include <string.h>
#include <time.h>

#include "../model/model.h"
#include "rack.h"

/* ---- Cases ---- */

enum { MOST_CASES = 32, ADDRESSES = 256 };

/* A question to the slot test, over all address bytes, or a sheet. */
struct test_case {
    char name[32];
    bool is_sheet;
    uint8_t flags;
    uint8_t legacy[RACK_LEGACY_BYTES];
    uint8_t sheet[RACK_SHEET_BYTES];
    size_t length;
};

static struct test_case cases[MOST_CASES];
static size_t case_count;

/* One case more. */
static struct test_case *add_case(const char *name)
{
    struct test_case *test = &cases[case_count++];
    snprintf(test->name, sizeof test->name, "%s", name);
    return test;
}

/* The slot test with these flags, and every address from `first` to `last` legacy. */
static void add_slots(const char *name, uint8_t flags, unsigned first, unsigned last)
{
    struct test_case *test = add_case(name);
    test->flags = flags;
    for (unsigned address = first; address <= last; address++) {
        test->legacy[address / 8] |= (uint8_t)(1u << address % 8);
    }
}

/* The identity of a board: no two boards of a sheet have the same, and a sheet does not have them in order. */
static uint64_t identity_of(unsigned board)
{
    return UINT64_C(0x0200000000000641) + ((uint64_t)(board * 37 % 64) << 28) + ((uint64_t)(board % 5) << 16);
}

/* An identity in which ones and zeros are mixed, other than in the boards above, which are mostly zeros. */
static uint64_t mixed_identity_of(unsigned board)
{
    return (board + UINT64_C(1)) * UINT64_C(0x9E3779B97F4A7C15);
}

/* One entry of a sheet: its line of the table and its body, a number, high byte first. */
static void put_entry(struct test_case *test, unsigned place, uint8_t kind, uint64_t number, size_t length)
{
    uint8_t *line = test->sheet + 1 + 4 * (size_t)place;
    line[0] = kind;
    line[1] = (uint8_t)(test->length / 256);
    line[2] = (uint8_t)(test->length % 256);
    line[3] = (uint8_t)length;
    for (size_t i = length; i > 0; i--) {
        test->sheet[test->length + i - 1] = (uint8_t)number;
        number /= 256;
    }
    test->length += length;
}

/* A sheet run on flags 1, no legacy, last ticket 0. With flips every third offer is seen with one bit the other way, so it is made again. */
static void add_sheet(const char *name, unsigned boards, uint64_t (*identity)(unsigned board), bool flipped)
{
    struct test_case *test = add_case(name);
    const unsigned entries = 1 + boards + (flipped ? 1 : 0);
    const size_t flips = boards + boards / 2 < 64 ? boards + boards / 2 : 64;
    test->is_sheet = true;
    test->sheet[0] = (uint8_t)entries;
    test->length = 1 + 4 * (size_t)entries;
    put_entry(test, 0, 1, 0, 21);
    test->sheet[1 + 4 * (size_t)entries] = RACK_HIGH_SPEED;
    for (unsigned board = 0; board < boards; board++) {
        put_entry(test, 1 + board, 2, identity(board), 8);
    }
    if (flipped) {
        const size_t first = test->length;
        put_entry(test, entries - 1, 3, 0, flips);
        for (size_t offer = 0; offer < flips; offer++) {
            test->sheet[first + offer] = offer % 3 == 1 ? (uint8_t)(offer % 8) : 8;
        }
    }
}

/* All cases. */
static void make_cases(void)
{
    static const unsigned boards[] = { 2, 8, 16, 32 };
    add_slots("slots-no-legacy", 1, 1, 0);
    add_slots("slots-some-legacy", 0, 0x48, 0x57);
    add_slots("slots-all-legacy", 2, 0x08, 0x77);
    add_slots("slots-wrong-flags", 4, 1, 0);
    for (size_t i = 0; i < sizeof boards / sizeof boards[0]; i++) {
        char name[32];
        snprintf(name, sizeof name, "sheet-%u", boards[i]);
        add_sheet(name, boards[i], identity_of, false);
        snprintf(name, sizeof name, "sheet-%u-flips", boards[i]);
        add_sheet(name, boards[i], identity_of, true);
    }
    add_sheet("sheet-32-mixed", 32, mixed_identity_of, false);
}

/* ---- Sides ---- */

/* A side has the calls of the library or those of the model. */
struct side {
    const char *name;
    uint32_t (*slot)(uint8_t flags, const uint8_t *legacy, size_t legacy_length, uint32_t last_ticket, uint8_t address);
    uint32_t (*sheet)(const uint8_t *sheet, size_t sheet_length, uint8_t *listing, size_t listing_length);
    struct model_slot (*model_slot)(uint8_t flags, const uint8_t *legacy, size_t legacy_length, uint32_t last, uint8_t address);
    struct model_listing (*model_sheet)(const uint8_t *sheet, size_t sheet_length, uint8_t *out, size_t lent);
};

/* The library's slot test in name only. */
static uint32_t no_slot(uint8_t flags, const uint8_t *legacy, size_t legacy_length, uint32_t last_ticket, uint8_t address)
{
    (void)flags, (void)legacy, (void)legacy_length, (void)last_ticket, (void)address;
    return 0;
}

/* Its sheet run in name only. */
static uint32_t no_sheet(const uint8_t *sheet, size_t sheet_length, uint8_t *listing, size_t listing_length)
{
    (void)sheet, (void)sheet_length, (void)listing, (void)listing_length;
    return 0;
}

/* The model's slot test in name only. */
static struct model_slot no_model_slot(uint8_t flags, const uint8_t *legacy, size_t legacy_length, uint32_t last, uint8_t address)
{
    (void)flags, (void)legacy, (void)legacy_length, (void)last, (void)address;
    return (struct model_slot){ 0 };
}

/* Its sheet run in name only. */
static struct model_listing no_model_sheet(const uint8_t *sheet, size_t sheet_length, uint8_t *out, size_t lent)
{
    (void)sheet, (void)sheet_length, (void)out, (void)lent;
    return (struct model_listing){ 0 };
}

/* Library and model, and what is left of each without them. */
static const struct side sides[] = {
    { .name = "library", .slot = rack_slot_test, .sheet = rack_sheet_run },
    { .name = "model", .model_slot = model_slot_test, .model_sheet = model_sheet_run },
    { .name = "no-library", .slot = no_slot, .sheet = no_sheet },
    { .name = "no-model", .model_slot = no_model_slot, .model_sheet = no_model_sheet },
};

/* ---- Calls ---- */

/* What one call of a case comes to: the numbers of the slot test, or that of the sheet run with the lent bytes. */
struct outcome {
    uint32_t numbers[ADDRESSES];
    uint8_t listing[RACK_LISTING_BYTES];
};

/* One call of a case in the library's way. */
static void call_library(const struct side *side, const struct test_case *test, struct outcome *out)
{
    if (test->is_sheet) {
        out->numbers[0] = side->sheet(test->sheet, test->length, out->listing, sizeof out->listing);
        return;
    }
    for (unsigned address = 0; address < ADDRESSES; address++) {
        out->numbers[address] = side->slot(test->flags, test->legacy, sizeof test->legacy, 0, (uint8_t)address);
    }
}

/* One call of a case in the model's way, with the numbers of the library. */
static void call_model(const struct side *side, const struct test_case *test, struct outcome *out)
{
    if (test->is_sheet) {
        const struct model_listing ran = side->model_sheet(test->sheet, test->length, out->listing, sizeof out->listing);
        out->numbers[0] = ran.refusal * 65536u + (uint32_t)ran.length;
        return;
    }
    for (unsigned address = 0; address < ADDRESSES; address++) {
        const struct model_slot slot = side->model_slot(test->flags, test->legacy, sizeof test->legacy, 0, (uint8_t)address);
        out->numbers[address] = slot.refusal * 65536u + slot.open;
    }
}

/* One call of a case. */
static void call(const struct side *side, const struct test_case *test, struct outcome *out)
{
    if (side->slot != NULL) {
        call_library(side, test, out);
    } else {
        call_model(side, test, out);
    }
}

/* Whether both sides give the same, and the library refuses no sheet. */
static bool agrees(const struct test_case *test)
{
    static struct outcome library, model;
    memset(&library, 0xA5, sizeof library);
    memset(&model, 0xA5, sizeof model);
    call(&sides[0], test, &library);
    call(&sides[1], test, &model);
    if (memcmp(&library, &model, sizeof library) != 0) {
        printf("%s: the library and the model differ\n", test->name);
        return false;
    }
    if (test->is_sheet && library.numbers[0] / 65536 != 0) {
        printf("%s: refused %u\n", test->name, library.numbers[0] / 65536);
        return false;
    }
    return true;
}

/* Holds the library to the model on every case. */
static int check(void)
{
    unsigned passed = 0, failed = 0;
    for (size_t i = 0; i < case_count; i++) {
        agrees(&cases[i]) ? passed++ : failed++;
    }
    printf("%u passed, %u failed\n", passed, failed);
    return failed != 0;
}

/* ---- Time ---- */

/* The time in nanoseconds. */
static double now(void)
{
    struct timespec time;
    clock_gettime(CLOCK_MONOTONIC, &time);
    return (double)time.tv_sec * 1e9 + (double)time.tv_nsec;
}

/* Nanoseconds a call: the best of seven repetitions of at least ten milliseconds. */
static double best(const struct side *side, const struct test_case *test)
{
    static struct outcome out;
    double least = 0;
    unsigned long calls = 1;
    for (unsigned repetition = 0; repetition < 7; repetition++) {
        double took = 0;
        for (;;) {
            const double began = now();
            for (unsigned long i = 0; i < calls; i++) {
                call(side, test, &out);
            }
            took = now() - began;
            if (took >= 1e7) {
                break;
            }
            calls *= 2;
        }
        if (repetition == 0 || took / (double)calls < least) {
            least = took / (double)calls;
        }
    }
    return least;
}

/* A line for each case: its name, nanoseconds of the library and of the model, the ratio. */
static int time_all(void)
{
    for (size_t i = 0; i < case_count; i++) {
        const double library = best(&sides[0], &cases[i]);
        const double model = best(&sides[1], &cases[i]);
        printf("%s %.0f %.0f %.2f\n", cases[i].name, library, model, library / model);
    }
    return 0;
}

/* ---- Single calls ---- */

/* So many calls of one side. */
static int one(const char *side, const char *name, const char *calls)
{
    static struct outcome out;
    for (size_t i = 0; i < sizeof sides / sizeof sides[0]; i++) {
        for (size_t j = 0; j < case_count; j++) {
            if (strcmp(sides[i].name, side) == 0 && strcmp(cases[j].name, name) == 0) {
                for (unsigned long call_number = strtoul(calls, NULL, 10); call_number > 0; call_number--) {
                    call(&sides[i], &cases[j], &out);
                }
                return 0;
            }
        }
    }
    fprintf(stderr, "speed: no side %s or no case %s\n", side, name);
    return 2;
}

/* The names of the cases, a line each. */
static int list_cases(void)
{
    for (size_t i = 0; i < case_count; i++) {
        printf("%s\n", cases[i].name);
    }
    return 0;
}

/* Does what the words say. */
int main(int count, char **words)
{
    make_cases();
    if (count == 2 && strcmp(words[1], "check") == 0) {
        return check();
    }
    if (count == 2 && strcmp(words[1], "time") == 0) {
        return time_all();
    }
    if (count == 2 && strcmp(words[1], "cases") == 0) {
        return list_cases();
    }
    if (count == 5 && strcmp(words[1], "one") == 0) {
        return one(words[2], words[3], words[4]);
    }
    fprintf(stderr, "usage: speed check | time | cases | one SIDE CASE CALLS\n");
    return 2;
}
