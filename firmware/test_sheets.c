/*
 * test_sheets.c: the sheet run of rack.h, held to the rules of sheets, runs and listings.
 *
 * What each sheet must come to is written down here, worked out by hand: a listing, or `refused N`. Clocks are nine for
 * the first header, nine for the command, 82 for each answered round (header 9, eight identity bytes 64, address 9) and
 * nine for a round header that stays silent. The library and the wrapper are given each sheet between guard bytes,
 * with exactly 1,100 bytes lent and with more; no byte may change but those of the listing.
 */
#include <stdbool.h>
#include <stddef.h>
#include <stdint.h>
#include <stdio.h>
#include <stdlib.h>
#include <string.h>

#include "rack.h"

_Static_assert(RACK_DONE == 0 && RACK_FACTS_WRONG == 1 && RACK_NO_FREE_ADDRESS == 6 && RACK_NO_TICKET_LEFT == 7 &&
               RACK_TOO_FEW_BYTES == 11 && RACK_TOO_MANY_BOARDS == 16 && RACK_FLIP_WRONG == 17 &&
               RACK_SHEET_WRONG == 18, "refusal numbers");
_Static_assert(RACK_LISTING_BYTES == 1100 && RACK_SHEET_BYTES == 512, "bytes of a listing and of a sheet");

/* ---- Sheets ---- */

enum { FACTS = 1, BOARD = 2, FLIPS = 3 };
enum { MOST_ENTRIES = 35, MOST_BODY = 255, MOST_SHEET = 600 };

/* A sheet as its entries, right or wrong. */
struct sheet {
    unsigned entries;
    struct entry {
        uint8_t kind;
        uint8_t length;
        uint8_t body[MOST_BODY];
    } entry[MOST_ENTRIES];
};

/* A sheet as the library is given it; the bytes behind its length are not part of it. */
struct bytes {
    size_t length;
    uint8_t at[MOST_SHEET];
};

/* What a sheet says. */
struct plan {
    uint8_t flags;
    uint32_t last_ticket;
    const char *legacy; /* addresses in hex, single ones and ranges, such as "08 4E-77"; null for none */
    const char *boards; /* identities in hex; null for none */
    const char *flips;  /* a digit each; null for no entry of kind 3 */
};

/* One entry more, whose body is a number, high byte first. */
static struct entry *add(struct sheet *sheet, uint8_t kind, uint64_t number, size_t length)
{
    struct entry *entry = &sheet->entry[sheet->entries++];
    entry->kind = kind;
    entry->length = (uint8_t)length;
    for (size_t place = length; place > 0; place--) {
        entry->body[place - 1] = (uint8_t)number;
        number /= 256;
    }
    return entry;
}

static struct sheet sheet_of(struct plan plan)
{
    struct sheet sheet = { .entries = 0 };
    uint8_t *facts = add(&sheet, FACTS, plan.last_ticket, 21)->body;
    char *end;
    facts[0] = plan.flags;
    for (const char *text = plan.legacy; text != NULL && *text != '\0'; text = end) {
        const unsigned long first = strtoul(text, &end, 16);
        const unsigned long last = *end == '-' ? strtoul(end + 1, &end, 16) : first;
        for (unsigned long address = first; address <= last; address++) {
            facts[1 + address / 8] |= (uint8_t)(1u << address % 8);
        }
    }
    for (const char *text = plan.boards; text != NULL && *text != '\0'; text = end) {
        add(&sheet, BOARD, strtoull(text, &end, 16), 8);
    }
    if (plan.flips != NULL) {
        struct entry *flips = add(&sheet, FLIPS, 0, strlen(plan.flips));
        for (size_t place = 0; place < flips->length; place++) {
            flips->body[place] = (uint8_t)(plan.flips[place] - '0');
        }
    }
    return sheet;
}

/* The table, with the offsets that the lengths ask for, and the bodies without gaps. */
static struct bytes laid_out(const struct sheet *sheet)
{
    struct bytes bytes = { .length = 1 + 4 * (size_t)sheet->entries, .at = { (uint8_t)sheet->entries } };
    for (unsigned i = 0; i < sheet->entries; i++) {
        const struct entry *entry = &sheet->entry[i];
        const size_t due = bytes.length;
        const uint8_t row[] = { entry->kind, (uint8_t)(due / 256), (uint8_t)(due % 256), entry->length };
        memcpy(bytes.at + 1 + 4 * i, row, sizeof row);
        memcpy(bytes.at + due, entry->body, entry->length);
        bytes.length += entry->length;
    }
    return bytes;
}

static struct bytes bytes_of(struct plan plan)
{
    const struct sheet sheet = sheet_of(plan);
    return laid_out(&sheet);
}

/* ---- Calls ---- */

enum { GUARD_BYTES = 24, MOST_LENT = 1400 };

struct run {
    unsigned passed;
    unsigned failed;
};

static void count(struct run *run, const char *name, bool passed)
{
    if (passed) {
        run->passed++;
    } else {
        run->failed++;
        printf("failed: %s\n", name);
    }
}

/* A sheet and a lent buffer, each between guards. */
struct room {
    uint8_t sheet[GUARD_BYTES + MOST_SHEET + GUARD_BYTES];
    uint8_t listing[GUARD_BYTES + MOST_LENT + GUARD_BYTES];
};

/* Whether one call, of the wrapper or of the library, gives what it should: a listing, or `refused N`. With guards of 0
 * the sheet is followed by what its bytes have there: the rest of it, if it is cut off. */
static bool call_gives(const struct bytes *sheet, size_t lent, uint8_t guard, bool wrapped, const char *should)
{
    unsigned refusal = 0;
    const char *listing = sscanf(should, "refused %u", &refusal) == 1 ? "" : should;
    struct room room;
    memset(&room, guard, sizeof room);
    memcpy(room.sheet + GUARD_BYTES, sheet->at, guard == 0 ? sizeof sheet->at : sheet->length);
    struct room after = room;
    memcpy(after.listing + GUARD_BYTES, listing, strlen(listing));

    struct rack_listing ran;
    uint8_t *out = room.listing + GUARD_BYTES;
    if (wrapped) {
        ran = rack_run_sheet(room.sheet + GUARD_BYTES, sheet->length, out, lent);
    } else {
        const uint32_t answer = rack_sheet_run(room.sheet + GUARD_BYTES, sheet->length, out, lent);
        ran = (struct rack_listing){ (uint16_t)(answer >> 16), (uint16_t)(answer & 0xFFFF) };
    }
    const bool said = ran.refusal == refusal && ran.length == strlen(listing);
    const bool left = memcmp(&room, &after, sizeof room) == 0;
    if (!said || !left) {
        printf("%s of %zu bytes, %zu lent, gave refusal %u, length %u and %s bytes; should be:\n%s\n",
               wrapped ? "rack_run_sheet" : "rack_sheet_run", sheet->length, lent,
               (unsigned)ran.refusal, (unsigned)ran.length, left ? "right" : "wrong", should);
    }
    return said && left;
}

static bool lent_gives(const struct bytes *sheet, size_t lent, const char *should)
{
    return call_gives(sheet, lent, 0x00, false, should) && call_gives(sheet, lent, 0xA5, false, should) &&
           call_gives(sheet, lent, 0x00, true, should) && call_gives(sheet, lent, 0xA5, true, should);
}

static bool gives(struct bytes sheet, const char *should)
{
    return lent_gives(&sheet, RACK_LISTING_BYTES, should) && lent_gives(&sheet, RACK_LISTING_BYTES + 1, should) &&
           lent_gives(&sheet, MOST_LENT, should);
}

/* ---- Plans, and what they come to ---- */

#define HEADER "addr ticket identity\n"
#define TWO "0200000010000641 0200000000000641"
#define THIRTY_TWO "20 1F 1E 1D 1C 1B 1A 19 18 17 16 15 14 13 12 11 10 F E D C B A 9 8 7 6 5 4 3 2 1"
#define FOUR_TIMES(flips) flips flips flips flips
#define NONE_64_TIMES FOUR_TIMES("8888888888888888")

/* The example of the rules: as a plan, byte by byte, and its listing. */
static const struct plan example = { .flags = 1, .boards = TWO, .flips = "3" };
static const struct bytes example_bytes = { 55, {
    4, 1, 0, 17, 21, 2, 0, 38, 8, 2, 0, 46, 8, 3, 0, 54, 1,
    1, 0, 0, 0, 0, 0, 0, 0, 0, 0, 0, 0, 0, 0, 0, 0, 0, 0, 0, 0, 0,
    0x02, 0, 0, 0, 0x10, 0, 0x06, 0x41, 0x02, 0, 0, 0, 0, 0, 0x06, 0x41, 3
} };
static const char example_listing[] = HEADER
    "08 1 0200000000000641\n"
    "09 2 0200000010000641\n"
    "end 0 rounds 3 clocks 273\n";

static void test_example(struct run *run)
{
    const struct bytes made = bytes_of(example);
    count(run, "the example", gives(example_bytes, example_listing));
    count(run, "the example, as made here", made.length == 55 && memcmp(made.at, example_bytes.at, 55) == 0);
}

/* What each of these comes to. */
static const struct {
    const char *name;
    struct plan plan;
    const char *should;
} plans[] = {
    { "no boards", { .flags = 1 }, HEADER "end 5 rounds 0 clocks 9\n" },
    { "kind 3 of no bytes", { .flags = 1, .boards = "641", .flips = "" },
      HEADER "08 1 0000000000000641\nend 0 rounds 1 clocks 109\n" },
    { "equal identities", { .flags = 1, .boards = "5 5 5" },
      HEADER "08 1 0000000000000005\nend 0 rounds 1 clocks 109\n" },
    { "never refused twice in succession", { .flags = 1, .boards = "5 6 5", .flips = "080" },
      HEADER "08 1 0000000000000005\n09 2 0000000000000006\nend 0 rounds 4 clocks 355\n" },
    { "refused twice", { .flags = 1, .boards = TWO, .flips = "07" }, HEADER "end 1 rounds 2 clocks 182\n" },
    { "refused twice behind a row", { .flags = 1, .boards = TWO, .flips = "825" },
      HEADER "08 1 0200000000000641\nend 1 rounds 3 clocks 264\n" },
    { "identities by all 64 bits", { .flags = 1, .boards = "FFFFFFFFFFFFFFFF 1 8000000000000000 0" },
      HEADER "08 1 0000000000000000\n09 2 0000000000000001\n0A 3 8000000000000000\n0B 4 FFFFFFFFFFFFFFFF\n"
             "end 0 rounds 4 clocks 355\n" },
    { "the last ticket", { .flags = 1, .last_ticket = 4294967294, .boards = TWO },
      HEADER "08 4294967295 0200000000000641\nend 4 rounds 1 clocks 100\n" },
    { "all but one legacy", { .flags = 1, .legacy = "08-4C 4E-77", .boards = TWO },
      HEADER "4D 1 0200000000000641\nend 3 rounds 1 clocks 100\n" },
    { "the last address and ticket", { .flags = 1, .last_ticket = 4294967294, .legacy = "08-76", .boards = TWO },
      HEADER "77 4294967295 0200000000000641\nend 3 rounds 1 clocks 100\n" },
    { "all of 08h to 77h legacy, flags 3", { .flags = 3, .legacy = "08-77", .boards = TWO },
      HEADER "03 1 0200000000000641\nend 3 rounds 1 clocks 100\n" },
    { "3Eh is barred", { .flags = 1, .legacy = "08-3C", .boards = TWO },
      HEADER "3D 1 0200000000000641\n3F 2 0200000010000641\nend 0 rounds 2 clocks 191\n" },
    { "flags 0", { .flags = 0, .last_ticket = 65535, .boards = TWO },
      HEADER "04 65536 0200000000000641\n05 65537 0200000010000641\nend 0 rounds 2 clocks 191\n" },
    { "flags 2", { .flags = 2, .last_ticket = 16777215, .boards = TWO },
      HEADER "03 16777216 0200000000000641\n04 16777217 0200000010000641\nend 0 rounds 2 clocks 191\n" },
    { "flags 3", { .flags = 3, .last_ticket = 99, .boards = TWO },
      HEADER "03 100 0200000000000641\n08 101 0200000010000641\nend 0 rounds 2 clocks 191\n" },
    { "35 entries", { .flags = 1, .boards = "22 21 " THIRTY_TWO }, "refused 18" },
    { "65 flips", { .flags = 1, .boards = TWO, .flips = NONE_64_TIMES "8" }, "refused 18" },
    { "33 boards", { .flags = 1, .boards = "21 " THIRTY_TWO }, "refused 16" },
    { "a flip over 8", { .flags = 1, .boards = TWO, .flips = "9" }, "refused 17" },
    { "a flip over 8, not used", { .flags = 1, .boards = TWO, .flips = "889" }, "refused 17" },
    { "a flip over 8, no boards", { .flags = 1, .flips = "9" }, "refused 17" },
    { "no address", { .flags = 1, .legacy = "08-77", .boards = TWO }, "refused 6" },
    { "no address, no boards", { .flags = 1, .legacy = "08-77" }, "refused 6" },
    { "no ticket", { .flags = 1, .last_ticket = 4294967295, .boards = TWO }, "refused 7" },
    { "no ticket, no boards", { .flags = 1, .last_ticket = 4294967295 }, "refused 7" }
};

static void test_plans(struct run *run)
{
    for (size_t i = 0; i < sizeof plans / sizeof plans[0]; i++) {
        count(run, plans[i].name, gives(bytes_of(plans[i].plan), plans[i].should));
    }
}

/* Boards 1 to 32 get 08h to 27h; the 32nd row is given, and then the rows are full, whatever else has run out. */
static void test_full_table(struct run *run, const char *name, struct plan plan, const char *end)
{
    char should[RACK_LISTING_BYTES] = HEADER;
    for (unsigned board = 1; board <= 32; board++) {
        const unsigned long ticket = (unsigned long)plan.last_ticket + board;
        sprintf(should + strlen(should), "%02X %lu %016X\n", 0x07 + board, ticket, board);
    }
    strcat(should, end);
    count(run, name, gives(bytes_of(plan), should));
}

static void test_full_tables(struct run *run)
{
    struct plan plan = { .flags = 1, .boards = THIRTY_TWO };
    test_full_table(run, "32 boards", plan, "end 2 rounds 32 clocks 2642\n");
    plan.last_ticket = 4294967263;
    plan.legacy = "28-77";
    test_full_table(run, "32 boards, addresses and tickets", plan, "end 2 rounds 32 clocks 2642\n");
    /* With each of the bits flipped. No right sheet has more bytes, 478, and no run a longer listing, 1,041 bytes. */
    plan.flips = FOUR_TIMES("0818283848586878");
    test_full_table(run, "32 boards that each refuse once", plan, "end 2 rounds 64 clocks 5266\n");
}

/* ---- Refusals ---- */

/* 11 with fewer than 1,100 bytes lent, for a right sheet and for an empty one; 18 for the example cut off at any place,
 * and with more bytes behind it, up to 513. */
static void test_lengths(struct run *run)
{
    struct bytes sheet = { .length = 0 };
    bool passed = true;
    for (size_t lent = 0; passed && lent < RACK_LISTING_BYTES; lent++) {
        passed = lent_gives(&example_bytes, lent, "refused 11") && lent_gives(&sheet, lent, "refused 11");
    }
    count(run, "fewer than 1,100 bytes lent", passed);

    passed = true;
    sheet = example_bytes;
    for (size_t length = 0; passed && length <= RACK_SHEET_BYTES + 1; length++) {
        sheet.length = length;
        passed = gives(sheet, length == 55 ? example_listing : "refused 18");
    }
    count(run, "a sheet that is cut off or too long", passed);
}

/* 18: the example with any one byte of its table another. None of these 4,335 is a right sheet: its lengths allow no
 * other kinds; its kinds and the end of the file no other count, offset or length. */
static void test_damaged_tables(struct run *run)
{
    for (size_t place = 0; place < 17; place++) {
        bool passed = true;
        for (unsigned change = 1; passed && change <= 255; change++) {
            struct bytes sheet = example_bytes;
            sheet.at[place] ^= (uint8_t)change;
            passed = gives(sheet, "refused 18");
        }
        count(run, "a damaged table", passed);
    }
}

/* 18: the example with an entry of another kind or length (0 to 64 flips are right), laid out as these ask for. */
static void test_other_entries(struct run *run)
{
    for (unsigned place = 0; place < 4; place++) {
        bool passed = true;
        for (unsigned change = 1; passed && change <= 255; change++) {
            struct sheet kind = sheet_of(example);
            struct sheet length = sheet_of(example);
            kind.entry[place].kind ^= (uint8_t)change;
            length.entry[place].length ^= (uint8_t)change;
            const bool right = place == 3 && length.entry[place].length <= 64;
            passed = gives(laid_out(&kind), "refused 18") && (right || gives(laid_out(&length), "refused 18"));
        }
        count(run, "another kind or length", passed);
    }
}

/* 18: entries that are right by themselves, in a wrong order or too often; kind 3 with no flip and with one. */
static void test_entry_orders(struct run *run)
{
    static const char *const orders[] = {
        "", "2", "3", "11", "21", "22", "23", "31", "33", "111", "121", "131", "132", "133", "213", "312",
        "1123", "1213", "1221", "1231", "1232", "1233", "1323", "1332", "2123", "3122"
    };
    for (size_t i = 0; i < 2 * sizeof orders / sizeof orders[0]; i++) {
        struct sheet sheet = { .entries = 0 };
        for (const char *kind = orders[i / 2]; *kind != '\0'; kind++) {
            add(&sheet, (uint8_t)(*kind - '0'), 0, *kind == '1' ? 21 : *kind == '2' ? 8 : i % 2);
        }
        count(run, "a wrong order", gives(laid_out(&sheet), "refused 18"));
    }
}

/* 18: a byte between the bodies, with the offsets that it asks for; and two boards that share a body. */
static void test_gaps(struct run *run)
{
    for (unsigned place = 0; place < 4; place++) {
        struct bytes sheet = example_bytes;
        const size_t body = sheet.at[3 + 4 * place];
        memmove(sheet.at + body + 1, sheet.at + body, sheet.length - body);
        sheet.length++;
        for (unsigned i = place; i < 4; i++) {
            sheet.at[3 + 4 * i]++;
        }
        count(run, "a gap", gives(sheet, "refused 18"));
    }
    struct bytes sheet = bytes_of((struct plan){ .flags = 1, .boards = "5 5" });
    sheet.at[11] = sheet.at[7];
    sheet.length -= 8;
    count(run, "a shared body", gives(sheet, "refused 18"));
}

/* 1 with any flag byte over 3, and any legacy address outside 08h to 77h; 17 with any flip over 8, at any place. */
static void test_values(struct run *run)
{
    bool passed = true;
    for (unsigned flags = 4; passed && flags <= 255; flags++) {
        passed = gives(bytes_of((struct plan){ .flags = (uint8_t)flags, .boards = TWO }), "refused 1");
    }
    for (unsigned i = 0; passed && i < 16; i++) {
        char legacy[9];
        sprintf(legacy, "%02X", i < 8 ? i : 0x70 + i);
        passed = gives(bytes_of((struct plan){ .flags = 1, .legacy = legacy, .boards = TWO }), "refused 1");
    }
    count(run, "flags and legacy addresses", passed);

    passed = true;
    for (unsigned flip = 9; passed && flip <= 255; flip++) {
        struct sheet sheet = sheet_of((struct plan){ .flags = 1, .boards = TWO, .flips = NONE_64_TIMES });
        sheet.entry[3].body[flip % 64] = (uint8_t)flip;
        passed = gives(laid_out(&sheet), "refused 17");
    }
    count(run, "a flip over 8, at any place", passed);
}

/* The order of the refusals: any of the seven faults together, the first of which decides. 33 boards and flips are 35
 * entries, so 16 and 17 never meet: such a sheet is wrong. */
static void test_refusal_order(struct run *run)
{
    static const unsigned order[] = { 11, 18, 1, 16, 17, 6, 7 };
    for (unsigned faults = 1; faults < 128; faults++) {
        bool has[19] = { false };
        for (unsigned i = 0; i < 7; i++) {
            has[order[i]] = (faults >> i & 1) != 0;
        }
        struct bytes sheet = bytes_of((struct plan){ .flags = has[1] ? 5 : 1, .last_ticket = has[7] ? 4294967295 : 0,
                                                     .legacy = has[6] ? "08-77" : NULL, .flips = has[17] ? "9" : NULL,
                                                     .boards = has[16] ? "21 " THIRTY_TWO : TWO });
        sheet.length += has[18] ? 1 : 0;
        has[18] = has[18] || (has[16] && has[17]);
        unsigned first = 0;
        while (!has[order[first]]) {
            first++;
        }
        char should[24];
        sprintf(should, "refused %u", order[first]);
        count(run, "faults together", lent_gives(&sheet, RACK_LISTING_BYTES - (has[11] ? 1 : 0), should));
    }
}

/* The wrapper takes a null pointer as no bytes, whatever length comes with it. */
static void test_null_pointers(struct run *run)
{
    static const size_t lengths[] = { 0, 1, 55, RACK_LISTING_BYTES, SIZE_MAX };
    for (size_t i = 0; i < sizeof lengths / sizeof lengths[0]; i++) {
        uint8_t listing[RACK_LISTING_BYTES] = { 0 };
        const struct rack_listing no_sheet = rack_run_sheet(NULL, lengths[i], listing, sizeof listing);
        const struct rack_listing no_listing = rack_run_sheet(example_bytes.at, 55, NULL, lengths[i]);
        const struct rack_listing neither = rack_run_sheet(NULL, lengths[i], NULL, lengths[i]);
        count(run, "no sheet", no_sheet.refusal == 18 && no_sheet.length == 0 && listing[0] == 0);
        count(run, "no listing", no_listing.refusal == 11 && no_listing.length == 0);
        count(run, "neither", neither.refusal == 11 && neither.length == 0);
    }
}

int main(void)
{
    struct run run = { .passed = 0, .failed = 0 };
    test_example(&run);
    test_plans(&run);
    test_full_tables(&run);
    test_lengths(&run);
    test_damaged_tables(&run);
    test_other_entries(&run);
    test_entry_orders(&run);
    test_gaps(&run);
    test_values(&run);
    test_refusal_order(&run);
    test_null_pointers(&run);
    printf("%u passed, %u failed\n", run.passed, run.failed);
    return run.failed == 0 ? 0 : 1;
}
