/*
 * test_slots.c: the slot test of rack.h, held to the table of the address slots.
 *
 * A model of the table and of the rules for bus facts answers every question here. For each of some
 * hundreds of legacy sets, right and wrong ones, the library and the wrapper are asked with every flag
 * byte and every address byte, and must give the model's answer, whatever the last ticket is, and change
 * no byte of the set or beside it. The wrapper must refuse a null pointer.
 */
#include <stdbool.h>
#include <stddef.h>
#include <stdint.h>
#include <stdio.h>
#include <string.h>

#include "rack.h"

_Static_assert(RACK_DONE == 0 && RACK_FACTS_WRONG == 1 && RACK_OUT_OF_RANGE == 2, "refusal numbers");
_Static_assert(RACK_HIGH_SPEED == 1 && RACK_OPEN_03 == 2, "flag values");
_Static_assert(RACK_LEGACY_BYTES == 16, "bytes of a legacy set");

/* ---- The model ---- */

enum slot_class {
    SLOT_RESERVED,       /* barred: reserved */
    SLOT_NEAR_7E,        /* barred: one bit away from 7Eh */
    SLOT_OPEN_WITH_2,    /* open only with flag value 2 */
    SLOT_CLOSED_WITH_1,  /* closed with flag value 1 */
    SLOT_OPEN,
    SLOT_CLOSED,
    SLOT_MISSING         /* in no row of the table: the model itself is wrong */
};

/* The class of an address from 00h to 7Fh. */
static enum slot_class class_of(uint8_t address)
{
    static const struct {
        uint8_t first;
        uint8_t last;
        enum slot_class class;
    } table[] = {
        { 0x00, 0x02, SLOT_RESERVED }, { 0x7E, 0x7E, SLOT_RESERVED },
        { 0x3E, 0x3E, SLOT_NEAR_7E }, { 0x5E, 0x5E, SLOT_NEAR_7E }, { 0x6E, 0x6E, SLOT_NEAR_7E },
        { 0x76, 0x76, SLOT_NEAR_7E }, { 0x7A, 0x7A, SLOT_NEAR_7E }, { 0x7C, 0x7C, SLOT_NEAR_7E },
        { 0x7F, 0x7F, SLOT_NEAR_7E },
        { 0x03, 0x03, SLOT_OPEN_WITH_2 },
        { 0x04, 0x07, SLOT_CLOSED_WITH_1 },
        { 0x08, 0x3D, SLOT_OPEN }, { 0x3F, 0x5D, SLOT_OPEN }, { 0x5F, 0x6D, SLOT_OPEN },
        { 0x6F, 0x75, SLOT_OPEN }, { 0x77, 0x77, SLOT_OPEN },
        { 0x78, 0x79, SLOT_CLOSED }, { 0x7B, 0x7B, SLOT_CLOSED }, { 0x7D, 0x7D, SLOT_CLOSED }
    };
    for (size_t row = 0; row < sizeof table / sizeof table[0]; row++) {
        if (table[row].first <= address && address <= table[row].last) {
            return table[row].class;
        }
    }
    return SLOT_MISSING;
}

static bool class_allows(enum slot_class class, uint8_t flags)
{
    switch (class) {
    case SLOT_OPEN:
        return true;
    case SLOT_OPEN_WITH_2:
        return (flags & 2) != 0;
    case SLOT_CLOSED_WITH_1:
        return (flags & 1) == 0;
    default:
        return false;
    }
}

/* Whether a 16-byte legacy set has an address from 00h to 7Fh: bit a mod 8 of byte a div 8. */
static bool is_legacy(const uint8_t *legacy, uint8_t address)
{
    return ((legacy[address / 8] >> (address % 8)) & 1) != 0;
}

/* Whether a legacy set is 16 bytes and its addresses lie in 08h to 77h. */
static bool legacy_right(const uint8_t *legacy, size_t length)
{
    if (length != 16) {
        return false;
    }
    for (uint8_t address = 0x00; address <= 0x7F; address++) {
        if (is_legacy(legacy, address) && (address < 0x08 || address > 0x77)) {
            return false;
        }
    }
    return true;
}

/* Whether the bits other than values 1 and 2 are zero. */
static bool flags_right(uint8_t flags)
{
    return flags / 4 == 0;
}

/* An address from 00h to 7Fh is open when its class allows it and it is not legacy. */
static bool is_open(uint8_t flags, const uint8_t *legacy, uint8_t address)
{
    return class_allows(class_of(address), flags) && !is_legacy(legacy, address);
}

static uint32_t answer(uint32_t refusal, bool open)
{
    return refusal * 65536u + (open ? 1u : 0u);
}

/* What the slot test has to say. `right` is legacy_right of the set, which no question of one set changes. */
static uint32_t model_answer(uint8_t flags, const uint8_t *legacy, bool right, uint8_t address)
{
    if (!flags_right(flags) || !right) {
        return answer(1, false);
    }
    if (address > 127) {
        return answer(2, false);
    }
    return answer(0, is_open(flags, legacy, address));
}

/* ---- The run ---- */

enum { MOST_BYTES = 40, GUARD_BYTES = 24 };

struct run {
    unsigned passed;
    unsigned failed;
    uint32_t tickets;    /* how many last tickets were handed out */
    uint32_t generator;  /* never 0 */
};

struct legacy_set {
    const char *kind;
    size_t length;
    uint8_t bytes[MOST_BYTES];
};

struct question {
    uint8_t flags;
    uint8_t address;
};

static void count(struct run *run, bool passed)
{
    if (passed) {
        run->passed++;
    } else {
        run->failed++;
    }
}

/* The number of the test that is under way. */
static unsigned test_number(const struct run *run)
{
    return run->passed + run->failed + 1;
}

static uint32_t next_random(struct run *run)
{
    uint32_t x = run->generator;
    x ^= x << 13;
    x ^= x >> 17;
    x ^= x << 5;
    run->generator = x;
    return x;
}

static uint8_t random_byte(struct run *run)
{
    return (uint8_t)(next_random(run) >> 24);
}

/* The last ticket for the next call, of five kinds in turn. */
static uint32_t next_ticket(struct run *run)
{
    const uint32_t number = run->tickets++;
    switch (number % 5) {
    case 0:
        return 0;
    case 1:
        return 1;
    case 2:
        return UINT32_MAX;
    case 3:
        return number;
    default:
        return number * 2654435761u;
    }
}

/* Whether the answer is the right one; prints the disagreement if not. */
static bool agrees(const struct run *run, const struct legacy_set *set, struct question question, const char *asked,
                   uint32_t got, uint32_t should)
{
    if (got == should) {
        return true;
    }
    printf("test %u, %s, %zu bytes: flags %02Xh, address %02Xh: "
           "%s gave refusal %u value %u, should be refusal %u value %u\n",
           test_number(run), set->kind, set->length, (unsigned)question.flags, (unsigned)question.address,
           asked, (unsigned)(got / 65536u), (unsigned)(got % 65536u),
           (unsigned)(should / 65536u), (unsigned)(should % 65536u));
    return false;
}

static bool slot_test_agrees(struct run *run, const struct legacy_set *set, const uint8_t *lent,
                             struct question question, uint32_t should)
{
    const uint32_t got = rack_slot_test(question.flags, lent, set->length, next_ticket(run), question.address);
    return agrees(run, set, question, "rack_slot_test", got, should);
}

static bool wrapper_agrees(struct run *run, const struct legacy_set *set, const uint8_t *lent,
                           struct question question, uint32_t should)
{
    const struct rack_slot slot = rack_ask_slot(question.flags, lent, set->length, next_ticket(run), question.address);
    return agrees(run, set, question, "rack_ask_slot", answer(slot.refusal, slot.open), should);
}

/* ---- The tests ---- */

/* Asks every question of one set, up to the first disagreement. */
static bool questions_agree(struct run *run, const struct legacy_set *set, const uint8_t *lent)
{
    const bool right = legacy_right(set->bytes, set->length);
    for (unsigned flags = 0; flags <= 255; flags++) {
        for (unsigned address = 0; address <= 255; address++) {
            const struct question question = { (uint8_t)flags, (uint8_t)address };
            const uint32_t should = model_answer(question.flags, set->bytes, right, question.address);
            if (!slot_test_agrees(run, set, lent, question, should) || !wrapper_agrees(run, set, lent, question, should)) {
                return false;
            }
        }
    }
    return true;
}

/* All questions of a set that lies between guard bytes of this value. */
static bool guarded_set_agrees(struct run *run, const struct legacy_set *set, uint8_t guard)
{
    uint8_t lent[GUARD_BYTES + MOST_BYTES + GUARD_BYTES];
    uint8_t before[sizeof lent];
    memset(lent, guard, sizeof lent);
    memcpy(lent + GUARD_BYTES, set->bytes, set->length);
    memcpy(before, lent, sizeof lent);

    if (!questions_agree(run, set, lent + GUARD_BYTES)) {
        return false;
    }
    if (memcmp(lent, before, sizeof lent) != 0) {
        printf("test %u, %s, %zu bytes: the set or a byte beside it was changed\n",
               test_number(run), set->kind, set->length);
        return false;
    }
    return true;
}

/* One test. With guards of 0 a short set would look right to whoever reads past its end, with others wrong. */
static void test_set(struct run *run, const struct legacy_set *set)
{
    count(run, guarded_set_agrees(run, set, 0x00) && guarded_set_agrees(run, set, 0xA5));
}

static void add_address(struct legacy_set *set, uint8_t address)
{
    set->bytes[address / 8] |= (uint8_t)(1u << (address % 8));
}

/* Adds two or three addresses to an empty set, in 08h to 77h if it has more than one byte. */
static void add_few(struct run *run, struct legacy_set *set)
{
    if (set->length == 0) {
        return;
    }
    const uint32_t first = set->length > 1 ? 0x08 : 0x00;
    const uint32_t last = set->length < 15 ? (uint32_t)set->length * 8 - 1 : 0x77;
    uint32_t missing = 2 + next_random(run) % 2;
    while (missing > 0) {
        const uint8_t address = (uint8_t)(first + next_random(run) % (last - first + 1));
        if (!is_legacy(set->bytes, address)) {
            add_address(set, address);
            missing--;
        }
    }
}

/* Sets of every length, of which only 16 bytes can be right. */
static void test_lengths(struct run *run)
{
    for (size_t length = 0; length <= MOST_BYTES; length++) {
        const struct legacy_set empty = { .kind = "empty", .length = length };
        test_set(run, &empty);

        struct legacy_set dense = { .kind = "dense", .length = length };
        memset(dense.bytes, 0xFF, length);
        test_set(run, &dense);

        struct legacy_set sparse = { .kind = "sparse", .length = length };
        add_few(run, &sparse);
        test_set(run, &sparse);

        struct legacy_set random = { .kind = "random", .length = length };
        for (size_t place = 0; place < length; place++) {
            random.bytes[place] = random_byte(run);
        }
        test_set(run, &random);
    }
}

/* Each address alone; those outside 08h to 77h make a wrong set. */
static void test_single_addresses(struct run *run)
{
    for (uint8_t address = 0x00; address <= 0x7F; address++) {
        struct legacy_set single = { .kind = "single address", .length = RACK_LEGACY_BYTES };
        add_address(&single, address);
        test_set(run, &single);
    }
}

/* The largest right set. */
static void test_full_set(struct run *run)
{
    struct legacy_set full = { .kind = "all of 08h to 77h", .length = RACK_LEGACY_BYTES };
    for (uint8_t address = 0x08; address <= 0x77; address++) {
        add_address(&full, address);
    }
    test_set(run, &full);
}

/* Right sets by chance, in turn with about three quarters and about one eighth of 08h to 77h. */
static void test_right_sets(struct run *run)
{
    for (unsigned number = 0; number < 40; number++) {
        const bool dense = number % 2 == 0;
        struct legacy_set set = { .kind = dense ? "right, dense" : "right, sparse", .length = RACK_LEGACY_BYTES };
        for (size_t place = 0x08 / 8; place <= 0x77 / 8; place++) {
            const uint8_t a = random_byte(run);
            const uint8_t b = random_byte(run);
            const uint8_t c = random_byte(run);
            set.bytes[place] = dense ? (uint8_t)(a | b) : (uint8_t)(a & b & c);
        }
        test_set(run, &set);
    }
}

/* Whether the wrapper refuses every question about a null pointer with the length given. */
static bool null_refused(struct run *run, size_t length)
{
    const struct legacy_set null = { .kind = "null pointer", .length = length };
    for (unsigned flags = 0; flags <= 255; flags++) {
        for (unsigned address = 0; address <= 255; address++) {
            const struct question question = { (uint8_t)flags, (uint8_t)address };
            if (!wrapper_agrees(run, &null, NULL, question, answer(1, false))) {
                return false;
            }
        }
    }
    return true;
}

static void test_null_pointer(struct run *run)
{
    static const size_t lengths[] = { 0, 1, 15, 16, 17, 40, SIZE_MAX };
    bool passed = true;
    for (size_t i = 0; passed && i < sizeof lengths / sizeof lengths[0]; i++) {
        passed = null_refused(run, lengths[i]);
    }
    count(run, passed);
}

/* Every address has a class, and the model says how many are open without legacy addresses. */
static void test_model(struct run *run)
{
    unsigned missing = 0;
    for (uint8_t address = 0x00; address <= 0x7F; address++) {
        missing += class_of(address) == SLOT_MISSING ? 1 : 0;
    }
    if (missing != 0) {
        printf("test %u, model: %u addresses have no class\n", test_number(run), missing);
    }
    count(run, missing == 0);

    static const unsigned should[] = { 112, 108, 113, 109 };
    static const uint8_t none[RACK_LEGACY_BYTES];
    for (uint8_t flags = 0; flags <= 3; flags++) {
        unsigned got = 0;
        for (uint8_t address = 0x00; address <= 0x7F; address++) {
            got += is_open(flags, none, address) ? 1 : 0;
        }
        if (got != should[flags]) {
            printf("test %u, model: flags %02Xh: %u addresses open, should be %u\n",
                   test_number(run), (unsigned)flags, got, should[flags]);
        }
        count(run, got == should[flags]);
    }
}

int main(void)
{
    struct run run = { .passed = 0, .failed = 0, .tickets = 0, .generator = 2463534242u };
    test_model(&run);
    test_lengths(&run);
    test_single_addresses(&run);
    test_full_set(&run);
    test_right_sets(&run);
    test_null_pointer(&run);
    printf("%u passed, %u failed\n", run.passed, run.failed);
    return run.failed == 0 ? 0 : 1;
}
