/*
 * rack.h: what C firmware asks of the rack's controller core: whether a board may
 * be given an address (the slot test), and what a run of the bench comes to (the
 * sheet run).
 *
 * The functions are proved to give the answers described here, for every input.
 * Nothing proves the declarations: they are to be compared with the source,
 * crates/rack/src/lib.rt. The library is crates/rack/out/librack.a, for x86-64
 * and the System V calling convention. It keeps no state and needs no heap; of a
 * C library it needs memcpy and memset. A sheet run takes some 44 KB of stack.
 *
 * Each function gives one 32-bit number, the refusal times 65,536 plus the
 * value; a refused call has the value 0. The wrappers take the two apart.
 */
#ifndef RACK_H
#define RACK_H

#include <stdbool.h>
#include <stddef.h>
#include <stdint.h>

#ifdef __cplusplus
extern "C" {
#endif

/* Refusals. A call is refused with the first that applies, in the order that its function names. */
enum rack_refusal {
    RACK_DONE = 0,             /* not refused */
    RACK_FACTS_WRONG = 1,      /* bus facts: an unknown flag, or a legacy set that isn't 16 bytes or leaves 08h to 77h */
    RACK_OUT_OF_RANGE = 2,     /* the address is over 127 */
    RACK_NO_FREE_ADDRESS = 6,  /* no address is open, so there is none to give */
    RACK_NO_TICKET_LEFT = 7,   /* the last ticket is 4,294,967,295, so there is no next one to give */
    RACK_TOO_FEW_BYTES = 11,   /* fewer than 1,100 bytes are lent for the listing */
    RACK_TOO_MANY_BOARDS = 16, /* the sheet has over 32 boards */
    RACK_FLIP_WRONG = 17,      /* a flip is over 8, whether the run would come to it or not */
    RACK_SHEET_WRONG = 18      /* the sheet is over 512 bytes, or its table or its length breaks a rule */
};

/* Flag values of a bus; they are added up. */
enum rack_flag {
    RACK_HIGH_SPEED = 1, /* an I2C high-speed device is present: 04h to 07h are closed */
    RACK_OPEN_03 = 2     /* 03h may be used */
};

/* The length of a legacy set: address a is bit a % 8 (value 1 the lowest) of byte a / 8. */
enum { RACK_LEGACY_BYTES = 16 };

/*
 * The slot test as the library has it: the value is 1 for an open address and 0
 * for any other. Refusals, in this order: 1, 2.
 *
 * `legacy` points to `legacy_length` readable bytes, and is not null even where
 * there are none.
 */
uint32_t rack_slot_test(uint8_t flags, const uint8_t *legacy, size_t legacy_length,
                        uint32_t last_ticket, uint8_t address);

/* What the slot test says: a refusal, or RACK_DONE and whether the address is open. */
struct rack_slot {
    uint16_t refusal;
    bool open;
};

/*
 * Whether a board may be given an address on a bus with these flags, legacy
 * addresses and last ticket (any 32-bit number). A null `legacy` counts as a set
 * of no bytes, and is refused as one.
 *
 *     static const uint8_t none[RACK_LEGACY_BYTES];
 *     struct rack_slot slot = rack_ask_slot(RACK_HIGH_SPEED, none, sizeof none, 0, 0x08);
 *     if (slot.refusal == RACK_DONE && slot.open) { ... }
 */
static inline struct rack_slot rack_ask_slot(uint8_t flags, const uint8_t *legacy, size_t legacy_length,
                                             uint32_t last_ticket, uint8_t address)
{
    static const uint8_t nothing[1] = { 0 };
    struct rack_slot slot;
    uint32_t answer;

    if (legacy == NULL) {
        legacy = nothing;
        legacy_length = 0;
    }
    answer = rack_slot_test(flags, legacy, legacy_length, last_ticket, address);
    slot.refusal = (uint16_t)(answer / 65536u);
    slot.open = answer % 65536u == 1u;
    return slot;
}

/* The bytes to lend for a listing (none is longer), and the most that a sheet has. */
enum { RACK_LISTING_BYTES = 1100, RACK_SHEET_BYTES = 512 };

/*
 * The sheet run as the library has it: starts a machine on a sheet's bus facts,
 * plays one run with its boards and flips, and writes the listing. The value is
 * the listing's length. Refusals, in this order: 11, 18, 1, 16, 17, 6, 7.
 *
 * `sheet` points to `sheet_length` readable bytes and `listing` to
 * `listing_length` writable ones. Neither is null, even where there are none, and
 * the two do not overlap. At least 1,100 bytes must be lent for the listing; it
 * is written from the first on, and what lies behind it stays. A refused run
 * writes nothing, and its length is 0.
 *
 * A sheet is a table, then the bodies that it names, in its order and without
 * gaps up to the end. Byte 0 is the number of entries, 1 to 34; an entry is four
 * bytes: kind, offset of the body from byte 0 (high byte first), its length.
 *
 *     kind 1   first, and once: flags, legacy set (16 bytes), last ticket (4 bytes, high byte first)
 *     kind 2   a board: its identity (8 bytes, high byte first)
 *     kind 3   last, if at all: 0 to 64 flips, a byte each. Every offer of an address uses the next: with
 *              0 to 7 the boards see the bit of value 2 to that power the other way; 8 changes nothing
 *
 * A listing is text: a header line, the rows by address, and how the run ended.
 * No zero byte stands behind it.
 *
 *     addr ticket identity
 *     08 1 0200000000000641
 *     09 2 0200000010000641
 *     end 0 rounds 3 clocks 273
 *
 * Endings: 0 a round stayed silent, since every board has an address; 1 two
 * offers in succession were refused; 2 there are 32 rows, 3 no address is free,
 * 4 no ticket is left (the first of these that applies); 5 there are no boards.
 */
uint32_t rack_sheet_run(const uint8_t *sheet, size_t sheet_length, uint8_t *listing, size_t listing_length);

/* What the sheet run says: a refusal, or RACK_DONE and how long the listing is. */
struct rack_listing {
    uint16_t refusal;
    uint16_t length;
};

/*
 * Plays the run of a sheet and writes its listing. A null pointer counts as no
 * bytes: a null `listing` is refused as too short, a null `sheet` as a wrong one.
 *
 *     uint8_t listing[RACK_LISTING_BYTES];
 *     struct rack_listing ran = rack_run_sheet(sheet, sheet_length, listing, sizeof listing);
 *     if (ran.refusal == RACK_DONE) { print(listing, ran.length); }
 */
static inline struct rack_listing rack_run_sheet(const uint8_t *sheet, size_t sheet_length,
                                                 uint8_t *listing, size_t listing_length)
{
    uint8_t nothing[1] = { 0 };
    struct rack_listing ran;
    uint32_t answer;

    if (sheet == NULL) {
        sheet = nothing;
        sheet_length = 0;
    }
    if (listing == NULL) {
        listing = nothing;
        listing_length = 0;
    }
    answer = rack_sheet_run(sheet, sheet_length, listing, listing_length);
    ran.refusal = (uint16_t)(answer / 65536u);
    ran.length = (uint16_t)(answer % 65536u);
    return ran;
}

#ifdef __cplusplus
}
#endif

#endif
