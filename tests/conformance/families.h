/* families.h: the kinds of scripts; each function makes the script of that number. */
#ifndef FAMILIES_H
#define FAMILIES_H

#include <stdio.h>

#include "script.h"

void make_walk(struct script *script, size_t number);
void make_handmade(struct script *script, size_t number);
void make_reads(struct script *script, size_t number);
void make_writes(struct script *script, size_t number);
void make_runs(struct script *script, size_t number);
void make_slots(struct script *script, size_t number);

/*
 * How often each rule was broken alone in the hand-made machines so far, and whether the model refused each.
 */
void tell_breaks(FILE *file);

/*
 * Scripts that break off or are none, and five at about the longest length: how many there are; the bytes of
 * one, and their length. One that outgrows its room ends the program.
 */
size_t bad_scripts(void);
size_t make_bad(uint8_t *bytes, size_t room, size_t number);

/* A sheet, and how many bytes are lent for its listing. */
enum { SHEET_ROOM = 700 };
struct made_sheet {
    uint16_t lent;
    uint16_t length;
    uint8_t bytes[SHEET_ROOM];
};
void make_sheet(struct made_sheet *made, size_t number);

/* The byte of an offered address. */
uint8_t offer_byte(uint8_t address);

#endif
