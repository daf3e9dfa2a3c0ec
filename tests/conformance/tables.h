/*
 * tables.h: bus facts, identities and sound machines by chance, and the arguments that lie near a rule's
 * edge.
 */
#ifndef TABLES_H
#define TABLES_H

#include "played.h"

/* What the identities of one script have in common; to be called at its beginning. */
void new_identities(void);

/*
 * An identity: often one that another call of the script uses too, or one that differs from it in few bits.
 */
uint64_t any_identity(void);

/* Bus facts that keep the rules. */
struct model_facts any_facts(void);

/*
 * An idle machine that keeps the rules: often with few rows, often near an edge (32 rows, no free address, no
 * ticket).
 */
struct model_machine sound_machine(void);

/* The same with about so many rows, and with no more than its open addresses allow. */
struct model_machine sound_machine_of(struct model_facts facts, size_t rows);

/* A sound machine at that moment, if one can be had from an idle one by good calls. */
struct model_machine sound_machine_at(uint8_t moment);

/* Legacy bits; an address over 127 has none. */
bool legacy_at(const struct model_facts *facts, uint8_t address);
void flip_legacy(struct model_facts *facts, uint8_t address);

/* Whether an address is open; whether a row holds it as dynamic, or as static address. */
bool open_at(const struct model_facts *facts, uint8_t address);
bool held_dynamic(const struct model_machine *machine, uint8_t address);
bool held_static(const struct model_machine *machine, uint8_t address);

/* How many rows there are; the place of one by chance (0 if there is none). */
size_t rows_of(const struct model_machine *machine);
size_t any_row(const struct model_machine *machine);

/*
 * Good arguments, by chance: a free address, a static address to set from, a live ticket; 0 if there is none.
 */
uint8_t free_address(const struct model_machine *machine);
uint8_t free_static(const struct model_machine *machine);
uint32_t live_ticket(const struct model_machine *machine);

/* Plays a begin of a choice with such arguments. */
void play_good_begin(struct played *played, uint8_t choice);

/* Arguments near an edge. */
uint8_t edge_address(const struct model_machine *machine);
uint8_t edge_static(const struct model_machine *machine);
uint32_t edge_ticket(const struct model_machine *machine);
uint64_t edge_identity(const struct model_machine *machine);
uint32_t edge_last(void);

#endif
