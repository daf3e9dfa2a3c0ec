/* made_sheets.c: sheets: valid ones, ones near every edge, and noise. */
#include <string.h>

#include "chance.h"
#include "families.h"
#include "tables.h"

enum { FACTS = 1, BOARD = 2, FLIPS = 3, FACTS_BYTES = 21, MOST_ENTRIES = 40, LENT = 1100 };

/* An entry with its body; the sheet as a list of them. */
struct entry {
    uint8_t kind;
    uint8_t length;
    uint8_t body[70];
};

struct list {
    size_t length;
    struct entry entries[MOST_ENTRIES];
};

/* One entry more, at a place; a list that is full loses its last one. */
static struct entry *insert(struct list *list, size_t place, uint8_t kind, uint8_t length)
{
    if (list->length == MOST_ENTRIES) {
        list->length--;
    }
    if (place > list->length) {
        place = list->length;
    }
    struct entry *entry = &list->entries[place];
    memmove(entry + 1, entry, (list->length - place) * sizeof *entry);
    list->length++;
    memset(entry, 0, sizeof *entry);
    entry->kind = kind;
    entry->length = length;
    return entry;
}

static void put_number(uint8_t *bytes, uint64_t number, size_t length)
{
    for (size_t place = 0; place < length; place++) {
        bytes[place] = (uint8_t)(number >> (8 * (length - 1 - place)));
    }
}

/* ---- the parts of a sheet */

static void insert_facts(struct list *list, size_t place)
{
    struct entry *entry = insert(list, place, FACTS, FACTS_BYTES);
    struct model_facts facts = any_facts();
    if (chance(60)) {
        facts.last = below(1000);
    }
    entry->body[0] = facts.flags;
    memcpy(entry->body + 1, facts.legacy, MODEL_LEGACY);
    put_number(entry->body + 17, facts.last, 4);
}

/* A board; often one whose identity another board has too, or nearly. */
static void insert_board(struct list *list, size_t place)
{
    put_number(insert(list, place, BOARD, 8)->body, chance(60) ? any_identity() : any(), 8);
}

static void insert_flips(struct list *list, size_t place, uint8_t length)
{
    struct entry *entry = insert(list, place, FLIPS, length);
    const uint32_t changing = chance(50) ? 15 : chance(60) ? 40 : 90;
    for (size_t flip = 0; flip < length; flip++) {
        entry->body[flip] = (uint8_t)(chance(changing) ? below(8) : 8);
    }
}

/* A valid sheet with so many boards. */
static void valid_list(struct list *list, size_t boards)
{
    list->length = 0;
    insert_facts(list, 0);
    for (size_t board = 0; board < boards; board++) {
        insert_board(list, list->length);
    }
    if (chance(55)) {
        insert_flips(list, list->length, (uint8_t)(chance(60) ? below(8) : chance(85) ? below(65) : 64));
    }
}

/* A valid sheet on which each of so many boards gets a row: there is room, and all identities differ. */
static void ample_list(struct list *list, size_t boards)
{
    list->length = 0;
    insert_facts(list, 0);
    memset(list->entries[0].body + 1, 0, MODEL_LEGACY);
    put_number(list->entries[0].body + 17, below(1000), 4);
    for (size_t board = 0; board < boards; board++) {
        insert_board(list, list->length);
        put_number(list->entries[list->length - 1].body, any() << 8 | board, 8);
    }
}

/* ---- wrong entries */

/* The flips at the end, which are put there if there are none. */
static struct entry *flips_of(struct list *list)
{
    if (list->entries[list->length - 1].kind != FLIPS) {
        insert_flips(list, list->length, (uint8_t)from(1, 20));
    }
    return &list->entries[list->length - 1];
}

/* Boards up to a number of them, or of entries. */
static void fill_boards(struct list *list, size_t entries)
{
    while (list->length < entries) {
        insert_board(list, 1);
    }
}

static void swap_entries(struct list *list)
{
    const size_t one = below((uint32_t)list->length), other = below((uint32_t)list->length);
    const struct entry entry = list->entries[one];
    list->entries[one] = list->entries[other];
    list->entries[other] = entry;
}

/* Facts that break a rule, or that leave nothing to give. */
static void wrong_facts(struct list *list)
{
    uint8_t *body = list->entries[0].body;
    switch (below(6)) {
    case 0: body[0] = (uint8_t)(chance(50) ? 4 : from(4, 255)); break;
    case 1: body[1] = (uint8_t)(1 << below(8)); break;
    case 2: body[16] = (uint8_t)(1 << below(8)); break;
    case 3: put_number(body + 17, UINT32_MAX - below(3), 4); break;
    default:
        body[0] = (uint8_t)(chance(80) ? 1 : 3);
        memset(body + 2, 0xFF, 14);
        break;
    }
}

static void wrong_flips(struct list *list)
{
    struct entry *flips = flips_of(list);
    size_t place;
    switch (below(4)) {
    case 0: flips->length = 65; break;
    case 1: flips->length = 64; break;
    default:
        flips->length = (uint8_t)(flips->length > 0 ? flips->length : 1);
        place = chance(50) ? flips->length - 1u : below(flips->length);
        flips->body[place] = (uint8_t)(chance(50) ? 9 : from(9, 255));
        break;
    }
}

/* An entry of another kind, or of another length with as many bytes. */
static void wrong_entry(struct list *list)
{
    static const uint32_t kinds[] = { 0, 1, 2, 3, 4, 255 };
    struct entry *entry = &list->entries[below((uint32_t)list->length)];
    if (chance(50)) {
        entry->kind = (uint8_t)ONE_OF(kinds);
    } else {
        entry->length = (uint8_t)(chance(40) ? entry->length + 1u
                                  : chance(60) ? entry->length - 1u : below(66));
        entry->length = (uint8_t)(entry->length > 70 ? 0 : entry->length);
    }
}

/* One thing wrong, or just right, in the list of entries. */
static void spoil_list(struct list *list)
{
    size_t place;
    switch (below(12)) {
    case 0: fill_boards(list, chance(60) ? 34 : 33); break;
    case 1: fill_boards(list, from(34, 36)); break;
    case 2: swap_entries(list); break;
    case 3: wrong_facts(list); break;
    case 4: wrong_flips(list); break;
    case 5: insert_facts(list, below((uint32_t)list->length + 1)); break;
    case 6:
        memmove(list->entries, list->entries + 1, --list->length * sizeof list->entries[0]);
        break;
    case 7:
        place = below((uint32_t)list->length + 1);
        insert_flips(list, place, (uint8_t)below(5));
        break;
    case 8:
        (void)flips_of(list);
        insert_board(list, list->length);
        break;
    case 9:
        (void)flips_of(list);
        insert_flips(list, list->length, (uint8_t)below(5));
        break;
    default: wrong_entry(list); break;
    }
    /* A list without entries can't be spoiled any further. */
    if (list->length == 0) {
        insert_board(list, 0);
    }
}

/* ---- the bytes */

static void add(struct made_sheet *made, uint8_t byte)
{
    if (made->length < SHEET_ROOM) {
        made->bytes[made->length++] = byte;
    }
}

/* The table, then the bodies without gaps. */
static void lay_out(struct made_sheet *made, const struct list *list)
{
    size_t offset = 1 + 4 * list->length;
    made->length = 0;
    add(made, (uint8_t)list->length);
    for (size_t place = 0; place < list->length; place++) {
        add(made, list->entries[place].kind);
        add(made, (uint8_t)(offset >> 8));
        add(made, (uint8_t)offset);
        add(made, list->entries[place].length);
        offset += list->entries[place].length;
    }
    for (size_t place = 0; place < list->length; place++) {
        for (size_t byte = 0; byte < list->entries[place].length; byte++) {
            add(made, list->entries[place].body[byte]);
        }
    }
}

/* A byte more or less somewhere; with it the sheet no longer is as long as its table says. */
static void shift(struct made_sheet *made, size_t place, bool more)
{
    if (more && made->length < SHEET_ROOM) {
        memmove(made->bytes + place + 1, made->bytes + place, made->length - place);
        made->bytes[place] = (uint8_t)any();
        made->length++;
    } else if (!more && place < made->length) {
        made->length--;
        memmove(made->bytes + place, made->bytes + place + 1, made->length - place);
    }
}

/* A gap before a body: that entry and all behind it lie so many bytes further on. */
static void open_gap(struct made_sheet *made)
{
    const size_t entries = made->bytes[0], first = below((uint32_t)entries), bytes = from(1, 3);
    const size_t at = (size_t)made->bytes[1 + 4 * first + 1] * 256 + made->bytes[1 + 4 * first + 2];
    for (size_t entry = first; entry < entries; entry++) {
        uint8_t *offset = made->bytes + 1 + 4 * entry + 1;
        put_number(offset, (uint64_t)(offset[0] * 256 + offset[1]) + bytes, 2);
    }
    for (size_t byte = 0; byte < bytes && at <= made->length; byte++) {
        shift(made, at, true);
    }
}

/* One number of the table: an entry's kind, offset or length. */
static void spoil_entry(struct made_sheet *made)
{
    uint8_t *entry = made->bytes + 1 + 4 * below(made->bytes[0]);
    const size_t field = below(4);
    switch (below(4)) {
    case 0: entry[field]++; break;
    case 1: entry[field]--; break;
    case 2: entry[field] ^= (uint8_t)(1 << below(8)); break;
    default: entry[field] = (uint8_t)any(); break;
    }
}

/* A file that is longer: up to 512 bytes, to 513, or by some. */
static void lengthen(struct made_sheet *made)
{
    static const uint32_t lengths[] = { 511, 512, 513, 514, 600, SHEET_ROOM };
    const size_t length = chance(50) ? made->length + from(1, 8) : ONE_OF(lengths);
    while (made->length < length && made->length < SHEET_ROOM) {
        add(made, (uint8_t)any());
    }
}

/* One thing wrong in the bytes. */
static void spoil_bytes(struct made_sheet *made)
{
    static const uint32_t counts[] = { 0, 1, 33, 34, 35, 255 };
    size_t place;
    switch (below(9)) {
    case 0: made->bytes[0] = (uint8_t)(made->bytes[0] + (chance(50) ? 1 : 255)); break;
    case 1: made->bytes[0] = (uint8_t)ONE_OF(counts); break;
    case 2: lengthen(made); break;
    case 3: made->length = (uint16_t)(chance(50) ? made->length - 1u : below(made->length + 1u)); break;
    case 4:
        place = below(made->length);
        shift(made, place, chance(50));
        break;
    case 5: open_gap(made); break;
    case 6:
        place = below(made->length);
        made->bytes[place] ^= (uint8_t)(1 << below(8));
        break;
    default: spoil_entry(made); break;
    }
}

/* Noise; or noise behind a table that could be one. */
static void noise(struct made_sheet *made)
{
    const size_t length = chance(70) ? below(120) : chance(70) ? below(520) : from(505, 520);
    const size_t entries = from(1, 34);
    made->length = 0;
    while (made->length < length) {
        add(made, (uint8_t)(chance(30) ? below(4) : any()));
    }
    if (chance(50) && length > 1 + 4 * entries) {
        made->bytes[0] = (uint8_t)entries;
        for (size_t entry = 0; entry < entries; entry++) {
            uint8_t *at = made->bytes + 1 + 4 * entry;
            at[0] = (uint8_t)(entry == 0 ? FACTS : BOARD);
            put_number(at + 1, entry == 0 ? 1 + 4 * entries : 22 + 4 * entries + 8 * (entry - 1), 2);
            at[3] = (uint8_t)(entry == 0 ? FACTS_BYTES : 8);
        }
    }
}

/* How many bytes are lent: enough, or too few. */
static uint16_t any_lent(void)
{
    static const uint32_t lents[] = { 0, 1, 1099, 1099, 1000 };
    static const uint32_t enough[] = { LENT, LENT, LENT + 1, 1200, 3000 };
    return (uint16_t)(chance(97) ? ONE_OF(enough) : ONE_OF(lents));
}

void make_sheet(struct made_sheet *made, size_t number)
{
    struct list list;
    const uint32_t kind = below(100);
    new_identities();
    made->lent = any_lent();
    if (number % 16 == 0) {
        made->lent = LENT;
        ample_list(&list, number / 16 % 33);
        lay_out(made, &list);
        return;
    }
    if (kind >= 88) {
        noise(made);
        return;
    }
    valid_list(&list, chance(60) ? below(6) : below(33));
    if (kind >= 45 && kind < 68) {
        spoil_list(&list);
    }
    if (kind >= 64 && kind < 68) {
        spoil_list(&list);
    }
    lay_out(made, &list);
    if (kind >= 66) {
        spoil_bytes(made);
    }
}
