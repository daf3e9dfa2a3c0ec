/* reads.c: reading records, whole and damaged ones, and writing what was read, whole or changed. */
#include <string.h>

#include "chance.h"
#include "families.h"
#include "records.h"
#include "tables.h"

enum { OFFER = 10, MOST_OFFERS = 92 };

/* A start, so that the script stands by itself. */
static void put_opening(struct script *script)
{
    const struct model_facts facts = any_facts();
    new_identities();
    put_start(script, facts.flags, facts.legacy, MODEL_LEGACY, facts.last);
}

/* A record of the longest kinds: up to 92 offers, 93, and the cells that are just too many. */
static void longest(struct record *record, size_t number)
{
    static const uint32_t lengths[] = { 1023, 1024, 1025, CELLS_MOST };
    if (number % 2 == 0) {
        long_record(record, 90 + number / 2 % 5);
        return;
    }
    if (chance(60)) {
        long_record(record, from(20, 94));
        return;
    }
    long_record(record, 95);
    record->length = ONE_OF(lengths);
    if (chance(50)) {
        record->cells[record->length - 1] = 514;
    }
}

/* How many bytes are lent for the offers: just enough, one less, more, none, all. */
static uint16_t any_lent_for(size_t offers)
{
    const size_t exact = offers * OFFER;
    size_t lent = exact;
    switch (below(8)) {
    case 0: lent = exact > 0 ? exact - 1 : 0; break;
    case 1: lent = exact + from(1, 40); break;
    case 2: lent = LENT_MOST; break;
    case 3: lent = chance(70) ? exact : chance(50) ? 0 : below((uint32_t)exact + 1); break;
    default: break;
    }
    return (uint16_t)(lent > LENT_MOST ? LENT_MOST : lent);
}

/* A record of some offers, with a cell at this place that no record has. */
static void put_broken_at(struct script *script, size_t place)
{
    static struct record record;
    long_record(&record, 5);
    record.cells[place] = (uint16_t)(chance(50) ? 1280 : from(515, 1023));
    put_read(script, LENT_MOST, record.cells, (uint16_t)record.length);
}

void make_reads(struct script *script, size_t number)
{
    static struct record record;
    uint32_t times = from(4, 10);
    put_opening(script);
    put_broken_at(script, number % 50);
    if (number % 10 == 3) {
        longest(&record, number / 10);
        put_read(script, any_lent_for(offers_of(&record)), record.cells, (uint16_t)record.length);
        damage(&record);
        put_read(script, any_lent_for(offers_of(&record)), record.cells, (uint16_t)record.length);
        times = 2;
    }
    for (; times > 0; times--) {
        any_record(&record);
        for (uint32_t damages = chance(30) ? 0 : chance(85) ? 1 : 2; damages > 0; damages--) {
            damage(&record);
        }
        put_read(script, any_lent_for(offers_of(&record)), record.cells, (uint16_t)record.length);
    }
}

/* ---- writing */

/* What the model reads of a record; its offers stand in the buffer. */
static struct model_reading reading_of(const struct record *record, uint8_t *offers)
{
    return model_read(record->cells, record->length, offers, LENT_MOST).reading;
}

/* An address of a reading: 0, any, or one over 127. */
static uint8_t header_byte(void)
{
    return (uint8_t)(chance(30) ? 0 : chance(70) ? below(128) : from(126, 255));
}

/* One number of a reading becomes another. */
static void change(struct model_reading *reading)
{
    switch (below(7)) {
    case 0: reading->joining = (uint8_t)below(3); break;
    case 1: reading->command = (uint8_t)below(7); break;
    case 2: reading->header = header_byte(); break;
    case 3: reading->new_address = header_byte(); break;
    case 4: reading->direct = !reading->direct; break;
    case 5: reading->last = !reading->last; break;
    default: reading->offers = chance(50) ? reading->offers + 1 : below(256); break;
    }
    reading->offers %= 256;
}

/* One byte of the offers: the address byte's own bit, the accepted byte, any. */
static void change_offers(uint8_t *offers, size_t length)
{
    size_t place, byte;
    if (length < OFFER) {
        return;
    }
    place = below((uint32_t)(length / OFFER)) * OFFER;
    switch (below(3)) {
    case 0: offers[place + 8] ^= (uint8_t)(1 << below(8)); break;
    case 1: offers[place + 9] = (uint8_t)(chance(50) ? 2 : below(256)); break;
    default:
        byte = below(OFFER);
        offers[place + byte] = (uint8_t)any();
        break;
    }
}

/* How long the buffer of offers is: just right, longer, a byte short, far longer. */
static size_t any_length(size_t offers)
{
    const size_t exact = offers * OFFER;
    switch (below(10)) {
    case 0: return exact > 0 ? exact - 1 : 0;
    case 1: return exact + from(1, 30);
    case 2: return exact + OFFER;
    case 3: return exact >= OFFER ? exact - OFFER : 0;
    default: return exact;
    }
}

static uint16_t any_lent_cells(void)
{
    static const uint32_t lents[] = { 0, 1, 8, 1023 };
    return chance(94) ? LENT_MOST : (uint16_t)ONE_OF(lents);
}

/* A reading of nothing but noise. */
static void put_noise(struct script *script)
{
    uint8_t offers[340];
    struct model_reading reading;
    reading.joining = (uint8_t)below(3);
    reading.command = (uint8_t)below(7);
    reading.header = (uint8_t)any();
    reading.new_address = (uint8_t)any();
    reading.direct = chance(50);
    reading.last = chance(50);
    reading.offers = below(30);
    for (size_t place = 0; place < sizeof offers; place++) {
        offers[place] = (uint8_t)(chance(30) ? below(2) : any());
    }
    const uint16_t lent = any_lent_cells();
    put_write(script, lent, &reading, offers, (uint16_t)any_length(reading.offers));
}

/* Offers by chance, with good bytes; so many of them. */
static void put_many(struct script *script, uint16_t lent, size_t offers)
{
    static uint8_t bytes[256 * OFFER];
    const uint8_t joining = chance(50) ? 0 : 2;
    const struct model_reading reading = { joining, 1, 0, 0, false, chance(60), offers };
    for (size_t offer = 0; offer < offers; offer++) {
        for (size_t place = 0; place < 8; place++) {
            bytes[offer * OFFER + place] = (uint8_t)any();
        }
        bytes[offer * OFFER + 8] = offer_byte((uint8_t)below(128));
        bytes[offer * OFFER + 9] = (uint8_t)chance(20);
    }
    put_write(script, lent, &reading, bytes, (uint16_t)(offers * OFFER));
}

/* What a record says, whole or with a number changed. */
static void put_told(struct script *script)
{
    static struct record record;
    static uint8_t offers[LENT_MOST + 300];
    struct model_reading reading;
    size_t length;
    any_record(&record);
    memset(offers, 0, sizeof offers);
    reading = reading_of(&record, offers);
    length = any_length(reading.offers);
    if (chance(40)) {
        change(&reading);
        length = chance(50) ? length : any_length(reading.offers);
    } else if (chance(25)) {
        change_offers(offers, length);
    }
    length = length > sizeof offers ? sizeof offers : length;
    put_write(script, any_lent_cells(), &reading, offers, (uint16_t)length);
}

/* A buffer of offers of the longest length that the script can name. */
static void put_longest_buffer(struct script *script)
{
    static const uint8_t offers[65535];
    const struct model_reading reading = { 0, 1, 0, 0, false, false, below(2) };
    put_write(script, LENT_MOST, &reading, offers, chance(50) ? 65535 : (uint16_t)from(1000, 65535));
}

void make_writes(struct script *script, size_t number)
{
    put_opening(script);
    if (number % 25 == 4) {
        put_many(script, LENT_MOST, 90 + number / 25 % 5);
    }
    if (number % 25 == 5) {
        const uint16_t lent = any_lent_cells();
        put_many(script, lent, chance(50) ? from(20, MOST_OFFERS) : from(93, 255));
    }
    if (number % 250 == 6) {
        put_longest_buffer(script);
    }
    for (uint32_t times = from(4, 9); times > 0; times--) {
        if (chance(85)) {
            put_told(script);
        } else {
            put_noise(script);
        }
    }
}
