/* slots.c: slot tests on good and bad facts, over all addresses. */
#include <string.h>

#include "chance.h"
#include "families.h"
#include "tables.h"

/*
 * The facts of one test: mostly good, or with one rule broken; how many bytes of the legacy set are handed
 * over.
 */
static uint8_t any_test(struct model_facts *facts, uint8_t *legacy)
{
    static const uint32_t lengths[] = { 0, 1, 8, 15, 17, 31, 255 };
    uint8_t length = MODEL_LEGACY;
    *facts = any_facts();
    switch (below(8)) {
    case 0: facts->flags = (uint8_t)from(4, 255); break;
    case 1: flip_legacy(facts, (uint8_t)(chance(50) ? from(0, 7) : from(0x78, 0x7F))); break;
    case 2: length = (uint8_t)ONE_OF(lengths); break;
    default: break;
    }
    memset(legacy, 0, 255);
    memcpy(legacy, facts->legacy, MODEL_LEGACY);
    return length;
}

/* All 256 addresses on the same facts. */
static void put_all_slots(struct script *script)
{
    struct model_facts facts;
    uint8_t legacy[255];
    const uint8_t length = any_test(&facts, legacy);
    for (uint32_t address = 0; address < 256; address++) {
        put_slot(script, facts.flags, legacy, length, facts.last, (uint8_t)address);
    }
}

void make_slots(struct script *script, size_t number)
{
    struct model_facts facts = any_facts();
    uint8_t legacy[255];
    put_start(script, facts.flags, facts.legacy, MODEL_LEGACY, facts.last);
    if (number % 50 == 0) {
        put_all_slots(script);
        return;
    }
    for (uint32_t times = from(6, 14); times > 0; times--) {
        const uint8_t length = any_test(&facts, legacy);
        const uint8_t address = (uint8_t)(chance(90) ? below(128) : from(126, 255));
        put_slot(script, facts.flags, legacy, length, facts.last, address);
    }
}
