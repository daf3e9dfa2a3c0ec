/* slots.c: the address slots and the bus facts. */
#include "rules.h"

/* Classes: R reserved, N one bit away from 7Eh, T open only with flag value 2, H closed with flag value 1,
 * O open, C closed. */
enum { R, N, T, H, O, C };

static const uint8_t slot_class[128] = {
    /* 00h */ R, R, R, T, H, H, H, H, O, O, O, O, O, O, O, O,
    /* 10h */ O, O, O, O, O, O, O, O, O, O, O, O, O, O, O, O,
    /* 20h */ O, O, O, O, O, O, O, O, O, O, O, O, O, O, O, O,
    /* 30h */ O, O, O, O, O, O, O, O, O, O, O, O, O, O, N, O,
    /* 40h */ O, O, O, O, O, O, O, O, O, O, O, O, O, O, O, O,
    /* 50h */ O, O, O, O, O, O, O, O, O, O, O, O, O, O, N, O,
    /* 60h */ O, O, O, O, O, O, O, O, O, O, O, O, O, O, N, O,
    /* 70h */ O, O, O, O, O, O, N, O, C, C, N, C, N, C, R, N,
};

bool odd_ones(unsigned number)
{
    bool odd = false;
    for (; number != 0; number &= number - 1)
        odd = !odd;
    return odd;
}

uint16_t data_cell(uint8_t byte)
{
    return (uint16_t)(byte * 2 + (odd_ones(byte) ? 0 : 1));
}

uint8_t offered_byte(uint8_t address)
{
    return (uint8_t)(address * 2 + (odd_ones(address) ? 0 : 1));
}

/* Flags have no bit but 1 and 2; legacy addresses lie in 08h to 77h, so the outer bytes are empty. */
bool facts_sound(const struct model_facts *facts)
{
    return facts->flags <= 3 && facts->legacy[0] == 0 && facts->legacy[MODEL_LEGACY - 1] == 0;
}

/* The address is at most 127. */
bool is_legacy(const struct model_facts *facts, uint8_t address)
{
    return (facts->legacy[address / 8] >> (address % 8) & 1) != 0;
}

static bool class_allows(uint8_t flags, uint8_t address)
{
    switch (slot_class[address]) {
    case O:
        return true;
    case T:
        return (flags & 2) != 0;
    case H:
        return (flags & 1) == 0;
    default:
        return false;
    }
}

/* The address is at most 127. */
bool is_open(const struct model_facts *facts, uint8_t address)
{
    return class_allows(facts->flags, address) && !is_legacy(facts, address);
}

bool is_static(uint8_t address)
{
    return address >= 0x08 && address <= 0x77;
}

struct model_slot model_slot_test(uint8_t flags, const uint8_t *legacy, size_t legacy_length, uint32_t last,
                                  uint8_t address)
{
    struct model_facts facts = { .flags = flags, .last = last };
    if (legacy_length != MODEL_LEGACY)
        return (struct model_slot){ .refusal = 1 };
    for (size_t i = 0; i < MODEL_LEGACY; i++)
        facts.legacy[i] = legacy[i];
    if (!facts_sound(&facts))
        return (struct model_slot){ .refusal = 1 };
    if (address > 127)
        return (struct model_slot){ .refusal = 2 };
    return (struct model_slot){ .open = is_open(&facts, address) };
}
