/* sheet.c: the sheet taken apart, the run on its facts, the listing. */
#include <string.h>

#include "rules.h"

enum {
    SHEET_BYTES = 512,
    LISTING_BYTES = 1100,
    MOST_ENTRIES = 34,
    ENTRY_BYTES = 4,
    FACTS_BYTES = 21,
    BOARD_BYTES = 8,
    MOST_FLIPS = 64
};

enum { KIND_FACTS = 1, KIND_BOARD = 2, KIND_FLIPS = 3 };

/* What a sheet says. */
struct sheet {
    const uint8_t *facts;
    struct model_board boards[MOST_ENTRIES];
    size_t count;
    const uint8_t *flips;
    size_t flips_length;
};

static uint64_t number(const uint8_t *bytes, size_t length)
{
    uint64_t n = 0;
    for (size_t i = 0; i < length; i++)
        n = n << 8 | bytes[i];
    return n;
}

/* Kind, length and order of one entry: facts first and once, flips at most once and last. */
static bool entry_sound(uint8_t kind, size_t length, size_t entry, size_t entries)
{
    switch (kind) {
    case KIND_FACTS:
        return entry == 0 && length == FACTS_BYTES;
    case KIND_BOARD:
        return entry != 0 && length == BOARD_BYTES;
    case KIND_FLIPS:
        return entry != 0 && entry == entries - 1 && length <= MOST_FLIPS;
    default:
        return false;
    }
}

static void take_body(struct sheet *s, uint8_t kind, const uint8_t *body, size_t length)
{
    switch (kind) {
    case KIND_FACTS:
        s->facts = body;
        break;
    case KIND_BOARD:
        s->boards[s->count++].identity = number(body, length);
        break;
    default:
        s->flips = body;
        s->flips_length = length;
        break;
    }
}

/* Refusal 18 is given when this fails. */
static bool take_apart(const uint8_t *sheet, size_t length, struct sheet *s)
{
    if (length == 0 || length > SHEET_BYTES)
        return false;
    size_t entries = sheet[0], body = 1 + entries * ENTRY_BYTES;
    if (entries == 0 || entries > MOST_ENTRIES || body > length)
        return false;
    for (size_t i = 0; i < entries; i++) {
        const uint8_t *entry = sheet + 1 + i * ENTRY_BYTES;
        if (!entry_sound(entry[0], entry[3], i, entries))
            return false;
        if (number(entry + 1, 2) != body || entry[3] > length - body)
            return false;
        take_body(s, entry[0], sheet + body, entry[3]);
        body += entry[3];
    }
    return body == length;
}

/* ---- the listing */

struct text {
    uint8_t *out;
    size_t length;
};

static void put_text(struct text *t, const char *words)
{
    size_t n = strlen(words);
    memcpy(t->out + t->length, words, n);
    t->length += n;
}

static void put_hex(struct text *t, uint64_t n, unsigned digits)
{
    while (digits-- > 0)
        t->out[t->length++] = (uint8_t)"0123456789ABCDEF"[n >> 4 * digits & 15];
}

static void put_decimal(struct text *t, uint64_t n)
{
    char digits[21];
    size_t first = sizeof digits - 1;
    digits[first] = 0;
    do {
        digits[--first] = (char)('0' + n % 10);
        n /= 10;
    } while (n != 0);
    put_text(t, digits + first);
}

static void put_row(struct text *t, const struct model_row *row)
{
    put_hex(t, row->address, 2);
    put_text(t, " ");
    put_decimal(t, row->ticket);
    put_text(t, " ");
    put_hex(t, row->identity, 16);
    put_text(t, "\n");
}

static size_t put_listing(const struct model_run *run, uint8_t *out)
{
    struct text t = { out, 0 };
    put_text(&t, "addr ticket identity\n");
    for (size_t i = 0; i < rows_used(&run->machine); i++)
        put_row(&t, &run->machine.rows[i]);
    put_text(&t, "end ");
    put_decimal(&t, run->ending);
    put_text(&t, " rounds ");
    put_decimal(&t, run->rounds);
    put_text(&t, " clocks ");
    put_decimal(&t, run->clocks);
    put_text(&t, "\n");
    return t.length;
}

/* Order 11, 18, 1, then the run's 16, 17, 6, 7. */
struct model_listing model_sheet_run(const uint8_t *sheet, size_t sheet_length, uint8_t *out, size_t lent)
{
    struct sheet s = { 0 };
    uint16_t cells[RECORD_CELLS];
    if (lent < LISTING_BYTES)
        return (struct model_listing){ .refusal = 11 };
    if (!take_apart(sheet, sheet_length, &s))
        return (struct model_listing){ .refusal = 18 };
    uint32_t last = (uint32_t)number(s.facts + 1 + MODEL_LEGACY, 4);
    struct model_step step = model_start(s.facts[0], s.facts + 1, MODEL_LEGACY, last);
    if (step.refusal != 0)
        return (struct model_listing){ .refusal = step.refusal };
    struct model_run run = model_run_wire(step.machine, s.boards, s.count, s.flips, s.flips_length, cells,
                                          RECORD_CELLS);
    if (run.refusal != 0)
        return (struct model_listing){ .refusal = run.refusal };
    return (struct model_listing){ .length = put_listing(&run, out) };
}
