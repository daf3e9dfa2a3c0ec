/*
 * record.c: records read and written.
 *
 * The layouts are lists of marks: an opening, so many offers, and a closing. The reader goes cell by cell and
 * keeps the set of layouts that still fit; the place is the first cell at which none is left.
 */
#include <string.h>

#include "rules.h"

/* A mark is a cell's own number, or one of these; END ends a list. */
enum {
    HEADER_YES = 2000, /* a direct header, write, answered */
    HEADER_NO,         /* the same without an answer */
    NEW_ADDRESS,       /* a new address times 2 as data */
    IDENTITY,          /* an identity byte */
    OFFERED,           /* an offered address byte, answered or not */
    END
};

/* A round with an answered header and its offer; it begins with the repeated START before it. */
static const uint16_t offer_marks[] = {
    513, 506, IDENTITY, IDENTITY, IDENTITY, IDENTITY, IDENTITY, IDENTITY, IDENTITY, IDENTITY, OFFERED,
};

enum { OFFER_CELLS = sizeof offer_marks / sizeof *offer_marks, MARKS = 9 };

/* More offers than a record of 1,024 cells can hold. */
enum { MOST_OFFERS = RECORD_CELLS / OFFER_CELLS + 1 };

struct form {
    uint8_t joining, command;
    bool direct, last;
    size_t least, most; /* offers */
    uint16_t opening[MARKS], closing[MARKS];
};

static const struct form forms[] = {
    /* a joining refused */
    { 1, 0, false, false, 0, 0, { 512, 9, 514, END }, { END } },
    /* a silent 7Eh */
    { 0, 0, false, false, 0, 0, { 512, 505, 514, END }, { END } },
    { 2, 0, false, false, 0, 0, { 512, 8, 513, 505, 514, END }, { END } },
    /* assign: the last round header silent, or an offer last */
    { 0, 1, false, false, 0, MOST_OFFERS, { 512, 504, 14, END }, { 513, 507, 514, END } },
    { 0, 1, false, true, 1, MOST_OFFERS, { 512, 504, 14, END }, { 514, END } },
    { 2, 1, false, false, 0, MOST_OFFERS, { 512, 8, 513, 504, 14, END }, { 513, 507, 514, END } },
    { 2, 1, false, true, 1, MOST_OFFERS, { 512, 8, 513, 504, 14, END }, { 514, END } },
    /* reset all */
    { 0, 2, false, false, 0, 0, { 512, 504, 13, 514, END }, { END } },
    /* set from static, and move: the direct header answered or not */
    { 0, 3, true, false, 0, 0, { 512, 504, 271, 513, HEADER_YES, NEW_ADDRESS, 514, END }, { END } },
    { 0, 3, false, false, 0, 0, { 512, 504, 271, 513, HEADER_NO, 514, END }, { END } },
    { 0, 4, true, false, 0, 0, { 512, 504, 273, 513, HEADER_YES, NEW_ADDRESS, 514, END }, { END } },
    { 0, 4, false, false, 0, 0, { 512, 504, 273, 513, HEADER_NO, 514, END }, { END } },
    /* silence, and allow */
    { 0, 5, false, false, 0, 0, { 512, 504, 2, 16, 514, END }, { END } },
    { 2, 5, false, false, 0, 0, { 512, 8, 513, 504, 2, 16, 514, END }, { END } },
    { 0, 6, false, false, 0, 0, { 512, 504, 1, 16, 514, END }, { END } },
};

enum { FORMS = sizeof forms / sizeof *forms, MOST_LAYOUTS = FORMS * (MOST_OFFERS + 1) };

struct layout {
    const struct form *form;
    size_t offers;
    size_t offers_begin, offers_end; /* the places of its offers */
};

static size_t marks_length(const uint16_t *marks)
{
    size_t n = 0;
    while (marks[n] != END)
        n++;
    return n;
}

static struct layout make_layout(const struct form *form, size_t offers)
{
    size_t begin = marks_length(form->opening);
    return (struct layout){ form, offers, begin, begin + offers * OFFER_CELLS };
}

/* The mark that a layout has at a place up to the one behind it, where it has END. */
static uint16_t mark_at(const struct layout *layout, size_t place)
{
    if (place < layout->offers_begin)
        return layout->form->opening[place];
    if (place < layout->offers_end)
        return offer_marks[(place - layout->offers_begin) % OFFER_CELLS];
    return layout->form->closing[place - layout->offers_end];
}

/* Whether a cell is what a mark stands for. */
static bool fits(uint16_t cell, uint16_t mark)
{
    switch (mark) {
    case HEADER_YES:
        return cell < 512 && cell % 4 == 0;
    case HEADER_NO:
        return cell < 512 && cell % 4 == 1;
    case NEW_ADDRESS: /* the bit below the address is 0, and all nine bits have an odd count of ones */
        return cell < 512 && (cell & 2) == 0 && odd_ones(cell);
    case IDENTITY:
        return cell >= CELL_IDENTITY && cell < CELL_IDENTITY + 256;
    case OFFERED: /* the byte's own count of ones is odd; the ninth bit is free */
        return cell < 512 && odd_ones(cell / 2u);
    case END:
        return false;
    default:
        return cell == mark;
    }
}

/* All layouts for a record of this length: those with still more offers differ only behind its end. */
static size_t all_layouts(struct layout *layouts, size_t length)
{
    size_t count = 0;
    for (size_t f = 0; f < FORMS; f++)
        for (size_t k = forms[f].least; k <= forms[f].most && k <= length / OFFER_CELLS + 1; k++)
            layouts[count++] = make_layout(&forms[f], k);
    return count;
}

/* Keeps the layouts that have what the cell is at this place, and says how many are left. */
static size_t keep_fitting(struct layout *layouts, size_t count, size_t place, uint16_t cell)
{
    size_t kept = 0;
    for (size_t i = 0; i < count; i++)
        if (fits(cell, mark_at(&layouts[i], place)))
            layouts[kept++] = layouts[i];
    return kept;
}

/* The layout of the whole record, or form NULL and the place. */
static struct layout find_layout(const uint16_t *cells, size_t length, size_t *place)
{
    struct layout layouts[MOST_LAYOUTS], none = { 0 };
    size_t count = all_layouts(layouts, length);
    for (*place = 0; *place < length; (*place)++) {
        count = keep_fitting(layouts, count, *place, cells[*place]);
        if (count == 0)
            return none;
    }
    for (size_t i = 0; i < count; i++)
        if (mark_at(&layouts[i], length) == END)
            return layouts[i];
    return none;
}

/* Takes the addresses and offers out of cells that fit the layout. */
static void take_out(const uint16_t *cells, size_t length, const struct layout *layout,
                     struct model_reading *reading, uint8_t *offers)
{
    for (size_t i = 0; i < length; i++) {
        switch (mark_at(layout, i)) {
        case HEADER_YES:
        case HEADER_NO:
            reading->header = (uint8_t)(cells[i] / 4);
            break;
        case NEW_ADDRESS:
            reading->new_address = (uint8_t)(cells[i] / 4);
            break;
        case IDENTITY:
            *offers++ = (uint8_t)(cells[i] - CELL_IDENTITY);
            break;
        case OFFERED:
            *offers++ = (uint8_t)(cells[i] / 2);
            *offers++ = cells[i] % 2;
            break;
        default:
            break;
        }
    }
}

struct model_told model_read(const uint16_t *cells, size_t length, uint8_t *offers, size_t lent)
{
    struct model_told told = { 0 };
    if (length > RECORD_CELLS) {
        told.refusal = 13;
        return told;
    }
    size_t place;
    struct layout layout = find_layout(cells, length, &place);
    if (layout.form == NULL) {
        told.refusal = 14;
        told.place = place;
        return told;
    }
    if (lent < layout.offers * OFFER_BYTES) {
        told.refusal = 15;
        return told;
    }
    told.reading.joining = layout.form->joining;
    told.reading.command = layout.form->command;
    told.reading.direct = layout.form->direct;
    told.reading.last = layout.form->last;
    told.reading.offers = layout.offers;
    take_out(cells, length, &layout, &told.reading, offers);
    return told;
}

/* ---- the writer */

/* The layout that a reading names, or form NULL. */
static struct layout named_layout(const struct model_reading *r)
{
    for (size_t f = 0; f < FORMS; f++) {
        const struct form *form = &forms[f];
        if (form->joining == r->joining && form->command == r->command && form->direct == r->direct
            && form->last == r->last && form->least <= r->offers && r->offers <= form->most)
            return make_layout(form, r->offers);
    }
    return (struct layout){ 0 };
}

/* Lays the cells of a layout out, at most 1,024; says how many it has, 1,025 if over. */
static size_t lay_out(const struct layout *layout, const struct model_reading *r, const uint8_t *offers,
                      uint16_t *cells)
{
    size_t n = 0;
    for (uint16_t mark; (mark = mark_at(layout, n)) != END; n++) {
        if (n == RECORD_CELLS)
            return RECORD_CELLS + 1;
        switch (mark) {
        case HEADER_YES:
            cells[n] = (uint16_t)(r->header * 4);
            break;
        case HEADER_NO:
            cells[n] = (uint16_t)(r->header * 4 + 1);
            break;
        case NEW_ADDRESS:
            cells[n] = data_cell((uint8_t)(r->new_address * 2));
            break;
        case IDENTITY:
            cells[n] = (uint16_t)(CELL_IDENTITY + *offers++);
            break;
        case OFFERED:
            cells[n] = (uint16_t)(offers[0] * 2 + (offers[1] != 0));
            offers += 2;
            break;
        default:
            cells[n] = mark;
            break;
        }
    }
    return n;
}

static bool same_reading(const struct model_reading *a, const struct model_reading *b)
{
    return a->joining == b->joining && a->command == b->command && a->header == b->header
        && a->new_address == b->new_address && a->direct == b->direct && a->last == b->last
        && a->offers == b->offers;
}

/* Whether the cells read as the reading and its offers. */
static bool reads_as(const uint16_t *cells, size_t length, const struct model_reading *r,
                     const uint8_t *offers)
{
    uint8_t read[MOST_OFFERS * OFFER_BYTES];
    struct model_told told = model_read(cells, length, read, sizeof read);
    return told.refusal == 0 && same_reading(&told.reading, r)
        && (r->offers == 0 || memcmp(read, offers, r->offers * OFFER_BYTES) == 0);
}

struct model_written model_write(struct model_reading reading, const uint8_t *offers, size_t offers_length,
                                 uint16_t *cells, size_t lent)
{
    struct model_written written = { 0 };
    uint16_t built[RECORD_CELLS];
    if (lent < RECORD_CELLS) {
        written.refusal = 11;
        return written;
    }
    written.refusal = 14;
    struct layout layout = named_layout(&reading);
    if (layout.form == NULL || offers_length < layout.offers * OFFER_BYTES)
        return written;
    size_t length = lay_out(&layout, &reading, offers, built);
    if (length > RECORD_CELLS || !reads_as(built, length, &reading, offers))
        return written;
    memcpy(cells, built, length * sizeof *cells);
    written.refusal = 0;
    written.wrote = length;
    return written;
}
