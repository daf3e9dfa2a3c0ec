/* play.c: reads a script of calls from standard input and prints a line for each, as played by the model. */
#include <inttypes.h>
#include <stdio.h>
#include <stdlib.h>
#include <string.h>

#include "model.h"
#include "same.h"

enum {
    SCRIPT_BYTES = 262144,
    MOST_LENT = 1024,
    MOST_CELLS = 1100,
    MOST_BOARDS = 40,
    GUARD = 16,
    GUARD_BYTE = 0xA5,
    OUTPUT_BYTES = 1 << 16
};

static void fail(int status, const char *words)
{
    fflush(stdout);
    fprintf(stderr, "%s\n", words);
    exit(status);
}

static void *allocate(size_t size)
{
    void *p = malloc(size);
    if (p == NULL && size > 0)
        fail(5, "no memory");
    return p;
}

/* ---- the script */

struct script {
    const uint8_t *bytes;
    size_t length, next;
    bool bad; /* it ended inside the call, or the call is none */
};

static const uint8_t *take_bytes(struct script *s, size_t n)
{
    if (s->bad || s->length - s->next < n) {
        s->bad = true;
        return NULL;
    }
    s->next += n;
    return s->bytes + s->next - n;
}

/* A number of n bytes, high byte first; 0 if the script is bad. */
static uint64_t take(struct script *s, size_t n)
{
    const uint8_t *p = take_bytes(s, n);
    uint64_t number = 0;
    for (size_t i = 0; p != NULL && i < n; i++)
        number = number << 8 | p[i];
    return number;
}

/* A number of n bytes that may be at most so much. */
static uint64_t take_most(struct script *s, size_t n, uint64_t most)
{
    uint64_t number = take(s, n);
    if (number > most)
        s->bad = true;
    return number;
}

static uint8_t take_byte(struct script *s)
{
    return (uint8_t)take(s, 1);
}

static size_t take_lent(struct script *s)
{
    return (size_t)take_most(s, 2, MOST_LENT);
}

/* n bytes of the script in memory of just that size, so that reading past them shows. */
static uint8_t *take_copy(struct script *s, size_t n)
{
    const uint8_t *p = take_bytes(s, n);
    uint8_t *copy = allocate(p == NULL ? 0 : n);
    if (p != NULL && n > 0)
        memcpy(copy, p, n);
    return copy;
}

/* ---- lent buffers with guards before and behind */

struct lent {
    uint8_t *whole;
    size_t size;
};

static struct lent lend(size_t size)
{
    struct lent l = { allocate(size + 2 * GUARD), size };
    memset(l.whole, GUARD_BYTE, size + 2 * GUARD);
    memset(l.whole + GUARD, 255, size);
    return l;
}

static struct lent lend_cells(size_t count)
{
    return lend(count * sizeof(uint16_t));
}

static void *inside(struct lent l)
{
    return l.whole + GUARD;
}

static void check_guards(struct lent l)
{
    for (size_t i = 0; i < GUARD; i++)
        if (l.whole[i] != GUARD_BYTE || l.whole[GUARD + l.size + i] != GUARD_BYTE)
            fail(4, "a call wrote outside of its buffer");
}

/* ---- printing */

/* All lent cells up to the last one that is not 65,535. */
static void print_cells(struct lent l)
{
    const uint16_t *cells = inside(l);
    size_t n = l.size / sizeof *cells;
    while (n > 0 && cells[n - 1] == 65535)
        n--;
    printf(" cells");
    for (size_t i = 0; i < n; i++)
        printf(" %u", (unsigned)cells[i]);
}

static void print_hex(const uint8_t *bytes, size_t n)
{
    for (size_t i = 0; i < n; i++)
        printf("%02X", (unsigned)bytes[i]);
}

/* All lent bytes up to the last one that is not 255; - if none. */
static void print_bytes(struct lent l)
{
    const uint8_t *bytes = inside(l);
    size_t n = l.size;
    while (n > 0 && bytes[n - 1] == 255)
        n--;
    printf(" bytes %s", n == 0 ? "-" : "");
    print_hex(bytes, n);
}

static bool is_dirty(const struct model_row *r)
{
    return r->address == 0 && (r->ticket != 0 || r->unknown || r->identity != 0 || r->from_static != 0);
}

static void print_rows(const struct model_row *rows)
{
    bool dirty = false;
    printf(" rows");
    for (size_t i = 0; i < MODEL_ROWS; i++) {
        const struct model_row *r = &rows[i];
        if (r->address != 0)
            printf(" %u:%" PRIu32 ":%d:%016" PRIX64 ":%u", (unsigned)r->address, r->ticket, r->unknown,
                   r->identity, (unsigned)r->from_static);
        dirty = dirty || is_dirty(r);
    }
    if (dirty)
        printf(" dirty");
}

static void print_machine(const struct model_machine *m)
{
    printf(" machine flags %u legacy ", (unsigned)m->facts.flags);
    print_hex(m->facts.legacy, MODEL_LEGACY);
    printf(" last %" PRIu32 " moment %u choice %u asked %u wanted %u", m->facts.last, (unsigned)m->moment,
           (unsigned)m->choice, (unsigned)m->asked, (unsigned)m->wanted);
    printf(" identity %016" PRIX64 " offered %u refusals %u", m->identity, (unsigned)m->offered,
           (unsigned)m->refusals);
    print_rows(m->rows);
    printf("\n");
}

/* The line of a step; its machine is the script's machine from here on. */
static void print_step(struct model_machine *m, const struct model_step *step, struct lent l)
{
    check_guards(l);
    *m = step->machine;
    printf("refused %u wrote %zu", (unsigned)step->refusal, step->wrote);
    print_cells(l);
    print_machine(m);
    free(l.whole);
}

/* ---- the calls */

static void play_start(struct script *s, struct model_machine *m)
{
    uint8_t flags = take_byte(s);
    size_t n = take_byte(s);
    uint8_t *legacy = take_copy(s, n);
    uint32_t last = (uint32_t)take(s, 4);
    if (!s->bad) {
        struct model_step step = model_start(flags, legacy, n, last);
        print_step(m, &step, lend(0));
    }
    free(legacy);
}

static void play_begin(struct script *s, struct model_machine *m)
{
    size_t lent = take_lent(s);
    uint8_t choice = take_byte(s), from_static = take_byte(s), address = take_byte(s);
    uint32_t ticket = (uint32_t)take(s, 4);
    if (s->bad)
        return;
    struct lent l = lend_cells(lent);
    struct model_step step = model_begin(*m, choice, from_static, address, ticket, inside(l), lent);
    print_step(m, &step, l);
}

static void play_answer(struct script *s, struct model_machine *m)
{
    size_t lent = take_lent(s);
    bool answered = take_byte(s) != 0;
    if (s->bad)
        return;
    struct lent l = lend_cells(lent);
    struct model_step step = model_answer(*m, answered, inside(l), lent);
    print_step(m, &step, l);
}

static void play_identity(struct script *s, struct model_machine *m)
{
    size_t lent = take_lent(s), n = take_byte(s);
    uint8_t *bytes = take_copy(s, n);
    if (!s->bad) {
        struct lent l = lend_cells(lent);
        struct model_step step = model_identity(*m, bytes, n, inside(l), lent);
        print_step(m, &step, l);
    }
    free(bytes);
}

static void play_give_up(struct script *s, struct model_machine *m)
{
    size_t lent = take_lent(s);
    if (s->bad)
        return;
    struct lent l = lend_cells(lent);
    struct model_step step = model_give_up(*m, inside(l), lent);
    print_step(m, &step, l);
}

static void play_join(struct script *s, struct model_machine *m)
{
    size_t lent = take_lent(s);
    uint8_t choice = take_byte(s);
    if (s->bad)
        return;
    struct lent l = lend_cells(lent);
    struct model_step step = model_join(*m, choice, inside(l), lent);
    print_step(m, &step, l);
}

static void play_retire(struct script *s, struct model_machine *m)
{
    uint32_t ticket = (uint32_t)take(s, 4);
    if (s->bad)
        return;
    struct model_step step = model_retire(*m, ticket);
    print_step(m, &step, lend(0));
}

static void play_ask(struct script *s, const struct model_machine *m)
{
    uint32_t ticket = (uint32_t)take(s, 4);
    if (s->bad)
        return;
    struct model_ticket told = model_ask(*m, ticket);
    printf("refused %u address %u\n", (unsigned)told.refusal, (unsigned)told.address);
}

static void play_slot_test(struct script *s)
{
    uint8_t flags = take_byte(s);
    size_t n = take_byte(s);
    uint8_t *legacy = take_copy(s, n);
    uint32_t last = (uint32_t)take(s, 4);
    uint8_t address = take_byte(s);
    if (!s->bad) {
        struct model_slot slot = model_slot_test(flags, legacy, n, last, address);
        printf("refused %u open %d\n", (unsigned)slot.refusal, slot.open);
    }
    free(legacy);
}

static void take_row(struct script *s, struct model_row *row)
{
    row->address = take_byte(s);
    row->ticket = (uint32_t)take(s, 4);
    row->unknown = take_byte(s) != 0;
    row->identity = take(s, 8);
    row->from_static = take_byte(s);
}

/* A hand-made machine: no call, but its line. */
static void play_machine(struct script *s, struct model_machine *m)
{
    struct model_step step = { 0 };
    struct model_machine *made = &step.machine;
    made->facts.flags = take_byte(s);
    for (size_t i = 0; i < MODEL_LEGACY; i++)
        made->facts.legacy[i] = take_byte(s);
    made->facts.last = (uint32_t)take(s, 4);
    made->moment = (uint8_t)take_most(s, 1, MODEL_DIRECT);
    made->choice = take_byte(s);
    made->asked = take_byte(s);
    made->wanted = take_byte(s);
    made->identity = take(s, 8);
    made->offered = take_byte(s);
    made->refusals = take_byte(s);
    for (size_t i = 0; i < MODEL_ROWS; i++)
        take_row(s, &made->rows[i]);
    if (!s->bad)
        print_step(m, &step, lend(0));
}

/* ---- the bench: on the wire and by the plain rule, each with its own boards and cells */

struct played {
    struct model_run run;
    struct lent boards, cells;
};

typedef struct model_run run_call(struct model_machine m, struct model_board *boards, size_t count,
                                  const uint8_t *flips, size_t flips_length, uint16_t *cells, size_t lent);

static struct played play_run(run_call *call, const struct model_machine *m, const struct model_board *boards,
                              size_t count, const uint8_t *flips, size_t flips_length, size_t lent)
{
    struct played p = { .boards = lend(count * sizeof *boards), .cells = lend_cells(lent) };
    struct model_board *own = inside(p.boards);
    for (size_t i = 0; i < count; i++)
        own[i] = boards[i];
    p.run = call(*m, own, count, flips, flips_length, inside(p.cells), lent);
    check_guards(p.boards);
    check_guards(p.cells);
    return p;
}

static bool same_played(const struct played *a, const struct played *b, size_t count)
{
    return a->run.refusal == b->run.refusal && a->run.wrote == b->run.wrote && a->run.ending == b->run.ending
        && a->run.rounds == b->run.rounds && a->run.clocks == b->run.clocks
        && same_machine(&a->run.machine, &b->run.machine)
        && same_boards(inside(a->boards), inside(b->boards), count)
        && memcmp(inside(a->cells), inside(b->cells), a->cells.size) == 0;
}

static void print_run(const struct played *p, size_t count)
{
    const struct model_board *boards = inside(p->boards);
    printf("refused %u wrote %zu", (unsigned)p->run.refusal, p->run.wrote);
    print_cells(p->cells);
    printf(" end %u rounds %zu clocks %zu boards", (unsigned)p->run.ending, p->run.rounds, p->run.clocks);
    for (size_t i = 0; i < count; i++)
        printf(" %016" PRIX64 ":%u", boards[i].identity, (unsigned)boards[i].address);
    print_machine(&p->run.machine);
}

static void free_played(struct played *p)
{
    free(p->boards.whole);
    free(p->cells.whole);
}

static void play_bench(struct script *s, struct model_machine *m)
{
    struct model_board boards[MOST_BOARDS];
    size_t lent = take_lent(s), f = take_byte(s);
    uint8_t *flips = take_copy(s, f);
    size_t count = (size_t)take_most(s, 1, MOST_BOARDS);
    for (size_t i = 0; !s->bad && i < count; i++) {
        boards[i].identity = take(s, 8);
        boards[i].address = take_byte(s);
    }
    if (!s->bad) {
        struct played wire = play_run(model_run_wire, m, boards, count, flips, f, lent);
        struct played plain = play_run(model_run_plain, m, boards, count, flips, f, lent);
        if (!same_played(&wire, &plain, count))
            fail(3, "wire and plain differ");
        print_run(&wire, count);
        *m = wire.run.machine;
        free_played(&wire);
        free_played(&plain);
    }
    free(flips);
}

/* ---- records */

static void print_told(const struct model_told *told, struct lent l)
{
    const struct model_reading *r = &told->reading;
    check_guards(l);
    printf("refused %u place %zu joining %u command %u", (unsigned)told->refusal, told->place,
           (unsigned)r->joining, (unsigned)r->command);
    printf(" header %u new %u direct %d last %d offers %zu", (unsigned)r->header, (unsigned)r->new_address,
           r->direct, r->last, r->offers);
    print_bytes(l);
    printf("\n");
    free(l.whole);
}

static void play_read(struct script *s)
{
    size_t lent = take_lent(s), n = (size_t)take_most(s, 2, MOST_CELLS);
    const uint8_t *bytes = take_bytes(s, 2 * n);
    if (s->bad)
        return;
    uint16_t *cells = allocate(n * sizeof *cells);
    for (size_t i = 0; i < n; i++)
        cells[i] = (uint16_t)(bytes[2 * i] << 8 | bytes[2 * i + 1]);
    struct lent l = lend(lent);
    struct model_told told = model_read(cells, n, inside(l), lent);
    print_told(&told, l);
    free(cells);
}

static void play_write(struct script *s)
{
    struct model_reading r;
    size_t lent = take_lent(s);
    r.joining = (uint8_t)take_most(s, 1, 2);
    r.command = (uint8_t)take_most(s, 1, 6);
    r.header = take_byte(s);
    r.new_address = take_byte(s);
    r.direct = take_byte(s) != 0;
    r.last = take_byte(s) != 0;
    r.offers = take_byte(s);
    size_t m = (size_t)take(s, 2);
    uint8_t *offers = take_copy(s, m);
    if (!s->bad) {
        struct lent l = lend_cells(lent);
        struct model_written written = model_write(r, offers, m, inside(l), lent);
        check_guards(l);
        printf("refused %u place %zu wrote %zu", (unsigned)written.refusal, written.place, written.wrote);
        print_cells(l);
        printf("\n");
        free(l.whole);
    }
    free(offers);
}

/* ---- the script, call by call */

static void play_call(struct script *s, struct model_machine *m)
{
    switch (take_byte(s)) {
    case 's':
        play_start(s, m);
        break;
    case 'b':
        play_begin(s, m);
        break;
    case 'a':
        play_answer(s, m);
        break;
    case 'i':
        play_identity(s, m);
        break;
    case 'g':
        play_give_up(s, m);
        break;
    case 'j':
        play_join(s, m);
        break;
    case 'r':
        play_retire(s, m);
        break;
    case 'q':
        play_ask(s, m);
        break;
    case 't':
        play_slot_test(s);
        break;
    case 'm':
        play_machine(s, m);
        break;
    case 'n':
        play_bench(s, m);
        break;
    case 'd':
        play_read(s);
        break;
    case 'w':
        play_write(s);
        break;
    default:
        s->bad = true;
        break;
    }
}

int main(void)
{
    static char output[OUTPUT_BYTES];
    setvbuf(stdout, output, _IOFBF, sizeof output);
    uint8_t *bytes = allocate(SCRIPT_BYTES + 1);
    size_t length = fread(bytes, 1, SCRIPT_BYTES + 1, stdin);
    struct script s = { bytes, length > SCRIPT_BYTES ? SCRIPT_BYTES : length, 0, false };
    struct model_machine m = model_start(0, NULL, 0, 0).machine;
    while (s.next < length) {
        size_t place = s.next;
        play_call(&s, &m);
        if (s.bad) {
            printf("bad script at %zu\n", place);
            break;
        }
    }
    free(bytes);
    return 0;
}
