/*
 * The two calls of rack.h.
 *
 * example slots FLAGS [LEGACY ...]: which addresses a board may be given. FLAGS
 * is the bus's flag byte, in decimal; each LEGACY is the address of an I2C device
 * on the bus, in hex. Prints the open addresses and how many there are.
 *
 * example sheet <FILE: the run of a sheet. Prints its listing.
 *
 * Both print `refused N` instead where the call is refused.
 */
#include <stdio.h>
#include <stdlib.h>
#include <string.h>

#include "rack.h"

static int usage(void)
{
    fprintf(stderr, "usage: example slots FLAGS [LEGACY ...]\n       example sheet <FILE\n");
    return 2;
}

static int refused(uint16_t refusal)
{
    printf("refused %u\n", (unsigned)refusal);
    return 1;
}

static bool number(const char *text, int base, unsigned long most, unsigned long *out)
{
    char *end;
    *out = strtoul(text, &end, base);
    return text[0] >= '0' && *end == '\0' && *out <= most;
}

/* One open address, or the first and last of several in a row. */
static void print_run(unsigned first, unsigned last)
{
    if (first == last)
        printf("%02X ", first);
    else
        printf("%02X-%02X ", first, last);
}

static int print_slots(uint8_t flags, const uint8_t legacy[RACK_LEGACY_BYTES])
{
    unsigned count = 0; /* open addresses so far */
    unsigned run = 0;   /* of these, how many stand in a row up to here */

    for (unsigned address = 0; address < 128; address++) {
        struct rack_slot slot = rack_ask_slot(flags, legacy, RACK_LEGACY_BYTES, 0, (uint8_t)address);
        if (slot.refusal != RACK_DONE)
            return refused(slot.refusal);
        if (slot.open) {
            count++;
            run++;
        } else if (run > 0) {
            print_run(address - run, address - 1);
            run = 0;
        }
    }
    printf("(%u open)\n", count); /* 7Fh is never open, so no run is left */
    return 0;
}

static int slots(int words, char **word)
{
    uint8_t legacy[RACK_LEGACY_BYTES] = { 0 };
    unsigned long flags;

    if (words < 1 || !number(word[0], 10, 255, &flags))
        return usage();
    for (int i = 1; i < words; i++) {
        unsigned long address;
        if (!number(word[i], 16, 127, &address)) {
            fprintf(stderr, "example: %s is no address\n", word[i]);
            return 2;
        }
        legacy[address / 8] |= (uint8_t)(1u << address % 8);
    }
    return print_slots((uint8_t)flags, legacy);
}

static int sheet(void)
{
    uint8_t bytes[RACK_SHEET_BYTES + 1]; /* one more than a sheet has: a longer file is refused, not cut off */
    uint8_t listing[RACK_LISTING_BYTES];
    size_t length = fread(bytes, 1, sizeof bytes, stdin);

    if (ferror(stdin)) {
        perror("example");
        return 2;
    }
    struct rack_listing ran = rack_run_sheet(bytes, length, listing, sizeof listing);
    if (ran.refusal != RACK_DONE)
        return refused(ran.refusal);
    fwrite(listing, 1, ran.length, stdout);
    return 0;
}

int main(int argc, char **argv)
{
    if (argc >= 2 && strcmp(argv[1], "slots") == 0)
        return slots(argc - 2, argv + 2);
    if (argc == 2 && strcmp(argv[1], "sheet") == 0)
        return sheet();
    return usage();
}
