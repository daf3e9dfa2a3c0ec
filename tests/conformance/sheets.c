/*
 * sheets.c: plays a stream of sheets from standard input through rack_sheet_run and prints a line for each.
 *
 * The stream has for each sheet: how many bytes are lent for the listing (2 bytes, high first), the sheet's
 * length (2), its bytes. The line is `refused N length L bytes B`, where B is all of the lent bytes up to the
 * last one that is not 255, which they are filled with before: as they are if they can be printed, the others
 * as a backslash and two hex digits. Each buffer has guard bytes before it and behind it; one that changes,
 * or a sheet that does, ends the program.
 *
 * It is linked with the library, or with model_rack.c. Under the address sanitizer each sheet is played a
 * second time from blocks of just its size. The model is compiled with the sanitizer, so that a byte which it
 * reads behind an end is seen. The library is not: its writes are watched by the guard bytes, its reads only
 * by the sanitizer's own memcpy and the like, and by the second time, which must come to the same. In a
 * program without the sanitizer the guard bytes are all that watches.
 */
#include <stdbool.h>
#include <stdint.h>
#include <stdio.h>
#include <stdlib.h>
#include <string.h>

#include "rack.h"

enum { GUARD = 64, GUARD_BYTE = 0xA5, FILL = 255, ROOM = 65536 };

/* Whether the address sanitizer looks on; one compiler says so by a name, another has to be asked. */
#if defined(__SANITIZE_ADDRESS__)
#define LOOKED_ON 1
#elif defined(__has_feature)
#if __has_feature(address_sanitizer)
#define LOOKED_ON 1
#endif
#endif
#if defined(LOOKED_ON)
enum { TWICE = 1 };
#else
enum { TWICE = 0 };
#endif

static uint8_t sheet_room[GUARD + ROOM + GUARD], listing_room[GUARD + ROOM + GUARD], read_room[ROOM];
static unsigned long sheets;

static void fail(const char *what)
{
    fflush(stdout);
    fprintf(stderr, "sheets: sheet %lu: %s\n", sheets, what);
    exit(4);
}

/* Guard bytes around so many bytes; and whether they are still there. */
static void guard(uint8_t *room, size_t length)
{
    memset(room, GUARD_BYTE, GUARD);
    memset(room + GUARD + length, GUARD_BYTE, GUARD);
}

static bool guarded(const uint8_t *room, size_t length)
{
    for (size_t place = 0; place < GUARD; place++) {
        if (room[place] != GUARD_BYTE || room[GUARD + length + place] != GUARD_BYTE) {
            return false;
        }
    }
    return true;
}

/* Plays the sheet between guard bytes; the lent bytes are behind the first guard of listing_room. */
static uint32_t play(const uint8_t *sheet, size_t length, size_t lent)
{
    uint8_t *given = sheet_room + GUARD, *listing = listing_room + GUARD;
    uint32_t answer;
    guard(sheet_room, length);
    guard(listing_room, lent);
    memcpy(given, sheet, length);
    memset(listing, FILL, lent);
    answer = rack_sheet_run(given, length, listing, lent);
    if (!guarded(sheet_room, length) || !guarded(listing_room, lent)) {
        fail("a byte outside a buffer has changed");
    }
    if (memcmp(given, sheet, length) != 0) {
        fail("the sheet has changed");
    }
    return answer;
}

/* A block of so many bytes; of one where it should have none, for a pointer is never null. */
static uint8_t *block(size_t length)
{
    uint8_t *bytes = malloc(length + !length);
    if (bytes == NULL) {
        fail("no memory");
    }
    return bytes;
}

/* Plays it again from blocks of just its size; it must come to the same. */
static void play_again(const uint8_t *sheet, size_t length, size_t lent, uint32_t answer)
{
    uint8_t *given = block(length), *listing = block(lent);
    memcpy(given, sheet, length);
    memset(listing, FILL, lent);
    if (rack_sheet_run(given, length, listing, lent) != answer
        || memcmp(listing, listing_room + GUARD, lent) != 0) {
        fail("a second time comes to something else");
    }
    free(given);
    free(listing);
}

static void print(uint32_t answer, size_t lent)
{
    const uint8_t *listing = listing_room + GUARD;
    while (lent > 0 && listing[lent - 1] == FILL) {
        lent--;
    }
    printf("refused %lu length %lu bytes ", (unsigned long)(answer / 65536), (unsigned long)(answer % 65536));
    for (size_t place = 0; place < lent; place++) {
        if (listing[place] >= ' ' && listing[place] < 127 && listing[place] != '\\') {
            putchar(listing[place]);
        } else {
            printf("\\%02X", listing[place]);
        }
    }
    putchar('\n');
}

/* A number of two bytes; whether the stream goes on. */
static bool next(size_t *number)
{
    const int high = getchar();
    if (high == EOF) {
        return false;
    }
    const int low = getchar();
    if (low == EOF) {
        fail("the stream breaks off");
    }
    *number = (size_t)high * 256 + (size_t)low;
    return true;
}

int main(void)
{
    size_t lent, length;
    while (next(&lent)) {
        if (!next(&length) || fread(read_room, 1, length, stdin) != length) {
            fail("the stream breaks off");
        }
        const uint32_t answer = play(read_room, length, lent);
        if (TWICE) {
            play_again(read_room, length, lent, answer);
        }
        print(answer, lent);
        sheets++;
    }
    if (ferror(stdin) != 0 || fflush(stdout) != 0) {
        fail("reading or writing");
    }
    return 0;
}
