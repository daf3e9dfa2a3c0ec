/* calls.h: a script taken apart into its calls; and files, whole and by lines. */
#ifndef CALLS_H
#define CALLS_H

#include <stdbool.h>
#include <stddef.h>
#include <stdint.h>

struct bytes {
    uint8_t *at; /* a zero byte stands behind them */
    size_t length;
};

/* The whole of a file. */
struct bytes file_bytes(const char *path);

/*
 * The next line of a text from this place on, without its end, which becomes a zero byte; null behind the
 * last.
 */
char *next_line(struct bytes text, size_t *place);

/*
 * The length of the call at a place of a script. 0 if there is none: a letter that is none, a number that
 * makes it no call, an end inside of it.
 */
size_t call_length(struct bytes script, size_t place);

/* A number of the script, high byte first. */
uint64_t number_at(struct bytes script, size_t place, size_t bytes);

#endif
