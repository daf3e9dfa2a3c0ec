/* calls.c: a script taken apart into its calls. */
#include "calls.h"

#include <stdio.h>
#include <stdlib.h>
#include <string.h>

#include "script.h"

enum { MACHINE = 516 }; /* bytes of a call m */

static void fail(const char *path)
{
    perror(path);
    exit(2);
}

struct bytes file_bytes(const char *path)
{
    struct bytes bytes = { NULL, 0 };
    size_t room = 1 << 16, got;
    FILE *file = fopen(path, "rb");
    if (file == NULL) {
        fail(path);
    }
    do {
        room *= 2;
        bytes.at = realloc(bytes.at, room + 1);
        if (bytes.at == NULL) {
            fail(path);
        }
        got = fread(bytes.at + bytes.length, 1, room - bytes.length, file);
        bytes.length += got;
    } while (bytes.length == room);
    if (ferror(file) != 0) {
        fail(path);
    }
    fclose(file);
    bytes.at[bytes.length] = 0;
    return bytes;
}

char *next_line(struct bytes text, size_t *place)
{
    char *line = (char *)text.at + *place;
    if (*place >= text.length) {
        return NULL;
    }
    char *end = memchr(line, '\n', text.length - *place);
    if (end == NULL) {
        *place = text.length;
    } else {
        *end = '\0';
        *place = (size_t)(end - (char *)text.at) + 1;
    }
    return line;
}

uint64_t number_at(struct bytes script, size_t place, size_t bytes)
{
    uint64_t number = 0;
    for (size_t byte = 0; byte < bytes; byte++) {
        number = number * 256 + (place + byte < script.length ? script.at[place + byte] : 0);
    }
    return number;
}

/* The length that a call asks for, if all its numbers are there; 0 for no call. */
static size_t asked_length(struct bytes script, size_t at)
{
    const size_t lent = (size_t)number_at(script, at + 1, 2);
    const size_t second = (size_t)number_at(script, at + 3, 2);
    const size_t flips = (size_t)number_at(script, at + 3, 1);
    const size_t boards = (size_t)number_at(script, at + 4 + flips, 1);
    const bool good = lent <= LENT_MOST;
    switch (script.at[at]) {
    case 's': return 1 + 2 + (size_t)number_at(script, at + 2, 1) + 4;
    case 't': return 1 + 2 + (size_t)number_at(script, at + 2, 1) + 5;
    case 'b': return good ? 10 : 0;
    case 'a': return good ? 4 : 0;
    case 'i': return good ? 4 + (size_t)number_at(script, at + 3, 1) : 0;
    case 'g': return good ? 3 : 0;
    case 'j': return good ? 4 : 0;
    case 'r':
    case 'q': return 5;
    case 'm': return number_at(script, at + 22, 1) <= 5 ? MACHINE : 0;
    case 'n': return good && boards <= BOARDS_MOST ? 5 + flips + 9 * boards : 0;
    case 'd': return good && second <= CELLS_MOST ? 5 + 2 * second : 0;
    case 'w':
        return good && number_at(script, at + 3, 1) <= 2 && number_at(script, at + 4, 1) <= 6
            ? 12 + (size_t)number_at(script, at + 10, 2) : 0;
    default: return 0;
    }
}

size_t call_length(struct bytes script, size_t place)
{
    const size_t most = script.length < SCRIPT_MOST ? script.length : SCRIPT_MOST;
    if (place >= most) {
        return 0;
    }
    const size_t length = asked_length(script, place);
    return length <= most - place ? length : 0;
}
