/*
 * generate.c: writes scripts and sheets by chance.
 *
 *     generate scripts SEED COUNT FOLDER    COUNT scripts of all families: FOLDER/FAMILY-NN.script
 *     generate sheets SEED COUNT FOLDER     COUNT sheets: FOLDER/sheets-NN.sheets
 *
 * A file of scripts has one behind the other, each of which begins with s or m. Scripts that are none have a
 * file each. A file of sheets has for each how many bytes are lent (2 bytes), its length (2) and its bytes.
 * FOLDER/edits says of every edit of the hand-made machines what the model said to it.
 */
#include <errno.h>
#include <stdio.h>
#include <stdlib.h>
#include <string.h>

#include "chance.h"
#include "families.h"

/*
 * A file is closed when it has so many bytes (or sheets), so that there are enough files to play at the same
 * time.
 */
enum { FILE_BYTES = 262144, FILE_SHEETS = 2500 };

struct family {
    const char *name;
    uint32_t percent; /* of all scripts */
    void (*make)(struct script *script, size_t number);
};

static const struct family families[] = {
    { "runs", 15, make_runs },         { "handmade", 22, make_handmade }, { "walks", 33, make_walk },
    { "reads", 15, make_reads },       { "writes", 10, make_writes },     { "slots", 5, make_slots },
};

enum { FAMILIES = sizeof families / sizeof families[0], BAD_FAMILY = FAMILIES, SHEET_FAMILY };

static void fail(const char *what)
{
    fprintf(stderr, "generate: %s: %s\n", what, strerror(errno));
    exit(2);
}

static FILE *opened(const char *folder, const char *name, size_t number, const char *ending)
{
    char path[1000];
    snprintf(path, sizeof path, "%s/%s-%02lu.%s", folder, name, (unsigned long)number, ending);
    FILE *file = fopen(path, "wb");
    if (file == NULL) {
        fail(path);
    }
    return file;
}

static void written(FILE *file, const void *bytes, size_t length)
{
    if (fwrite(bytes, 1, length, file) != length) {
        fail("writing");
    }
}

static void closed(FILE *file)
{
    if (fclose(file) != 0) {
        fail("closing");
    }
}

/* All scripts of a family, in as many files as they need. */
static void write_family(uint64_t seed, size_t which, size_t count, const char *folder)
{
    static struct script script;
    size_t files = 0, bytes = 0;
    FILE *file = opened(folder, families[which].name, files, "script");
    for (size_t number = 0; number < count; number++) {
        chance_set(seed, which, number);
        script.length = 0;
        families[which].make(&script, number);
        if (bytes > 0 && bytes + script.length > FILE_BYTES) {
            closed(file);
            file = opened(folder, families[which].name, ++files, "script");
            bytes = 0;
        }
        written(file, script.bytes, script.length);
        bytes += script.length;
    }
    closed(file);
}

/* Scripts that are none, each in its file. */
static void write_bad(uint64_t seed, const char *folder)
{
    static uint8_t bytes[SCRIPT_MOST + 100];
    for (size_t number = 0; number < bad_scripts(); number++) {
        FILE *file = opened(folder, "bad", number, "script");
        chance_set(seed, BAD_FAMILY, number);
        written(file, bytes, make_bad(bytes, sizeof bytes, number));
        closed(file);
    }
}

static void write_scripts(uint64_t seed, size_t count, const char *folder)
{
    char path[1000];
    FILE *file;
    for (size_t which = 0; which < FAMILIES; which++) {
        write_family(seed, which, (count * families[which].percent + 99) / 100, folder);
    }
    write_bad(seed, folder);
    snprintf(path, sizeof path, "%s/edits", folder);
    file = fopen(path, "w");
    if (file == NULL) {
        fail(path);
    }
    tell_breaks(file);
    closed(file);
}

static void write_sheets(uint64_t seed, size_t count, const char *folder)
{
    static struct made_sheet made;
    FILE *file = NULL;
    for (size_t number = 0; number < count; number++) {
        if (number % FILE_SHEETS == 0) {
            if (file != NULL) {
                closed(file);
            }
            file = opened(folder, "sheets", number / FILE_SHEETS, "sheets");
        }
        chance_set(seed, SHEET_FAMILY, number);
        make_sheet(&made, number);
        const uint8_t head[] = { (uint8_t)(made.lent >> 8), (uint8_t)made.lent, (uint8_t)(made.length >> 8),
                                 (uint8_t)made.length };
        written(file, head, sizeof head);
        written(file, made.bytes, made.length);
    }
    if (file != NULL) {
        closed(file);
    }
}

int main(int words, char **word)
{
    if (words == 5 && strcmp(word[1], "scripts") == 0) {
        write_scripts(strtoull(word[2], NULL, 10), strtoul(word[3], NULL, 10), word[4]);
    } else if (words == 5 && strcmp(word[1], "sheets") == 0) {
        write_sheets(strtoull(word[2], NULL, 10), strtoul(word[3], NULL, 10), word[4]);
    } else {
        fputs("usage: generate scripts|sheets SEED COUNT FOLDER\n", stderr);
        return 2;
    }
    return 0;
}
