/* What the examples that read tapes share: whole files, and a fault in words. */
#ifndef TAPES_H
#define TAPES_H

#include "blink_native.h"

#include <inttypes.h>
#include <stdio.h>
#include <stdlib.h>

/* A file's bytes. */
typedef struct {
    uint8_t *bytes;
    size_t length;
} File;

/* Reads a file of any length into memory that grows with it. */
static int load(const char *name, File *file) {
    FILE *stream = fopen(name, "rb");
    size_t room = 0;
    size_t got = 1;

    file->bytes = NULL;
    file->length = 0;
    while (stream != NULL && got != 0) {
        if (file->length == room) {
            room = 2 * room + BLINK_LONGEST_MESSAGE;
            uint8_t *more = realloc(file->bytes, room);
            if (more == NULL) {
                break;
            }
            file->bytes = more;
        }
        got = fread(file->bytes + file->length, 1, room - file->length, stream);
        file->length += got;
    }
    int loaded = stream != NULL && got == 0 && !ferror(stream);
    if (!loaded) {
        perror(name);
    }
    if (stream != NULL) {
        fclose(stream);
    }
    return loaded;
}

/* Says why the message at a place of the tape is refused. */
static void refuse(const char *name, uint64_t at, uint32_t number, uint64_t place) {
    uint8_t words[256];
    size_t length = blink_fault_words(number, words, sizeof words);
    printf("%s: refused at %" PRIu64 ", fault %" PRIu32 " at byte %" PRIu64 ": %.*s\n", name, at, number, place, (int)length,
           (char *)words);
}

#endif
