/* Reads tapes, messages end to end, enters each good blank into a ledger, and writes the ledger's lines into a file:
 *
 *     ledger LEDGER TABLE TAPE..
 *
 * `make examples` builds it and runs it on samples/. A refused message leaves every byte of the ledger as it was. */
#include "blink_native.h"
#include "tapes.h"

enum { BLANK = 1 };      /* the type id of the blanks' group */
enum { LINES = 100000 }; /* room for a shift */

static uint8_t ledger[LINES * BLINK_LINE_LENGTH];

/* Enters a tape's blanks behind the ledger's lines, and answers how far it is filled then. */
static uint64_t enter_tape(const char *name, const File *table, const File *tape, uint64_t fill) {
    static uint8_t scratch[BLINK_LONGEST_MESSAGE];
    uint64_t at = 0;

    for (;;) {
        BlinkStep step = blink_next_message(table->bytes, table->length, NULL, 0, 0, /* no settings */
                                            tape->bytes, tape->length, at, scratch, sizeof scratch);
        if (step.ended) {
            return fill;
        }
        if (step.number != 0) {
            refuse(name, at, step.number, step.place);
        } else {
            BlinkWritten line = blink_add_line(table->bytes, table->length, NULL, 0, 0,
                                               tape->bytes + step.offset, step.length, scratch, sizeof scratch,
                                               BLANK, ledger, sizeof ledger, fill);
            if (line.number != 0) {
                refuse(name, at, line.number, line.place);
            } else {
                fill = line.length;
            }
        }
        at = step.next;
    }
}

/* Prints the barcode of each line. */
static void print_lines(uint64_t fill) {
    for (uint64_t at = 0; at < fill; at += BLINK_LINE_LENGTH) {
        printf("%.*s\n", (int)ledger[at + 2], (char *)ledger + at + 3);
    }
}

static int save(const char *name, uint64_t fill) {
    FILE *stream = fopen(name, "wb");
    int saved = stream != NULL && fwrite(ledger, 1, fill, stream) == fill;
    if (stream != NULL && fclose(stream) != 0) {
        saved = 0;
    }
    if (!saved) {
        perror(name);
    }
    return saved;
}

int main(int count, char **names) {
    File table;
    uint64_t fill = 0;

    if (blink_version() != BLINK_VERSION) {
        fprintf(stderr, "%s: the library is not of the header's version\n", names[0]);
        return 1;
    }
    if (count < 4) {
        fprintf(stderr, "usage: %s LEDGER TABLE TAPE..\n", names[0]);
        return 2;
    }
    int good = load(names[2], &table);
    for (int i = 3; good && i < count; i++) {
        File tape;
        good = load(names[i], &tape);
        if (good) {
            fill = enter_tape(names[i], &table, &tape, fill);
        }
        free(tape.bytes);
    }
    free(table.bytes);
    if (good) {
        print_lines(fill);
        good = save(names[1], fill);
        printf("%s: %" PRIu64 " lines\n", names[1], fill / BLINK_LINE_LENGTH);
    }
    return !good;
}
