/* Reads a tape, messages end to end, and says which of them are refused and how many are accepted:
 *
 *     tape TABLE TAPE..
 *
 * `make examples` builds it and runs it on samples/. */
#include "blink_native.h"
#include "tapes.h"

static void read_tape(const char *name, const File *table, const File *tape) {
    static uint8_t scratch[BLINK_LONGEST_MESSAGE];
    uint64_t accepted = 0;
    uint64_t at = 0;

    for (;;) {
        BlinkStep step = blink_next_message(table->bytes, table->length, NULL, 0, 0, /* no settings */
                                            tape->bytes, tape->length, at, scratch, sizeof scratch);
        if (step.ended) {
            break;
        }
        if (step.number == 0) {
            accepted++; /* the message: step.length bytes from tape->bytes + step.offset */
        } else {
            refuse(name, at, step.number, step.place);
        }
        at = step.next;
    }
    printf("%s: %" PRIu64 " accepted\n", name, accepted);
}

int main(int count, char **names) {
    File table;

    if (blink_version() != BLINK_VERSION) {
        fprintf(stderr, "%s: the library is not of the header's version\n", names[0]);
        return 1;
    }
    if (count < 3) {
        fprintf(stderr, "usage: %s TABLE TAPE..\n", names[0]);
        return 2;
    }
    int good = load(names[1], &table);
    for (int i = 2; good && i < count; i++) {
        File tape;
        good = load(names[i], &tape);
        if (good) {
            read_tape(names[i], &table, &tape);
        }
        free(tape.bytes);
    }
    free(table.bytes);
    return !good;
}
