/* Checks messages of the Blank group and prints the barcode of each one that is accepted:
 *
 *     check TABLE MESSAGE..
 *     check --under STORE CUSTOMER TABLE MESSAGE..
 *
 * The second form reads them under a customer's settings: what its stations leave in unused bytes is no fault then.
 * `make examples` builds it and runs it on samples/. A refused message hands out nothing but its fault's number and place,
 * whichever question is asked. */
#include "blink_native.h"

#include <inttypes.h>
#include <stdio.h>
#include <stdlib.h>
#include <string.h>

enum { BARCODE = 0 };                   /* Blank's first field: fields count from 0 */
enum { LIMIT = BLINK_LONGEST_MESSAGE }; /* no table is longer either, nor is a store here */

/* A settings store, and whose messages are read. An empty store ignores nothing. */
typedef struct {
    uint8_t store[LIMIT + 1];
    size_t length;
    uint16_t customer;
} Settings;

/* Reads a file of at most LIMIT bytes; a longer one is cut after LIMIT + 1, which every question refuses. */
static int load(const char *name, uint8_t bytes[LIMIT + 1], size_t *length) {
    FILE *file = fopen(name, "rb");
    if (file == NULL) {
        perror(name);
        return 0;
    }
    *length = fread(bytes, 1, LIMIT + 1, file);
    int failed = ferror(file);
    if (failed) {
        perror(name);
    }
    fclose(file);
    return !failed;
}

/* Says that something is refused, and why. */
static void refuse(const char *name, const char *what, uint32_t number, uint64_t place) {
    uint8_t words[256];
    size_t length = blink_fault_words(number, words, sizeof words);
    printf("%s: %s, fault %" PRIu32 " at byte %" PRIu64 ": %.*s\n", name, what, number, place, (int)length, (char *)words);
}

static void check(const char *name, const uint8_t *table, size_t table_length, const Settings *under,
                  const uint8_t *message, size_t message_length) {
    static uint8_t scratch[LIMIT];

    BlinkVerdict verdict =
        blink_check_message(table, table_length, under->store, under->length, under->customer,
                            message, message_length, scratch, sizeof scratch);
    if (verdict.number == 0) {
        printf("%s: accepted\n", name);
    } else {
        refuse(name, "refused", verdict.number, verdict.place);
    }

    /* It makes every check itself, so it may be asked first. */
    BlinkPart barcode =
        blink_read_bytes(table, table_length, under->store, under->length, under->customer,
                         message, message_length, scratch, sizeof scratch, BARCODE, 0);
    if (barcode.number == 0) {
        printf("%s: barcode ", name);
        fwrite(message + barcode.offset, 1, barcode.length, stdout);
        putchar('\n');
    } else {
        refuse(name, "no barcode", barcode.number, barcode.place);
    }
}

/* Says why a table or a store is refused, if it is. */
static int passes(const char *name, BlinkVerdict verdict) {
    if (verdict.number != 0) {
        refuse(name, "refused", verdict.number, verdict.place);
    }
    return verdict.number == 0;
}

static int load_settings(const char *name, const char *customer, Settings *under) {
    char *end;
    unsigned long number = strtoul(customer, &end, 10);
    if (*customer == '\0' || *end != '\0' || number > UINT16_MAX) {
        fprintf(stderr, "%s: no customer's number\n", customer);
        return 0;
    }
    under->customer = (uint16_t)number;
    return load(name, under->store, &under->length) && passes(name, blink_check_store(under->store, under->length));
}

int main(int count, char **names) {
    static Settings under;
    static uint8_t table[LIMIT + 1];
    static uint8_t message[LIMIT + 1];
    size_t table_length;
    size_t message_length;
    int first = 1;

    if (blink_version() != BLINK_VERSION) {
        fprintf(stderr, "%s: the library is not of the header's version\n", names[0]);
        return 1;
    }
    if (count > 3 && strcmp(names[1], "--under") == 0) {
        if (!load_settings(names[2], names[3], &under)) {
            return 1;
        }
        first = 4;
    }
    if (count < first + 2) {
        fprintf(stderr, "usage: %s [--under STORE CUSTOMER] TABLE MESSAGE..\n", names[0]);
        return 2;
    }
    if (!load(names[first], table, &table_length) ||
        !passes(names[first], blink_check_table(table, table_length))) {
        return 1;
    }
    for (int i = first + 1; i < count; i++) {
        if (!load(names[i], message, &message_length)) {
            return 1;
        }
        check(names[i], table, table_length, &under, message, message_length);
    }
    return 0;
}
