/* Blink Native: the proved questions for C. Link with libblink_native.a or libblink_native.so: `make install` puts both and
 * a pkg-config file below a prefix, and without it `rt staticlib blink_native` writes target/staticlib/libblink_native.a.
 *
 * Slices: bytes pass as a pointer to the first one and their number. Where the number is 0 the pointer may be anything.
 *   A `const uint8_t *` is only read. A `uint8_t *` is a room lent to the question for the call; two parameters must not
 *   share a byte where one of them is such a room. No question keeps a pointer, allocates, calls the system or has state
 *   of its own: threads may ask at the same time, each with its own rooms.
 * Any bytes may be asked about: a table, message or sheet needs no check before a question, each question makes its own.
 * Tables: samples/README.md says how one is written. Its groups may store their widths (GW) or not (GR): questions about a
 *   message or a sheet have the same answers.
 *
 * Settings: each question about a message takes a settings store and the customer whose message it is. They say which of
 *   the faults 4, 6 and 8 are no faults in this customer's messages; the bytes that they are about reach no sheet and no
 *   reading. An empty store (NULL, 0) ignores nothing, and so does a customer that it does not know.
 *   A store is lent like other bytes: records of 9 bytes from its start on, zeros behind them. samples/README.md says how
 *   one is written, blink_add_settings adds a record. It is checked in every call, in time linear in its length.
 *
 * Tapes: messages end to end, of any length. blink_next_message reads one message after another, past those that are
 *   refused.
 *
 * Ledgers: lines of 64 bytes, one behind the other from the start of a buffer, whose fill says how many bytes of it are
 *   lines. blink_add_line adds the line of one message, or leaves every byte as it was.
 *
 * Answers: a struct by value. `number` is 0 exactly where nothing is refused; else it is the first fault's number and
 *   `place` its byte, counted from 0 at the start of the message, table, store or sheet.
 *
 * Scratch: working room, at least as long as the message (else fault 21); 65536 bytes are enough for every message.
 *   After faults 20, 21, 23 and 50 it is untouched, and where a tape ends or is cut. After every other answer its first bytes,
 *   as many as the message has, are zero, and the rest is untouched.
 * Other rooms: on success the first `length` bytes are written and the rest is untouched. On a refusal they are untouched,
 *   but for the sheet room of blink_rewrite, which says its own rule. Of a store and of a ledger, only what is added is written.
 *
 * Stack: a question takes less than 28 KiB, and less than 516 KiB with a store of more than 256 records. Measured, not
 *   proved: 26,863 bytes for a message to level 9 in static groups four deep, 10,127 for a table of 64 static groups, and
 *   525,719 for a store of 116,508 records (`make bench`). So a thread that asks wants a stack of 64 KiB, or of 640 KiB.
 *
 * Faults; blink_fault_words gives the words, and an enumeration below has a name for each:
 *  1 a group's size is under 12: too short for its type id and its extension offset
 *  2 no group of the table has this type id
 *  3 the extension offset leads outside the group's data area
 *  4 a byte of an absent field is not zero
 *  5 an offset leads outside the group's data area
 *  6 a byte of the data area that belongs to no value is not zero
 *  7 the count of an inline string or binary is over its capacity
 *  8 an unused byte of an inline string or binary is not zero
 *  9 a string is not valid UTF-8
 * 10 the enumeration has no symbol of this value
 * 11 a bool or a presence flag is neither 0 nor 1
 * 12 a time of day is 24 hours or more
 * 13 the items of a sequence run past the data area
 * 14 a group's size is too small for its fields
 * 20 the table is refused
 * 21 the scratch is shorter than the message
 * 22 the message is under 4 bytes long, or its length is not 4 plus its size
 * 23 the message is longer than 65536 bytes
 * 24 a group lies deeper than level 8
 * 25 a group of this type is not allowed here
 * 26 a value runs past the data area
 * 27 a value lies on a byte that another value has taken
 * 28 there is no such field, or no such item in it
 * 29 the field is absent
 * 30 the table is empty, longer than 65536 bytes, or not made of records of 16 bytes
 * 31 a mark is not the one due, GR and GW are mixed, a record is missing, a count is out of range, or a 65th enumeration or group
 * 32 a byte that must be zero is not, or a flag is neither 0 nor 1
 * 33 a type, size, reference or super group is out of range
 * 34 symbols do not rise, a type id comes twice, or no group has one
 * 35 a group is wider than 4096 bytes, its static groups nest deeper than 4, or a static group has no width
 * 36 a group's fields do not begin with those of its super group
 * 37 the width that a group stores is not its own
 * 40 the sheet ends inside a record
 * 41 a record's mark is not the one due
 * 42 the sheet is longer than 1048576 bytes
 * 43 bytes follow the end of the message's group
 * 44 an extension record says that it has no groups
 * 45 a group kept as unknown has a type id of the table
 * 46 the sheet is longer than its room
 * 47 the message is longer than its room or than 65536 bytes
 * 48 the field is of another kind: no number, or no bytes
 * 50 the settings store is damaged, has a flag that is neither 0 nor 1 or a version that does not rise, or the addition would make it so
 * 51 the settings store has no room for another record
 * 59 the customer has no settings of that version
 *
 * Places. The byte that the words name, and:
 *   of 1, 2, 14, 24 and 25 the group's start, but of blink_field_shape's 2 always 0; of 3 and 5 the offset;
 *   of 7 the count, of 9 the text's first byte, of 10 to 12 the value or the flag;
 *   of 13, 26 and 27 the value that the offset leads to, of 27 the later one;
 *   of 31 to 37 the record, or the table's length where a record or an id is missing;
 *   of 40, 41, 44 and 45 the record, and where a sheet is asked about, of 1, 2, 7, 9 to 12, 24 and 25 too;
 *   of 43 the first byte behind the record;
 *   of 50 the store's first record at fault, or what follows its last record; where an addition is refused by it, where
 *   the new record would stand;
 *   of 20 to 23, 28 to 30, 42, 46 to 48, 51, 54 to 56 and 59 always 0, but of 22 on a tape where the cut message starts
 *   on it. */
#ifndef BLINK_NATIVE_H
#define BLINK_NATIVE_H

#include <stddef.h>
#include <stdint.h>

#ifdef __cplusplus
extern "C" {
#endif

/* The version of this header; blink_version() is that of the library. */
#define BLINK_VERSION_MAJOR 0
#define BLINK_VERSION_MINOR 3
#define BLINK_VERSION_PATCH 0
#define BLINK_VERSION (BLINK_VERSION_MAJOR << 16 | BLINK_VERSION_MINOR << 8 | BLINK_VERSION_PATCH)

/* Limits, in bytes: a longer message is fault 23, table 30, sheet 42, barcode in a ledger 55. A sheet is at most
 * BLINK_SHEET_FACTOR times as long as its message. A ledger's line is always BLINK_LINE_LENGTH long. */
#define BLINK_LONGEST_MESSAGE 65536
#define BLINK_LONGEST_TABLE 65536
#define BLINK_LONGEST_SHEET 1048576
#define BLINK_SHEET_FACTOR 11
#define BLINK_LINE_LENGTH 64
#define BLINK_LONGEST_BARCODE 40

/* The faults' names. A good message meets BLINK_FAULT_FIELD_ABSENT too, where an optional field is read that it leaves out. */
enum {
    BLINK_NO_FAULT = 0,
    BLINK_FAULT_GROUP_SIZE = 1,
    BLINK_FAULT_TYPE_ID = 2,
    BLINK_FAULT_EXTENSION_OFFSET = 3,
    BLINK_FAULT_ABSENT_FIELD_BYTES = 4,
    BLINK_FAULT_OFFSET = 5,
    BLINK_FAULT_PAD_BYTES = 6,
    BLINK_FAULT_INLINE_COUNT = 7,
    BLINK_FAULT_UNUSED_BYTES = 8,
    BLINK_FAULT_UTF8 = 9,
    BLINK_FAULT_SYMBOL = 10,
    BLINK_FAULT_FLAG = 11,
    BLINK_FAULT_TIME_OF_DAY = 12,
    BLINK_FAULT_SEQUENCE_ITEMS = 13,
    BLINK_FAULT_GROUP_FIELDS = 14,
    BLINK_FAULT_TABLE = 20,
    BLINK_FAULT_SCRATCH = 21,
    BLINK_FAULT_MESSAGE_SIZE = 22,
    BLINK_FAULT_MESSAGE_TOO_LONG = 23,
    BLINK_FAULT_LEVEL = 24,
    BLINK_FAULT_GROUP_TYPE = 25,
    BLINK_FAULT_VALUE_PAST_END = 26,
    BLINK_FAULT_VALUES_OVERLAP = 27,
    BLINK_FAULT_NO_SUCH_FIELD = 28,
    BLINK_FAULT_FIELD_ABSENT = 29,
    BLINK_FAULT_TABLE_LENGTH = 30,
    BLINK_FAULT_TABLE_RECORDS = 31,
    BLINK_FAULT_TABLE_ZEROS = 32,
    BLINK_FAULT_TABLE_RANGE = 33,
    BLINK_FAULT_TABLE_NUMBERS = 34,
    BLINK_FAULT_TABLE_WIDTH = 35,
    BLINK_FAULT_TABLE_SUPER = 36,
    BLINK_FAULT_TABLE_STORED_WIDTH = 37,
    BLINK_FAULT_SHEET_CUT = 40,
    BLINK_FAULT_SHEET_MARK = 41,
    BLINK_FAULT_SHEET_TOO_LONG = 42,
    BLINK_FAULT_SHEET_REST = 43,
    BLINK_FAULT_SHEET_EMPTY_EXTENSION = 44,
    BLINK_FAULT_SHEET_KNOWN_GROUP = 45,
    BLINK_FAULT_SHEET_ROOM = 46,
    BLINK_FAULT_MESSAGE_ROOM = 47,
    BLINK_FAULT_FIELD_KIND = 48,
    BLINK_FAULT_STORE = 50,
    BLINK_FAULT_STORE_FULL = 51,
    BLINK_FAULT_LEDGER_GROUP = 54,
    BLINK_FAULT_BARCODE = 55,
    BLINK_FAULT_LEDGER_FULL = 56,
    BLINK_FAULT_NO_SETTINGS = 59
};

/* Whether it is accepted. */
typedef struct {
    uint32_t number; /* 0: accepted */
    uint64_t place;
} BlinkVerdict;

/* How many bytes were written at the start of the room; of a ledger, how many of its bytes are lines now. */
typedef struct {
    uint32_t number; /* 0: written */
    uint64_t place;
    uint64_t length; /* 0 on a refusal */
} BlinkWritten;

/* What `bits` of a BlinkNumber are. */
enum {
    BLINK_REFUSED = 0,  /* nothing: bits is 0 */
    BLINK_SIGNED = 1,   /* an int64_t, in two's complement */
    BLINK_UNSIGNED = 2, /* a uint64_t */
    BLINK_BOOL = 3,     /* 0 or 1 */
    BLINK_DECIMAL = 4,  /* the mantissa, an int64_t; the number is the mantissa times ten to `exponent` */
    BLINK_FLOAT = 5,    /* the bits of a double that is no NaN */
    BLINK_NAN = 6       /* the bits of a double that is a NaN */
};

/* A number. */
typedef struct {
    uint32_t number; /* 0: it was read */
    uint64_t place;
    uint32_t kind;    /* BLINK_SIGNED and so on; BLINK_REFUSED exactly where number is not 0 */
    int32_t exponent; /* of a decimal, -128 to 127; else 0 */
    uint64_t bits;
} BlinkNumber;

/* A part of the message: `length` bytes from `message + offset`. */
typedef struct {
    uint32_t number; /* 0: it is there, though perhaps empty */
    uint64_t place;
    uint64_t offset; /* 0 on a refusal */
    uint64_t length; /* 0 on a refusal */
} BlinkPart;

/* One version of a customer's settings: 1 where 4 (absent fields), 6 (pads) or 8 (unused inline bytes) is ignored. */
typedef struct {
    uint32_t number; /* 0: it was read */
    uint64_t place;
    uint32_t absent; /* 0 or 1, and 0 on a refusal; so too the next two */
    uint32_t pads;
    uint32_t unused;
} BlinkSettings;

/* One step along a tape. An accepted message is `length` bytes from `tape + offset`. */
typedef struct {
    uint32_t number; /* 0: the message is accepted, or the tape has ended */
    uint64_t place;  /* of 22 where the cut message starts on the tape; of others as in a BlinkVerdict */
    uint32_t ended;  /* 1: no bytes are left; else 0 */
    uint64_t offset; /* 0 on a refusal and at the end; so too the length */
    uint64_t length;
    uint64_t next; /* where on the tape to go on: behind the message */
} BlinkStep;

/* What a field of a group is. */
typedef struct {
    uint32_t number; /* 0: the group has such a field */
    uint64_t place;
    uint32_t type;     /* its type's number, 1 to 23, and 0 on a refusal; so too the next three */
    uint32_t optional; /* 1: it may be absent; else 0 */
    uint32_t sequence; /* 1: it is a sequence; else 0 */
    uint32_t size;     /* the size byte of its record: an inline capacity or a fixed length; else 0 */
} BlinkShape;

/* The library's version, as BLINK_VERSION is the header's: major << 16 | minor << 8 | patch. */
uint32_t blink_version(void);

/* Writes a fault's words, as above and without a line end, at the start of the room, as many bytes of them as fit; no 0 is
 * added. Answers how long the words are, whatever fits; 0 where no fault has the number. 256 bytes are enough for each. */
size_t blink_fault_words(uint32_t number, uint8_t *room, size_t room_length);

/* Is the schema table accepted? Faults 30 to 37. */
BlinkVerdict blink_check_table(const uint8_t *table, size_t table_length);

/* Does the settings store pass? Fault 50. */
BlinkVerdict blink_check_store(const uint8_t *store, size_t store_length);

/* Reads one version of a customer's settings; older ones stay readable. Faults 50, then 59. */
BlinkSettings blink_read_settings(const uint8_t *store, size_t store_length, uint16_t customer, uint16_t version);

/* Adds a version of a customer's settings, which governs its messages from then on. It must be above the customer's newest
 * one, and each flag 0 or 1, else fault 50; fewer than 9 free bytes are fault 51. On a refusal the store is untouched. */
BlinkVerdict blink_add_settings(uint8_t *store, size_t store_length, uint16_t customer, uint16_t version,
                                uint8_t absent, uint8_t pads, uint8_t unused);

/* Is the message accepted under the table and the customer's settings? Faults 20, 23, 21, 50, 22, then 1 to 14 and 24 to
 * 27. */
BlinkVerdict blink_check_message(const uint8_t *table, size_t table_length,
                                 const uint8_t *store, size_t store_length, uint16_t customer,
                                 const uint8_t *message, size_t message_length,
                                 uint8_t *scratch, size_t scratch_length);

/* Reads the message at the place `at` of a tape. Its size word leads past it, refused or not. Faults 20, then 22 if the
 * message is cut: 1 to 3 bytes are left, or its size passes the tape's end; these two end the tape, so `next` is its length.
 * Then 23, 21, 50, 1 to 14 and 24 to 27, as blink_check_message has them for the message's bytes alone. With no bytes left
 * nothing is refused: `ended` is 1, and `next` is `at`. A whole tape is read by
 *
 *     uint64_t at = 0;
 *     for (;;) {
 *         BlinkStep step = blink_next_message(table, table_length, NULL, 0, 0, tape, tape_length, at, scratch, sizeof scratch);
 *         if (step.ended) {
 *             break;
 *         }
 *         if (step.number == 0) {
 *             use_message(tape + step.offset, step.length);
 *         } else {
 *             report_fault(at, step.number, step.place);
 *         }
 *         at = step.next;
 *     } */
BlinkStep blink_next_message(const uint8_t *table, size_t table_length,
                             const uint8_t *store, size_t store_length, uint16_t customer,
                             const uint8_t *tape, size_t tape_length, uint64_t at,
                             uint8_t *scratch, size_t scratch_length);

/* Writes the message's sheet, its meaning as a row of records. A sheet room of 11 * message_length bytes is always
 * enough. Faults of the message, then 46. */
BlinkWritten blink_message_to_sheet(const uint8_t *table, size_t table_length,
                                    const uint8_t *store, size_t store_length, uint16_t customer,
                                    const uint8_t *message, size_t message_length,
                                    uint8_t *scratch, size_t scratch_length,
                                    uint8_t *sheet, size_t sheet_length);

/* Writes the message that a sheet stands for, in its one shortest form. An output room of 65536 bytes is enough for every
 * message. Faults 20, then the sheet's, then 47. */
BlinkWritten blink_sheet_to_message(const uint8_t *table, size_t table_length,
                                    const uint8_t *sheet, size_t sheet_length,
                                    uint8_t *output, size_t output_length);

/* Writes the message anew, in the one shortest form of its meaning, which is accepted with nothing ignored. A sheet room of 11 * message_length bytes and an
 * output room of message_length bytes are always enough. Faults of the message, then 46, then 47. The sheet room holds
 * the message's sheet at its start after success and after 47; else it is untouched. */
BlinkWritten blink_rewrite(const uint8_t *table, size_t table_length,
                           const uint8_t *store, size_t store_length, uint16_t customer,
                           const uint8_t *message, size_t message_length,
                           uint8_t *scratch, size_t scratch_length,
                           uint8_t *sheet, size_t sheet_length,
                           uint8_t *output, size_t output_length);

/* Reads a field of the message's own group as a number: integers, dates and times, enumerations, bools, decimals and
 * floats. Fields count from 0, and so do the items of a sequence; item is 0 where the field is no sequence. Faults of the
 * message, then 28, 29, 28 for the item, 48. */
BlinkNumber blink_read_number(const uint8_t *table, size_t table_length,
                              const uint8_t *store, size_t store_length, uint16_t customer,
                              const uint8_t *message, size_t message_length,
                              uint8_t *scratch, size_t scratch_length,
                              uint64_t field, uint64_t item);

/* Finds a field's bytes in the message: strings and binaries without their count, fixed fields, and dynamic groups with
 * their size word, so that such a part is a message too. Nothing is copied. Field, item and faults are as for
 * blink_read_number. */
BlinkPart blink_read_bytes(const uint8_t *table, size_t table_length,
                           const uint8_t *store, size_t store_length, uint16_t customer,
                           const uint8_t *message, size_t message_length,
                           uint8_t *scratch, size_t scratch_length,
                           uint64_t field, uint64_t item);

/* What a field is, of the group that has this type id: its type, whether it is optional and a sequence, its size. Fields
 * count from 0, the super group's first. Faults 20, 2, then 28. */
BlinkShape blink_field_shape(const uint8_t *table, size_t table_length, uint64_t type_id, uint64_t field);

/* Adds a blank's line to a ledger, at ledger + fill, and answers the new fill, which is 64 more; the caller keeps it, and
 * starts with 0. The type id is that of the blanks' group, whose five fields must be: a string (the barcode), two u32
 * (density and sound speed), an enumeration (the grade), and an optional string (the note); strings may be inline. A line is
 *
 *      0  the mark LB
 *      2  how many bytes the barcode has, 1 to 40
 *      3  the barcode, and zeros up to byte 42
 *     43  the density, 4 bytes as in the message; so too 47 the sound speed and 51 the grade
 *     55  zeros up to byte 63
 *
 * Faults of the message, then 54 if it is of another type than this very id or the group's fields are others, 55 for a
 * barcode of 0 or over 40 bytes, and last 56 if fewer than 64 bytes are free, or the fill is past the ledger's end. On a
 * refusal every byte of the ledger is as it was. */
BlinkWritten blink_add_line(const uint8_t *table, size_t table_length,
                            const uint8_t *store, size_t store_length, uint16_t customer,
                            const uint8_t *message, size_t message_length,
                            uint8_t *scratch, size_t scratch_length,
                            uint64_t type_id, uint8_t *ledger, size_t ledger_length, uint64_t fill);

#ifdef __cplusplus
}
#endif

#endif
