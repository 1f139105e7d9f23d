//! The worked messages of document 004, with document 01's corrections, and
//! their whole sheets.

use blink_reference::generate::edges::{hex, record::*};
use blink_reference::{
    check_message, check_table, message_to_sheet, read_bytes, read_number, rewrite, sheet_to_message, Fault,
    FaultNumber, Number, Settings,
};

const HELLO: &str = "
    4752 0100000000000000 01 0000 01 0000
    4644 11 00 00 00 0000 0000000000000000";
const INLINE_HELLO: &str = "
    4752 0100000000000000 01 0000 01 0000
    4644 11 00 00 0c 0000 0000000000000000";
const BILL: &str = "
    4752 0200000000000000 01 0000 02 0000
    4644 05 00000000000000000000000000
    4644 05 01 000000000000000000000000";
const PERSON: &str = "
    4752 0300000000000000 01 0000 02 0000
    4644 11 00 00 00 0000 0000000000000000
    4644 11 00 00 00 0000 0000000000000000";
const CHART: &str = "
    4752 0400000000000000 01 0000 02 0000
    4644 05 00 01 00 0000 0000000000000000
    4644 05 00 01 00 0000 0000000000000000";
// Point, Rect/5 and Path/6.
const POINTS: &str = "
    4752 0000000000000000 00 0000 02 0000
    4644 05 00 00 00 0000 0000000000000000
    4644 05 00 00 00 0000 0000000000000000
    4752 0500000000000000 01 0000 03 0000
    4644 15 00 00 00 0000 0000000000000000
    4644 05 00 00 00 0000 0000000000000000
    4644 05 00 00 00 0000 0000000000000000
    4752 0600000000000000 01 0000 01 0000
    4644 15 00 01 00 0000 0000000000000000";
// Shape, Rect/7 : Shape, Circle/8 : Shape and Canvas/9.
const SHAPES: &str = "
    4752 0000000000000000 00 0000 00 0000
    4752 0700000000000000 01 0100 02 0000
    4644 05 00 00 00 0000 0000000000000000
    4644 05 00 00 00 0000 0000000000000000
    4752 0800000000000000 01 0100 01 0000
    4644 05 00 00 00 0000 0000000000000000
    4752 0900000000000000 01 0000 01 0000
    4644 16 00 01 00 0000 0000000000000000";
// Mail/10 and Trace/11.
const MAIL: &str = "
    4752 0a00000000000000 01 0000 02 0000
    4644 11 00 00 00 0000 0000000000000000
    4644 11 00 00 00 0000 0000000000000000
    4752 0b00000000000000 01 0000 01 0000
    4644 11 00 00 00 0000 0000000000000000";

const CANVAS_AS_PRINTED: &str = "
    48000000 0900000000000000 00000000
    04000000
    02000000 08000000 13000000
    14000000 0700000000000000 00000000 02000000 03000000
    10000000 0800000000000000 00000000 03000000";
const MAIL_AS_PRINTED: &str = "
    80000000 0a00000000000000 25000000
    08000000 0d000000
    05000000 48656c6c6f
    0c000000 486f772061 726520796f 753f
    02000000 08000000 1f000000
    20000000 0b00000000000000 00000000 04000000
    0c000000 6c6f63616c 2e65672e6f 7267
    1f000000 0b00000000000000 00000000 04000000
    0b000000 6d61696c2e 65672e6f72 67";

/// The message is accepted, has this sheet, is what the sheet writes, and is
/// its own rewriting; rooms one byte shorter give 46 and 47.
fn reads_and_writes(table: &str, message: &str, records: &[Vec<u8>]) {
    let (table, message, sheet) = (hex(table), hex(message), records.concat());
    let mut scratch = vec![1; message.len()];
    assert_eq!(check_message(&table, &[], 0, &message, &mut scratch), Ok(()));

    let mut room = vec![0; sheet.len()];
    let length = message_to_sheet(&table, &[], 0, &message, &mut scratch, &mut room);
    assert_eq!(length, Ok(sheet.len()));
    assert_eq!(room, sheet);
    let short = &mut room[1..];
    let refused = message_to_sheet(&table, &[], 0, &message, &mut scratch, short);
    assert_eq!(refused, fault(FaultNumber::SheetRoomTooShort, 0));

    let mut output = vec![0; message.len()];
    let length = sheet_to_message(&table, &sheet, &mut output);
    assert_eq!(length, Ok(message.len()));
    assert_eq!(output, message);
    let refused = sheet_to_message(&table, &sheet, &mut output[1..]);
    assert_eq!(refused, fault(FaultNumber::OutputTooShort, 0));

    let mut output = vec![0; message.len()];
    let length = rewrite(&table, &[], 0, &message, &mut scratch, &mut room, &mut output);
    assert_eq!(length, Ok(message.len()));
    assert_eq!(output, message);
}

fn fault<T>(number: FaultNumber, place: usize) -> Result<T, Fault> {
    Err(Fault { number, place })
}

fn number(value: u32) -> Vec<u8> {
    va(&value.to_le_bytes())
}

#[test]
fn hello() {
    let message = "
        1f000000 0100000000000000 00000000
        04000000
        0b000000 48656c6c6f20 576f726c64";
    reads_and_writes(HELLO, message, &[gb(1), st(b"Hello World"), ge()]);
}

#[test]
fn inline_hello() {
    let message = "
        19000000 0100000000000000 00000000
        0b 48656c6c6f20576f 726c6400";
    reads_and_writes(INLINE_HELLO, message, &[gb(1), st(b"Hello World"), ge()]);
}

#[test]
fn bill_without_tip() {
    let message = "15000000 0200000000000000 00000000 64000000 0000000000";
    reads_and_writes(BILL, message, &[gb(2), number(100), no(), ge()]);
}

#[test]
fn bill_with_tip() {
    let message = "15000000 0200000000000000 00000000 e8030000 0164000000";
    let sheet = hex("47 42 02 00 00 00 00 00 00 00 56 41 e8 03 00 00 56 41 64 00 00 00 47 45");
    assert_eq!(sheet, [gb(2), number(1000), number(100), ge()].concat());
    reads_and_writes(BILL, message, &[sheet]);
}

#[test]
fn person() {
    let message = "
        27000000 0300000000000000 00000000
        08000000 0e000000
        06000000 47656f726765
        05000000 426c696e6b";
    let sheet = [gb(3), st(b"George"), st(b"Blink"), ge()];
    reads_and_writes(PERSON, message, &sheet);
}

#[test]
fn chart() {
    let message = "
        34000000 0400000000000000 00000000
        08000000 14000000
        03000000 00000000 0a000000 14000000
        03000000 01000000 11000000 00000000";
    let sheet =
        [gb(4), sq(3), number(0), number(10), number(20), sq(3), number(1), number(17), number(0), ge()];
    reads_and_writes(CHART, message, &sheet);
}

#[test]
fn rect() {
    let message = "
        1c000000 0500000000000000 00000000
        03000000 04000000 0a000000 0a000000";
    let sheet = [gb(5), sg(), number(3), number(4), number(10), number(10), ge()];
    reads_and_writes(POINTS, message, &sheet);
}

#[test]
fn path() {
    let message = "
        24000000 0600000000000000 00000000
        04000000
        02000000 01000000 01000000 0a000000 02000000";
    let sheet = [gb(6), sq(2), sg(), number(1), number(1), sg(), number(10), number(2), ge()];
    reads_and_writes(POINTS, message, &sheet);
}

#[test]
fn canvas_corrected() {
    let message = CANVAS_AS_PRINTED.replace("13000000", "1c000000");
    let sheet = [gb(9), sq(2), gb(7), number(2), number(3), ge(), gb(8), number(3), ge(), ge()];
    reads_and_writes(SHAPES, &message, &sheet);
}

#[test]
fn mail_corrected() {
    let message = MAIL_AS_PRINTED.replace("08000000 1f000000", "08000000 28000000");
    let sheet = [
        gb(10),
        st(b"Hello"),
        st(b"How are you?"),
        xt(2),
        gb(11),
        st(b"local.eg.org"),
        ge(),
        gb(11),
        st(b"mail.eg.org"),
        ge(),
        ge(),
    ];
    reads_and_writes(MAIL, &message, &sheet);
}

#[test]
fn canvas_as_printed() {
    let (table, message) = (hex(SHAPES), hex(CANVAS_AS_PRINTED));
    let verdict = check_message(&table, &[], 0, &message, &mut [0; 100]);
    assert_eq!(verdict, fault(FaultNumber::ValuePastArea, 47));
}

#[test]
fn mail_as_printed() {
    let (table, message) = (hex(MAIL), hex(MAIL_AS_PRINTED));
    let verdict = check_message(&table, &[], 0, &message, &mut [0; 200]);
    assert_eq!(verdict, fault(FaultNumber::ValuePastArea, 88));
}

#[test]
fn mail_with_an_unknown_extension_group() {
    // Without Trace in the table both groups are kept as bytes.
    let table = &hex(MAIL)[..48];
    let message = hex(&MAIL_AS_PRINTED.replace("08000000 1f000000", "08000000 28000000"));
    let mut sheet = [0; 500];
    let length = message_to_sheet(table, &[], 0, &message, &mut [0; 200], &mut sheet).unwrap();
    let records =
        [gb(10), st(b"Hello"), st(b"How are you?"), xt(2), xu(&message[61..97]), xu(&message[97..132]), ge()];
    assert_eq!(sheet[..length], records.concat());
}

#[test]
fn numbers_of_document_01() {
    let table = hex("
        4752 0100000000000000 01 0000 02 0000
        4644 0c 00 00 00 0000 0000000000000000
        4644 09 00 00 00 0000 0000000000000000");
    let read = |date: &str, float: &str, field| {
        let message = [hex("18000000 0100000000000000 00000000"), hex(date), hex(float)].concat();
        read_number(&table, &[], 0, &message, &mut [0; 28], field, 0)
    };
    let zero = "0000000000000000";
    assert_eq!(read("ffffffff", zero, 0), Ok(Number::Signed(-1)));
    assert_eq!(read("00000080", zero, 0), Ok(Number::Signed(-2_147_483_648)));
    let number = "1bde8342cac0f33f";
    assert_eq!(read("00000000", number, 1), Ok(Number::Float(1.23456789)));
    let infinity = "000000000000f07f";
    assert_eq!(read("00000000", infinity, 1), Ok(Number::Float(f64::INFINITY)));
    match read("00000000", "010000000000f8ff", 1) {
        Ok(Number::Float(nan)) => assert_eq!(nan.to_bits(), 0xfff8_0000_0000_0001),
        other => panic!("{other:?}"),
    }
}

#[test]
fn a_part_is_the_text_or_the_whole_group() {
    let message = hex(&CANVAS_AS_PRINTED.replace("13000000", "1c000000"));
    let table = hex(SHAPES);
    let part = read_bytes(&table, &[], 0, &message, &mut [0; 76], 0, 1).unwrap();
    assert_eq!(part, 56..76);
    assert_eq!(check_message(&table, &[], 0, &message[part], &mut [0; 20]), Ok(()));
    let message = hex(&MAIL_AS_PRINTED.replace("08000000 1f000000", "08000000 28000000"));
    let part = read_bytes(&hex(MAIL), &[], 0, &message, &mut [0; 132], 1, 0).unwrap();
    assert_eq!(&message[part], b"How are you?");
}

#[test]
fn a_schema_serves_many_messages() {
    let table = hex(BILL);
    let schema = check_table(&table).unwrap();
    let mut scratch = [9; 25];
    for tip in 0..=255 {
        let message = hex(&format!("15000000 0200000000000000 00000000 64000000 01{tip:02x}000000"));
        assert_eq!(schema.check_message(Settings::NONE, &message, &mut scratch), Ok(()));
        let read = schema.read_number(Settings::NONE, &message, &mut scratch, 1, 0);
        assert_eq!(read, Ok(Number::Unsigned(tip)));
    }
}
