//! A table that was checked once answers as the functions do, and a string is read as a str where it is one.
use blink_native::{Fault, Number, Settings, Table, TextError, SHEET_FACTOR};

const BLANK: &[u8] = include_bytes!("../../../samples/blank.table");
const GOOD: &[u8] = include_bytes!("../../../samples/good.message");
const NO_NOTE: &[u8] = include_bytes!("../../../samples/good-no-note.message");
const PADDED: &[u8] = include_bytes!("../../../samples/padded.message");
const RUBBISH: &[u8] = include_bytes!("../../../samples/rubbish.message");
const CUSTOMERS: &[u8] = include_bytes!("../../../samples/customers.store");

const BARCODE: usize = 0;
const DENSITY: usize = 1;
const NOTE: usize = 4;

/// A group, type id 1, with one field of this type.
fn table(kind: u8) -> Table {
    let mut bytes = b"GR\x01\0\0\0\0\0\0\0\x01\0\0\x01\0\0FD".to_vec();
    bytes.push(kind);
    bytes.resize(32, 0);
    Table::new(bytes).unwrap()
}

/// A message of it, whose field is a string or a binary.
fn message(text: &[u8]) -> Vec<u8> {
    let size = 20 + text.len() as u32;
    let count = text.len() as u32;
    [&size.to_le_bytes()[..], &1u64.to_le_bytes(), &[0; 4], &4u32.to_le_bytes(), &count.to_le_bytes(), text]
        .concat()
}

#[test]
fn a_refused_table_is_none() {
    let fault = Table::new(&include_bytes!("../../../samples/forgetful.table")[..]).unwrap_err();
    assert_eq!(fault, Fault { number: 36, place: 176 });
    assert_eq!(Table::new([]), Err(Fault { number: 30, place: 0 }));
    assert_eq!(Table::new(BLANK).unwrap().bytes(), BLANK);
}

#[test]
fn each_question() {
    let table = Table::new(BLANK).unwrap();
    let scratch = &mut [0; 88];
    let (mut sheet, mut output) = (vec![0; SHEET_FACTOR * PADDED.len()], vec![0; PADDED.len()]);
    assert_eq!(table.check_message(GOOD, scratch), Ok(()));
    assert_eq!(table.check_message(&GOOD[1..], scratch), Err(Fault { number: 22, place: 0 }));
    let written = table.message_to_sheet(PADDED, scratch, &mut sheet).unwrap();
    assert_eq!(table.sheet_to_message(written, &mut output).unwrap(), GOOD);
    assert_eq!(table.rewrite(PADDED, scratch, &mut sheet, &mut output).unwrap(), GOOD);
    assert_eq!(table.read_number(GOOD, scratch, DENSITY, 0), Ok(Number::Unsigned(2650)));
    assert_eq!(table.read_bytes(GOOD, scratch, BARCODE, 0), Ok(&b"QZ-2026-11-0417"[..]));
    assert_eq!(table.read_str(GOOD, scratch, BARCODE, 0), Ok("QZ-2026-11-0417"));
}

#[test]
fn each_question_under_settings() {
    let table = Table::new(BLANK).unwrap();
    let scratch = &mut [0; 88];
    assert_eq!(table.check_message(RUBBISH, scratch), Err(Fault { number: 4, place: 33 }));
    let under = table.under(Settings::of(CUSTOMERS, 12));
    let (mut sheet, mut output) = (vec![0; SHEET_FACTOR * RUBBISH.len()], vec![0; RUBBISH.len()]);
    assert_eq!(under.check_message(RUBBISH, scratch), Ok(()));
    let written = under.message_to_sheet(RUBBISH, scratch, &mut sheet).unwrap();
    assert_eq!(table.sheet_to_message(written, &mut output).unwrap(), NO_NOTE);
    assert_eq!(under.rewrite(RUBBISH, scratch, &mut sheet, &mut output).unwrap(), NO_NOTE);
    assert_eq!(
        under.read_number(RUBBISH, scratch, DENSITY, 0),
        table.read_number(NO_NOTE, scratch, DENSITY, 0)
    );
    assert_eq!(
        under.read_bytes(RUBBISH, scratch, BARCODE, 0),
        table.read_bytes(NO_NOTE, scratch, BARCODE, 0)
    );
    assert_eq!(under.read_str(RUBBISH, scratch, BARCODE, 0), table.read_str(NO_NOTE, scratch, BARCODE, 0));
}

#[test]
fn an_absent_note() {
    let table = Table::new(BLANK).unwrap();
    let fault = table.read_bytes(NO_NOTE, &mut [0; 88], NOTE, 0).unwrap_err();
    assert!(fault.is_absent());
    let error = table.read_str(NO_NOTE, &mut [0; 88], NOTE, 0).unwrap_err();
    assert!(error.is_absent());
    assert_eq!(error.fault(), Some(fault));
    assert_eq!(error.to_string(), "fault 29: the field is absent");
    let other = table.read_str(NO_NOTE, &mut [0; 88], 9, 0).unwrap_err();
    assert!(!other.is_absent());
}

#[test]
fn a_string_that_rust_does_not_know() {
    let strings = table(17);
    for text in ["", "caf\u{e9} \u{20ac} \u{10ffff}"] {
        let message = message(text.as_bytes());
        assert_eq!(strings.read_str(&message, &mut vec![0; message.len()], 0, 0), Ok(text));
    }
    // Halves of a surrogate pair are accepted as the format's table has it, and are no str.
    for half in [b"\xed\xa0\x80", b"\xed\xbf\xbf"] {
        let message = message(half);
        let scratch = &mut vec![0; message.len()];
        assert_eq!(strings.read_bytes(&message, scratch, 0, 0), Ok(&half[..]));
        let error = strings.read_str(&message, scratch, 0, 0).unwrap_err();
        assert!(matches!(error, TextError::NotStr(_)));
        assert_eq!((error.fault(), error.is_absent()), (None, false));
        assert!(error.to_string().starts_with("the field is no str: invalid utf-8"));
    }
    // A binary may hold anything, and a string that is not UTF-8 by the table is refused.
    let message = message(b"\xff");
    let scratch = &mut vec![0; message.len()];
    assert!(matches!(table(18).read_str(&message, scratch, 0, 0), Err(TextError::NotStr(_))));
    let refused = TextError::Refused(Fault { number: 9, place: 24 });
    assert_eq!(strings.read_str(&message, scratch, 0, 0), Err(refused));
}
