//! A ledger holds the lines of the messages that were accepted, in order, and nothing else changes a byte of it.
use blink_native::{
    add_line, check_message, field_shape, Fault, FieldShape, Ledger, Settings, Table, LINE_LENGTH,
};

const BLANK: &[u8] = include_bytes!("../../../samples/blank.table");
const WIDTHS: &[u8] = include_bytes!("../../../samples/widths.table");
const GOOD: &[u8] = include_bytes!("../../../samples/good.message");
const DUSTY: &[u8] = include_bytes!("../../../samples/dusty.message");
const NO_NOTE: &[u8] = include_bytes!("../../../samples/good-no-note.message");
const RUBBISH: &[u8] = include_bytes!("../../../samples/rubbish.message");
const CUSTOMERS: &[u8] = include_bytes!("../../../samples/customers.store");
const SHIFT: &[u8] = include_bytes!("../../../samples/shift.tape");

/// The blanks' type id, and where the group and its five fields stand in the table.
const ID: u64 = 1;
const GROUP: usize = 80;
const FIELDS: [usize; 5] = [96, 112, 128, 144, 160];

/// What stands in a buffer before: neither zeros nor a line.
const DIRT: u8 = 0xa5;

fn table() -> Table {
    Table::new(BLANK).unwrap()
}

fn refused(number: u8, place: usize) -> Result<(), Fault> {
    Err(Fault { number, place })
}

/// A line, as the papers have it.
fn line(barcode: &[u8], density: u32, speed: u32, grade: i32) -> [u8; LINE_LENGTH] {
    let mut line = [0; LINE_LENGTH];
    line[..2].copy_from_slice(b"LB");
    line[2] = barcode.len() as u8;
    line[3..3 + barcode.len()].copy_from_slice(barcode);
    line[43..47].copy_from_slice(&density.to_le_bytes());
    line[47..51].copy_from_slice(&speed.to_le_bytes());
    line[51..55].copy_from_slice(&grade.to_le_bytes());
    line
}

fn good_line() -> [u8; LINE_LENGTH] {
    line(b"QZ-2026-11-0417", 2650, 5728, 2)
}

fn no_note_line() -> [u8; LINE_LENGTH] {
    line(b"QZ-2026-11-0418", 2647, 5724, 3)
}

/// A message of the group with this id: its fields, and its data area.
fn built(id: u64, fields: &[&[u8]], area: &[u8]) -> Vec<u8> {
    let fields = fields.concat();
    let size = (12 + fields.len() + area.len()) as u32;
    [&size.to_le_bytes()[..], &id.to_le_bytes(), &[0; 4], &fields, area].concat()
}

/// A string in a data area.
fn text(bytes: &[u8]) -> Vec<u8> {
    [&(bytes.len() as u32).to_le_bytes()[..], bytes].concat()
}

/// A blank without a note.
fn message(id: u64, barcode: &[u8], density: u32, speed: u32, grade: i32) -> Vec<u8> {
    let (density, speed, grade) = (density.to_le_bytes(), speed.to_le_bytes(), grade.to_le_bytes());
    built(id, &[&offset(21), &density, &speed, &grade, &[0; 5]], &text(barcode))
}

fn offset(bytes: u8) -> [u8; 4] {
    [bytes, 0, 0, 0]
}

/// What is answered with so many bytes free behind a line, and that a refusal changes no byte.
fn answer(table: &[u8], message: &[u8], id: u64, free: usize) -> Result<(), Fault> {
    let mut room = vec![DIRT; LINE_LENGTH + free];
    let before = room.clone();
    let mut ledger = Ledger::with_fill(&mut room, LINE_LENGTH).unwrap();
    let answer = add_line(table, message, &mut vec![0; message.len()], id, &mut ledger);
    assert_eq!(ledger.fill(), if answer.is_ok() { 2 * LINE_LENGTH } else { LINE_LENGTH });
    if answer.is_err() {
        assert_eq!(room, before);
    }
    answer
}

#[test]
fn line_by_line() {
    let table = table();
    let mut room = [DIRT; 3 * LINE_LENGTH];
    let mut scratch = [0; 128];
    let mut ledger = Ledger::new(&mut room);
    assert_eq!((ledger.fill(), ledger.lines().len()), (0, 0));
    assert_eq!(table.add_line(GOOD, &mut scratch, ID, &mut ledger), Ok(()));
    assert_eq!(ledger.fill(), 64);
    assert_eq!(table.add_line(DUSTY, &mut scratch, ID, &mut ledger), refused(9, 41));
    assert_eq!(ledger.fill(), 64);
    assert_eq!(table.add_line(NO_NOTE, &mut scratch, ID, &mut ledger), Ok(()));
    assert_eq!(ledger.fill(), 128);
    assert_eq!(ledger.lines(), [good_line(), no_note_line()]);
    assert_eq!(ledger.bytes(), [good_line(), no_note_line()].concat());
    assert_eq!(format!("{ledger:?}"), "Ledger { fill: 128, length: 192, .. }");
    assert_eq!(room[128..], [DIRT; 64]);
}

#[test]
fn a_tape_into_a_ledger() {
    let table = table();
    let mut room = [DIRT; 2 * LINE_LENGTH];
    let mut ledger = Ledger::new(&mut room);
    for message in table.tape(SHIFT).flatten() {
        table.add_line(message, &mut [0; 128], ID, &mut ledger).unwrap();
    }
    assert_eq!(ledger.lines(), [good_line(), no_note_line()]);
}

#[test]
fn it_goes_on_where_it_was_left() {
    let mut room = [DIRT; 2 * LINE_LENGTH];
    let mut ledger = Ledger::new(&mut room);
    assert_eq!(add_line(WIDTHS, GOOD, &mut [0; 128], ID, &mut ledger), Ok(()));
    let fill = ledger.fill();
    let mut ledger = Ledger::with_fill(&mut room, fill).unwrap();
    assert_eq!(add_line(BLANK, NO_NOTE, &mut [0; 128], ID, &mut ledger), Ok(()));
    assert_eq!(room[..], [good_line(), no_note_line()].concat());
}

#[test]
fn a_fill_is_whole_lines_of_the_buffer() {
    let mut room = [DIRT; 2 * LINE_LENGTH + 63];
    for fill in 0..=4 * LINE_LENGTH {
        let ledger = Ledger::with_fill(&mut room, fill);
        assert_eq!(ledger.map(|ledger| ledger.lines().len()), [0, 64, 128].iter().position(|&at| at == fill));
    }
    assert!(Ledger::with_fill(&mut room, usize::MAX).is_none());
    assert!(Ledger::with_fill(&mut [], 0).is_some());
}

#[test]
fn barcodes() {
    for length in [1, 39, 40] {
        let barcode = vec![b'b'; length];
        let mut room = [DIRT; LINE_LENGTH];
        let mut ledger = Ledger::new(&mut room);
        let message = message(ID, &barcode, 1, u32::MAX, 0);
        assert_eq!(add_line(BLANK, &message, &mut [0; 128], ID, &mut ledger), Ok(()));
        assert_eq!(room, line(&barcode, 1, u32::MAX, 0));
    }
    for length in [0, 41, 300] {
        let message = message(ID, &vec![b'b'; length], 1, 2, 3);
        assert_eq!(answer(BLANK, &message, ID, 64), refused(55, 0));
    }
}

#[test]
fn a_grade_is_signed() {
    let mut table = BLANK.to_vec();
    table[18..22].copy_from_slice(&(-7i32).to_le_bytes());
    let mut room = [DIRT; LINE_LENGTH];
    let mut ledger = Ledger::new(&mut room);
    assert_eq!(add_line(&table, &message(ID, b"b", 1, 2, -7), &mut [0; 64], ID, &mut ledger), Ok(()));
    assert_eq!(room, line(b"b", 1, 2, -7));
}

#[test]
fn another_type() {
    assert_eq!(answer(BLANK, GOOD, 2, 64), refused(54, 0));
    assert_eq!(answer(BLANK, GOOD, u64::MAX, 64), refused(54, 0));
    // A group below the blanks', with the same fields.
    let mut table = BLANK.to_vec();
    table.extend(&BLANK[GROUP..]);
    table[BLANK.len() + 2] = 2;
    table[BLANK.len() + 11] = 1;
    let below = message(2, b"b", 1, 2, 3);
    assert_eq!(answer(&table, &below, ID, 64), refused(54, 0));
    assert_eq!(answer(&table, &below, 2, 64), Ok(()));
}

/// The message is accepted under the table, but its group's fields are not a blank's.
fn no_blank(table: &[u8], message: &[u8]) {
    assert_eq!(check_message(table, message, &mut [0; 128]), Ok(()));
    assert_eq!(answer(table, message, ID, 64), refused(54, 0));
}

/// The table with another byte in the record of a field.
fn with(field: usize, byte: usize, value: u8) -> Vec<u8> {
    let mut table = BLANK.to_vec();
    table[FIELDS[field] + byte] = value;
    table
}

#[test]
fn fields_of_another_type() {
    // Each of the same width, so that the message stays good.
    for (field, kind) in [(0, 18), (1, 6), (1, 12), (2, 6), (2, 12), (3, 5), (3, 6), (4, 18)] {
        no_blank(&with(field, 2, kind), GOOD);
    }
}

#[test]
fn fields_that_are_optional_or_not() {
    let blank = [&offset(22)[..], &[0; 4], &[0; 4], &[0; 4], &[0; 5]];
    for field in 0..4 {
        let present = [&[1], blank[field]].concat();
        let mut fields = blank;
        fields[field] = &present;
        if field == 0 {
            fields[0] = &[1, 21, 0, 0, 0];
        }
        no_blank(&with(field, 3, 1), &built(ID, &fields, &text(b"b")));
    }
    let fields = [&offset(20)[..], &[0; 4], &[0; 4], &[0; 4], &offset(9)];
    no_blank(&with(4, 3, 0), &built(ID, &fields, &[text(b"b"), text(b"")].concat()));
}

#[test]
fn fields_that_are_sequences() {
    // Each a sequence of no items, behind the barcode's text.
    let blank = [&offset(21)[..], &[0; 4], &[0; 4], &[0; 4], &[0; 5]];
    let places = [offset(22), offset(18), offset(14)];
    for field in 1..4 {
        let mut fields = blank;
        fields[field] = &places[field - 1];
        no_blank(&with(field, 4, 1), &built(ID, &fields, &[text(b"b"), vec![0; 4]].concat()));
    }
    no_blank(&with(0, 4, 1), &built(ID, &blank, &[0; 4]));
    let mut fields = blank;
    fields[4] = &[1, 9, 0, 0, 0];
    no_blank(&with(4, 4, 1), &built(ID, &fields, &[text(b"b"), vec![0; 4]].concat()));
}

#[test]
fn four_fields_and_six() {
    let mut four = BLANK[..FIELDS[4]].to_vec();
    four[GROUP + 13] = 4;
    no_blank(&four, &built(ID, &[&offset(16), &[0; 12]], &text(b"b")));
    let mut six = [BLANK, &BLANK[FIELDS[4]..]].concat();
    six[GROUP + 13] = 6;
    no_blank(&six, &built(ID, &[&offset(26), &[0; 12], &[0; 10]], &text(b"b")));
}

#[test]
fn inline_strings() {
    // A barcode of up to 50 bytes and a note of up to 3, both in their fields.
    let mut table = with(0, 5, 50);
    table[FIELDS[4] + 5] = 3;
    let inline = |barcode: &[u8]| {
        let mut field = [&[barcode.len() as u8], barcode].concat();
        field.resize(51, 0);
        built(ID, &[&field, &offset(7), &offset(8), &offset(1), b"\x01\x03dry"], &[])
    };
    for length in [1, 40] {
        let barcode = vec![b'b'; length];
        let mut room = [DIRT; LINE_LENGTH];
        let mut ledger = Ledger::new(&mut room);
        assert_eq!(add_line(&table, &inline(&barcode), &mut [0; 128], ID, &mut ledger), Ok(()));
        assert_eq!(room, line(&barcode, 7, 8, 1));
    }
    for length in [0, 41, 50] {
        assert_eq!(answer(&table, &inline(&vec![b'b'; length]), ID, 64), refused(55, 0));
    }
}

#[test]
fn the_order_of_refusals() {
    let long = message(ID, &[b'b'; 41], 1, 2, 3);
    // The message's own fault, 54, 55, and 56 last.
    assert_eq!(answer(&[], DUSTY, 2, 63), refused(20, 0));
    assert_eq!(answer(BLANK, DUSTY, 2, 63), refused(9, 41));
    assert_eq!(answer(BLANK, &long, 2, 63), refused(54, 0));
    assert_eq!(answer(BLANK, &long, ID, 63), refused(55, 0));
    assert_eq!(answer(BLANK, GOOD, ID, 63), refused(56, 0));
    assert_eq!(answer(BLANK, GOOD, ID, 0), refused(56, 0));
    assert_eq!(answer(BLANK, GOOD, ID, 64), Ok(()));
    let mut ledger = Ledger::new(&mut []);
    assert_eq!(add_line(BLANK, GOOD, &mut [0; 128], ID, &mut ledger), refused(56, 0));
    assert_eq!(add_line(BLANK, GOOD, &mut [0; 80], ID, &mut ledger), refused(21, 0));
}

#[test]
fn under_settings() {
    let table = table();
    let mut room = [DIRT; LINE_LENGTH];
    let mut ledger = Ledger::new(&mut room);
    let under = |customer| table.under(Settings::of(CUSTOMERS, customer));
    assert_eq!(table.add_line(RUBBISH, &mut [0; 64], ID, &mut ledger), refused(4, 33));
    assert_eq!(under(7).add_line(RUBBISH, &mut [0; 64], ID, &mut ledger), refused(6, 37));
    assert_eq!(under(12).add_line(RUBBISH, &mut [0; 64], ID, &mut ledger), Ok(()));
    assert_eq!(ledger.lines(), [no_note_line()]);
    let store = [CUSTOMERS, b"!"].concat();
    let settings = Settings::of(&store, 12);
    assert_eq!(settings.add_line(BLANK, RUBBISH, &mut [0; 64], ID, &mut ledger), refused(50, 45));
}

#[test]
fn scratch_is_cleared_as_far_as_the_message_goes() {
    let mut scratch = [DIRT; 128];
    let mut room = [DIRT; LINE_LENGTH];
    let mut ledger = Ledger::new(&mut room);
    for (message, id) in [(GOOD, ID), (GOOD, ID), (DUSTY, ID), (GOOD, 2)] {
        scratch.fill(DIRT);
        let _ = add_line(BLANK, message, &mut scratch, id, &mut ledger);
        assert_eq!(scratch[..message.len()], vec![0; message.len()]);
        assert!(scratch[message.len()..].iter().all(|&byte| byte == DIRT));
    }
    scratch.fill(DIRT);
    assert_eq!(add_line(&[], GOOD, &mut scratch, ID, &mut ledger), refused(20, 0));
    assert_eq!(scratch, [DIRT; 128]);
}

#[test]
fn shapes() {
    let shape = |type_number, optional| Ok(FieldShape { type_number, optional, sequence: false, size: 0 });
    let due = [shape(17, false), shape(5, false), shape(5, false), shape(20, false), shape(17, true)];
    for (field, due) in due.into_iter().enumerate() {
        assert_eq!(table().field_shape(ID, field), due);
        assert_eq!(field_shape(WIDTHS, ID, field), due);
    }
    for field in [5, usize::MAX] {
        assert_eq!(table().field_shape(ID, field), Err(Fault { number: 28, place: 0 }));
        assert_eq!(table().field_shape(2, field), Err(Fault { number: 2, place: 0 }));
        assert_eq!(field_shape(&BLANK[1..], 2, field), Err(Fault { number: 20, place: 0 }));
    }
    // An inline string of 12 bytes, and a sequence.
    let mut table = BLANK.to_vec();
    table[FIELDS[0] + 5] = 12;
    table[FIELDS[1] + 4] = 1;
    let inline = FieldShape { type_number: 17, optional: false, sequence: false, size: 12 };
    assert_eq!(field_shape(&table, ID, 0), Ok(inline));
    let sequence = FieldShape { type_number: 5, optional: false, sequence: true, size: 0 };
    assert_eq!(field_shape(&table, ID, 1), Ok(sequence));
}
