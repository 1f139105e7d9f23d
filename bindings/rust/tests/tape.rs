//! A tape hands out each message as it stands there, past those that are refused, and ends once.
use blink_native::{check_message, tape, Fault, Settings, Table, TapeReader, MESSAGE_LIMIT};

const BLANK: &[u8] = include_bytes!("../../../samples/blank.table");
const GOOD: &[u8] = include_bytes!("../../../samples/good.message");
const DUSTY: &[u8] = include_bytes!("../../../samples/dusty.message");
const NO_NOTE: &[u8] = include_bytes!("../../../samples/good-no-note.message");
const RUBBISH: &[u8] = include_bytes!("../../../samples/rubbish.message");
const CUSTOMERS: &[u8] = include_bytes!("../../../samples/customers.store");

type Item<'t> = Result<&'t [u8], Fault>;

fn refused<'t>(number: u8, place: usize) -> Item<'t> {
    Err(Fault { number, place })
}

fn table() -> Table {
    Table::new(BLANK).unwrap()
}

/// Each item, with the place where it starts.
fn placed<'t>(mut reader: TapeReader<'_, 't>) -> Vec<(usize, Item<'t>)> {
    std::iter::from_fn(|| Some((reader.place(), reader.next()?))).collect()
}

/// A message with this size word and nothing but zeros behind it.
fn zeros(size: u32) -> Vec<u8> {
    let mut bytes = size.to_le_bytes().to_vec();
    bytes.resize(4 + size as usize, 0);
    bytes
}

#[test]
fn end_to_end() {
    let shift = [GOOD, DUSTY, NO_NOTE].concat();
    let (second, third) = (GOOD.len(), GOOD.len() + DUSTY.len());
    let due = [(0, Ok(GOOD)), (second, refused(9, 41)), (third, Ok(NO_NOTE))];
    assert_eq!(placed(table().tape(&shift)), due);
    assert_eq!(placed(tape(BLANK, &shift)), due);
    assert_eq!(placed(tape(&include_bytes!("../../../samples/widths.table")[..], &shift)), due);
    assert_eq!(table().tape(&shift).flatten().collect::<Vec<_>>(), [GOOD, NO_NOTE]);
}

#[test]
fn parts_are_the_tapes_own_and_outlive_the_reader() {
    let shift = [DUSTY, GOOD].concat();
    let part = {
        let table = table();
        let part = table.tape(&shift).nth(1).unwrap().unwrap();
        part
    };
    assert_eq!(part.as_ptr_range(), shift[DUSTY.len()..].as_ptr_range());
}

#[test]
fn a_message_is_as_long_as_its_size_word_says() {
    // Sizes that no good message has: each is refused for its own bytes, and passed over.
    for size in [0, 1, 11, 12, 15, 65_532, 65_533, 70_000] {
        let odd = zeros(size);
        let shift = [GOOD, &odd, NO_NOTE].concat();
        let number = match size {
            0..=11 => 1,
            12..=65_532 => 2,
            _ => 23,
        };
        let items = placed(table().tape(&shift));
        let fault = check_message(BLANK, &odd, &mut vec![0; MESSAGE_LIMIT]).unwrap_err();
        assert_eq!(fault.number, number);
        let third = GOOD.len() + odd.len();
        assert_eq!(items, [(0, Ok(GOOD)), (GOOD.len(), Err(fault)), (third, Ok(NO_NOTE))]);
    }
}

#[test]
fn cut_tails() {
    let shift = [GOOD, DUSTY, NO_NOTE].concat();
    let (second, third) = (GOOD.len(), GOOD.len() + DUSTY.len());
    let whole = [(0, Ok(GOOD)), (second, refused(9, 41)), (third, Ok(NO_NOTE))];
    for length in 0..=shift.len() {
        let ends = [0, second, third, shift.len()];
        let count = ends.iter().filter(|&&end| end <= length).count() - 1;
        let mut due = whole[..count].to_vec();
        if !ends.contains(&length) {
            due.push((ends[count], refused(22, ends[count])));
        }
        let table = table();
        let mut reader = table.tape(&shift[..length]);
        assert_eq!(placed(reader.clone()), due);
        assert_eq!(reader.by_ref().count(), due.len());
        assert_eq!(reader.place(), length);
    }
    // The greatest size word of all.
    let shift = [GOOD, &[255; 4], NO_NOTE].concat();
    let due = [(0, Ok(GOOD)), (second, refused(22, second))];
    assert_eq!(placed(table().tape(&shift)), due);
}

#[test]
fn a_cut_tail_says_its_place_on_the_tape() {
    let shift = [GOOD, &[0; 3]].concat();
    let table = table();
    let fault = table.tape(&shift).nth(1).unwrap().unwrap_err();
    let words = "the message is under 4 bytes long, or its length is not 4 plus its size";
    assert_eq!(fault.to_string(), format!("fault 22 at byte {}: {words}", GOOD.len()));
    let fault = check_message(BLANK, &shift, &mut vec![0; shift.len()]).unwrap_err();
    assert_eq!(fault.to_string(), format!("fault 22: {words}"));
}

#[test]
fn no_bytes() {
    assert_eq!(tape(BLANK, &[]).next(), None);
    assert_eq!(tape(&[], &[]).next(), None);
    assert_eq!(table().tape(&[]).size_hint(), (0, Some(0)));
}

#[test]
fn a_refused_table_is_one_item() {
    let bad = &include_bytes!("../../../samples/stale.table")[..];
    // 20 comes before a cut tail's 22.
    for shift in [GOOD.repeat(2), vec![0; 3], vec![255; 9]] {
        let mut reader = tape(bad, &shift);
        assert_eq!(reader.next(), Some(refused(20, 0)));
        assert_eq!((reader.next(), reader.place()), (None, shift.len()));
    }
}

#[test]
fn under_settings() {
    let shift = [RUBBISH, GOOD, RUBBISH].concat();
    let table = table();
    let strict = [refused(4, 33), Ok(GOOD), refused(4, 33)];
    assert!(table.tape(&shift).eq(strict));
    assert!(table.under(Settings::of(CUSTOMERS, 7)).tape(&shift).eq([
        refused(6, 37),
        Ok(GOOD),
        refused(6, 37)
    ]));
    assert!(table.under(Settings::of(CUSTOMERS, 12)).tape(&shift).eq([Ok(RUBBISH), Ok(GOOD), Ok(RUBBISH)]));
    assert!(Settings::of(CUSTOMERS, 12).tape(BLANK, &shift).flatten().eq([RUBBISH, GOOD, RUBBISH]));
    assert!(Settings::of(CUSTOMERS, 1).tape(BLANK, &shift).eq(strict));
}

#[test]
fn a_refused_store_is_said_of_each_message() {
    let store = [CUSTOMERS, b"!"].concat();
    let long = zeros(65_533);
    let shift = [GOOD, &long, DUSTY, &GOOD[..5]].concat();
    // 23 comes before 50, and a cut tail's 22 too.
    let (fault, tail) = (refused(50, 45), shift.len() - 5);
    assert!(Settings::of(&store, 12).tape(BLANK, &shift).eq([
        fault,
        refused(23, 0),
        fault,
        refused(22, tail)
    ]));
    assert!(Settings::of(&store, 12).tape(b"", &shift).eq([refused(20, 0)]));
}

#[test]
fn the_end_stays() {
    let shift = [GOOD, &[1]].concat();
    let table = table();
    let mut reader = table.tape(&shift);
    assert_eq!(reader.by_ref().count(), 2);
    for _ in 0..3 {
        assert_eq!((reader.next(), reader.place()), (None, shift.len()));
    }
}

#[test]
fn how_many_are_left() {
    // Empty groups, the shortest messages of all, and one byte.
    let shift = [zeros(0), zeros(0), vec![0]].concat();
    let table = table();
    let mut reader = table.tape(&shift);
    for (count, left) in [(3, 9), (2, 5), (1, 1), (0, 0)] {
        assert_eq!(shift.len() - reader.place(), left);
        assert_eq!(reader.clone().count(), count);
        assert_eq!(reader.size_hint(), (left.min(1), Some(count)));
        reader.next();
    }
    assert_eq!(format!("{reader:?}"), "TapeReader { place: 9, length: 9, .. }");
}

#[test]
fn scratch_is_clean_for_each_message() {
    // The long ones are walked to their end, and their scratch is that of the short ones between them.
    let mut long = GOOD.to_vec();
    long.resize(MESSAGE_LIMIT, 0);
    long[..4].copy_from_slice(&(MESSAGE_LIMIT as u32 - 4).to_le_bytes());
    let shift = [&long[..], GOOD, DUSTY, &long, GOOD].concat();
    let due = [Ok(&long[..]), Ok(GOOD), refused(9, 41), Ok(&long), Ok(GOOD)];
    assert!(table().tape(&shift).eq(due));
}
