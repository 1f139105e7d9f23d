//! Messages to time, each in canonical form.

use crate::tables::{blank, enumeration, field, group};

/// A table, a message of it, and what the pair is called.
pub struct Case {
    pub name: &'static str,
    pub table: Vec<u8>,
    pub message: Vec<u8>,
}

/// A dynamic group: its size, its type id, no extension, its fields and its data area.
fn dynamic(id: u64, fields: &[u8], area: &[u8]) -> Vec<u8> {
    let mut bytes = ((12 + fields.len() + area.len()) as u32).to_le_bytes().to_vec();
    bytes.extend(id.to_le_bytes());
    bytes.extend([0; 4]);
    bytes.extend(fields);
    bytes.extend(area);
    bytes
}

fn text(bytes: &[u8]) -> Vec<u8> {
    let mut value = (bytes.len() as u32).to_le_bytes().to_vec();
    value.extend(bytes);
    value
}

/// A sequence of offsets, and the values that they lead to, in order.
fn sequence_of(values: &[Vec<u8>]) -> Vec<u8> {
    let count = values.len();
    let mut body = (count as u32).to_le_bytes().to_vec();
    let mut free = 4 + 4 * count;
    for value in values {
        body.extend(((free - body.len()) as u32).to_le_bytes());
        free += value.len();
    }
    body.extend(values.iter().flatten());
    body
}

/// What a test station measures of a blank, and may note about it.
pub struct Blank<'a> {
    pub barcode: &'a [u8],
    pub density: u32,
    pub speed: u32,
    pub grade: u32,
    pub note: Option<&'a [u8]>,
}

/// What a test station sends.
pub fn blank_message(blank: &Blank) -> Vec<u8> {
    let (barcode, note) = (text(blank.barcode), blank.note.map(text));
    let mut fields = 21u32.to_le_bytes().to_vec();
    fields.extend(blank.density.to_le_bytes());
    fields.extend(blank.speed.to_le_bytes());
    fields.extend(blank.grade.to_le_bytes());
    fields.push(u8::from(note.is_some()));
    fields.extend(note.as_ref().map_or(0, |_| 4 + barcode.len() as u32).to_le_bytes());
    dynamic(1, &fields, &[barcode, note.unwrap_or_default()].concat())
}

fn station() -> Case {
    let measured = Blank { barcode: b"BC-0042-19-A", density: 612, speed: 4870, grade: 2, note: Some(b"knot left") };
    Case { name: "a station's", table: blank(), message: blank_message(&measured) }
}

fn one_field(name: &'static str, record: Vec<u8>, value: &[u8]) -> Case {
    Case { name, table: group(Some(1), 0, &[record]), message: dynamic(1, &4u32.to_le_bytes(), value) }
}

/// 10,000 symbols of an enumeration that has so many; `pick` says which stands where.
fn symbols(name: &'static str, count: u16, pick: impl Fn(u32) -> u32) -> Case {
    let mut table = enumeration(count);
    table.extend(group(Some(1), 0, &[field(20, false, true, 0, 0)]));
    let mut value = 10_000u32.to_le_bytes().to_vec();
    value.extend((0..10_000).map(pick).flat_map(u32::to_le_bytes));
    Case { name, table, message: dynamic(1, &4u32.to_le_bytes(), &value) }
}

/// A number below `count`, by no rule that a processor could learn.
fn scattered(number: u32, count: u32) -> u32 {
    let mixed = u64::from(number + 1).wrapping_mul(0x9e37_79b9_7f4a_7c15);
    ((mixed ^ mixed >> 29).wrapping_mul(0xbf58_476d_1ce4_e5b9) >> 32) as u32 % count
}

/// Groups one in the other, eight levels deep.
fn nested() -> Case {
    let mut inner = dynamic(1, &[0; 5], &[]);
    for _ in 1..8 {
        inner = dynamic(1, &[1, 4, 0, 0, 0], &inner);
    }
    Case {
        name: "groups to level 8",
        table: group(Some(1), 0, &[field(22, true, false, 0, 0)]),
        message: inner,
    }
}

/// The same, where each group but the last is what `held` makes of the next one: its fields, and its data area.
fn deep(name: &'static str, inner: Vec<Vec<u8>>, levels: usize, held: impl Fn(&[u8]) -> Vec<u8>) -> Case {
    let mut table = group(None, 0, &inner);
    for number in 0..3 {
        table.extend(group(None, 0, &[field(21, false, false, 0, number)]));
    }
    table.extend(group(Some(1), 0, &[field(21, false, false, 0, 3)]));
    let mut message = held(&[]);
    for _ in 1..levels {
        message = held(&message);
    }
    Case { name, table, message }
}

/// Groups to level 8, each in a static group four deep, where a walk calls itself most often; the last two go to level 9.
pub fn deep_cases() -> Vec<Case> {
    let optional = |inner: &[u8]| match inner {
        [] => dynamic(1, &[0; 5], &[]),
        _ => dynamic(1, &[1, 4, 0, 0, 0], inner),
    };
    let listed = |inner: &[u8]| match inner {
        [] => dynamic(1, &[4, 0, 0, 0], &[0; 4]),
        _ => dynamic(1, &[4, 0, 0, 0], &sequence_of(&[inner.to_vec()])),
    };
    let extended = |inner: &[u8]| {
        let mut bytes = dynamic(1, &[7], &if inner.is_empty() { Vec::new() } else { sequence_of(&[inner.to_vec()]) });
        bytes[12] = if inner.is_empty() { 0 } else { 5 };
        bytes
    };
    let one = |number, optional, sequence, named| vec![field(number, optional, sequence, 0, named)];
    vec![
        deep("an optional group of level 8", one(22, true, false, 4), 8, optional),
        deep("an optional group of level 8, of any type", one(23, true, false, 0), 8, optional),
        deep("a sequence of groups of level 8", one(22, false, true, 4), 8, listed),
        deep("a sequence of groups of level 8, of any type", one(23, false, true, 0), 8, listed),
        deep("an extension's group of level 8", one(1, false, false, 0), 8, extended),
        deep("a sequence of groups of level 9", one(22, false, true, 4), 9, listed),
        deep("an extension's group of level 9", one(1, false, false, 0), 9, extended),
    ]
}

/// The sheet of sequences of groups like these, to a level.
pub fn deep_sheet(levels: usize) -> Vec<u8> {
    let opened = b"GB\x01\0\0\0\0\0\0\0SGSGSGSGSQ";
    let mut sheet = Vec::new();
    for level in 1..=levels {
        sheet.extend(opened);
        sheet.extend(u32::from(level < levels).to_le_bytes());
    }
    sheet.extend(b"GE".repeat(levels));
    sheet
}

fn small_groups() -> Case {
    let groups: Vec<_> = (0..2700u32).map(|i| dynamic(2, &i.to_le_bytes(), &[])).collect();
    let mut table = group(Some(1), 0, &[field(23, false, true, 0, 0)]);
    table.extend(group(Some(2), 0, &[field(5, false, false, 0, 0)]));
    Case { name: "2,700 small groups", table, message: dynamic(1, &4u32.to_le_bytes(), &sequence_of(&groups)) }
}

/// What the search for a symbol costs, whichever it is, in short and in long lists. The last case is refused for its last symbol.
pub fn symbol_cases() -> Vec<Case> {
    vec![
        symbols("10,000 symbols, the only one", 1, |_| 0),
        symbols("10,000 symbols of 2", 2, |i| scattered(i, 2)),
        symbols("10,000 symbols of 4", 4, |i| scattered(i, 4)),
        symbols("10,000 symbols of 8", 8, |i| scattered(i, 8)),
        symbols("10,000 times the first of 256", 256, |_| 0),
        symbols("10,000 times the middle of 256", 256, |_| 128),
        symbols("10,000 times the last of 256", 256, |_| 255),
        symbols("9,999 of 256, then a missing one", 256, |i| if i < 9_999 { scattered(i, 256) } else { 256 }),
    ]
}

pub fn cases() -> Vec<Case> {
    let long: Vec<u8> = (0..60_000).map(|i| (i % 95) as u8 + 32).collect();
    let strings: Vec<_> = (0..3000).map(|i| text(format!("part {i:04}").as_bytes())).collect();
    let mut numbers = 10_000u32.to_le_bytes().to_vec();
    numbers.extend((0..10_000u32).flat_map(u32::to_le_bytes));
    vec![
        station(),
        one_field("60 KB in one string", field(17, false, false, 0, 0), &text(&long)),
        one_field("3,000 short strings", field(17, false, true, 0, 0), &sequence_of(&strings)),
        one_field("10,000 u32", field(5, false, true, 0, 0), &numbers),
        symbols("10,000 symbols of 256", 256, |i| scattered(i, 256)),
        nested(),
        small_groups(),
    ]
}
