//! Edges of reading one field.

use super::{group, read, text, with, word, Edges, FINE};
use crate::generate::message::FLOATS;
use crate::generate::table::{field, TablePlan};
use crate::question::{Kind, Question};
use crate::Type;

pub fn add(edges: &mut Edges) {
    numbers(edges);
    parts(edges);
    fields_and_items(edges);
    message_faults_first(edges);
}

/// Asks both questions of the same item.
fn both(
    edges: &mut Edges,
    name: &str,
    table: &[u8],
    message: &[u8],
    at: (u64, u64),
    faults: [(u8, usize); 2],
) {
    for (kind, fault) in [Kind::ReadNumber, Kind::ReadBytes].into_iter().zip(faults) {
        edges.add(name, table, read(kind, message, at.0, at.1), fault);
    }
}

const OTHER_KIND: (u8, usize) = (48, 0);
const NO_SUCH: (u8, usize) = (28, 0);
const ABSENT: (u8, usize) = (29, 0);

/// The extremes of every type that a number answer fits.
fn numbers(edges: &mut Edges) {
    for ty in &Type::ALL[..16] {
        let plan = TablePlan::new().group(1, &[field(Type::U8), field(*ty)]);
        let list = TablePlan::new().group(1, &[field(*ty).sequence()]);
        let width = plan.item_width(field(*ty));
        let low = |byte: u8| [&[byte][..], &vec![0; width - 1]].concat();
        let high = |byte: u8| [&vec![0; width - 1][..], &[byte]].concat();
        let mut values = vec![vec![0; width], low(1)];
        match ty {
            Type::Bool => {}
            Type::TimeOfDayMilli => values.push(86_399_999_u32.to_le_bytes().to_vec()),
            Type::TimeOfDayNano => values.push(86_399_999_999_999_u64.to_le_bytes().to_vec()),
            Type::F64 => values = FLOATS.map(|bits| bits.to_le_bytes().to_vec()).to_vec(),
            _ => {
                values.push(vec![0xff; width]);
                values.push(high(0x80));
                values.push([vec![0xff; width - 1], vec![0x7f]].concat());
                values.push(low(0x80));
                values.push((1..=width as u8).collect());
            }
        }
        let name = format!("type {}", *ty as u8);
        for value in &values {
            let message = group(1, 0, &[&[9], value]);
            both(edges, &name, &plan.encode(), &message, (1, 0), [FINE, OTHER_KIND]);
        }
        let items = values.concat();
        let message = group(1, 0, &[&word(4), &word(values.len() as u32), &items]);
        for item in [0, values.len() - 1] {
            both(edges, &name, &list.encode(), &message, (0, item as u64), [FINE, OTHER_KIND]);
        }
        both(edges, &name, &list.encode(), &message, (0, values.len() as u64), [NO_SUCH; 2]);
    }
    let symbols = TablePlan::new()
        .enumeration(&[i32::MIN, -1, i32::MAX])
        .group(1, &[field(Type::Enumeration).optional()]);
    for symbol in [i32::MIN, -1, i32::MAX] {
        let message = group(1, 0, &[&[1], &symbol.to_le_bytes()]);
        both(edges, "a symbol", &symbols.encode(), &message, (0, 0), [FINE, OTHER_KIND]);
    }
    let dates = TablePlan::new().group(1, &[field(Type::Date)]);
    let eve = group(1, 0, &[&[0xff; 4]]);
    both(edges, "the day before 2000-01-01", &dates.encode(), &eve, (0, 0), [FINE, OTHER_KIND]);
    let first = group(1, 0, &[&[0, 0, 0, 0x80]]);
    both(edges, "the first date", &dates.encode(), &first, (0, 0), [FINE, OTHER_KIND]);
}

/// The types that the bytes answer fits, and static groups, which fit none.
fn parts(edges: &mut Edges) {
    let string = field(Type::String);
    let plan = TablePlan::new().plain(&[field(Type::U8)]).group(2, &[]).group(
        1,
        &[
            string.size(4),
            string,
            field(Type::Binary),
            field(Type::Fixed).size(3),
            field(Type::DynamicGroup).of(1),
            field(Type::AnyGroup).optional(),
            field(Type::StaticGroup),
            field(Type::Binary).size(2).optional(),
        ],
    );
    let inner = group(2, 0, &[&[0; 3]]);
    // Inline 16, offsets 21 and 25, fixed 29, offsets 32 and 37, static 41,
    // inline 42, area 46: texts at 46 and 52, groups at 56 and 75.
    let message = group(
        1,
        0,
        &[
            b"\x03abc\0",
            &word(25),
            &word(27),
            b"fix",
            &word(24),
            &[1],
            &word(38),
            &[7],
            &[1, 2, 8, 9],
            &text(b"xy"),
            &text(b""),
            &inner,
            &group(2, 0, &[]),
        ],
    );
    let table = plan.encode();
    for number in 0..8 {
        let bytes = if number == 6 { OTHER_KIND } else { FINE };
        let name = format!("part {number}");
        both(edges, &name, &table, &message, (number, 0), [OTHER_KIND, bytes]);
        both(edges, &name, &table, &message, (number, 1), [NO_SUCH; 2]);
    }
    both(edges, "no field 8", &table, &message, (8, 0), [NO_SUCH; 2]);

    let list = TablePlan::new().plain(&[field(Type::U8)]).group(2, &[]).group(
        1,
        &[
            string.size(2).sequence(),
            string.sequence(),
            field(Type::Fixed).size(2).sequence().optional(),
            field(Type::AnyGroup).sequence(),
            field(Type::StaticGroup).sequence(),
        ],
    );
    // The area starts at 37; the second text stands before the first one.
    let message = group(
        1,
        0,
        &[
            &word(21),
            &word(27),
            &[1],
            &word(47),
            &word(51),
            &word(92),
            &word(2),
            b"\x01a\0\x02bc",
            &word(2),
            &word(12),
            &word(4),
            &text(b""),
            &text(b"hello"),
            &word(2),
            b"wxyz",
            &word(2),
            &word(8),
            &word(20),
            &group(2, 0, &[]),
            &group(2, 0, &[&[0; 1]]),
            &word(1),
            &[5],
        ],
    );
    let table = list.encode();
    for (number, count) in [(0, 2), (1, 2), (2, 2), (3, 2), (4, 1)] {
        for item in 0..count {
            let bytes = if number == 4 { OTHER_KIND } else { FINE };
            let name = format!("part {number}, item {item}");
            both(edges, &name, &table, &message, (number, item), [OTHER_KIND, bytes]);
        }
        both(edges, "no such item", &table, &message, (number, count), [NO_SUCH; 2]);
    }
}

fn fields_and_items(edges: &mut Edges) {
    let plan = TablePlan::new().group(
        1,
        &[
            field(Type::U32),
            field(Type::U32).optional(),
            field(Type::U8).sequence(),
            field(Type::String).sequence().optional(),
            field(Type::String).optional(),
        ],
    );
    let message = group(1, 0, &[&[7; 4], &[0; 5], &word(14), &[0; 5], &[0; 5], &word(3), &[1, 2, 3]]);
    let table = plan.encode();
    let far = [u64::MAX, u64::MAX - 1, 1 << 63, 1 << 32, 1 << 16, 256, 64];
    for number in far {
        both(edges, "no such field", &table, &message, (number, 0), [NO_SUCH; 2]);
        both(edges, "no such field or item", &table, &message, (number, number), [NO_SUCH; 2]);
        both(edges, "no such item", &table, &message, (0, number), [NO_SUCH; 2]);
        both(edges, "no such item of a sequence", &table, &message, (2, number), [NO_SUCH; 2]);
        both(edges, "29 before the item's 28", &table, &message, (1, number), [ABSENT; 2]);
        both(edges, "29 a sequence's item", &table, &message, (3, number), [ABSENT; 2]);
    }
    both(edges, "29", &table, &message, (1, 0), [ABSENT; 2]);
    both(edges, "29 a sequence", &table, &message, (3, 0), [ABSENT; 2]);
    both(edges, "29 before 48", &table, &message, (4, 0), [ABSENT; 2]);
    both(edges, "28 field 5", &table, &message, (5, 0), [NO_SUCH; 2]);
    both(edges, "28 before 48", &table, &message, (0, 1), [NO_SUCH; 2]);
    both(edges, "28 item 3", &table, &message, (2, 3), [NO_SUCH; 2]);
    both(edges, "the last item", &table, &message, (2, 2), [FINE, OTHER_KIND]);
    let empty = TablePlan::new().group(1, &[field(Type::U8).sequence()]);
    let message = group(1, 0, &[&word(4), &word(0)]);
    both(edges, "28 no items", &empty.encode(), &message, (0, 0), [NO_SUCH; 2]);
    let none = TablePlan::new().group(1, &[]);
    both(edges, "28 no fields", &none.encode(), &group(1, 0, &[]), (0, 0), [NO_SUCH; 2]);
}

fn message_faults_first(edges: &mut Edges) {
    let plan = TablePlan::new().group(1, &[field(Type::U8), field(Type::Bool)]);
    let message = group(1, 0, &[&[7, 1]]);
    let table = plan.encode();
    let far = (9, 9);
    both(edges, "28 only", &table, &message, far, [NO_SUCH; 2]);
    both(edges, "11 before 28", &table, &with(&message, 17, 2), far, [(11, 17); 2]);
    both(edges, "11 in a later field", &table, &with(&message, 17, 2), (0, 0), [(11, 17); 2]);
    both(edges, "22 before 28", &table, &message[..17], far, [(22, 0); 2]);
    both(edges, "20 before 28", &table[..32], &message, far, [(20, 0); 2]);
    for kind in [Kind::ReadNumber, Kind::ReadBytes] {
        let short = Question { scratch: 17, ..read(kind, &message, 9, 9) };
        edges.add("21 before 28", &table, short, (21, 0));
        let long = read(kind, &[0; 65_537], 9, 9);
        edges.add("23 before 28", &table, Question { scratch: 9, ..long }, (23, 0));
    }
}
