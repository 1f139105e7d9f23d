//! Edges of stored widths: `GW` records, a mix of them with `GR`, and fault
//! 37. And the same messages under a table and its twin of the other form.

use super::record::{gb, ge, no, sg, sq, st, va};
use super::{check, group, read, rewrite, text, to_sheet, with, word, write, Edges, FINE};
use crate::generate::table::{field, FieldPlan, TablePlan};
use crate::question::Kind;
use crate::Type;

pub fn add(edges: &mut Edges) {
    true_widths(edges);
    widths_of_types(edges);
    mixed_marks(edges);
    mixed_marks_and_other_faults(edges);
    shape(edges);
    zeros(edges);
    wrong_numbers(edges);
    static_groups(edges);
    which_group(edges);
    after_the_other_faults(edges);
    not_by_the_stored_width(edges);
    messages(edges);
    readings_and_sheets(edges);
    refused_tables(edges);
}

fn own() -> FieldPlan {
    field(Type::U8)
}

fn inner(reference: u16) -> FieldPlan {
    field(Type::StaticGroup).of(reference)
}

fn fixed(size: u8) -> FieldPlan {
    field(Type::Fixed).size(size)
}

/// More than a group may be wide.
fn too_wide() -> [FieldPlan; 17] {
    [fixed(255); 17]
}

/// Fields of just 4,096 bytes.
fn widest() -> Vec<FieldPlan> {
    [vec![fixed(255); 16], vec![fixed(16)]].concat()
}

/// A station's table, its group at 80: barcode, density, sound speed, grade,
/// note.
fn station() -> TablePlan {
    TablePlan::new().enumeration(&[0, 1, 2, 3]).group(1, &blank_fields())
}

fn blank_fields() -> [FieldPlan; 5] {
    let (text, number) = (field(Type::String), field(Type::U32));
    [text, number, number, field(Type::Enumeration), text.optional()]
}

/// Groups of one byte, with ids from 1 on, 32 bytes of the table each.
fn bytes(groups: u64) -> TablePlan {
    (1..=groups).fold(TablePlan::new(), |plan, id| plan.group(id, &[own()]))
}

/// The table with another number in bytes 14-15 of the record at `at`.
fn with_width(table: &[u8], at: usize, width: u16) -> Vec<u8> {
    let [low, high] = width.to_le_bytes();
    with(&with(table, at + 14, low), at + 15, high)
}

/// The table with `GW` records that hold these widths.
fn gw(plan: &TablePlan, widths: &[u16]) -> Vec<u8> {
    let places = plan.group_places();
    assert_eq!(places.len(), widths.len());
    places.iter().zip(widths).fold(plan.encode(), |table, (&place, &width)| {
        with_width(&with(&table, place + 1, b'W'), place, width)
    })
}

/// Each width, and the numbers next to it. Before the group, which stands at
/// 112, there are two that it can hold, of 3 and of 11 bytes.
fn true_widths(edges: &mut Edges) {
    let (number, string) = (field(Type::U32), field(Type::String));
    let statics =
        TablePlan::new().plain(&[own(), field(Type::U16)]).plain(&[inner(0), inner(0).optional(), number]);
    for (name, fields, width) in [
        ("no fields", &[][..], 0),
        ("a number", &[number], 4),
        ("an optional field", &[number.optional()], 5),
        ("a sequence", &[field(Type::U64).sequence()], 4),
        ("an optional sequence", &[own().optional().sequence()], 5),
        ("an indirect string", &[string], 4),
        ("an inline string", &[string.size(12)], 13),
        ("an optional inline string", &[string.size(254).optional()], 256),
        ("a sequence of inline strings", &[string.size(12).sequence()], 4),
        ("a static group", &[inner(0)], 3),
        ("an optional static group", &[inner(0).optional()], 4),
        ("a sequence of static groups", &[inner(1).sequence()], 4),
        ("an optional sequence of static groups", &[inner(1).optional().sequence()], 5),
        ("a static group in a static group", &[inner(1)], 11),
        ("dynamic groups", &[field(Type::DynamicGroup), field(Type::AnyGroup).optional()], 9),
        ("fields of all kinds", &[inner(1), own(), string.size(255), inner(0).sequence(), fixed(255)], 527),
        ("the greatest width", &widest(), 4_096),
    ] {
        let plan = statics.clone().group(1, fields);
        edges.table(&format!("GW {name}"), gw(&plan, &[3, 11, width]), FINE);
        for wrong in [width.wrapping_sub(1), width + 1] {
            edges.table(&format!("37 {name}"), gw(&plan, &[3, 11, wrong]), (37, 112));
        }
    }
    edges.table("GW a station's table", gw(&station(), &[21]), FINE);
    edges.table("GW one group of no fields", gw(&TablePlan::new().group(1, &[]), &[0]), FINE);
    // A super at 0, a child at 32, and one of no fields of its own at 80.
    let line = TablePlan::new().group(1, &[number]).child(0, 2, &[own()]).child(1, 3, &[]);
    edges.table("GW a super and its children", gw(&line, &[4, 5, 5]), FINE);
    edges.table("37 a child has its super's width", gw(&line, &[4, 4, 5]), (37, 32));
    edges.table("37 a super has its child's width", gw(&line, &[5, 5, 5]), (37, 0));
    edges.table("37 as wide as the first super", gw(&line, &[4, 5, 4]), (37, 80));
}

/// A group for each type, whose field is optional or a sequence, or both.
fn widths_of_types(edges: &mut Edges) {
    let widths = [1, 1, 2, 2, 4, 4, 8, 8, 8, 9, 1, 4, 8, 8, 4, 8, 4, 4, 7, 4, 3, 4, 4];
    for (optional, sequence) in [(false, false), (true, false), (false, true), (true, true)] {
        let mut plan = TablePlan::new().enumeration(&[0]).plain(&[own(), field(Type::U16)]);
        let mut stored = vec![3];
        for (ty, width) in Type::ALL.into_iter().zip(widths) {
            let size = if ty == Type::Fixed { 7 } else { 0 };
            plan = plan.group(ty as u64, &[FieldPlan { optional, sequence, size, ..field(ty) }]);
            stored.push(if sequence { 4 } else { width } + u16::from(optional));
        }
        edges.table("GW a group for each type", gw(&plan, &stored), FINE);
    }
}

/// The first group record with the other mark is refused.
fn mixed_marks(edges: &mut Edges) {
    for (marks, answer) in [
        ("RRR", FINE),
        ("WWW", FINE),
        ("RWW", (31, 32)),
        ("RWR", (31, 32)),
        ("RRW", (31, 64)),
        ("WRR", (31, 32)),
        ("WRW", (31, 32)),
        ("WWR", (31, 64)),
    ] {
        let table = marks.bytes().enumerate().fold(bytes(3).encode(), |table, (number, mark)| {
            let at = 32 * number;
            with_width(&with(&table, at + 1, mark), at, u16::from(mark == b'W'))
        });
        edges.table(&format!("groups {marks}"), table, answer);
    }
    // The mark alone: bytes 14-15 stay as they were, and come later.
    let (zeros, stored) = (bytes(2).encode(), gw(&bytes(2), &[1, 1]));
    edges.table("31 a GW of width 0", with(&zeros, 33, b'W'), (31, 32));
    edges.table("31 a GR with a width", with(&stored, 33, b'R'), (31, 32));
    edges.table("32 the one GR has a width", with(&gw(&bytes(1), &[1]), 1, b'R'), (32, 0));
    edges.table("37 the one GW has none", with(&bytes(1).encode(), 1, b'W'), (37, 0));
    for (table, other) in [(bytes(64).encode(), b'W'), (gw(&bytes(64), &[1; 64]), b'R')] {
        edges.table("64 groups of one form", table.clone(), FINE);
        edges.table("31 the last of 64 groups", with(&table, 63 * 32 + 1, other), (31, 63 * 32));
        edges.table("31 the first of 64 groups", with(&table, 1, other), (31, 32));
    }
    let two = station().group(2, &[]);
    edges.table("31 behind an enumeration", with(&two.encode(), 177, b'W'), (31, 176));
}

fn mixed_marks_and_other_faults(edges: &mut Edges) {
    // Groups at 0, 32 and 64; that at 32 is the odd one.
    for (plan, odd) in [(bytes(3), b'W'), (bytes(3).twin(), b'R')] {
        let table = with(&plan.encode(), 33, odd);
        edges.table("31 of a field before a mix", with(&table, 16, 0), (31, 16));
        edges.table("31 one field too few before a mix", with(&table, 13, 0), (31, 16));
        for (name, table) in [
            ("31 a mix before 31 of its field", with(&table, 48, 0)),
            ("31 a mix before 31 of the next group", with(&table, 64, 0)),
            ("31 a mix before a missing record", table[..48].to_vec()),
            ("31 a mix in a group of 65 fields", with(&table, 32 + 13, 65)),
            ("31 a mix where a field is due", with(&table, 13, 2)),
            ("31 a mix before an EN", with(&with(&table, 64, b'E'), 65, b'N')),
            ("31 a mix before 32", with(&table, 10, 2)),
            ("31 a mix before 32 or 37 of bytes 14-15", with_width(&table, 0, 9)),
            ("31 a mix before 33", with(&table, 16 + 2, 0)),
            ("31 a mix before 34", with(&table, 64 + 2, 1)),
        ] {
            edges.table(name, table, (31, 32));
        }
        edges.table("30 before a mix", [&table[..], &[0]].concat(), (30, 0));
    }
    // The last group is the odd one.
    for (name, plan) in [
        ("31 a mix before 34 for no id", TablePlan::new().plain(&[own()]).plain(&[])),
        ("31 a mix before 35", TablePlan::new().group(1, &too_wide()).group(2, &[])),
        ("31 a mix before 36", bytes(1).below(0, 2, &[]).group(3, &[])),
    ] {
        let last = plan.group_places().pop().expect("a group");
        edges.table(name, with(&plan.encode(), last + 1, b'W'), (31, last));
        edges.table(name, with(&plan.twin().encode(), last + 1, b'R'), (31, last));
    }
}

/// What 31 says of `GR` it says of `GW`.
fn shape(edges: &mut Edges) {
    let table = gw(&bytes(2), &[1, 1]);
    for mark in [b"GV", b"GX", b"gw", b"WG", b"Gw", b"gW", b"WW", b"G\0"] {
        for at in [0, 32] {
            let other = with(&with(&table, at, mark[0]), at + 1, mark[1]);
            edges.table("31 neither GR nor GW", other, (31, at));
        }
    }
    let station = gw(&station(), &[21]);
    let marked = |at: usize| with(&with(&station, at, b'G'), at + 1, b'W');
    edges.table("31 GW where a symbol is due", marked(64), (31, 64));
    edges.table("31 GW where a field is due", marked(96), (31, 96));
    edges.table("31 GW where the enumeration stood", marked(0), (31, 16));
    edges.table("31 an EN after a GW", [&station[80..], &station[..80]].concat(), (31, 96));
    edges.table("31 a field of a GW is missing", station[..160].to_vec(), (31, 160));
    edges.table("31 a GW with 65 fields", with(&station, 80 + 13, 65), (31, 80));
    let most = TablePlan::new().group(1, &[own(); 64]);
    edges.table("GW 64 fields", gw(&most, &[64]), FINE);
    for last in [&table[32..64], &bytes(65).encode()[64 * 32..]] {
        let many = [&gw(&bytes(64), &[1; 64])[..], last].concat();
        edges.table("31 a 65th group after 64 GW", many, (31, 64 * 32));
    }
}

/// 32 of bytes 14-15 in a `GR`, of all else in a `GW`.
fn zeros(edges: &mut Edges) {
    let table = bytes(2).encode();
    for at in [0, 32] {
        for width in [1, 2, 255, 256, u16::MAX] {
            edges.table("32 a width in a GR", with_width(&table, at, width), (32, at));
        }
    }
    let all = with_width(&with_width(&table, 0, 1), 32, 1);
    edges.table("32 true widths in all GR", all, (32, 0));

    // Group 0 at 80, a group without an id at 176.
    let plan = station().plain(&[]);
    let table = gw(&plan, &[21, 0]);
    for (name, at, byte, record) in [
        ("32 id flag", 80 + 10, 2, 80),
        ("32 id flag 255", 80 + 10, 255, 80),
        ("32 an id but no flag", 176 + 2, 1, 176),
        ("32 an id but no flag, last byte", 176 + 9, 1, 176),
        ("32 EN", 15, 1, 0),
        ("32 SY", 16 + 14, 1, 16),
        ("32 FD", 96 + 14, 21, 96),
        ("32 FD, last byte", 96 + 15, 1, 96),
    ] {
        edges.table(&format!("{name} in a GW table"), with(&table, at, byte), (32, record));
    }
    edges.table("33 super of a GW is its own", with(&table, 176 + 11, 2), (33, 176));
    edges.table("33 super 256 of a GW", with(&table, 176 + 12, 1), (33, 176));
    edges.table("33 enumeration 1 of 1 in a GW table", with(&table, 144 + 6, 1), (33, 144));
    edges.table("34 equal symbols in a GW table", with(&table, 32 + 2, 0), (34, 32));
    let twice = gw(&station().group(1, &[]), &[21, 0]);
    edges.table("34 the id of a GW came before", twice, (34, 176));
    let zero = gw(&TablePlan::new().plain(&[]).group(0, &[]), &[0, 0]);
    edges.table("GW 0 is an id", zero, FINE);
}

fn wrong_numbers(edges: &mut Edges) {
    for (name, stored) in [
        ("37 without the flag of the note", 20),
        ("37 the high byte is wrong", 0x0115),
        ("37 the high byte is wrong by its highest bit", 0x8015),
        ("37 the bytes are swapped", 0x1500),
        ("37 zero", 0),
        ("37 the greatest number", u16::MAX),
        ("37 the field count", 5),
        ("37 the bytes of its records", 5 * 16),
        ("37 with the group's header", 21 + 16),
    ] {
        edges.table(name, gw(&station(), &[stored]), (37, 80));
    }
    // 300 is 0x012c.
    let wide = TablePlan::new().group(1, &[fixed(255), fixed(45)]);
    edges.table("GW 300 bytes", gw(&wide, &[300]), FINE);
    for (name, stored) in [
        ("37 the low byte alone", 0x002c),
        ("37 the high byte alone", 0x0100),
        ("37 the low byte is right", 0x022c),
        ("37 the high byte is right", 0x012d),
        ("37 300, swapped", 0x2c01),
    ] {
        edges.table(name, gw(&wide, &[stored]), (37, 0));
    }
    let even = TablePlan::new().group(1, &[fixed(255), fixed(2)]);
    edges.table("GW 257 bytes, both ways round", gw(&even, &[0x0101]), FINE);
}

/// A static group counts with its own true width.
fn static_groups(edges: &mut Edges) {
    // A group of 3 bytes at 0, one that holds it at 48, and one that holds
    // that one at 96.
    let plan = TablePlan::new()
        .plain(&[own(), field(Type::U16)])
        .plain(&[inner(0), field(Type::U32)])
        .group(1, &[inner(1), inner(0).sequence()]);
    edges.table("GW static in static", gw(&plan, &[3, 7, 11]), FINE);
    for (name, widths, place) in [
        ("37 the lower group, counted as stored", [4, 8, 12], 0),
        ("37 the lower group, the others are right", [4, 7, 11], 0),
        ("37 counted as 4", [3, 8, 12], 48),
        ("37 counted as 0", [3, 4, 11], 48),
        ("37 counted as one byte", [3, 5, 11], 48),
        ("37 counted with its first field alone", [3, 7, 5], 96),
        ("37 counted as the lowest", [3, 7, 7], 96),
        ("37 a sequence counted as its item", [3, 7, 10], 96),
        ("37 the middle group, counted as stored", [3, 6, 10], 48),
    ] {
        edges.table(name, gw(&plan, &widths), (37, place));
    }
}

fn which_group(edges: &mut Edges) {
    for (name, widths, place) in [
        ("37 the first of three", [2, 1, 1], 0),
        ("37 the second of three", [1, 2, 1], 32),
        ("37 the last of three", [1, 1, 2], 64),
        ("37 the first of two wrong ones", [1, 0, 3], 32),
        ("37 the first and the last", [3, 1, 3], 0),
        ("37 all three", [9, 9, 9], 0),
    ] {
        edges.table(name, gw(&bytes(3), &widths), (37, place));
    }
    let mut widths = [1; 64];
    widths[63] = 2;
    edges.table("37 the last of 64 groups", gw(&bytes(64), &widths), (37, 63 * 32));
    // Groups of other widths, whose numbers change places.
    let plan = TablePlan::new().group(1, &[own()]).group(2, &[]);
    edges.table("37 the next group's width", gw(&plan, &[0, 0]), (37, 0));
    edges.table("37 the width of the group before", gw(&plan, &[1, 1]), (37, 32));
    // No id and no field that names it: no message can reach it.
    let plan = bytes(1).plain(&[own()]);
    edges.table("37 a group without an id", gw(&plan, &[1, 0]), (37, 32));
    let plan = TablePlan::new().plain(&[]).group(1, &[own()]);
    edges.table("37 a group without an id and fields", gw(&plan, &[1, 1]), (37, 0));
}

/// All 30 to 36 of the table come before any 37, here the first group's.
fn after_the_other_faults(edges: &mut Edges) {
    let wrong = |plan: &TablePlan| with_width(&plan.twin().encode(), 0, 9);
    let first = bytes(1);
    let empty = first.clone().plain(&[]).plain(&[inner(1)]);
    let deep = (0..5).fold(first.clone(), |plan, named| plan.plain(&[inner(named)]));
    for (name, plan, fault) in [
        ("37 and no other fault", &bytes(2), (37, 0)),
        ("36 of a later group before 37", &first.clone().below(0, 2, &[]), (36, 32)),
        ("35 of a later group before 37", &first.clone().group(2, &too_wide()), (35, 32)),
        ("35 an empty static group before 37", &empty, (35, 48)),
        ("35 a depth of 5 before 37", &deep, (35, 5 * 32)),
        ("35 before 37 of one group", &TablePlan::new().group(1, &too_wide()), (35, 0)),
        ("34 of a later group before 37", &first.clone().group(1, &[]), (34, 32)),
        ("34 no id at all before 37", &TablePlan::new().plain(&[own()]), (34, 32)),
    ] {
        edges.table(name, wrong(plan), fault);
    }
    let forgets = first.clone().below(0, 2, &[field(Type::U16)]);
    edges.table("36 before 37 of one group", gw(&forgets, &[1, 1]), (36, 32));
    edges.table("36 and every width is true", gw(&forgets, &[1, 2]), (36, 32));
    let table = wrong(&bytes(2));
    edges.table("33 of a later record before 37", with(&table, 48 + 2, 0), (33, 48));
    edges.table("32 of a later record before 37", with(&table, 48 + 15, 1), (32, 48));
    edges.table("32 before 37 of one record", with(&table, 10, 2), (32, 0));
    edges.table("31 of a later record before 37", with(&table, 48, 0), (31, 48));
    edges.table("30 before 37", [&table[..], &[0]].concat(), (30, 0));
}

/// 35 goes by the true widths.
fn not_by_the_stored_width(edges: &mut Edges) {
    for stored in [4_097, u16::MAX] {
        edges.table("37 a small group, far too wide as stored", gw(&bytes(1), &[stored]), (37, 0));
    }
    let wide = TablePlan::new().group(1, &[&widest()[..], &[own()]].concat());
    // 1 is its low byte.
    for stored in [4_097, 4_096, 4_095, 1, 0] {
        edges.table("35 a width of 4,097", gw(&wide, &[stored]), (35, 0));
    }
    let full = TablePlan::new().plain(&[fixed(128); 32]).group(1, &[inner(0); 16]);
    edges.table("35 a width of 65,536, stored as 0", gw(&full, &[4_096, 0]), (35, 33 * 16));
    // What the lower group, at 0, stores does not matter to the upper one.
    let holds = |lower: &[FieldPlan], upper: &[FieldPlan]| TablePlan::new().plain(lower).group(1, upper);
    let one = holds(&[own()], &[inner(0)]);
    edges.table("37 a static group that stores 0", gw(&one, &[0, 1]), (37, 0));
    edges.table("37 counted as the 0 that it stores", gw(&one, &[0, 0]), (37, 0));
    let two = holds(&[own()], &[inner(0), inner(0)]);
    edges.table("37 two of 1 byte, stored as 4,096", gw(&two, &[4_096, 2]), (37, 0));
    let empty = holds(&[], &[inner(0)]);
    for widths in [[1, 0], [1, 1], [0, 0]] {
        edges.table("35 an empty static group", gw(&empty, &widths), (35, 16));
    }
    let sequence = holds(&[], &[inner(0).sequence()]);
    edges.table("35 a sequence of empty groups", gw(&sequence, &[1, 4]), (35, 16));
    let wide = holds(&[fixed(255); 8], &[inner(0), inner(0), fixed(17)]);
    edges.table("35 two of 2,040 bytes, stored as 1", gw(&wide, &[1, 19]), (35, 9 * 16));
}

/// Hops of 3 bytes, Blank with id 1, below it with id 2 a blank that has
/// hops, and with id 3 a list of blanks and any group.
fn stations() -> TablePlan {
    TablePlan::new()
        .enumeration(&[0, 1, 2, 3])
        .plain(&[own(), field(Type::U16)])
        .group(1, &blank_fields())
        .child(1, 2, &[inner(0).sequence(), inner(0).optional()])
        .group(3, &[field(Type::DynamicGroup).of(1).sequence(), field(Type::AnyGroup).optional()])
}

/// A message of Blank, or of a group below it with `added` fields and `more`
/// behind the barcode and the note. Offsets at 16 and 33.
fn blank(id: u64, added: &[u8], more: &[u8]) -> Vec<u8> {
    let to_area = |fields: usize| word((fields + added.len()) as u32);
    let numbers = [word(2650), word(5728), word(2)].concat();
    let note = [&[1][..], &to_area(4 + 8)].concat();
    group(id, 0, &[&to_area(21), &numbers, &note, added, &text(b"QZ-1"), &text(b"chip"), more])
}

/// The records of Blank's fields in its sheet.
fn blank_records() -> Vec<u8> {
    [st(b"QZ-1"), va(&word(2650)), va(&word(5728)), va(&word(2)), st(b"chip")].concat()
}

/// A message of the group with hops: their offset at 37, one more at 41; at
/// 61 the count of two.
fn hops() -> Vec<u8> {
    blank(2, &[&word(24)[..], &[1, 7, 8, 9]].concat(), &[&word(2)[..], &[1, 2, 3, 4, 5, 6]].concat())
}

/// A message of the list: two groups, the first at 37.
fn list(first: &[u8], second: &[u8]) -> Vec<u8> {
    let offsets = [word(2), word(8), word(4 + first.len() as u32)].concat();
    group(3, 0, &[&word(9), &[0; 5], &offsets, first, second])
}

/// Each message under the `GR` table and under its `GW` twin.
fn messages(edges: &mut Edges) {
    let (blank, hops) = (blank(1, &[], &[]), hops());
    let zeros = |id, width| group(id, 0, &[&vec![0; width]]);
    let pad = |byte| group(1, 0, &[&word(22), &[0; 17], &[byte], &text(b"QZ-1")]);
    for plan in [stations(), stations().twin()] {
        for (name, message, answer) in [
            ("a blank", &blank, FINE),
            ("a blank with hops", &hops, FINE),
            ("a list", &list(&blank, &hops), FINE),
            ("14 one byte less than Blank's width", &zeros(1, 20), (14, 0)),
            ("5 just as wide, at its first offset", &zeros(1, 21), (5, 16)),
            ("14 one byte less with hops", &zeros(2, 28), (14, 0)),
            ("14 one byte less in a list", &list(&zeros(1, 20), &hops), (14, 37)),
            ("14 one byte less, the second in a list", &list(&blank, &zeros(2, 28)), (14, 90)),
            ("5 the last byte of the fields", &with(&blank, 16, 20), (5, 16)),
            ("a pad at the area's start", &pad(0), FINE),
            ("6 the first byte of the area", &pad(9), (6, 37)),
            ("5 the blank's bytes with hops", &with(&blank, 4, 2), (5, 16)),
            ("13 one hop too many", &with(&hops, 61, 3), (13, 61)),
            ("6 one hop too few", &with(&hops, 61, 1), (6, 68)),
            ("4 a hop that is absent", &with(&hops, 41, 0), (4, 42)),
            ("9 in the barcode", &with(&hops, 49, 0xff), (9, 49)),
            ("10 no such grade", &with(&hops, 28, 4), (10, 28)),
        ] {
            edges.check(name, &plan, message, answer);
        }
    }
}

fn readings_and_sheets(edges: &mut Edges) {
    let message = hops();
    let hop = |bytes: [u8; 3]| [sg(), va(&bytes[..1]), va(&bytes[1..])].concat();
    let items = [sq(2), hop([1, 2, 3]), hop([4, 5, 6])].concat();
    let sheet = [gb(2), blank_records(), items, hop([7, 8, 9]), ge()].concat();
    let short = [gb(2), blank_records(), sq(0), no(), ge()].concat();
    let (whole, room) = (message.len(), sheet.len());
    for table in [stations().encode(), stations().twin().encode()] {
        for (name, question, answer) in [
            ("its sheet", to_sheet(&message, room), FINE),
            ("46 its sheet", to_sheet(&message, room - 1), (46, 0)),
            ("its rewriting", rewrite(&message, room, whole), FINE),
            ("46 its rewriting", rewrite(&message, room - 1, whole), (46, 0)),
            ("47 its rewriting", rewrite(&message, room, whole - 1), (47, 0)),
            ("from its sheet", write(&sheet, whole), FINE),
            ("47 from its sheet", write(&sheet, whole - 1), (47, 0)),
            ("from a sheet without hops", write(&short, 65), FINE),
            ("47 from a sheet without hops", write(&short, 64), (47, 0)),
            ("41 the super's fields alone", write(&[gb(2), blank_records(), ge()].concat(), whole), (41, 48)),
            ("the density", read(Kind::ReadNumber, &message, 1, 0), FINE),
            ("the grade", read(Kind::ReadNumber, &message, 3, 0), FINE),
            ("48 a hop", read(Kind::ReadNumber, &message, 5, 1), (48, 0)),
            ("28 no such hop", read(Kind::ReadNumber, &message, 5, 2), (28, 0)),
            ("the barcode", read(Kind::ReadBytes, &message, 0, 0), FINE),
            ("the note", read(Kind::ReadBytes, &message, 4, 0), FINE),
            ("28 no such field", read(Kind::ReadBytes, &message, 7, 0), (28, 0)),
            ("a blank of a list", read(Kind::ReadBytes, &list(&message, &message), 0, 1), FINE),
        ] {
            edges.add(name, &table, question, answer);
        }
    }
}

/// A table with 37, or with a mix, answers no question, of no group.
fn refused_tables(edges: &mut Edges) {
    let plan = stations();
    let message = blank(1, &[], &[]);
    let sheet = [gb(1), blank_records(), ge()].concat();
    // Only the last group is wrong, of which there is no message here.
    let last = plan.group_places().pop().expect("a group");
    let stored = plan.twin().encode();
    for (name, table) in [
        ("20 a wrong stored width", with_width(&stored, last, 8)),
        ("20 a mix", with_width(&with(&plan.encode(), last + 1, b'W'), last, 9)),
        ("20 a mix, the other way round", with_width(&with(&stored, last + 1, b'R'), last, 0)),
    ] {
        for question in [
            check(&message),
            to_sheet(&message, sheet.len()),
            write(&sheet, message.len()),
            rewrite(&message, sheet.len(), message.len()),
            read(Kind::ReadNumber, &message, 1, 0),
            read(Kind::ReadBytes, &message, 0, 0),
        ] {
            edges.add(name, &table, question, (20, 0));
        }
    }
}
