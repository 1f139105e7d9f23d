//! Edges of the ledger: which groups are Blank, which barcodes a line holds,
//! where it is free, and in which order the faults come.

use super::{group, text, with, with_word, word, Edge, Edges, FINE};
use crate::generate::message::{canonical, GroupValue, Value};
use crate::generate::store::{setting, store};
use crate::generate::table::{field, FieldPlan, TablePlan};
use crate::question::Question;
use crate::Type;

pub fn add(edges: &mut Edges) {
    barcodes(edges);
    inline_barcodes(edges);
    numbers(edges);
    layouts(edges);
    fills(edges);
    other_types(edges);
    other_field_types(edges);
    other_fields(edges);
    refused_messages(edges);
    order(edges);
    rooms_and_stores(edges);
    settings(edges);
    runs(edges);
    shapes(edges);
}

const NOT_BLANK: (u8, usize) = (54, 0);
const BARCODE: (u8, usize) = (55, 0);
const FULL: (u8, usize) = (56, 0);

/// The id of the group that questions name.
const ID: u64 = 1;

impl Edges {
    fn ledger(
        &mut self,
        name: &str,
        table: &[u8],
        settings: Option<(Vec<u8>, u16)>,
        question: Question,
        verdicts: &[(u8, usize)],
    ) {
        let (name, table, verdicts) = (name.to_string(), table.to_vec(), verdicts.to_vec());
        self.0.push(Edge { name, table, settings, question, verdicts });
    }

    /// A line for a ledger of one, with no settings and just enough scratch.
    fn line(&mut self, name: &str, plan: &TablePlan, message: &[u8], fault: (u8, usize)) {
        self.line_of(name, plan, message, ID, fault);
    }

    fn line_of(&mut self, name: &str, plan: &TablePlan, message: &[u8], id: u64, fault: (u8, usize)) {
        let question = Question::add_line(message.to_vec(), message.len(), id, 64, 0);
        self.ledger(name, &plan.encode(), None, question, &[fault]);
    }
}

const SYMBOLS: [i32; 6] = [i32::MIN, -7, -1, 0, 2, i32::MAX];

fn blank_fields() -> [FieldPlan; 5] {
    let (string, number) = (field(Type::String), field(Type::U32));
    [string, number, number, field(Type::Enumeration), string.optional()]
}

/// Blank; the same fields below it, below that, and with another one, and in a
/// group of their own; a group of other fields.
fn blanks() -> TablePlan {
    TablePlan::new()
        .enumeration(&SYMBOLS)
        .group(ID, &blank_fields())
        .child(0, 2, &[])
        .child(1, 3, &[])
        .child(0, 4, &[field(Type::U32)])
        .group(ID + (1 << 32), &blank_fields())
        .group(u64::MAX, &[field(Type::U32)])
}

/// A message of the group with this id and Blank's fields. The barcode's offset
/// is at 16, density at 20, speed at 24, grade at 28, the note's flag at 32, and
/// the data area at 37.
fn blank_of(id: u64, barcode: &[u8], grade: i32, note: Option<&[u8]>) -> Vec<u8> {
    let barcode = text(barcode);
    let fields = [word(37 - 16), word(2_680), word(0x0102_f5ff), grade.to_le_bytes().to_vec()].concat();
    match note {
        None => group(id, 0, &[&fields, &[0; 5], &barcode]),
        Some(note) => {
            let offset = word(37 - 33 + barcode.len() as u32);
            group(id, 0, &[&fields, &[1], &offset, &barcode, &text(note)])
        }
    }
}

fn blank(barcode: &[u8]) -> Vec<u8> {
    blank_of(ID, barcode, 2, None)
}

/// So many different letters.
fn letters(count: usize) -> Vec<u8> {
    (0..count).map(|index| b'A' + (index % 26) as u8).collect()
}

/// "a barcode of 0 or over 40 bytes (55)": bytes, not characters, and all of
/// the count.
fn barcodes(edges: &mut Edges) {
    let plan = blanks();
    for count in [0, 1, 2, 20, 39, 40, 41, 42, 255, 256, 257, 296] {
        let fault = if (1..=40).contains(&count) { FINE } else { BARCODE };
        edges.line("a barcode of so many bytes", &plan, &blank(&letters(count)), fault);
    }
    edges.line("40 bytes of 20 characters", &plan, &blank("é".repeat(20).as_bytes()), FINE);
    edges.line("42 bytes of 21 characters", &plan, &blank("é".repeat(21).as_bytes()), BARCODE);
    edges.line("40 bytes of ten characters", &plan, &blank("𝄞".repeat(10).as_bytes()), FINE);
    for barcode in [&b"\0"[..], b"\0\0\0", b"A\0", b"\0B", b"LB", &[0; 40]] {
        edges.line("a barcode with zero bytes", &plan, &blank(barcode), FINE);
    }
}

/// "inline strings are strings"
fn inline_barcodes(edges: &mut Edges) {
    for (size, counts) in [
        (1, &[0, 1][..]),
        (12, &[0, 1, 11, 12]),
        (39, &[0, 39]),
        (40, &[0, 1, 39, 40]),
        (41, &[0, 40, 41]),
        (255, &[0, 1, 40, 41, 255]),
    ] {
        let [barcode, density, speed, grade, note] = blank_fields();
        let fields = [barcode.size(size), density, speed, grade, note.size(3)];
        let plan = TablePlan::new().enumeration(&SYMBOLS).group(ID, &fields);
        for &count in counts {
            let mut inline = vec![count as u8];
            inline.extend(letters(count));
            inline.resize(1 + usize::from(size), 0);
            let numbers = [word(7), word(8), word(2)].concat();
            for note in [[0; 5], [1, 2, b'o', b'k', 0]] {
                let fault = if (1..=40).contains(&count) { FINE } else { BARCODE };
                let message = group(ID, 0, &[&inline, &numbers, &note]);
                edges.line("an inline barcode", &plan, &message, fault);
            }
        }
    }
}

/// "density, speed and grade as wire bytes"
fn numbers(edges: &mut Edges) {
    let plan = blanks();
    for grade in SYMBOLS {
        edges.line("each grade", &plan, &blank_of(ID, b"QZ-1", grade, None), FINE);
    }
    for (density, speed) in [(0, 0), (u32::MAX, 0), (0, u32::MAX), (1, 256), (1 << 31, 0x0403_0201)] {
        let message = with_word(&with_word(&blank(b"QZ-1"), 20, density), 24, speed);
        edges.line("each number", &plan, &message, FINE);
    }
}

/// A line is the same wherever its message's values stand, and with whatever
/// else the message has.
fn layouts(edges: &mut Edges) {
    let plan = blanks();
    let code = b"QZ-2026-07-0042";
    for note in [&b""[..], b"knot left", &letters(300)] {
        edges.line("with a note", &plan, &blank_of(ID, code, -1, Some(note)), FINE);
    }
    // The note before the barcode, and pads.
    let fields = [word(37 - 16 + 9), word(5), word(6), word(2)].concat();
    let swapped = group(ID, 0, &[&fields, &[1], &word(5), &[0], &text(b"knot"), &text(code), &[0; 3]]);
    edges.line("the note before the barcode", &plan, &swapped, FINE);
    // An extension behind the barcode: of none, of an unknown group, of a blank.
    let start = 37 + 4 + code.len() as u32 - 12;
    let extended = |extension: &[u8]| {
        let message = [blank(code), extension.to_vec()].concat();
        with_word(&with_word(&message, 12, start), 0, message.len() as u32 - 4)
    };
    edges.line("an extension of none", &plan, &extended(&word(0)), FINE);
    for inner in [group(99, 7, &[b"?"]), blank(b"inner"), blank(b"")] {
        let extension = [word(1), word(4), inner].concat();
        edges.line("an extension", &plan, &extended(&extension), FINE);
    }
    let widths = plan.twin();
    edges.line("stored widths", &widths, &blank(code), FINE);
    edges.line("stored widths", &widths, &blank(&letters(41)), BARCODE);
    for id in [0, 1 << 32, u64::MAX] {
        let plan = TablePlan::new().enumeration(&SYMBOLS).group(id, &blank_fields());
        edges.line_of("any type id", &plan, &blank_of(id, code, 0, None), id, FINE);
        edges.line_of("any type id", &plan, &blank_of(id, code, 0, None), id ^ 1, NOT_BLANK);
    }
}

/// "Under 64 bytes free (none, if the fill is past the end) is 56"
fn fills(edges: &mut Edges) {
    let table = blanks().encode();
    let message = blank(b"QZ-1");
    for length in [0, 63, 64, 65, 127, 128] {
        let near = [0, 1, 63, 64, 65, 128, 129];
        let ends = [length.max(65) - 65, length.max(64) - 64, length.max(63) - 63, length, length + 1];
        let far = [1 << 31, 1 << 32, 1 << 63, u64::MAX - 127, u64::MAX - 64, u64::MAX - 63, u64::MAX];
        let mut fills: Vec<u64> = near.into_iter().chain(ends).chain(far).collect();
        fills.sort();
        fills.dedup();
        for fill in fills {
            let free = u128::from(length).saturating_sub(fill.into());
            let fault = if free >= 64 { FINE } else { FULL };
            let question = Question::add_line(message.clone(), message.len(), ID, length as usize, fill);
            edges.ledger("a ledger so long, with this fill", &table, None, question, &[fault]);
        }
    }
}

/// "another type": just the named id counts, and a group below it is another.
fn other_types(edges: &mut Edges) {
    let plan = blanks();
    let number = group(u64::MAX, 0, &[&word(7)]);
    let sixth = with_word(&blank_of(4, b"abcdefg", 2, None), 16, 41 - 16);
    let sixth = [&sixth[..37], &word(9), &sixth[37..]].concat();
    let sixth = with_word(&sixth, 0, sixth.len() as u32 - 4);
    let other = ID + (1 << 32);
    let messages = [
        (ID, blank(b"abc")),
        (2, blank_of(2, b"abc", 2, None)),
        (3, blank_of(3, b"abc", 2, Some(b"note"))),
        (4, sixth),
        (other, blank_of(other, b"abc", 2, None)),
        (u64::MAX, number),
    ];
    let ids = [0, ID, 2, 3, 4, 5, 0x0100_0000_0000_0001, other, other + 1, u64::MAX];
    for (of, message) in &messages {
        for id in ids {
            let fine = *of == id && ![4, u64::MAX].contains(&id);
            let fault = if fine { FINE } else { NOT_BLANK };
            edges.line_of("each message, by each id", &plan, message, id, fault);
        }
    }
    // A group without an id is named by none, by that of its record neither.
    let plan = TablePlan::new().enumeration(&SYMBOLS).plain(&blank_fields()).group(9, &[]).below(
        0,
        ID,
        &blank_fields(),
    );
    edges.line_of("no group has the id", &plan, &group(9, 0, &[]), 0, NOT_BLANK);
    edges.line_of("no fields", &plan, &group(9, 0, &[]), 9, NOT_BLANK);
    edges.line_of("a super without an id", &plan, &blank(b"abc"), ID, FINE);
    edges.line_of("no group has the id", &plan, &blank_of(0, b"abc", 2, None), 0, (2, 0));
}

/// A value of a field: so that what follows it decides, a plain one.
fn value(plan: &TablePlan, field: FieldPlan) -> Value {
    let item = match field.ty {
        Type::String | Type::Binary => Value::Text(b"Q7".to_vec()),
        Type::StaticGroup => Value::Static(vec![Value::Plain(vec![5])]),
        Type::DynamicGroup | Type::AnyGroup => {
            Value::Group(GroupValue { number: 1, values: Vec::new(), extension: None })
        }
        Type::Enumeration => Value::Plain(word(2)),
        _ => {
            let mut bytes = vec![0; plan.item_width(field)];
            bytes[0] = 1;
            Value::Plain(bytes)
        }
    };
    match field.sequence {
        true => Value::Sequence(vec![item]),
        false => item,
    }
}

/// Each list of fields as a group of one table, and a message of it.
fn lists(edges: &mut Edges, name: &str, lists: &[(Vec<FieldPlan>, (u8, usize))]) {
    let mut plan = TablePlan::new().enumeration(&SYMBOLS).plain(&[field(Type::U8)]).group(1_000, &[]);
    for (id, (fields, _)) in (1..).zip(lists) {
        plan = plan.group(id, fields);
    }
    for ((id, (fields, fault)), number) in (1..).zip(lists).zip(2..) {
        let values = fields.iter().map(|&field| value(&plan, field)).collect();
        let message = canonical(&plan, &GroupValue { number, values, extension: None });
        edges.line_of(name, &plan, &message.bytes, id, *fault);
    }
}

fn of_type(ty: Type) -> FieldPlan {
    match ty {
        Type::Fixed => field(ty).size(4),
        Type::DynamicGroup => field(ty).of(1),
        ty => field(ty),
    }
}

/// Each field in turn of each type.
fn other_field_types(edges: &mut Edges) {
    let mut cases = Vec::new();
    for at in 0..5 {
        for ty in Type::ALL {
            let mut fields = blank_fields().to_vec();
            let due = fields[at];
            fields[at] = FieldPlan { optional: due.optional, ..of_type(ty) };
            cases.push((fields, if ty == due.ty { FINE } else { NOT_BLANK }));
        }
    }
    for some in cases.chunks(58) {
        lists(edges, "a field of each type", some);
    }
}

/// Each field in turn optional or not, a sequence, missing, or twice; the
/// fields in other orders; inline strings.
fn other_fields(edges: &mut Edges) {
    let blank = blank_fields();
    let mut cases = vec![(blank.to_vec(), FINE)];
    for at in 0..5 {
        let mut edit = |field: &dyn Fn(FieldPlan) -> FieldPlan| {
            let mut fields = blank.to_vec();
            fields[at] = field(fields[at]);
            cases.push((fields, NOT_BLANK));
        };
        edit(&|field| FieldPlan { optional: !field.optional, ..field });
        edit(&|field| field.sequence());
        edit(&|field| FieldPlan { optional: !field.optional, ..field }.sequence());
        cases.push(([&blank[..at], &blank[at + 1..]].concat(), NOT_BLANK));
        cases.push(([&blank[..=at], &blank[at..]].concat(), NOT_BLANK));
        cases.push((blank[..at].to_vec(), NOT_BLANK));
    }
    for at in 0..4 {
        let mut fields = blank.to_vec();
        fields.swap(at, at + 1);
        // Density and speed are alike.
        cases.push((fields, if at == 1 { FINE } else { NOT_BLANK }));
    }
    for more in [field(Type::U8), field(Type::U32).optional(), field(Type::AnyGroup).optional()] {
        cases.push(([&blank[..], &[more]].concat(), NOT_BLANK));
    }
    for size in [2, 40, 255] {
        for at in [0, 4] {
            let mut fields = blank.to_vec();
            fields[at].size = size;
            cases.push((fields.clone(), FINE));
            fields[at].ty = Type::Binary;
            cases.push((fields, NOT_BLANK));
        }
    }
    lists(edges, "other fields", &cases);
}

/// Messages of Blank that are refused, each with its fault.
fn refused() -> Vec<(Vec<u8>, (u8, usize))> {
    let good = blank_of(ID, b"QZ-1", 2, Some(b"knot"));
    let no_note = blank(b"QZ-1");
    let pad = [&no_note[..], &[0, 1]].concat();
    vec![
        (Vec::new(), (22, 0)),
        (vec![0; 3], (22, 0)),
        (good[..good.len() - 1].to_vec(), (22, 0)),
        ([&good[..], &[0]].concat(), (22, 0)),
        (word(0), (1, 0)),
        (with(&good, 4, 9), (2, 0)),
        (group(ID, 0, &[&[0; 20]]), (14, 0)),
        (with_word(&good, 12, 24), (3, 12)),
        (with_word(&good, 12, 500), (3, 12)),
        (with(&no_note, 36, 1), (4, 36)),
        (with_word(&good, 16, 20), (5, 16)),
        (with_word(&good, 33, 0), (5, 33)),
        (with_word(&pad, 0, pad.len() as u32 - 4), (6, pad.len() - 1)),
        (with(&good, 41, 0xff), (9, 41)),
        (with(&good, 50, 0x80), (9, 49)),
        (with_word(&good, 28, 3), (10, 28)),
        (with(&good, 32, 2), (11, 32)),
        (with(&no_note, 32, 255), (11, 32)),
        (with_word(&good, 37, 300), (26, 37)),
        (with_word(&good, 33, 4), (27, 37)),
        // The note before the barcode, and the barcode's own fault first.
        (with(&with(&good, 41, 0xff), 32, 2), (9, 41)),
    ]
}

/// "A refused message (its own number)", before all that the ledger asks.
fn refused_messages(edges: &mut Edges) {
    let table = blanks().encode();
    for (message, fault) in refused() {
        for (id, length, fill) in [(ID, 64, 0), (ID, 63, 0), (77, 0, u64::MAX)] {
            let question = Question::add_line(message.clone(), message.len(), id, length, fill);
            edges.ledger("a refused message", &table, None, question, &[fault]);
        }
    }
}

/// 54, then 55, then 56.
fn order(edges: &mut Edges) {
    let table = blanks().encode();
    for (length, fill) in [(64, 0), (63, 0), (64, 65), (0, u64::MAX)] {
        let full = (length, fill) != (64, 0);
        for count in [0, 40, 41] {
            for of in [ID, 2] {
                for id in [ID, 2, 6] {
                    let fault = match (of == id, count) {
                        (false, _) => NOT_BLANK,
                        (true, 0 | 41) => BARCODE,
                        (true, _) if full => FULL,
                        (true, _) => FINE,
                    };
                    let message = blank_of(of, &letters(count), 2, None);
                    let question = Question::add_line(message.clone(), message.len(), id, length, fill);
                    edges.ledger("54, 55 and 56", &table, None, question, &[fault]);
                }
            }
        }
    }
}

/// 20, 23, 21 and 50 leave the scratch untouched, whatever the ledger asks.
fn rooms_and_stores(edges: &mut Edges) {
    let table = blanks().encode();
    let damaged = Some((vec![1], 0));
    let long = with_word(&[0; 65_537], 0, 65_533);
    let (good, empty, other) = (blank(b"QZ-1"), blank(b""), blank_of(2, b"QZ-1", 2, None));
    let messages = [(&good, FINE), (&empty, BARCODE), (&other, NOT_BLANK)];
    for (length, fill) in [(64, 0), (63, 0), (64, 70)] {
        let ledger =
            |message: &[u8], scratch| Question::add_line(message.to_vec(), scratch, ID, length, fill);
        for (message, fault) in messages {
            let size = message.len();
            edges.ledger("21", &table, damaged.clone(), ledger(message, size - 1), &[(21, 0)]);
            edges.ledger("50", &table, damaged.clone(), ledger(message, size), &[(50, 0)]);
            edges.ledger("21", &table, None, ledger(message, 0), &[(21, 0)]);
            let fault = if fault == FINE && (length, fill) != (64, 0) { FULL } else { fault };
            edges.ledger("scratch to spare", &table, None, ledger(message, size + 9), &[fault]);
        }
        edges.ledger("23", &table, damaged.clone(), ledger(&long, 65_536), &[(23, 0)]);
        edges.ledger("50", &table, damaged.clone(), ledger(&[0; 4], 4), &[(50, 0)]);
    }
    for refused in [&[][..], &table[..32]] {
        for (length, fill) in [(64, 0), (0, 1)] {
            for (message, scratch) in [(&good, good.len()), (&good, 0), (&other, 0), (&long, 9)] {
                let question = Question::add_line(message.clone(), scratch, ID, length, fill);
                edges.ledger("20", refused, damaged.clone(), question, &[(20, 0)]);
            }
        }
    }
}

/// What a customer's stations leave in bytes that mean nothing does not reach
/// the line.
fn settings(edges: &mut Edges) {
    let records = [setting(7, 1, [1, 1, 1]), setting(12, 1, [1, 0, 0]), setting(13, 1, [0, 1, 0])];
    let records = [&records[..], &[setting(14, 1, [0, 0, 1])]].concat();
    let held = store(&records, 4);
    let [barcode, density, speed, grade, note] = blank_fields();
    let inline = TablePlan::new()
        .enumeration(&SYMBOLS)
        .group(ID, &[barcode.size(6), density, speed, grade, note.size(2)])
        .encode();
    // Six bytes from 16, numbers at 23, the note's flag at 35, pads from 39.
    let message = |unused: [u8; 2], absent: [u8; 3], pads: [u8; 2]| {
        let numbers = [word(1), word(2), word(2)].concat();
        group(ID, 0, &[&[4], b"QZ-1", &unused, &numbers, &[0], &absent, &pads])
    };
    let cases = [
        (message([0, 9], [0; 3], [0; 2]), 14, (8, 22)),
        (message([0; 2], [7, 0, 0], [0; 2]), 12, (4, 36)),
        (message([0; 2], [0; 3], [0, 1]), 13, (6, 40)),
    ];
    for (message, allowed, fault) in cases {
        for customer in [7, 12, 13, 14, 15, 0] {
            let verdict = if [7, allowed].contains(&customer) { FINE } else { fault };
            let settings = Some((held.clone(), customer));
            let question = Question::add_line(message.clone(), message.len(), ID, 64, 0);
            edges.ledger("rubbish", &inline, settings, question, &[verdict]);
        }
    }
    let all = message([b'X', b'Y'], [1, 2, 3], [4, 5]);
    for (customer, fault) in [(7, FINE), (12, (8, 21)), (13, (8, 21)), (14, (4, 36))] {
        let question = Question::add_line(all.clone(), all.len(), ID, 100, 30);
        let settings = Some((held.clone(), customer));
        edges.ledger("rubbish everywhere", &inline, settings, question, &[fault]);
    }
}

/// "over any run of calls, each given ledger and fill as the last left them"
fn runs(edges: &mut Edges) {
    let table = blanks().encode();
    let codes: Vec<Vec<u8>> = (0..6).map(|index| format!("QZ-{index}").into_bytes()).collect();
    let mut run = |name: &str, messages: &[&[u8]], length, fill, verdicts: &[(u8, usize)]| {
        let question = Question::add_lines(messages.concat(), 100, ID, length, fill);
        edges.ledger(name, &table, None, question, verdicts);
    };
    let good: Vec<Vec<u8>> = codes.iter().map(|code| blank(code)).collect();
    let good: Vec<&[u8]> = good.iter().map(|message| &message[..]).collect();
    run("no calls", &[], 64, 0, &[]);
    run("a line for each", &good, 6 * 64, 0, &[FINE; 6]);
    run("behind the fill", &good, 6 * 64 + 31, 17, &[FINE; 6]);
    let full = [FINE, FINE, FINE, FULL, FULL, FULL];
    run("until it is full", &good, 4 * 64 - 1, 0, &full);
    run("until it is full", &good, 5 * 64, 2 * 64, &full);
    run("from past the end", &good, 64, 65, &[FULL; 6]);
    // The dusty night: what is refused leaves nothing behind, and repeats
    // nothing.
    let dusty = with(good[1], 41, 0xff);
    let (empty, other, long) = (blank(b""), blank_of(2, b"QZ-9", 2, None), blank(&letters(41)));
    let night: [&[u8]; 9] = [good[0], &dusty, &dusty, good[1], &empty, &other, &long, good[1], good[2]];
    let verdicts = [FINE, (9, 41), (9, 41), FINE, BARCODE, NOT_BLANK, BARCODE, FINE, FINE];
    run("refused between others", &night, 4 * 64, 0, &verdicts);
    run("refused between others", &night, 8 * 64, 3, &verdicts);
    // Once full, each still has its own number.
    let verdicts = [FINE, (9, 41), (9, 41), FINE, BARCODE, NOT_BLANK, BARCODE, FULL, FULL];
    run("full, and refused", &night, 3 * 64 - 1, 0, &verdicts);
    run(
        "no room at all",
        &night[1..],
        0,
        0,
        &[(9, 41), (9, 41), FULL, BARCODE, NOT_BLANK, BARCODE, FULL, FULL],
    );
    run("a cut tail", &[good[0], &good[1][..30]], 192, 0, &[FINE, (22, 0)]);
    run("three bytes", &[good[0], good[1], &[1, 2, 3]], 192, 0, &[FINE, FINE, (22, 0)]);
    let broken = Question::add_lines(good.concat(), 44, ID, 6 * 64, 0);
    edges.ledger("scratch too short", &table, None, broken, &[(21, 0); 6]);
    let broken = Question::add_lines(good.concat(), 45, ID, 6 * 64, 0);
    edges.ledger("a store that fails", &table, Some((vec![9], 0)), broken.clone(), &[(50, 0); 6]);
    edges.ledger("a table that fails", &table[16..], None, broken, &[(20, 0)]);
}

/// What a table says of its fields.
fn shapes(edges: &mut Edges) {
    let every: Vec<FieldPlan> = Type::ALL.into_iter().map(of_type).collect();
    let flags = [field(Type::U8), field(Type::U8).optional(), field(Type::U8).sequence()];
    let texts = [field(Type::String).size(1), field(Type::Binary).size(255), field(Type::Fixed).size(200)];
    let both = [field(Type::Fixed).size(1).optional().sequence(), field(Type::String).optional()];
    let plan = TablePlan::new()
        .enumeration(&SYMBOLS)
        .plain(&[field(Type::U8)])
        .group(1_000, &[])
        .group(3, &every)
        .group(0, &[&flags[..], &texts, &both].concat())
        .child(3, u64::MAX, &[field(Type::I16).sequence()])
        .group(64, &[field(Type::U16).optional(); 64]);
    let counts = [(1_000, 0), (3, 23), (0, 8), (u64::MAX, 9), (64, 64)];
    for table in [plan.encode(), plan.twin().encode()] {
        let mut shape = |id, field, fault| {
            edges.ledger("a field's shape", &table, None, Question::field_shape(id, field), &[fault]);
        };
        for (id, count) in counts {
            // Of many fields that are alike, the ends.
            for field in (0..count).filter(|&field| id != 64 || [0, 1, 62, 63].contains(&field)) {
                shape(id, field, FINE);
            }
            for field in [count, count + 1, 64, 256, 1 << 32, u64::MAX] {
                shape(id, field, (28, 0));
            }
        }
        for id in [1, 2, 4, 63, 65, 256, 1 << 32, 1_000 + (1 << 32), u64::MAX - 1] {
            shape(id, 0, (2, 0));
            shape(id, 64, (2, 0));
        }
    }
    for refused in [&[][..], &plan.encode()[..16]] {
        for (id, field) in [(3, 0), (3, 23), (9, 0), (9, 64)] {
            let question = Question::field_shape(id, field);
            edges.ledger("of a refused table", refused, None, question, &[(20, 0)]);
        }
    }
}
