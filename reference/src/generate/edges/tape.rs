//! Edges of the tape: where it ends, what is passed over, and in which order
//! a message's faults come.

use super::{group, text, with, with_word, word, Edge, Edges, FINE};
use crate::generate::store::{setting, store};
use crate::generate::table::{field, TablePlan};
use crate::question::Question;
use crate::Type;

pub fn add(edges: &mut Edges) {
    ends(edges);
    cut_tails(edges);
    sizes(edges);
    long_messages(edges);
    every_outcome(edges);
    lent_scratch(edges);
    refused_tables(edges);
    damaged_stores(edges);
    settings(edges);
    places(edges);
}

/// A store, and a customer.
type Under = (Vec<u8>, u16);

impl Edges {
    fn tape(
        &mut self,
        name: &str,
        table: &[u8],
        settings: Option<Under>,
        question: Question,
        verdicts: &[(u8, usize)],
    ) {
        let (name, table, verdicts) = (name.to_string(), table.to_vec(), verdicts.to_vec());
        self.0.push(Edge { name, table, settings, question, verdicts });
    }

    /// With no settings, and scratch to spare for short messages.
    fn tape_of(&mut self, name: &str, tape: &[u8], verdicts: &[(u8, usize)]) {
        let question = Question::read_tape(tape.to_vec(), 300);
        self.tape(name, &many().encode(), None, question, verdicts);
    }
}

/// Groups of a text, of fields of many kinds, and of any group.
fn many() -> TablePlan {
    let kinds = [
        field(Type::Bool),
        field(Type::TimeOfDayMilli),
        field(Type::Enumeration),
        field(Type::String).size(3),
        field(Type::U32).optional(),
        field(Type::U8).sequence(),
        field(Type::AnyGroup).optional(),
        field(Type::DynamicGroup).optional(),
    ];
    TablePlan::new()
        .enumeration(&[1, 5])
        .group(1, &[field(Type::String)])
        .group(2, &kinds)
        .group(3, &[field(Type::AnyGroup).optional()])
        .group(4, &[])
}

/// Messages of the first and of the second group; the latter's fields end at
/// 48, where its sequence stands.
fn short() -> Vec<u8> {
    group(1, 0, &[&word(4), &text(b"ab")])
}

fn long() -> Vec<u8> {
    let (fields, optional) = ([&[1][..], &word(1000), &word(5), &[2, b'a', b'b', 0]].concat(), [0; 5]);
    group(2, 0, &[&fields, &optional, &word(14), &optional, &optional, &text(b"xyz")])
}

/// So many groups of the third kind, each in the one before.
fn nest(levels: usize) -> Vec<u8> {
    let mut inner = group(3, 0, &[&[0; 5]]);
    for _ in 1..levels {
        inner = group(3, 0, &[&[1], &word(4), &inner]);
    }
    inner
}

/// Refused messages, each with its fault.
fn refused() -> Vec<(Vec<u8>, (u8, usize))> {
    let long = long();
    let behind = |bytes: &[u8], more: &[u8]| {
        let longer = [bytes, more].concat();
        with_word(&longer, 0, longer.len() as u32 - 4)
    };
    let other = with(&with_word(&long, 44, 55 - 44), 43, 1);
    vec![
        (vec![0; 4], (1, 0)),
        (with(&group(1, 0, &[])[..15], 0, 11), (1, 0)),
        (with(&long, 4, 9), (2, 0)),
        (with_word(&long, 12, 1), (3, 12)),
        (with(&long, 31, 7), (4, 31)),
        (with_word(&long, 34, 0), (5, 34)),
        (behind(&long, &[0, 9]), (6, 56)),
        (with(&long, 25, 4), (7, 25)),
        (with(&long, 28, 1), (8, 28)),
        (with(&long, 26, 0xff), (9, 26)),
        (with_word(&long, 21, 4), (10, 21)),
        (with(&long, 16, 2), (11, 16)),
        (with_word(&long, 17, 86_400_000), (12, 17)),
        (with(&long, 48, 4), (13, 48)),
        (group(2, 0, &[&[0; 31]]), (14, 0)),
        (nest(9), (24, 8 * 21)),
        (behind(&other, &nest(1)), (25, 55)),
        (with_word(&long, 34, 52 - 34), (26, 52)),
        (with(&with_word(&long, 39, 48 - 39), 38, 1), (27, 48)),
    ]
}

fn ends(edges: &mut Edges) {
    let table = many().encode();
    let (short, long) = (short(), long());
    for scratch in [0, 7] {
        let question = Question::read_tape(Vec::new(), scratch);
        edges.tape("no bytes", &table, None, question.clone(), &[]);
        edges.tape("no bytes, no table", &[], None, question.clone(), &[]);
        edges.tape("no bytes, a table cut off", &table[..40], None, question.clone(), &[]);
        edges.tape("no bytes, a damaged store", &table, Some((vec![1], 0)), question, &[]);
    }
    edges.tape_of("one message", &short, &[FINE]);
    edges.tape_of("two messages", &[&short[..], &long].concat(), &[FINE; 2]);
    edges.tape_of("the same message often", &short.repeat(9), &[FINE; 9]);
    edges.tape_of("eight levels", &[&nest(8)[..], &nest(9), &nest(8)].concat(), &[FINE, (24, 168), FINE]);
}

/// A message that is cut off, at every place, alone and behind others.
fn cut_tails(edges: &mut Edges) {
    let (short, refused) = (short(), group(9, 0, &[b"?"]));
    for length in 1..short.len() {
        let cut = &short[..length];
        edges.tape_of("22 a cut message", cut, &[(22, 0)]);
        edges.tape_of("22 behind a message", &[&short[..], cut].concat(), &[FINE, (22, 26)]);
        if length < 6 {
            edges.tape_of("22 behind a refused one", &[&refused[..], cut].concat(), &[(2, 0), (22, 17)]);
        }
    }
    for byte in [0, 1, 255] {
        for count in 1..4 {
            let rest = vec![byte; count];
            edges.tape_of("22 one to three bytes", &rest, &[(22, 0)]);
            let behind = [&short[..], &refused, &short, &rest].concat();
            edges.tape_of("22 one to three behind three", &behind, &[FINE, (2, 0), FINE, (22, 69)]);
        }
    }
    edges.tape_of("22 one byte too few", &with(&short, 0, 23), &[(22, 0)]);
    edges.tape_of("22 a size that counts itself", &with(&short, 0, 26), &[(22, 0)]);
    edges.tape_of("22 one byte less is left over", &with(&short, 0, 21), &[(26, 20), (22, 25)]);
    // In 32 bits 4 + size would be a length that is there.
    for size in (0..=4).map(|less| u32::MAX - less).chain([1 << 31, 65_532, 65_533]) {
        edges.tape_of("22 a great size", &word(size), &[(22, 0)]);
        let behind = [&short[..], &word(size), &short].concat();
        edges.tape_of("22 a great size behind", &behind, &[FINE, (22, 26)]);
    }
    // The scratch is not asked for.
    let table = many().encode();
    for scratch in [0, 3, 25, 26] {
        let tape = [&short[..], &short[..25]].concat();
        let first = if scratch < 26 { (21, 0) } else { FINE };
        let question = Question::read_tape(tape, scratch);
        edges.tape("22 with little scratch", &table, None, question, &[first, (22, 26)]);
    }
}

/// Messages of every small size: one of zeros is refused by 1 or by 2.
fn sizes(edges: &mut Edges) {
    let (short, none) = (short(), group(4, 0, &[]));
    let mut all = Vec::new();
    for size in 0..=14_u32 {
        let zeros = [word(size), vec![0; size as usize]].concat();
        let fault = if size < 12 { (1, 0) } else { (2, 0) };
        edges.tape_of("a small size", &[&zeros[..], &short].concat(), &[fault, FINE]);
        edges.tape_of("22 a small size", &zeros[..zeros.len() - 1], &[(22, 0)]);
        // The id of a group that has no fields.
        let known: Vec<u8> =
            zeros.iter().enumerate().map(|(at, &byte)| if at == 4 { 4 } else { byte }).collect();
        let fault = if size < 12 { (1, 0) } else { FINE };
        edges.tape_of("a known type", &[&known[..], &short].concat(), &[fault, FINE]);
        all.extend(known);
    }
    let verdicts: Vec<_> = (0..15).map(|size| if size < 12 { (1, 0) } else { FINE }).collect();
    edges.tape_of("every small size", &all, &verdicts);
    edges.tape_of("size 12", &none.repeat(3), &[FINE; 3]);
}

/// Zeros behind what stands at the start: a message of 4 zeros is refused by
/// 1, however far behind.
fn long_messages(edges: &mut Edges) {
    let table = many().encode();
    let mut zeros_behind = |name, start: &[u8], length: usize, scratch, verdicts: &[_]| {
        let mut tape = start.to_vec();
        tape.resize(length, 0);
        edges.tape(name, &table, None, Question::read_tape(tape, scratch), verdicts);
    };
    let longest = with_word(&group(4, 0, &[]), 0, 65_532);
    let longer = with_word(&longest, 0, 65_533);
    zeros_behind("size 65,532", &longest, 65_536, 65_536, &[FINE]);
    zeros_behind("size 65,532 and more", &longest, 65_547, 65_600, &[FINE, (1, 0), (1, 0), (22, 65_544)]);
    zeros_behind("22 size 65,532", &longest, 65_535, 65_536, &[(22, 0)]);
    zeros_behind("21 size 65,532", &longest, 65_540, 65_535, &[(21, 0), (1, 0)]);
    zeros_behind("23 size 65,533", &longer, 65_537, 65_600, &[(23, 0)]);
    zeros_behind("23 is passed over", &longer, 65_546, 65_600, &[(23, 0), (1, 0), (1, 0), (22, 65_545)]);
    zeros_behind("23 before 21", &longer, 65_541, 3, &[(23, 0), (21, 0)]);
    zeros_behind("22 before 23", &longer, 65_536, 65_600, &[(22, 0)]);
    zeros_behind("23 a size of 2^20", &word(1 << 20), (1 << 20) + 9, 4, &[(23, 0), (1, 0), (22, 1_048_584)]);
    zeros_behind("22 a size of 2^20", &word(1 << 20), (1 << 20) + 3, 4, &[(22, 0)]);
    // Of as many messages as there can be, the last.
    for (length, tail) in [(65_536, &[][..]), (65_539, &[(22, 65_536)][..])] {
        let verdicts = [&[(1, 0); 16_384][..], tail].concat();
        let question = Question { item: 16_381, ..Question::read_tape(vec![0; length], 4) };
        edges.tape("1 messages of zeros", &table, None, question, &verdicts);
    }
}

/// Between accepted messages, and all in a row.
fn every_outcome(edges: &mut Edges) {
    let (short, long) = (short(), long());
    let mut all = Vec::new();
    let mut verdicts = Vec::new();
    for (message, fault) in refused() {
        let tape = [&short[..], &message, &long].concat();
        edges.tape_of("a refused message", &tape, &[FINE, fault, FINE]);
        all.extend(message);
        verdicts.push(fault);
    }
    edges.tape_of("all refused", &all, &verdicts);
    let tape = [&all[..], &short, &all, &[7]].concat();
    let tail = (22, 2 * all.len() + short.len());
    let verdicts = [&verdicts[..], &[FINE], &verdicts, &[tail]].concat();
    edges.tape_of("all refused, twice", &tape, &verdicts);
}

fn lent_scratch(edges: &mut Edges) {
    let table = many().encode();
    let (none, short, long) = (group(4, 0, &[]), short(), long());
    let tape = [&short[..], &none, &[0; 4], &long, &with(&short, 24, 0xff), &[0, 0]].concat();
    let walked = [FINE, FINE, (1, 0), FINE, (9, 24)];
    let lengths = [26, 16, 4, 55, 26];
    for scratch in [0, 1, 3, 4, 5, 15, 16, 25, 26, 27, 54, 55, 56, 127, 129, 200] {
        let answers = walked.iter().zip(lengths);
        let mut verdicts: Vec<_> =
            answers.map(|(&fault, length)| if scratch < length { (21, 0) } else { fault }).collect();
        verdicts.push((22, 127));
        let question = Question::read_tape(tape.clone(), scratch);
        edges.tape("21 by message", &table, None, question, &verdicts);
    }
}

/// 20 comes first where bytes are left, and once.
fn refused_tables(edges: &mut Edges) {
    let table = many().encode();
    let short = short();
    let damaged = with(&table, 1, b'?');
    let tapes = [
        short.clone(),
        short.repeat(3),
        short[..25].to_vec(),
        vec![0],
        vec![255; 3],
        vec![0; 4],
        vec![255; 4],
        vec![0; 65_540],
        with_word(&[0; 65_540], 0, 65_533),
    ];
    for tape in tapes {
        for table in [&[][..], &table[..table.len() - 8], &damaged] {
            for (scratch, settings) in [(0, None), (60, None), (60, Some((vec![1], 7)))] {
                let question = Question::read_tape(tape.clone(), scratch);
                edges.tape("20 first", table, settings, question, &[(20, 0)]);
            }
        }
    }
}

/// 50 after 23 and 21, by message.
fn damaged_stores(edges: &mut Edges) {
    let table = many().encode();
    let (short, long) = (short(), long());
    let good = store(&[setting(7, 1, [1, 1, 1]), setting(8, 4, [0, 1, 0])], 3);
    let stores = [(with(&good, 16, 2), 9), (with(&good, 0, 0), 0), (with(&good, 20, 1), 18), (vec![1], 0)];
    let tape = [&short[..], &long, &[0; 4], &with(&short, 24, 0xff), &short[..9]].concat();
    for (store, place) in stores {
        for (scratch, verdicts) in [
            (100, [(50, place), (50, place), (50, place), (50, place), (22, 111)]),
            (26, [(50, place), (21, 0), (50, place), (50, place), (22, 111)]),
            (4, [(21, 0), (21, 0), (50, place), (21, 0), (22, 111)]),
            (0, [(21, 0), (21, 0), (21, 0), (21, 0), (22, 111)]),
        ] {
            let question = Question::read_tape(tape.clone(), scratch);
            edges.tape("50 by message", &table, Some((store.clone(), 7)), question, &verdicts);
        }
        let long = with_word(&[0; 65_541], 0, 65_533);
        let verdicts = [(23, 0), (50, place)];
        let question = Question::read_tape(long, 65_600);
        edges.tape("23 before 50", &table, Some((store, 8)), question, &verdicts);
    }
}

/// Rubbish in an absent field, a pad and an unused byte, under the settings
/// of three customers and of nobody.
fn settings(edges: &mut Edges) {
    let table = many().encode();
    let long = long();
    let pads = with(&[&with(&long, 0, 53)[..], &[0, 0]].concat(), 56, 1);
    let tape = [&with(&long, 33, 1)[..], &pads, &with(&long, 28, 1), &long, &[3; 3]].concat();
    let faults = [(4, 33), (6, 56), (8, 28)];
    let flags = [[1, 0, 0], [0, 1, 0], [0, 0, 1], [1, 1, 1]];
    let customers = [1, 2, 300, 65_535];
    let records: Vec<_> =
        customers.iter().zip(flags).map(|(&customer, flags)| setting(customer, 1, flags)).collect();
    let held = store(&records, 5);
    for (customer, flags) in customers.into_iter().zip(flags).chain([(3, [0; 3])]) {
        let mut verdicts: Vec<_> =
            faults.iter().zip(flags).map(|(&fault, flag)| if flag == 1 { FINE } else { fault }).collect();
        verdicts.extend([FINE, (22, 222)]);
        let question = Question::read_tape(tape.clone(), 60);
        edges.tape("under settings", &table, Some((held.clone(), customer)), question, &verdicts);
    }
}

/// A reader that starts further on, in a message, at the end or behind it.
fn places(edges: &mut Edges) {
    let table = many().encode();
    let (short, long) = (short(), long());
    let tape = [&short[..], &long, &short].concat();
    let end = tape.len() as u64;
    let mut from = |table: &[u8], field, verdicts: &[_]| {
        let question = Question { field, ..Question::read_tape(tape.clone(), 60) };
        edges.tape("from a place on", table, None, question, verdicts);
    };
    from(&table, 0, &[FINE; 3]);
    from(&table, 26, &[FINE; 2]);
    from(&table, 81, &[FINE]);
    // In a message, its id or its text's count is a size.
    from(&table, 4, &[(1, 0), (1, 0), (22, 13)]);
    from(&table, 20, &[(1, 0), FINE, FINE]);
    for field in [1, 25, 80, end - 25, end - 4] {
        from(&table, field, &[(22, field as usize)]);
    }
    for field in end - 3..end {
        from(&table, field, &[(22, field as usize)]);
        from(&table[..32], field, &[(20, 0)]);
    }
    let behind = [end, end + 1, end + 3, 1 << 31, 1 << 32, 1 << 63, u64::MAX - 3, u64::MAX];
    for field in behind {
        from(&table, field, &[]);
        from(&table[..32], field, &[]);
    }
    for field in [0, 1, 3, u64::MAX] {
        let question = Question { field, ..Question::read_tape(Vec::new(), 3) };
        edges.tape("from a place on a tape of no bytes", &table, None, question, &[]);
    }
}
