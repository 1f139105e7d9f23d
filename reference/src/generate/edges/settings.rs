//! Edges of the settings: what a message may hold under them, which of them
//! govern, and where 50 comes among the faults of a message.

use super::{check, group, read, rewrite, text, to_sheet, with, with_word, word, Edges, FINE};
use crate::generate::store::{setting, store, COMBINATIONS};
use crate::generate::table::{field, TablePlan};
use crate::question::{Kind, Question};
use crate::Type;

pub fn add(edges: &mut Edges) {
    one_place(edges);
    several_places(edges);
    readings(edges);
    what_is_still_judged(edges);
    unknown_groups(edges);
    levels(edges);
    long_messages(edges);
    which_governs(edges);
    damaged_stores(edges);
    order_of_50(edges);
}

/// The one customer of most stores here.
const CUSTOMER: u16 = 3;

/// A store with one record of the customer.
fn under(flags: [u8; 3]) -> Vec<u8> {
    store(&[setting(CUSTOMER, 1, flags)], 9)
}

impl Edges {
    fn check_under(
        &mut self,
        name: &str,
        plan: &TablePlan,
        flags: [u8; 3],
        message: &[u8],
        fault: (u8, usize),
    ) {
        self.under(name, &plan.encode(), (&under(flags), CUSTOMER), check(message), fault);
    }

    /// The sheet and the rewriting of a message that the settings let
    /// through, in rooms that are long enough.
    fn rewrite_under(&mut self, name: &str, plan: &TablePlan, flags: [u8; 3], message: &[u8]) {
        let (sheet, output) = (11 * message.len(), message.len());
        for question in [to_sheet(message, sheet), rewrite(message, sheet, output)] {
            self.under(name, &plan.encode(), (&under(flags), CUSTOMER), question, FINE);
        }
    }
}

/// Whether the flags ignore a fault.
fn ignores(flags: [u8; 3], number: u8) -> bool {
    match number {
        4 => flags[0] == 1,
        6 => flags[1] == 1,
        8 => flags[2] == 1,
        _ => false,
    }
}

/// Bytes that mean nothing, everywhere they can stand.
fn many_places() -> TablePlan {
    let inline = |size| field(Type::Binary).size(size);
    TablePlan::new()
        // 0: a static group.
        .plain(&[field(Type::Bool).optional(), inline(3)])
        .group(
            1,
            &[
                field(Type::U32).optional(),
                field(Type::String).size(4),
                field(Type::StaticGroup).of(0),
                field(Type::StaticGroup).of(0).optional(),
                field(Type::StaticGroup).of(0).sequence(),
                field(Type::String).size(2).sequence(),
                field(Type::DynamicGroup).of(2),
                field(Type::AnyGroup).sequence(),
                field(Type::U8),
            ],
        )
        .group(2, &[field(Type::U16).optional(), inline(2)])
}

/// Its message, with all of them zero.
fn clean() -> Vec<u8> {
    // Fields at 0, 3, area at 6.
    let inner = |fields: [u8; 6], area: &[u8]| group(2, 0, &[&fields, area]);
    group(
        1,
        142 - 12,
        &[
            // 16: absent; 21: two of four bytes.
            &[0, 0, 0, 0, 0],
            &[2, b'a', b'b', 0, 0],
            // 26: a bool that is absent, one of three bytes; 32: absent.
            &[0, 0, 1, b'x', 0, 0],
            &[0; 7],
            // 39, 43, 47, 51: offsets; 55: a number.
            &word(58 - 39),
            &word(75 - 43),
            &word(85 - 47),
            &word(111 - 51),
            &[9],
            // 56: pads; 58: static groups, at 62 and 68; 74: a pad.
            &[0; 2],
            &word(2),
            &[0, 0, 0, 0, 0, 0],
            &[1, 1, 2, b'y', b'z', 0],
            &[0],
            // 75: inline strings, at 79 and 82.
            &word(2),
            &[1, b'c', 0],
            &[0, 0, 0],
            // 85: a group with its fields at 101 and pads from 107; 110: a pad.
            &inner([0, 0, 0, 0, 0, 0], &[0; 3]),
            &[0],
            // 111: a sequence of one group at 119, its fields at 135.
            &word(1),
            &word(119 - 115),
            &inner([1, 7, 7, 1, b'd', 0], &[0]),
            // 142: an extension of a known group at 154, its fields at 170,
            // and of an unknown one at 178; 199: pads.
            &word(2),
            &word(154 - 146),
            &word(178 - 150),
            &inner([0, 0, 0, 2, b'e', b'f'], &[0; 2]),
            &group(99, 0xffff_ffff, &[&[0xff; 5]]),
            &[0; 2],
        ],
    )
}

/// The places of those bytes, with the fault of rubbish there.
const ABSENT: [usize; 16] = [17, 18, 19, 20, 27, 33, 34, 35, 36, 37, 38, 63, 102, 103, 171, 172];
const UNUSED: [usize; 14] = [24, 25, 30, 31, 65, 66, 67, 73, 81, 83, 84, 105, 106, 140];
const PADS: [usize; 12] = [56, 57, 74, 107, 108, 109, 110, 141, 176, 177, 199, 200];

fn places() -> impl Iterator<Item = (u8, usize)> {
    let absent = ABSENT.map(|at| (4, at));
    let unused = UNUSED.map(|at| (8, at));
    let pads = PADS.map(|at| (6, at));
    absent.into_iter().chain(unused).chain(pads)
}

/// The message with rubbish in all places of these kinds.
fn littered(numbers: &[u8]) -> Vec<u8> {
    let mut message = clean();
    for (number, at) in places().filter(|(number, _)| numbers.contains(number)) {
        message[at] = number + at as u8;
    }
    message
}

fn one_place(edges: &mut Edges) {
    let plan = many_places();
    for flags in COMBINATIONS {
        edges.check_under("nothing to ignore", &plan, flags, &clean(), FINE);
        for (number, at) in places() {
            let fault = if ignores(flags, number) { FINE } else { (number, at) };
            for byte in [1, 0x80] {
                // Both bytes where it matters most, one elsewhere.
                if byte == 1 || fault == FINE {
                    edges.check_under("rubbish in one place", &plan, flags, &with(&clean(), at, byte), fault);
                }
            }
        }
    }
}

fn several_places(edges: &mut Edges) {
    let plan = many_places();
    let table = plan.encode();
    let first = |flags: [u8; 3], numbers: &[u8]| {
        // The fields in order, each with all that belongs to it; a group's
        // pads after its fields and extension.
        let walk = [(4, 17), (8, 24), (6, 107)];
        let at_fault = |&(number, _): &(u8, usize)| numbers.contains(&number) && !ignores(flags, number);
        walk.into_iter().find(at_fault).unwrap_or(FINE)
    };
    let kinds: [&[u8]; 8] = [&[], &[4], &[6], &[8], &[4, 6], &[4, 8], &[6, 8], &[4, 6, 8]];
    for flags in COMBINATIONS {
        let store = under(flags);
        for numbers in kinds {
            let message = littered(numbers);
            let fault = first(flags, numbers);
            let mut ask =
                |question| edges.under("rubbish everywhere", &table, (&store, CUSTOMER), question, fault);
            ask(check(&message));
            ask(to_sheet(&message, 11 * message.len()));
            ask(rewrite(&message, 11 * message.len(), message.len()));
            ask(read(Kind::ReadNumber, &message, 8, 0));
            ask(read(Kind::ReadBytes, &message, 1, 0));
        }
    }
    // The places of a kind one after the other, in the order of the walk.
    let everything = under([1, 1, 1]);
    let walks: [(&[usize], u8, [u8; 3]); 3] = [
        (&[17, 27, 33, 63, 102, 171], 4, [0, 1, 1]),
        (&[24, 30, 65, 73, 81, 83, 105, 140], 8, [1, 1, 0]),
        (&[107, 141, 176, 56, 74, 110, 199], 6, [1, 0, 1]),
    ];
    for (walk, number, flags) in walks {
        let mut message = littered(&[4, 6, 8]);
        for (_, at) in places().filter(|(other, at)| *other == number && !walk.contains(at)) {
            message[at] = 0;
        }
        for &at in walk {
            edges.check_under("one after the other", &plan, flags, &message, (number, at));
            message[at] = 0;
        }
        edges.check_under("none left", &plan, flags, &message, FINE);
        edges.under("none left, all ignored", &table, (&everything, CUSTOMER), check(&message), FINE);
    }
    // Rooms: the sheet and the rewritten message are the clean message's.
    let message = littered(&[4, 6, 8]);
    let mut ask = |name, question, fault| edges.under(name, &table, (&everything, CUSTOMER), question, fault);
    for (sheet, output, fault) in [(186, 189, FINE), (185, 189, (46, 0)), (186, 188, (47, 0))] {
        ask("rooms for a littered message", rewrite(&message, sheet, output), fault);
    }
    ask("a room for its sheet", to_sheet(&message, 186), FINE);
    ask("46 for its sheet", to_sheet(&message, 185), (46, 0));
    ask("scratch longer", Question { scratch: 300, ..check(&message) }, FINE);
    ask("21 scratch short", Question { scratch: 200, ..check(&message) }, (21, 0));
}

fn readings(edges: &mut Edges) {
    let plan = many_places();
    let table = plan.encode();
    let message = littered(&[4, 6, 8]);
    let store = under([1, 1, 1]);
    let mut ask = |kind, field, item, fault| {
        let question = read(kind, &message, field, item);
        edges.under("a littered field", &table, (&store, CUSTOMER), question, fault);
    };
    use Kind::{ReadBytes, ReadNumber};
    for kind in [ReadNumber, ReadBytes] {
        // Rubbish in an absent field does not make it present.
        ask(kind, 0, 0, (29, 0));
        ask(kind, 3, 0, (29, 0));
        ask(kind, 2, 0, (48, 0));
        ask(kind, 4, 1, (48, 0));
        ask(kind, 9, 0, (28, 0));
        ask(kind, 5, 2, (28, 0));
    }
    ask(ReadNumber, 8, 0, FINE);
    ask(ReadNumber, 1, 0, (48, 0));
    for (field, items) in [(1, 1), (5, 2), (6, 1), (7, 1)] {
        for item in 0..items {
            ask(ReadBytes, field, item, FINE);
        }
    }
}

/// What is next to an ignored byte stays as it was.
fn what_is_still_judged(edges: &mut Edges) {
    let all = [1, 1, 1];
    let plan = many_places();
    let message = littered(&[4, 6, 8]);
    for (name, at, byte, fault) in [
        ("11 the flag of an absent field", 16, 2, (11, 16)),
        ("11 the flag of an absent static group", 32, 255, (11, 32)),
        ("11 a flag in a static group", 26, 2, (11, 26)),
        ("11 a bool that is present", 69, 2, (11, 69)),
        ("7 an inline count", 21, 5, (7, 21)),
        ("7 a count in an item", 64, 4, (7, 64)),
        ("9 a text before unused bytes", 23, 0xff, (9, 22)),
        ("9 an unused byte comes into use", 21, 3, (9, 22)),
        ("2 a group's type", 89, 9, (2, 85)),
        ("25 a group's type", 89, 1, (25, 85)),
        ("14 a group's size", 85, 17, (14, 85)),
        ("1 an unknown group's size", 178, 11, (1, 178)),
        ("13 a count", 58, 99, (13, 58)),
        ("27 a location", 47, 58 - 47, (27, 58)),
        ("5 a location in the fields", 47, 0, (5, 47)),
        ("3 an extension in the fields", 12, 30, (3, 12)),
    ] {
        // 9: "ab" and the rubbish behind it, which is no text.
        let message = with(&with(&message, 24, 0xf5), at, byte);
        edges.check_under(name, &plan, all, &message, fault);
    }
    let one = |fields: &[_]| TablePlan::new().group(1, fields);
    // 8 comes before 9; ignored, it does not hide it.
    let inline = one(&[field(Type::String).size(4)]);
    let bad = group(1, 0, &[&[2, b'a', 0xff, 7, 0]]);
    edges.check_under("8 before 9", &inline, [1, 1, 0], &bad, (8, 19));
    edges.check_under("9 where 8 is ignored", &inline, [0, 0, 1], &bad, (9, 17));
    // Rubbish that would be a broken text, bool, offset or symbol.
    let optional = TablePlan::new().enumeration(&[1]).group(
        1,
        &[
            field(Type::Bool).optional(),
            field(Type::Enumeration).optional(),
            field(Type::String).optional(),
            field(Type::AnyGroup).optional(),
            field(Type::TimeOfDayMilli).optional(),
            field(Type::U8).sequence().optional(),
            field(Type::String).size(2).optional(),
        ],
    );
    let absent = [
        &[0, 9][..],
        &[0, 9, 9, 9, 9],
        &[0, 255, 255, 255, 255],
        &[0, 4, 0, 0, 0],
        &[0, 255, 255, 255, 255],
        &[0, 0, 0, 0, 128],
        &[0, 9, 255, 255],
    ];
    edges.check_under("absent fields of every kind", &optional, [1, 0, 0], &group(1, 0, &absent), FINE);
    edges.check_under("4 in them", &optional, [0, 1, 1], &group(1, 0, &absent), (4, 17));
    edges.rewrite_under("absent fields of every kind", &optional, [1, 0, 0], &group(1, 0, &absent));
    // A value may stand among ignored pads, but shares no byte.
    let texts = one(&[field(Type::String), field(Type::String)]);
    let apart = group(1, 0, &[&word(10), &word(13), b"??", &text(b"ab"), b"?", &text(b"c"), b"!!!"]);
    edges.check_under("texts among rubbish", &texts, [0, 1, 0], &apart, FINE);
    edges.check_under("6 texts among rubbish", &texts, [1, 0, 1], &apart, (6, 24));
    edges.rewrite_under("texts among rubbish", &texts, [0, 1, 0], &apart);
    edges.check_under("27 among rubbish", &texts, [0, 1, 0], &with(&apart, 20, 6), (27, 26));
    edges.check_under("26 among rubbish", &texts, [0, 1, 0], &with(&apart, 33, 5), (26, 33));
    // In rubbish a location can lead to a text that nobody meant.
    let meant = group(1, 0, &[&word(8), &word(8), &text(b""), &text(b"q")]);
    edges.check_under("two texts", &texts, [0, 1, 0], &meant, FINE);
    // 22 goes by the length, whatever stands there.
    let longer = [&apart[..], &[0]].concat();
    edges.check_under("22 behind the last pad", &texts, [0, 1, 0], &longer, (22, 0));
}

fn unknown_groups(edges: &mut Edges) {
    let plan = many_places();
    let message = littered(&[4, 6, 8]);
    for (flags, message) in [([1, 1, 1], &message), ([0, 0, 0], &clean())] {
        for at in [190, 194, 198] {
            // Its bytes reach the sheet, and are nobody's pads.
            let question = to_sheet(&with(message, at, 0), 300);
            edges.under("an unknown group", &plan.encode(), (&under(flags), CUSTOMER), question, FINE);
        }
    }
    let shorter = with(&message, 178, 16);
    edges.check_under("a pad behind an unknown group", &plan, [1, 1, 1], &shorter, FINE);
    edges.check_under("6 a pad behind an unknown group", &plan, [0; 3], &with(&clean(), 178, 16), (6, 198));
}

fn levels(edges: &mut Edges) {
    let any = TablePlan::new().group(1, &[field(Type::AnyGroup).optional()]);
    let nest = |levels: usize| {
        let mut inner = group(1, 0, &[&[0, 1, 2, 3, 4], b"rest"]);
        for _ in 1..levels {
            inner = group(1, 0, &[&[1], &word(7), b"###", &inner, b"#"]);
        }
        inner
    };
    // Each level has its fields at 16, pads at 21, the next group at 24.
    let eight = nest(8);
    let start = 7 * 24;
    edges.check_under("rubbish at level 8", &any, [1, 1, 0], &eight, FINE);
    edges.check_under("4 at level 8", &any, [0, 1, 1], &eight, (4, start + 17));
    edges.check_under("6 at level 8", &any, [1, 0, 1], &eight, (6, start + 21));
    edges.rewrite_under("rubbish at level 8", &any, [1, 1, 1], &eight);
    let inner = read(Kind::ReadBytes, &eight, 0, 0);
    edges.under("rubbish from level 2 on", &any.encode(), (&under([1, 1, 1]), CUSTOMER), inner, FINE);
    edges.check_under("24 under rubbish", &any, [1, 1, 1], &nest(9), (24, 8 * 24));
}

fn long_messages(edges: &mut Edges) {
    let none = TablePlan::new().group(1, &[]);
    let long = with(&group(1, 0, &[&[0; 65_520]]), 17, 1);
    edges.check_under("65,520 pads", &none, [0, 1, 0], &long, FINE);
    edges.check_under("6 one of 65,520 pads", &none, [1, 0, 1], &long, (6, 17));
    let rewritten = rewrite(&long, 12, 16);
    edges.under("as 16 bytes", &none.encode(), (&under([0, 1, 0]), CUSTOMER), rewritten, FINE);
    let longer = [&long[..], &[0]].concat();
    edges.check_under("23 where pads are ignored", &none, [0, 1, 0], &longer, (23, 0));
}

/// One message for each flag, and which of them a customer may send.
fn which_governs(edges: &mut Edges) {
    let plan = many_places();
    let table = plan.encode();
    let messages = [(0, 4), (1, 6), (2, 8)].map(|(flag, number)| (flag, littered(&[number])));
    let faults = [(4, 17), (6, 107), (8, 24)];
    let mut ask = |name, store: &[u8], customer, flags: [u8; 3]| {
        for (flag, message) in &messages {
            let fault = if flags[*flag] == 1 { FINE } else { faults[*flag] };
            edges.under(name, &table, (store, customer), check(message), fault);
        }
    };
    let none = [0; 3];
    for length in [0, 1, 8, 9, 100, 65_568] {
        for customer in [0, 1, 65_535] {
            ask("a store without settings", &vec![0; length], customer, none);
        }
    }
    let several = store(
        &[
            setting(7, 1, [1, 1, 1]),
            setting(8, 0, [0, 0, 1]),
            setting(0, 65_535, [1, 1, 0]),
            setting(7, 2, [0, 1, 0]),
            setting(65_535, 0, [0, 1, 1]),
            setting(7 + 256, 9, [1, 0, 1]),
            setting(9, 3, [0, 0, 0]),
            setting(9, 256, [1, 1, 1]),
            setting(10, 5, [1, 1, 1]),
            setting(10, 65_535, [0, 0, 0]),
        ],
        14,
    );
    // 7's older settings are laxer, 9's stricter; 10 has taken all back.
    ask("the newest of two, laxer before", &several, 7, [0, 1, 0]);
    ask("version 0", &several, 8, [0, 0, 1]);
    ask("customer 0", &several, 0, [1, 1, 0]);
    ask("customer 65,535", &several, 65_535, [0, 1, 1]);
    ask("a customer of two bytes", &several, 7 + 256, [1, 0, 1]);
    ask("the newest of two, stricter before", &several, 9, [1, 1, 1]);
    ask("all taken back", &several, 10, none);
    for customer in [1, 6, 11, 7 + 512, 7 + 1_024, 7 + 4_096, 7 << 8, 65_279, 65_534] {
        ask("an unknown customer", &several, customer, none);
    }
    // The version is a number, not its bytes, and the last record is not
    // everybody's.
    let bytes =
        store(&[setting(1, 255, [1, 0, 0]), setting(1, 256, [0, 1, 0]), setting(2, 999, [0, 0, 1])], 0);
    ask("256 after 255", &bytes, 1, [0, 1, 0]);
    ask("another customer's later version", &bytes, 2, [0, 0, 1]);
    // Customers alike in their low bits.
    for step in [256, 1_024, 4_096] {
        let alike = store(&[setting(5, 1, [1, 0, 0]), setting(5 + step, 9, [0, 1, 0])], 3);
        ask("alike, the first", &alike, 5, [1, 0, 0]);
        ask("alike, the second", &alike, 5 + step, [0, 1, 0]);
        ask("alike, neither", &alike, 5 + 2 * step, none);
    }
    // Many customers: the first, the last and one more.
    for count in [17, 100, 300] {
        let mut records: Vec<_> = (0..count).map(|index| setting(index * 3, 1, [1, 0, 0])).collect();
        records.extend((0..count / 2).map(|index| setting(index * 6, 2, [0, 0, 1])));
        let many = store(&records, 8);
        ask("the newest among many", &many, 0, [0, 0, 1]);
        ask("the only one among many", &many, 3, [1, 0, 0]);
        ask("the last of many", &many, count / 2 * 6 - 6, [0, 0, 1]);
        ask("none of many", &many, 1, none);
    }
    let most: Vec<_> =
        (0..7_281).map(|index| setting(index * 9, 0, COMBINATIONS[index as usize % 8])).collect();
    let most = store(&most, 7);
    ask("the last of 7,281", &most, 65_520, [0; 3]);
    ask("one of 7,281", &most, 9 * 999, [1, 1, 1]);
}

/// Every question about a message, with scratch of this length.
fn every_question(message: &[u8], scratch: usize) -> [Question; 5] {
    [
        check(message),
        to_sheet(message, 300),
        rewrite(message, 300, 250),
        read(Kind::ReadNumber, message, 8, 0),
        read(Kind::ReadBytes, message, 1, 0),
    ]
    .map(|question| Question { scratch, ..question })
}

/// Stores that are refused, each with the place of its 50.
fn damaged() -> Vec<(&'static str, Vec<u8>, usize)> {
    let records = [setting(7, 1, [1, 1, 1]), setting(8, 4, [0, 1, 0]), setting(7, 2, [1, 1, 1])];
    let good = store(&records, 12);
    let version = |version| store(&[records[0], records[1], setting(8, version, [0; 3])], 0);
    vec![
        ("50 a mark", with(&good, 10, b'T'), 9),
        ("50 the first mark", with(&good, 0, 0), 0),
        ("50 a flag of 2", with(&good, 26, 2), 18),
        ("50 a flag of 255", with(&good, 6, 255), 0),
        ("50 the same version", version(4), 18),
        ("50 an older version", version(0), 18),
        ("50 a hole", [&good[..], &good[9..18]].concat(), 27),
        ("50 a rest", with(&good, 38, 1), 27),
        ("50 a record cut off", good[..20].to_vec(), 18),
        ("50 a tail", [&good[..27], &[0, 0, 1]].concat(), 27),
        ("50 a byte alone", vec![1], 0),
    ]
}

fn damaged_stores(edges: &mut Edges) {
    let table = many_places().encode();
    for (name, store, place) in damaged() {
        // It is refused for everybody: known customers, others, and messages
        // that need no settings at all.
        for customer in [7, 8, 9, 0] {
            edges.under(name, &table, (&store, customer), check(&clean()), (50, place));
        }
        let scratch = clean().len() + 5;
        for question in every_question(&littered(&[4, 6, 8]), scratch) {
            edges.under(name, &table, (&store, 7), question, (50, place));
        }
    }
    // At each of its bytes, as the store's own check says.
    let good = store(&[setting(7, 1, [1, 1, 1]), setting(8, 1, [1, 1, 1])], 4);
    for at in (0..good.len()).filter(|at| *at >= 18 || at % 9 < 2 || at % 9 >= 6) {
        let bad = with(&good, at, 6);
        let place = at / 9 * 9;
        edges.under("50 at each byte", &table, (&bad, 8), check(&clean()), (50, place));
    }
    // Long stores with a fault at the end.
    for count in [17, 100, 300] {
        let mut records: Vec<_> = (0..count).map(|index| setting(index, 1, [1, 1, 1])).collect();
        records.push(setting(0, 1, [1, 1, 1]));
        let bad = store(&records, 1);
        let place = 9 * usize::from(count);
        edges.under("50 after many", &table, (&bad, 1), check(&clean()), (50, place));
    }
    let mut most: Vec<_> = (0..7_281).map(|index| setting(index * 9, 1, [1, 1, 1])).collect();
    most[7_280].customer = 9;
    edges.under("50 at the end", &table, (&store(&most, 7), 0), check(&clean()), (50, 65_520));
}

/// 20, 23, 21, then 50, then 22 and the walk.
fn order_of_50(edges: &mut Edges) {
    let table = many_places().encode();
    let store = damaged().swap_remove(2).1;
    let message = clean();
    let length = message.len();
    let long = vec![0; 65_537];
    let mut ask = |name, table: &[u8], message: &[u8], scratch, fault| {
        for question in every_question(message, scratch) {
            edges.under(name, table, (&store, 7), question, fault);
        }
    };
    ask("20 before 50", &[], &message, length, (20, 0));
    ask("20 before all", &table[..32], &long, 0, (20, 0));
    ask("23 before 50", &table, &long, 65_540, (23, 0));
    ask("23 before 21 and 50", &table, &long, 3, (23, 0));
    ask("21 before 50", &table, &message, length - 1, (21, 0));
    ask("21 before 50, no scratch", &table, &message, 0, (21, 0));
    ask("50 with scratch to spare", &table, &message, length + 7, (50, 18));
    ask("50 before 22", &table, &message[..length - 1], length, (50, 18));
    ask("50 before 22, no bytes", &table, &[], 4, (50, 18));
    ask("50 before 22, no bytes, no scratch", &table, &[], 0, (50, 18));
    ask("50 before 1", &table, &[0; 4], 4, (50, 18));
    ask("50 before 2", &table, &with(&message, 4, 77), length, (50, 18));
    ask("50 before 3", &table, &with_word(&message, 12, 1), length, (50, 18));
    ask("50 before 4", &table, &with(&message, 17, 1), length, (50, 18));
    ask("50 before 9", &table, &with(&message, 22, 0xff), length, (50, 18));
    // And before 28, 46 and 47.
    let mut last = |name, question| edges.under(name, &table, (&store, 7), question, (50, 18));
    last("50 before 28", read(Kind::ReadNumber, &message, 99, 0));
    last("50 before 29", read(Kind::ReadBytes, &message, 0, 0));
    last("50 before 46", to_sheet(&message, 0));
    last("50 before 46 and 47", rewrite(&message, 0, 0));
    last("50 before 47", rewrite(&message, 300, 0));
}
