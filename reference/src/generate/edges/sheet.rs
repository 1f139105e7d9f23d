//! Edges of sheet to message.

use super::record::{gb, ge, no, sg, sq, st, va, xt, xu};
use super::{group, hex, with, with_word, word, write, Edges, FINE};
use crate::generate::table::{field, FieldPlan, TablePlan};
use crate::generate::text::{broken, forms};
use crate::Type;

pub fn add(edges: &mut Edges) {
    ends_and_marks(edges);
    groups(edges);
    fields(edges);
    texts(edges);
    values(edges);
    sequences(edges);
    extensions(edges);
    levels(edges);
    rooms(edges);
}

fn one(fields: &[FieldPlan]) -> TablePlan {
    TablePlan::new().group(1, fields)
}

fn join(records: &[Vec<u8>]) -> Vec<u8> {
    records.concat()
}

fn ends_and_marks(edges: &mut Edges) {
    let plan = one(&[field(Type::U32), field(Type::U8).optional()]);
    let sheet = join(&[gb(1), va(&[1, 2, 3, 4]), va(&[5]), ge()]);
    edges.write("a sheet", &plan, &sheet, FINE);
    // Records start at 0, 10, 16 and 19; the sheet's length is 21.
    for cut in 0..21 {
        let place = match cut {
            0..10 => 0,
            10..16 => 10,
            16..19 => 16,
            _ => 19,
        };
        edges.write("40 cut off", &plan, &sheet[..cut], (40, place));
    }
    for start in [0, 10, 16, 19] {
        edges.write("41 the first letter", &plan, &with(&sheet, start, b'X'), (41, start));
        edges.write("41 the second letter", &plan, &with(&sheet, start + 1, b'X'), (41, start));
        // One byte is no mark; two wrong ones are, whatever is missing.
        let cut = [&sheet[..start], b"X"].concat();
        edges.write("40 one byte of a mark", &plan, &cut, (40, start));
        let cut = [&sheet[..start], b"XX"].concat();
        edges.write("41 before 40 on the rest", &plan, &cut, (41, start));
    }
    edges.write("43 a byte behind", &plan, &[&sheet[..], &[0]].concat(), (43, 21));
    edges.write("43 a GE behind", &plan, &[&sheet[..], b"GE"].concat(), (43, 21));
    edges.write("43 another sheet behind", &plan, &[&sheet[..], &sheet[..]].concat(), (43, 21));
    edges.write("41 NO for a field that is not optional", &plan, &join(&[gb(1), no(), no(), ge()]), (41, 10));
    edges.write("absent", &plan, &join(&[gb(1), va(&[0; 4]), no(), ge()]), FINE);
    edges.write("41 a field too few", &plan, &join(&[gb(1), va(&[0; 4]), ge()]), (41, 16));
    edges.write("41 a field too many", &plan, &join(&[gb(1), va(&[0; 4]), no(), no(), ge()]), (41, 18));
    edges.write("41 GE at the start", &plan, &ge(), (41, 0));
    edges.write("41 XU at the start", &plan, &xu(&group(9, 0, &[])), (41, 0));
    edges.write("41 an empty mark", &plan, &[0; 30], (41, 0));
    let long = vec![0; 1_048_577];
    edges.write("42 a sheet of 1,048,577 bytes", &plan, &long, (42, 0));
    edges.write("a sheet of 1,048,576 bytes is not too long", &plan, &long[..1_048_576], (41, 0));
    let mut long = sheet.clone();
    long.resize(1_048_576, 0);
    edges.write("43 in the longest sheet", &plan, &long, (43, 21));
    edges.add("20 before 42", b"no table", write(&vec![0; 1_048_577], 0), (20, 0));
    edges.add("20 before 40", &[], write(&[], 0), (20, 0));
}

fn groups(edges: &mut Edges) {
    let plan = TablePlan::new()
        .plain(&[])
        .below(0, 2, &[])
        .group(3, &[])
        .group(1, &[field(Type::DynamicGroup).optional(), field(Type::AnyGroup).optional()]);
    let sheet = |first: Vec<u8>, second: Vec<u8>| join(&[gb(1), first, second, ge()]);
    let inner = |id| join(&[gb(id), ge()]);
    edges.write("no groups", &plan, &sheet(no(), no()), FINE);
    edges.write("groups", &plan, &sheet(inner(2), inner(3)), FINE);
    edges.write("25 a group that is not below", &plan, &sheet(inner(3), no()), (25, 10));
    edges.write("2 unknown", &plan, &sheet(inner(4), no()), (2, 10));
    edges.write("2 any, but unknown", &plan, &sheet(no(), inner(4)), (2, 12));
    edges.write("2 a group without id", &plan, &sheet(no(), inner(0)), (2, 12));
    edges.write("2 the message", &plan, &inner(4), (2, 0));
    edges.write("41 XU in a field", &plan, &sheet(no(), xu(&group(4, 0, &[]))), (41, 12));
    edges.write("40 before 2", &plan, &sheet(gb(4), no())[..18], (40, 10));
    edges.write("40 before 25", &plan, &sheet(gb(3), no())[..19], (40, 10));
    edges.write("41 a static group in a field", &plan, &sheet(sg(), no()), (41, 10));
    edges.write("a group in a group", &plan, &sheet(no(), sheet(inner(2), no())), FINE);
    edges.write("40 inside a group", &plan, &sheet(no(), gb(2))[..22], (40, 22));
}

fn fields(edges: &mut Edges) {
    let plan = TablePlan::new()
        .plain(&[field(Type::U8).optional(), field(Type::U8)])
        .plain(&[field(Type::StaticGroup).optional()])
        .group(1, &[field(Type::StaticGroup).of(1), field(Type::U16)]);
    let sheet = |middle: &[Vec<u8>]| join(&[gb(1), sg(), join(middle), va(&[7, 8]), ge()]);
    edges.write("an absent static group", &plan, &sheet(&[no()]), FINE);
    edges.write("an absent first field", &plan, &sheet(&[sg(), no(), va(&[9])]), FINE);
    edges.write("a present first field", &plan, &sheet(&[sg(), va(&[8]), va(&[9])]), FINE);
    edges.write("41 no SG", &plan, &sheet(&[va(&[8]), va(&[9])]), (41, 12));
    edges.write("41 absent where it is not optional", &plan, &sheet(&[sg(), no(), no()]), (41, 16));
    edges.write("41 SG twice", &plan, &sheet(&[sg(), sg()]), (41, 14));
}

fn texts(edges: &mut Edges) {
    let plan = one(&[
        field(Type::String).size(12),
        field(Type::Binary).size(2),
        field(Type::String),
        field(Type::Binary),
    ]);
    let sheet = |texts: [&[u8]; 4]| join(&[gb(1), texts.map(st).concat(), ge()]);
    edges.write("texts", &plan, &sheet([b"Hello World!", b"\xff\xff", b"a", b"\xff"]), FINE);
    edges.write("empty texts", &plan, &sheet([b"", b"", b"", b""]), FINE);
    edges.write("7 inline string", &plan, &sheet([b"Hello World!!", b"", b"", b""]), (7, 10));
    edges.write("7 inline binary", &plan, &sheet([b"", b"abc", b"", b""]), (7, 16));
    edges.write("7 before 9", &plan, &sheet([&[0xff; 13], b"", b"", b""]), (7, 10));
    edges.write("9 inline string", &plan, &sheet([b"\xff", b"", b"", b""]), (9, 10));
    edges.write("9 indirect string", &plan, &sheet([b"", b"", b"ab\xc2", b""]), (9, 22));
    edges.write("7 a count of 256 + 1", &plan, &sheet([&[b'a'; 257], b"", b"", b""]), (7, 10));
    let short = sheet([b"Hello World!!", b"", b"", b""]);
    edges.write("40 before 7", &plan, &short[..28], (40, 10));
    edges.write("40 the greatest count", &plan, &with_word(&short, 12, u32::MAX), (40, 10));
    let bad = sheet([b"\xff\xff", b"", b"", b""]);
    edges.write("40 before 9", &plan, &bad[..17], (40, 10));
    edges.write("40 in the count", &plan, &bad[..15], (40, 10));
    edges.write(
        "40 a count to just past the end",
        &plan,
        &with_word(&join(&[gb(1), st(b"abc")]), 12, 4),
        (40, 10),
    );
    let text = one(&[field(Type::String)]);
    for form in forms() {
        edges.write("a form of UTF-8", &text, &join(&[gb(1), st(&form), ge()]), FINE);
    }
    for bad in broken() {
        edges.write("9 no form of UTF-8", &text, &join(&[gb(1), st(&bad), ge()]), (9, 10));
    }
}

fn values(edges: &mut Edges) {
    let plan = TablePlan::new().enumeration(&[-5, 5]).group(
        1,
        &[
            field(Type::Bool),
            field(Type::TimeOfDayMilli),
            field(Type::TimeOfDayNano),
            field(Type::Enumeration),
            field(Type::Decimal),
        ],
    );
    let sheet = |bool: u8, milli: u32, nano: u64, symbol: i32| {
        join(&[
            gb(1),
            va(&[bool]),
            va(&milli.to_le_bytes()),
            va(&nano.to_le_bytes()),
            va(&symbol.to_le_bytes()),
            va(&[0xff; 9]),
            ge(),
        ])
    };
    edges.write("values", &plan, &sheet(1, 86_399_999, 86_399_999_999_999, -5), FINE);
    edges.write("11", &plan, &sheet(2, 0, 0, 5), (11, 10));
    edges.write("12 in ms", &plan, &sheet(0, 86_400_000, 0, 5), (12, 13));
    edges.write("12 in ns", &plan, &sheet(0, 0, 86_400_000_000_000, 5), (12, 19));
    edges.write("10", &plan, &sheet(0, 0, 0, 4), (10, 29));
    edges.write("40 before 10", &plan, &sheet(0, 0, 0, 4)[..34], (40, 29));
    edges.write("40 before 12", &plan, &sheet(0, u32::MAX, 0, 4)[..18], (40, 13));
    // Every type has its own mark and width.
    for ty in Type::ALL {
        let size = if ty == Type::Fixed { 5 } else { 0 };
        let plan =
            TablePlan::new().enumeration(&[0]).plain(&[field(Type::U8)]).group(1, &[field(ty).size(size)]);
        let width = plan.item_width(field(ty).size(size));
        let due = match ty {
            Type::String | Type::Binary => b"ST",
            Type::StaticGroup => b"SG",
            Type::DynamicGroup | Type::AnyGroup => b"GB",
            _ => b"VA",
        };
        for mark in [b"VA", b"ST", b"SG", b"GB", b"SQ", b"NO", b"GE", b"XT", b"XU"] {
            if mark != due {
                let sheet = join(&[gb(1), mark.to_vec(), vec![0; 9], ge()]);
                edges.write("41 a mark of another type", &plan, &sheet, (41, 10));
            }
        }
        if due == b"VA" {
            let sheet = join(&[gb(1), va(&vec![0; width]), ge()]);
            edges.write("a value of each type", &plan, &sheet, FINE);
            let sheet = join(&[gb(1), va(&vec![0; width - 1])]);
            edges.write("40 a value one byte short", &plan, &sheet, (40, 10));
        }
    }
}

fn sequences(edges: &mut Edges) {
    let plan = one(&[field(Type::U16).sequence().optional()]);
    let sheet = |count, items: &[Vec<u8>]| join(&[gb(1), sq(count), join(items), ge()]);
    edges.write("no items", &plan, &sheet(0, &[]), FINE);
    edges.write("two items", &plan, &sheet(2, &[va(&[1, 2]), va(&[3, 4])]), FINE);
    edges.write("41 an item too few", &plan, &sheet(2, &[va(&[1, 2])]), (41, 20));
    edges.write("41 an item too many", &plan, &sheet(1, &[va(&[1, 2]), va(&[3, 4])]), (41, 20));
    edges.write("41 the most items", &plan, &sheet(u32::MAX, &[va(&[1, 2])]), (41, 20));
    edges.write("40 items are missing", &plan, &join(&[gb(1), sq(2), va(&[1, 2])]), (40, 20));
    edges.write("40 the count is cut off", &plan, &sheet(0, &[])[..15], (40, 10));
    edges.write("41 NO for an item", &plan, &sheet(1, &[no()]), (41, 16));
    edges.write("an absent sequence", &plan, &join(&[gb(1), no(), ge()]), FINE);
    edges.write("41 a value for a sequence", &plan, &join(&[gb(1), va(&[1, 2]), ge()]), (41, 10));
    let two = one(&[field(Type::U32).sequence(), field(Type::U8).sequence()]);
    edges.write("empty sequences", &two, &join(&[gb(1), sq(0), sq(0), ge()]), FINE);
    let bools = one(&[field(Type::Bool).sequence()]);
    edges.write("11 the third item", &bools, &sheet(3, &[va(&[0]), va(&[1]), va(&[2])]), (11, 22));
    let statics = TablePlan::new()
        .plain(&[field(Type::String), field(Type::U8)])
        .group(1, &[field(Type::StaticGroup).sequence(), field(Type::String)]);
    let items = [sg(), st(b"ab"), va(&[1]), sg(), st(b""), va(&[2])];
    let sheet = join(&[gb(1), sq(2), join(&items), st(b"end"), ge()]);
    edges.write("static items with texts", &statics, &sheet, FINE);
    let texts = one(&[field(Type::String).sequence(), field(Type::String).size(3).sequence()]);
    let sheet = join(&[gb(1), sq(2), st(b"ab"), st(b""), sq(1), st(b"abc"), ge()]);
    edges.write("text items", &texts, &sheet, FINE);
    let sheet = join(&[gb(1), sq(0), sq(2), st(b"ab"), st(b"abcd"), ge()]);
    edges.write("7 in an item", &texts, &sheet, (7, 30));
    // Depth first: an item's values before the next item's.
    let deep = TablePlan::new()
        .plain(&[field(Type::String).sequence(), field(Type::String)])
        .group(1, &[field(Type::StaticGroup).sequence(), field(Type::String)]);
    let item = |texts: [&[u8]; 3]| join(&[sg(), sq(2), st(texts[0]), st(texts[1]), st(texts[2])]);
    let sheet = join(&[gb(1), sq(2), item([b"a", b"bb", b"ccc"]), item([b"d", b"", b"e"]), st(b"end"), ge()]);
    edges.write("depth first", &deep, &sheet, FINE);
}

fn extensions(edges: &mut Edges) {
    let plan = TablePlan::new()
        .group(1, &[field(Type::String)])
        .group(2, &[field(Type::DynamicGroup)])
        .group(0x0102_0304_0506_0708, &[]);
    let sheet = |records: &[Vec<u8>]| join(&[gb(1), st(b""), join(records), ge()]);
    let known = join(&[gb(1), st(b"known"), ge()]);
    let unknown = xu(&group(9, u32::MAX, &[b"kept"]));
    edges.write("an extension", &plan, &sheet(&[xt(2), known.clone(), unknown.clone()]), FINE);
    edges.write("44 XT of no groups", &plan, &sheet(&[xt(0)]), (44, 16));
    edges.write("40 before 44", &plan, &sheet(&[xt(0)])[..21], (40, 16));
    edges.write("41 a group too few", &plan, &sheet(&[xt(2), known.clone()]), (41, 45));
    edges.write("41 a group too many", &plan, &sheet(&[xt(1), known.clone(), known.clone()]), (41, 45));
    edges.write("41 XT twice", &plan, &sheet(&[xt(1), known.clone(), xt(1), known.clone()]), (41, 45));
    edges.write(
        "41 XT before the fields",
        &plan,
        &join(&[gb(1), xt(1), known.clone(), st(b""), ge()]),
        (41, 10),
    );
    edges.write("41 GE in an extension", &plan, &sheet(&[xt(1)]), (41, 22));
    edges.write("40 the most groups", &plan, &join(&[gb(1), st(b""), xt(u32::MAX), known.clone()]), (40, 45));
    edges.write("an empty XU", &plan, &sheet(&[xt(1), xu(&group(9, 0, &[]))]), FINE);
    let short = |id, count: usize| {
        let mut bytes = group(id, 0, &[])[..4 + count].to_vec();
        bytes[0] = count as u8;
        xu(&bytes)
    };
    edges.write("1 XU of 11 bytes", &plan, &sheet(&[xt(1), short(9, 11)]), (1, 22));
    edges.write("1 XU of no bytes", &plan, &sheet(&[xt(1), short(9, 0)]), (1, 22));
    edges.write("1 before 45", &plan, &sheet(&[xt(1), short(1, 11)]), (1, 22));
    edges.write("40 before 1", &plan, &join(&[gb(1), st(b""), xt(1), with(&short(9, 10), 2, 11)]), (40, 22));
    edges.write("45 XU of a known type", &plan, &sheet(&[xt(1), xu(&group(1, 0, &[]))]), (45, 22));
    edges.write(
        "45 another known type",
        &plan,
        &sheet(&[xt(1), xu(&group(0x0102_0304_0506_0708, 0, &[]))]),
        (45, 22),
    );
    edges.write(
        "XU of a type known but for one byte",
        &plan,
        &sheet(&[xt(1), xu(&group(0x0102_0304_0506_0709, 0, &[]))]),
        FINE,
    );
    edges.write("40 before 45", &plan, &sheet(&[xt(1), xu(&group(1, 0, &[]))])[..39], (40, 22));
    edges.write("40 XU's size is cut off", &plan, &sheet(&[xt(1), unknown.clone()])[..27], (40, 22));
    edges.write("40 XU of 2^32 - 1 bytes", &plan, &sheet(&[xt(1), xu(&word(u32::MAX))]), (40, 22));
    edges.write("2 GB of unknown type in an extension", &plan, &sheet(&[xt(1), gb(9), ge()]), (2, 22));
    edges.write("any group in an extension", &plan, &sheet(&[xt(1), gb(2), known, ge()]), FINE);
    let inner = join(&[gb(1), st(b"x"), xt(1), unknown, ge()]);
    edges.write("an extension of an extension", &plan, &sheet(&[xt(1), inner]), FINE);
    let bill = TablePlan::new().group(2, &[field(Type::U32), field(Type::U32).optional()]);
    let sheet = hex("47 42 02 00 00 00 00 00 00 00 56 41 e8 03 00 00 56 41 64 00 00 00 47 45");
    edges.write("Bill of document 01", &bill, &sheet, FINE);
}

fn levels(edges: &mut Edges) {
    let plan = TablePlan::new()
        .group(1, &[field(Type::AnyGroup).optional()])
        .group(2, &[field(Type::DynamicGroup).of(1).optional()]);
    let nested = |levels: usize, inner: Vec<u8>| {
        let outer = levels - 1;
        join(&[gb(1).repeat(outer), inner, ge().repeat(outer)])
    };
    let last = join(&[gb(1), no(), ge()]);
    edges.write("level 8", &plan, &nested(8, last.clone()), FINE);
    edges.write("24 level 9", &plan, &nested(9, last.clone()), (24, 80));
    edges.write("2 before 24", &plan, &nested(9, gb(9)), (2, 80));
    edges.write("40 before 24", &plan, &nested(9, last.clone())[..89], (40, 80));
    let wrong = join(&[gb(2), gb(1), no(), ge(), ge()]);
    edges.write("25 before 24", &plan, &nested(8, wrong), (25, 80));
    let right = join(&[gb(2), gb(2), no(), ge(), ge()]);
    edges.write("24 where it is allowed", &plan, &nested(8, right), (24, 80));
    let extended = |inner: Vec<u8>| join(&[gb(1), no(), xt(1), inner, ge()]);
    let unknown = xu(&group(9, 0, &[b"kept"]));
    edges.write("XU at level 9", &plan, &nested(8, extended(unknown)), FINE);
    edges.write("24 GB at level 9 of an extension", &plan, &nested(8, extended(last)), (24, 88));
    edges.write("45 at level 9", &plan, &nested(8, extended(xu(&group(1, 0, &[])))), (45, 88));
}

fn rooms(edges: &mut Edges) {
    let plan = one(&[field(Type::String)]);
    let sheet = join(&[gb(1), st(b"abc"), ge()]);
    let table = plan.encode();
    edges.add("output exact", &table, write(&sheet, 27), FINE);
    edges.add("output longer", &table, write(&sheet, 28), FINE);
    edges.add("47 one byte short", &table, write(&sheet, 26), (47, 0));
    edges.add("47 no output", &table, write(&sheet, 0), (47, 0));
    edges.add("43 before 47", &table, write(&[&sheet[..], &[1]].concat(), 0), (43, 21));
    edges.add("9 before 47", &table, write(&join(&[gb(1), st(b"\xff"), ge()]), 0), (9, 10));
    // Each of 255 empty inline texts takes 256 bytes of the message.
    let large = one(&[field(Type::Binary).size(255).sequence(), field(Type::String)]);
    let sheet = |count| {
        let items = st(b"").repeat(255);
        join(&[gb(1), sq(255), items, st(&vec![b'z'; count]), ge()])
    };
    let table = large.encode();
    edges.add("a message of 65,536 bytes", &table, write(&sheet(224), 65_536), FINE);
    edges.add("a message of 65,536 bytes, output longer", &table, write(&sheet(224), 65_600), FINE);
    edges.add("47 65,536 bytes, output one short", &table, write(&sheet(224), 65_535), (47, 0));
    edges.add("47 a message of 65,537 bytes", &table, write(&sheet(225), 65_600), (47, 0));
    // Some twenty thousand bytes of a sheet ask for ten million.
    let wide = TablePlan::new()
        .plain(&[field(Type::Fixed).size(255); 16])
        .plain(&[field(Type::StaticGroup).optional()])
        .group(1, &[field(Type::StaticGroup).of(1).sequence()]);
    let items = [sg(), no()].concat().repeat(2_500);
    let sheet = join(&[gb(1), sq(2_500), items, ge()]);
    edges.add("47 by far", &wide.encode(), write(&sheet, 65_600), (47, 0));
}
