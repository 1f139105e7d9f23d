//! Edges of the table check.

use super::{with, Edges, FINE};
use crate::generate::table::{field, GroupPlan, TablePlan};
use crate::Type;

pub fn add(edges: &mut Edges) {
    length(edges);
    shape(edges);
    zeros_and_flags(edges);
    ranges(edges);
    order(edges);
    widths_and_depths(edges);
    hostile(edges);
}

/// An enumeration, a group without and a group with an id.
/// Records: EN 0, SY 16, SY 32, GR 48, FD 64, GR 80, FD 96, FD 112.
fn small() -> TablePlan {
    TablePlan::new().enumeration(&[-1, 5]).plain(&[field(Type::Enumeration)]).child(
        0,
        7,
        &[field(Type::StaticGroup).optional()],
    )
}

fn length(edges: &mut Edges) {
    let table = small().encode();
    edges.table("the small table", table.clone(), FINE);
    edges.table("30 no bytes", vec![], (30, 0));
    edges.table("30 one byte more", [&table[..], &[0]].concat(), (30, 0));
    edges.table("30 one byte less", table[..127].to_vec(), (30, 0));
    edges.table("30 half a record", b"GR\0\0\0\0\0\0".to_vec(), (30, 0));
    let mut long = small().encode();
    long.resize(65_552, 0);
    edges.table("30 one record too many", long.clone(), (30, 0));
    long.truncate(65_536);
    edges.table("65,536 bytes are not too long", long, (31, 128));
    // 62 groups of 64 fields and one of 63 are 62 * 65 + 64 = 4,094 records;
    // an enumeration of one symbol makes them 4,096. Each group of 64 fields
    // has the one before as its super.
    let mut plan = TablePlan::new().enumeration(&[0]).group(0, &[field(Type::U8); 64]);
    for above in 0..61 {
        plan = plan.child(above, u64::from(above) + 1, &[]);
    }
    plan = plan.group(62, &[field(Type::U8); 63]);
    assert_eq!(plan.encode().len(), 65_536);
    edges.table("the longest table", plan.encode(), FINE);
}

fn shape(edges: &mut Edges) {
    let table = small().encode();
    for (at, name) in [
        (0, "31 mark EN"),
        (16, "31 mark SY"),
        (32, "31 mark SY, the second"),
        (48, "31 mark GR"),
        (64, "31 mark FD"),
        (112, "31 mark FD, the last"),
    ] {
        edges.table(name, with(&table, at, b'e'), (31, at));
        edges.table(name, with(&table, at + 1, 0), (31, at));
    }
    edges.table("31 a symbol is missing", table[..32].to_vec(), (31, 32));
    edges.table("31 a field is missing", table[..112].to_vec(), (31, 112));
    edges.table("31 no symbols", with(&table, 2, 0), (31, 0));
    edges.table("31 257 symbols", with(&with(&table, 3, 1), 2, 1), (31, 0));
    edges.table("31 256 symbols are missing", with(&with(&table, 3, 1), 2, 0), (31, 48));
    edges.table("31 65 fields", with(&table, 93, 65), (31, 80));
    edges.table("31 64 fields are missing", with(&table, 93, 64), (31, 128));
    edges.table("31 one symbol too few", with(&table, 2, 1), (31, 32));
    edges.table("31 one field too few", with(&table, 93, 1), (31, 112));

    let symbols: Vec<i32> = (0..256).collect();
    let many = TablePlan::new().enumeration(&symbols).group(1, &[]);
    edges.table("256 symbols", many.encode(), FINE);
    let fields = TablePlan::new().group(1, &[field(Type::U64); 64]);
    edges.table("64 fields", fields.encode(), FINE);

    // After the first group an enumeration is not due.
    let mixed = [&table[48..128], &table[..48]].concat();
    edges.table("31 an enumeration after the groups", mixed, (31, 80));
    edges.table("34 enumerations only", table[..48].to_vec(), (34, 48));
    edges.table("31 the first record is a symbol", table[16..].to_vec(), (31, 0));
    edges.table("31 the first record is a field", table[64..].to_vec(), (31, 0));

    let mut plan = TablePlan::new();
    for _ in 0..64 {
        plan = plan.enumeration(&[3]);
    }
    for id in 0..64 {
        plan = plan.group(id, &[]);
    }
    edges.table("64 enumerations and 64 groups", plan.encode(), FINE);
    edges.table("31 a 65th group", plan.clone().group(64, &[]).encode(), (31, 192 * 16));
    edges.table("31 a 65th enumeration", plan.enumeration(&[3]).encode(), (31, 128 * 16));

    // 31 over all records comes before 32 on the first.
    edges.table("31 before 32", with(&with(&table, 4, 1), 112, 0), (31, 112));
}

fn zeros_and_flags(edges: &mut Edges) {
    let table = small().encode();
    for (record, from) in [(0, 4), (16, 6), (32, 6), (64, 8), (96, 8), (112, 8)] {
        for at in [record + from, record + 15] {
            edges.table("32 must be zero", with(&table, at, 1), (32, record));
        }
    }
    for at in [80 + 14, 80 + 15] {
        edges.table("32 must be zero, GR", with(&table, at, 1), (32, 80));
    }
    for at in [48 + 2, 48 + 9] {
        edges.table("32 an id but no flag", with(&table, at, 1), (32, 48));
    }
    edges.table("32 id flag", with(&table, 80 + 10, 2), (32, 80));
    edges.table("32 id flag 255", with(&table, 80 + 10, 255), (32, 80));
    for flag in [2, 255] {
        edges.table("32 optional", with(&table, 96 + 3, flag), (32, 96));
        edges.table("32 sequence", with(&table, 96 + 4, flag), (32, 96));
    }
    // Record by record: 33 of an earlier record comes first.
    let both = with(&with(&table, 64 + 2, 0), 112 + 8, 1);
    edges.table("33 of a record before 32 of the next", both, (33, 64));
    let both = with(&with(&table, 64 + 2, 0), 64 + 8, 1);
    edges.table("32 before 33 of one record", both, (32, 64));
    // The second symbol is -1 too and has a byte that must be zero.
    let same = with(&with(&table, 32 + 2, 255), 33 + 2, 255);
    let same = with(&with(&same, 34 + 2, 255), 35 + 2, 255);
    edges.table("34 equal symbols", same.clone(), (34, 32));
    edges.table("32 before 34 of one record", with(&same, 32 + 6, 9), (32, 32));
    edges.table("34 before 32 of the next record", with(&same, 48 + 14, 9), (34, 32));
}

fn ranges(edges: &mut Edges) {
    let table = small().encode();
    edges.table("33 type 0", with(&table, 64 + 2, 0), (33, 64));
    edges.table("33 type 24", with(&table, 64 + 2, 24), (33, 64));
    edges.table("33 type 255", with(&table, 64 + 2, 255), (33, 64));
    edges.table("33 enumeration 1 of 1", with(&table, 96 + 6, 1), (33, 96));
    edges.table("33 enumeration 256", with(&table, 96 + 7, 1), (33, 96));
    edges.table("33 static group is its own", with(&table, 112 + 6, 1), (33, 112));
    edges.table("33 super is its own", with(&table, 80 + 11, 2), (33, 80));
    edges.table("33 super 256", with(&table, 80 + 12, 1), (33, 80));
    edges.table("33 super of the first group", with(&table, 48 + 11, 1), (33, 48));
    for ty in Type::ALL {
        let name = format!("type {}", ty as u8);
        let fixed = matches!(ty, Type::Fixed);
        let text = matches!(ty, Type::String | Type::Binary);
        let refers = matches!(ty, Type::Enumeration | Type::StaticGroup | Type::DynamicGroup);
        let plan = |size: u8, reference: u16| {
            TablePlan::new()
                .enumeration(&[1])
                .plain(&[field(Type::U8)])
                .group(1, &[field(ty).size(size).of(reference)])
                .encode()
        };
        let answer = |fits: bool| if fits { FINE } else { (33, 80) };
        edges.table(&format!("{name}, size 0"), plan(0, 0), answer(!fixed));
        edges.table(&format!("{name}, size 1"), plan(1, 0), answer(fixed || text));
        edges.table(&format!("{name}, size 255"), plan(255, 0), answer(fixed || text));
        // The reference 1: the last group, one past the last enumeration.
        let size = u8::from(fixed);
        let one = ty == Type::DynamicGroup;
        edges.table(&format!("{name}, reference 1"), plan(size, 1), answer(one));
        edges.table(&format!("{name}, reference 2"), plan(size, 2), answer(false));
        edges.table(&format!("{name}, reference 256"), plan(size, 256), answer(false));
        if refers {
            edges.table(&format!("{name}, sequence"), small_with(ty), FINE);
        }
    }
    // Type 22 may name its own group, a later one, and one without an id.
    let dynamic = |reference| field(Type::DynamicGroup).of(reference);
    let plan =
        TablePlan::new().group(1, &[dynamic(0), dynamic(1), dynamic(2)]).plain(&[dynamic(2)]).group(2, &[]);
    edges.table("dynamic groups name any group", plan.encode(), FINE);
}

fn small_with(ty: Type) -> Vec<u8> {
    TablePlan::new()
        .enumeration(&[1])
        .plain(&[field(Type::U8)])
        .group(1, &[field(ty).optional().sequence()])
        .encode()
}

fn order(edges: &mut Edges) {
    let signed = TablePlan::new().enumeration(&[-2, -1, 0, 1]).group(1, &[]);
    edges.table("symbols rise as signed numbers", signed.encode(), FINE);
    let unsigned = TablePlan::new().enumeration(&[0, 1, -1]).group(1, &[]);
    edges.table("34 -1 after 1", unsigned.encode(), (34, 48));
    let extremes = TablePlan::new().enumeration(&[i32::MIN, i32::MAX]).group(1, &[]);
    edges.table("the least and the greatest symbol", extremes.encode(), FINE);
    let falls = TablePlan::new().enumeration(&[2, 1]).group(1, &[]);
    edges.table("34 symbols fall", falls.encode(), (34, 32));
    let apart = TablePlan::new().enumeration(&[5]).enumeration(&[5]).group(1, &[]);
    edges.table("symbols of two enumerations may be equal", apart.encode(), FINE);

    let twice = TablePlan::new().group(9, &[]).group(8, &[]).group(9, &[]);
    edges.table("34 an id came before", twice.encode(), (34, 32));
    let high = TablePlan::new().group(9, &[]).group(9 | 1 << 40, &[]);
    edges.table("ids differ in their high bytes", high.encode(), FINE);
    let zero = TablePlan::new().plain(&[]).group(0, &[]).plain(&[]);
    edges.table("0 is an id, zero bytes are none", zero.encode(), FINE);
    let zeros = TablePlan::new().group(0, &[]).group(0, &[]);
    edges.table("34 the id 0 came before", zeros.encode(), (34, 16));
    let none = TablePlan::new().plain(&[field(Type::U8)]).plain(&[]);
    edges.table("34 no id at all", none.encode(), (34, 48));
    // 33 before 34 of one record: a super that is not lower, and a known id.
    let both = with(&twice.encode(), 32 + 11, 3);
    edges.table("33 before 34 of one record", both, (33, 32));
    // No id at all comes before 35.
    let wide = TablePlan::new().plain(&[field(Type::Fixed).size(255); 17]);
    edges.table("34 before 35", wide.encode(), (34, 18 * 16));
    let after = TablePlan::new().plain(&[field(Type::Fixed).size(255); 17]).group(1, &[]).group(1, &[]);
    edges.table("34 of a record before 35", after.encode(), (34, 19 * 16));
}

fn widths_and_depths(edges: &mut Edges) {
    let fixed = |size| field(Type::Fixed).size(size);
    let mut fields = vec![fixed(255); 16];
    fields.push(fixed(16));
    let full = TablePlan::new().group(1, &fields);
    edges.table("width 4,096", full.encode(), FINE);
    fields[16] = fixed(17);
    edges.table("35 width 4,097", TablePlan::new().group(1, &fields).encode(), (35, 0));
    fields[16] = fixed(16).optional();
    edges.table("35 a flag counts", TablePlan::new().group(1, &fields).encode(), (35, 0));
    fields[16] = fixed(17).sequence();
    edges.table("a sequence has width 4", TablePlan::new().group(1, &fields).encode(), FINE);
    fields[16] = field(Type::String).size(15);
    edges.table("an inline text has its count", TablePlan::new().group(1, &fields).encode(), FINE);
    fields[16] = field(Type::Binary).size(16);
    edges.table("35 an inline text of 16", TablePlan::new().group(1, &fields).encode(), (35, 0));
    // Each width, as the sixteen bytes that are left.
    for (ty, count) in [(1, 16), (3, 8), (5, 4), (7, 2), (9, 2), (11, 16), (12, 4), (13, 2)]
        .into_iter()
        .chain([(2, 16), (4, 8), (6, 4), (8, 2), (14, 2), (15, 4), (16, 2), (17, 4), (18, 4)])
        .chain([(20, 4), (22, 4), (23, 4)])
    {
        let ty = Type::from_number(ty).expect("a type");
        let mut fields = vec![fixed(255); 16];
        fields.extend(vec![field(ty); count]);
        let plan = TablePlan::new().enumeration(&[1]).group(1, &fields);
        let name = format!("width of type {}", ty as u8);
        edges.table(&name, plan.encode(), FINE);
        fields.push(field(Type::U8));
        let plan = TablePlan::new().enumeration(&[1]).group(1, &fields);
        edges.table(&name, plan.encode(), (35, 32));
    }
    let mut fields = vec![fixed(255); 16];
    fields.extend([field(Type::Decimal), fixed(7)]);
    edges.table("width of type 10", TablePlan::new().group(1, &fields).encode(), FINE);
    fields[17] = fixed(8);
    edges.table("width of type 10", TablePlan::new().group(1, &fields).encode(), (35, 0));

    let inner = |reference| field(Type::StaticGroup).of(reference);
    let mut plan = TablePlan::new().group(1, &[field(Type::U8)]);
    for group in 0..4 {
        plan = plan.plain(&[inner(group)]);
    }
    edges.table("static depth 4", plan.encode(), FINE);
    edges.table("35 static depth 5", plan.clone().plain(&[inner(4)]).encode(), (35, 10 * 16));
    let counted = plan.clone().plain(&[inner(0), inner(4).sequence()]);
    edges.table("35 sequences count for the depth", counted.encode(), (35, 10 * 16));
    let dynamic = plan.plain(&[field(Type::DynamicGroup).of(4)]);
    edges.table("dynamic groups are no depth", dynamic.encode(), FINE);

    for inner in [inner(0), inner(0).optional(), inner(0).sequence()] {
        let empty = TablePlan::new().plain(&[]).group(1, &[field(Type::U8), inner]);
        edges.table("35 a static group of width 0", empty.encode(), (35, 16));
    }
    let empty = TablePlan::new().plain(&[]).group(1, &[field(Type::DynamicGroup)]);
    edges.table("a dynamic group of width 0", empty.encode(), FINE);
    // The width of a static group is that of its own group.
    let half = TablePlan::new().plain(&[fixed(255); 8]);
    let two = half.clone().group(1, &[inner(0), inner(0), fixed(16)]);
    edges.table("static groups fill the width", two.encode(), FINE);
    let more = half.clone().group(1, &[inner(0), inner(0), fixed(17)]);
    edges.table("35 static groups pass the width", more.encode(), (35, 9 * 16));
    // In 16 bits the width would be 0.
    let full = TablePlan::new().plain(&[fixed(128); 32]);
    let wraps = full.group(1, &[inner(0); 16]);
    edges.table("35 a width of 65,536", wraps.encode(), (35, 33 * 16));
    // 35 goes group by group, whichever is the wider.
    let both = half.group(1, &[inner(0), inner(0), fixed(17)]).group(2, &[fixed(255); 17]);
    edges.table("35 at the first group", both.encode(), (35, 9 * 16));
}

/// Tables that must not make the check slow.
fn hostile(edges: &mut Edges) {
    let mut plan = TablePlan::new().group(1, &[field(Type::U8)]);
    for group in 0..5 {
        plan = plan.plain(&[field(Type::StaticGroup).of(group).sequence(); 64]);
    }
    edges.table("35 a billion paths", plan.encode(), (35, (2 + 4 * 65) * 16));
    let mut plan = TablePlan::new().group(1, &[]);
    for group in 0..63 {
        plan.groups.push(GroupPlan { above: Some(group), ..GroupPlan::default() });
    }
    edges.table("a chain of 64 supers", plan.encode(), FINE);
}
