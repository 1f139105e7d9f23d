//! Edges of the message check.

use super::{check, group, rewrite, text, to_sheet, with, with_word, word, Edges, FINE};
use crate::generate::table::{field, FieldPlan, TablePlan};
use crate::generate::text::{broken, forms};
use crate::question::Question;
use crate::Type;

pub fn add(edges: &mut Edges) {
    whole_message(edges);
    lent_scratch(edges);
    sizes_and_types(edges);
    extension_offset(edges);
    extension_contents(edges);
    offsets(edges);
    overlaps(edges);
    pads(edges);
    optional_fields(edges);
    inline_text(edges);
    utf8(edges);
    plain_values(edges);
    sequences(edges);
    static_groups(edges);
    allowed_groups(edges);
    levels(edges);
    longest_sheet(edges);
    order_of_the_walk(edges);
}

fn one(fields: &[FieldPlan]) -> TablePlan {
    TablePlan::new().group(1, fields)
}

fn string() -> FieldPlan {
    field(Type::String)
}

fn whole_message(edges: &mut Edges) {
    let plan = one(&[]);
    let message = group(1, 0, &[]);
    edges.check("size 12 with no fields", &plan, &message, FINE);
    edges.check("22 no bytes", &plan, &[], (22, 0));
    edges.check("22 three bytes", &plan, &[0; 3], (22, 0));
    edges.check("1 four bytes of size 0", &plan, &[0; 4], (1, 0));
    edges.check("22 one byte more", &plan, &[&message[..], &[0]].concat(), (22, 0));
    edges.check("22 one byte less", &plan, &message[..15], (22, 0));
    edges.check("22 size counts itself", &plan, &with(&message, 0, 16), (22, 0));
    edges.check("22 a size of 2^32 - 4", &plan, &with_word(&message, 0, u32::MAX - 3), (22, 0));
    edges.check("22 a size of 2^32 - 1, no more", &plan, &[0xff; 4], (22, 0));
    // 4 + size would be 3 in 32 bits.
    edges.check("22 4 + size wraps", &plan, &[0xff, 0xff, 0xff], (22, 0));
    edges.check("22 4 + size wraps to the length", &plan, &[0xfc, 0xff, 0xff, 0xff], (22, 0));
    let mut long = group(1, 0, &[&[0; 65_520]]);
    edges.check("65,536 bytes, all but 16 pads", &plan, &long, FINE);
    edges.check("6 the last of 65,536 bytes", &plan, &with(&long, 65_535, 1), (6, 65_535));
    long.push(0);
    edges.check("23 65,537 bytes", &plan, &with_word(&long, 0, 65_533), (23, 0));
    edges.check("23 before 22", &plan, &long, (23, 0));
    let texts = one(&[string()]);
    let long = group(1, 0, &[&word(4), &text(&[0; 65_512])]);
    edges.check("a text of 65,512 bytes", &texts, &long, FINE);
}

fn lent_scratch(edges: &mut Edges) {
    let plan = one(&[string()]);
    let message = group(1, 0, &[&word(4), &text(b"ab")]);
    let lent = |scratch, message: &[u8]| Question { scratch, ..check(message) };
    let table = plan.encode();
    let refused = b"refused".to_vec();
    edges.add("scratch longer", &table, lent(40, &message), FINE);
    edges.add("21 one byte short", &table, lent(25, &message), (21, 0));
    edges.add("21 no scratch", &table, lent(0, &message), (21, 0));
    edges.add("21 before 22", &table, lent(15, &message[..16]), (21, 0));
    edges.add("scratch for no bytes", &table, lent(0, &[]), (22, 0));
    edges.add("scratch is cleared after 22", &table, lent(20, &message[..16]), (22, 0));
    edges.add("20 first", &refused, lent(0, &message), (20, 0));
    edges.add("20 at place 0", &table[..16], lent(30, &message), (20, 0));
    let long = vec![0; 65_537];
    edges.add("20 before 23", &[], lent(0, &long), (20, 0));
    edges.add("23 before 21", &table, lent(0, &long), (23, 0));
    edges.add("23 with scratch", &table, lent(65_540, &long), (23, 0));
    edges.add("scratch after a fault", &table, lent(30, &with(&message, 24, 0xff)), (9, 24));
    let gap = group(1, 0, &[&word(6), &[0, 0], &text(b"ab")]);
    edges.add("scratch after a gap", &table, lent(30, &gap), FINE);
    edges.add("scratch after 6", &table, lent(30, &with(&gap, 21, 1)), (6, 21));
    // What stands in the sheet room and output is part of the answer.
    edges.add("46 one byte short", &table, to_sheet(&message, 19), (46, 0));
    edges.add("46 no room", &table, to_sheet(&message, 0), (46, 0));
    edges.add("sheet room exact", &table, to_sheet(&message, 20), FINE);
    edges.add("sheet room longer", &table, to_sheet(&message, 50), FINE);
    edges.add("message faults before 46", &table, to_sheet(&with(&message, 24, 0xff), 0), (9, 24));
    edges.add("rewriting, rooms exact", &table, rewrite(&message, 20, 26), FINE);
    edges.add("rewriting, rooms longer", &table, rewrite(&message, 30, 36), FINE);
    edges.add("rewriting, 47 one byte short", &table, rewrite(&message, 20, 25), (47, 0));
    edges.add("rewriting, 46 before 47", &table, rewrite(&message, 19, 0), (46, 0));
    edges.add("rewriting, 9 before 46", &table, rewrite(&with(&message, 24, 0xff), 0, 0), (9, 24));
    edges.add("rewriting drops pads", &table, rewrite(&gap, 20, 26), FINE);
    edges.add("rewriting into less than the message", &table, rewrite(&gap, 20, 25), (47, 0));
    let empty = group(1, 14, &[&word(4), &text(b"ab"), &[0; 4]]);
    edges.add("an extension of none leaves no XT", &table, to_sheet(&empty, 20), FINE);
    edges.add("rewriting drops an extension of none", &table, rewrite(&empty, 20, 26), FINE);
    let unknown = group(2, 0, &[b"kept"]);
    let extended = group(1, 14, &[&word(4), &text(b"ab"), &word(1), &word(4), &unknown]);
    edges.add("an unknown group in the sheet", &table, to_sheet(&extended, 48), FINE);
    edges.add("an unknown group, 46", &table, to_sheet(&extended, 47), (46, 0));
    edges.add("an unknown group rewritten", &table, rewrite(&extended, 48, 54), FINE);
    edges.add("an unknown group, 47", &table, rewrite(&extended, 48, 53), (47, 0));
}

fn sizes_and_types(edges: &mut Edges) {
    let plan = one(&[]);
    let short = with(&group(1, 0, &[])[..15], 0, 11);
    edges.check("1 size 11", &plan, &short, (1, 0));
    edges.check("2 type unknown", &plan, &group(2, 0, &[]), (2, 0));
    edges.check("2 type 2^32 + 1", &plan, &group(1 | 1 << 32, 0, &[]), (2, 0));
    edges.check("2 type 2^63 + 1", &plan, &group(1 | 1 << 63, 0, &[]), (2, 0));
    let ids = TablePlan::new().plain(&[]).group(u64::MAX, &[]);
    edges.check("2 a group without id is not id 0", &ids, &group(0, 0, &[]), (2, 0));
    edges.check("the greatest id", &ids, &group(u64::MAX, 0, &[]), FINE);
    edges.check("id 0", &TablePlan::new().group(0, &[]), &group(0, 0, &[]), FINE);
    let wide = one(&[field(Type::U32), field(Type::U8)]);
    edges.check("14 one byte short of the fields", &wide, &group(1, 0, &[&[0; 4]]), (14, 0));
    edges.check("14 no fields", &wide, &group(1, 0, &[]), (14, 0));
    edges.check("fields just fit", &wide, &group(1, 0, &[&[7; 5]]), FINE);
    edges.check("14 before 3", &wide, &group(1, 99, &[&[0; 4]]), (14, 0));
    edges.check("2 before 14", &wide, &group(2, 0, &[&[0; 4]]), (2, 0));
}

fn extension_offset(edges: &mut Edges) {
    let plan = one(&[field(Type::U32)]);
    // The extension offset stands at 12, the fields at 16, the area at 20.
    let message = |offset| group(1, offset, &[&[9; 4], &[0; 4]]);
    edges.check("3 into itself", &plan, &message(1), (3, 12));
    edges.check("3 into the fields", &plan, &message(7), (3, 12));
    edges.check("an extension at the area's start", &plan, &message(8), FINE);
    edges.check("26 three bytes of the area", &plan, &message(9), (26, 21));
    edges.check("26 one byte of the area", &plan, &message(11), (26, 23));
    edges.check("3 at the area's end", &plan, &message(12), (3, 12));
    edges.check("3 past the area's end", &plan, &message(13), (3, 12));
    edges.check("3 the greatest offset", &plan, &message(u32::MAX), (3, 12));
    edges.check("3 an offset that wraps to 0", &plan, &message(u32::MAX - 11), (3, 12));
    edges.check("3 no area", &plan, &group(1, 8, &[&[9; 4]]), (3, 12));
    let flag = one(&[field(Type::Bool)]);
    edges.check("3 before the fields", &flag, &group(1, 1, &[&[2], &[0; 4]]), (3, 12));
    edges.check("fields before the extension's 26", &flag, &group(1, 6, &[&[2], &[0; 4]]), (11, 16));
    edges.check("fields before the extension's 13", &flag, &group(1, 5, &[&[2], &[1, 0, 0, 0]]), (11, 16));
}

fn extension_contents(edges: &mut Edges) {
    let plan = one(&[]);
    // The offset at 12 leads to the count at 16, the items stand at 20.
    let unknown = group(77, 0xffff_ffff, &[&[0xff; 5]]);
    let kept = group(1, 4, &[&word(1), &word(4), &unknown]);
    edges.check("an unknown extension group is not judged", &plan, &kept, FINE);
    edges.check(
        "a known extension group",
        &plan,
        &group(1, 4, &[&word(1), &word(4), &group(1, 0, &[])]),
        FINE,
    );
    edges.check("13 one item too many", &plan, &group(1, 4, &[&word(2), &word(4)]), (13, 16));
    edges.check("13 items of 2^32 bytes", &plan, &group(1, 4, &[&word(1 << 30)]), (13, 16));
    edges.check(
        "13 items of 2^32 + 4 bytes",
        &plan,
        &group(1, 4, &[&word((1 << 30) + 1), &word(4)]),
        (13, 16),
    );
    edges.check("5 an item at the area's end", &plan, &group(1, 4, &[&word(1), &word(4)]), (5, 20));
    edges.check("27 an item at itself", &plan, &group(1, 4, &[&word(1), &word(0)]), (27, 20));
    edges.check(
        "27 an item at itself, with room",
        &plan,
        &group(1, 4, &[&word(1), &word(0), &[0; 16]]),
        (27, 20),
    );
    edges.check("26 a group past the end", &plan, &with(&kept, 24, 18), (26, 24));
    edges.check("1 an unknown extension group of size 11", &plan, &with(&kept, 24, 11), (1, 24));
    edges.check("6 behind an unknown extension group", &plan, &with(&kept, 24, 16), (6, 44));
    let none = group(1, 4, &[&word(0)]);
    edges.check("an extension of no groups", &plan, &none, FINE);
    edges.check(
        "14 in an extension group",
        &TablePlan::new().group(1, &[]).group(2, &[field(Type::U8)]),
        &group(1, 4, &[&word(1), &word(4), &group(2, 0, &[])]),
        (14, 24),
    );

    let texts = one(&[string()]);
    let shared = group(1, 8, &[&word(4), &[0; 4]]);
    edges.check("27 an extension of no groups shares a text", &texts, &shared, (27, 20));
    let inside = group(1, 9, &[&word(4), &text(&[0; 9])]);
    edges.check("27 an extension inside a text", &texts, &inside, (27, 21));
    let twice = group(1, 4, &[&word(2), &word(8), &word(4), &unknown]);
    edges.check("27 two items are one group", &plan, &twice, (27, 28));
    // An unknown type is kept as an item of an extension only.
    let any = one(&[field(Type::AnyGroup).optional()]);
    let inner = group(1, 0, &[&[1], &word(4), &unknown]);
    let nested = group(1, 9, &[&[0; 5], &word(1), &word(4), &inner]);
    edges.check("2 an unknown group in a known one", &any, &nested, (2, 50));
    let in_field = group(1, 0, &[&[1], &word(4), &unknown]);
    edges.check("2 an unknown group in a field", &any, &in_field, (2, 21));
}

fn offsets(edges: &mut Edges) {
    let plan = one(&[field(Type::U8), string()]);
    // The offset stands at 17, the area at 21.
    let message = |offset| group(1, 0, &[&[9], &word(offset), &text(&[0; 4])]);
    edges.check("5 offset 0", &plan, &message(0), (5, 17));
    edges.check("5 before the area", &plan, &message(3), (5, 17));
    edges.check("a text at the area's start", &plan, &message(4), FINE);
    edges.check("26 one byte of the area", &plan, &message(11), (26, 28));
    edges.check("26 three bytes of the area", &plan, &message(9), (26, 26));
    edges.check("a text of the last four bytes", &plan, &message(8), (6, 21));
    edges.check("5 at the area's end", &plan, &message(12), (5, 17));
    edges.check("5 past the area's end", &plan, &message(13), (5, 17));
    edges.check("5 the greatest offset", &plan, &message(u32::MAX), (5, 17));
    edges.check("5 an offset that wraps to 0", &plan, &message(u32::MAX - 16), (5, 17));
    let count = |count| group(1, 0, &[&[9], &word(4), &word(count), b"abcd"]);
    edges.check("a text up to the end", &plan, &count(4), FINE);
    edges.check("26 a text one past the end", &plan, &count(5), (26, 21));
    edges.check("26 the longest text", &plan, &count(u32::MAX), (26, 21));
    // 21 + 4 + count = 2^32 + 20, or 4 + count = 2^32.
    edges.check("26 a text's end wraps", &plan, &count(u32::MAX - 4), (26, 21));
    edges.check("26 4 + count wraps", &plan, &count(u32::MAX - 3), (26, 21));
    edges.check("6 a shorter text leaves a pad", &plan, &count(3), (6, 28));
    edges.check("an empty text", &plan, &group(1, 0, &[&[9], &word(4), &word(0)]), FINE);
    edges.check("5 no area at all", &plan, &group(1, 0, &[&[9], &word(4)]), (5, 17));
    let any = one(&[field(Type::AnyGroup).optional()]);
    let nested = group(1, 0, &[&[1], &word(4), &group(1, 0, &[&[0; 5]])]);
    edges.check("a group in a group", &any, &nested, FINE);
    edges.check("26 a group one past the end", &any, &with(&nested, 21, 18), (26, 21));
    edges.check("26 a size of 2^32 - 1", &any, &with_word(&nested, 21, u32::MAX), (26, 21));
    edges.check("14 before the bytes behind a group", &any, &with(&nested, 21, 16), (14, 21));
    let cut = group(1, 0, &[&[1], &word(4), &word(11), &[0; 10]]);
    edges.check("26 before 1", &any, &cut, (26, 21));
    edges.check("1 after 26 and 27", &any, &with(&nested, 21, 11), (1, 21));
    edges.check("22 the message is longer", &any, &with(&nested, 0, 34), (22, 0));
}

fn overlaps(edges: &mut Edges) {
    let plan = one(&[string(), string()]);
    // Offsets at 16 and 20, the area at 24.
    let message = |first, second, area: &[u8]| group(1, 0, &[&word(first), &word(second), area]);
    let two = [text(b"abc"), text(b"de")].concat();
    edges.check("two texts", &plan, &message(8, 11, &two), FINE);
    edges.check("27 one text for two fields", &plan, &message(8, 4, &two), (27, 24));
    let swapped = [text(b"de"), text(b"abc")].concat();
    edges.check("two texts in the other order", &plan, &message(14, 4, &swapped), FINE);
    // The last byte of the first text is the first of the second's count.
    let last = [&word(3)[..], b"ab", &word(1), b"x"].concat();
    edges.check("27 the last byte", &plan, &message(8, 10, &last), (27, 30));
    // The second text comes first and runs into the other by one byte.
    let into = [&word(2)[..], b"a", &word(1), b"x"].concat();
    edges.check("27 running into a later value", &plan, &message(13, 4, &into), (27, 24));
    let touching = [&word(1)[..], b"a", &word(1), b"x"].concat();
    edges.check("touching a later value", &plan, &message(13, 4, &touching), FINE);
    // The second text lies around the first one.
    let around = [&word(6)[..], &word(1), b"x", b"y"].concat();
    edges.check("27 around another value", &plan, &message(12, 4, &around), (27, 24));
    let inside = [&word(6)[..], &word(1), b"x", b"y"].concat();
    edges.check("27 inside another value", &plan, &message(8, 8, &inside), (27, 28));
    edges.check("27 empty texts share", &plan, &message(8, 4, &word(0)), (27, 24));
    edges.check("empty texts apart", &plan, &message(8, 8, &[0; 8]), FINE);
    edges.check("27 empty texts share a byte", &plan, &message(8, 7, &[0; 8]), (27, 27));
    edges.check("27 empty texts share a byte, the other way", &plan, &message(11, 4, &[0; 8]), (27, 24));
    edges.check("27 empty texts share three bytes", &plan, &message(9, 4, &[0; 8]), (27, 24));
    let three = one(&[string(), string(), string()]);
    // Fields at 16, 20, 24; area at 28: a gap is filled by the third.
    let gap = |third: u32, area: &[u8]| group(1, 0, &[&word(12), &word(16), &word(third), area]);
    edges.check(
        "a third text fills the gap",
        &three,
        &gap(8, &[&[0; 4][..], &text(b""), &text(b"ab")].concat()),
        FINE,
    );
    let filled = [text(b"ab"), text(b""), text(b"c")].concat();
    let message = group(1, 0, &[&word(18), &word(18), &word(4), &filled]);
    edges.check("the gap in front is filled last", &three, &message, FINE);
    edges.check("27 in front, one byte too long", &three, &with(&message, 28, 3), (27, 28));
    // Nested groups take their bytes whole.
    let both = one(&[field(Type::AnyGroup).optional(), string().optional()]);
    let inner = group(1, 0, &[&[0; 10], &[0; 6]]);
    let message = |second| group(1, 0, &[&[1], &word(9), &[1], &word(second), &inner, &text(b"")]);
    edges.check("a text behind a group", &both, &message(36), FINE);
    edges.check("27 a text in a nested group's pads", &both, &message(31), (27, 53));
}

fn pads(edges: &mut Edges) {
    let plan = one(&[string()]);
    // Area at 20: two pads, a text of two, three pads.
    let message = group(1, 0, &[&word(6), &[0; 2], &text(b"ab"), &[0; 3]]);
    edges.check("zero pads", &plan, &message, FINE);
    for at in [20, 21, 28, 29, 30] {
        edges.check("6 a pad that is not zero", &plan, &with(&message, at, 1), (6, at));
    }
    let two = with(&with(&message, 30, 1), 21, 0x80);
    edges.check("6 the first of several", &plan, &two, (6, 21));
    let long = group(1, 0, &[&word(4), &text(b"ab"), &[0; 40]]);
    for at in [26, 41, 42, 65] {
        edges.check("6 in a long pad", &plan, &with(&long, at, 1), (6, at));
    }
    edges.check("6 without any value", &one(&[]), &group(1, 0, &[&[0, 5]]), (6, 17));

    // Padding is not tested across a nested group's own bytes.
    let any = one(&[field(Type::AnyGroup).optional(), string().optional()]);
    let inner = group(1, 0, &[&[0; 5], &[1], &word(4), &text(b"abc")]);
    let outer = group(1, 0, &[&[1], &word(11), &[0; 5], &[0; 2], &inner, &[0; 2]]);
    edges.check("a nested group's bytes are no pads", &any, &outer, FINE);
    edges.check("6 in front of the group", &any, &with(&outer, 27, 1), (6, 27));
    edges.check("6 behind the group", &any, &with(&outer, 61, 1), (6, 61));
    let inner = group(1, 0, &[&[0; 5], &[1], &word(6), &[0; 2], &text(b"abc"), &[0]]);
    let outer = group(1, 0, &[&[1], &word(11), &[0; 5], &[0; 2], &inner, &[0; 2]]);
    edges.check("pads of both groups", &any, &outer, FINE);
    edges.check("6 in a nested group", &any, &with(&outer, 55, 1), (6, 55));
    edges.check("6 at a nested group's end", &any, &with(&outer, 63, 1), (6, 63));
    let both = with(&with(&outer, 27, 1), 55, 1);
    edges.check("6 of the nested group first", &any, &both, (6, 55));
    // A nested group's 6 comes before the outer group's next field.
    let outer = group(1, 0, &[&[1], &word(9), &[2], &[0; 4], &inner]);
    let place = 26 + 26;
    edges.check("11 after a nested group", &any, &outer, (11, 21));
    edges.check("6 of a nested group before the next field", &any, &with(&outer, place, 1), (6, place));
}

fn optional_fields(edges: &mut Edges) {
    let plan = one(&[field(Type::U32).optional()]);
    let message = |flag, value: [u8; 4]| group(1, 0, &[&[flag], &value]);
    edges.check("absent", &plan, &message(0, [0; 4]), FINE);
    edges.check("present", &plan, &message(1, [0; 4]), FINE);
    edges.check("11 a flag of 2", &plan, &message(2, [0; 4]), (11, 16));
    edges.check("11 a flag of 255", &plan, &message(255, [0; 4]), (11, 16));
    edges.check("11 before 4", &plan, &message(2, [1; 4]), (11, 16));
    for index in 0..4 {
        let mut value = [0; 4];
        value[index] = 0x80;
        edges.check("4 an absent byte", &plan, &message(0, value), (4, 17 + index));
    }
    edges.check("4 the first of several", &plan, &message(0, [0, 1, 0, 1]), (4, 18));
    // All bytes of an absent field are tested by 4 alone.
    let plan = TablePlan::new()
        .plain(&[field(Type::Bool).optional(), string().size(3), string()])
        .group(1, &[field(Type::StaticGroup).optional()]);
    let message = |bytes: &[u8; 10]| group(1, 0, &[&[0], bytes]);
    edges.check("an absent static group", &plan, &message(&[0; 10]), FINE);
    for index in 0..10 {
        let mut bytes = [0; 10];
        bytes[index] = 9;
        edges.check("4 in an absent static group", &plan, &message(&bytes), (4, 17 + index));
    }
    let long = one(&[field(Type::Fixed).size(40).optional()]);
    let message = group(1, 0, &[&[0; 41]]);
    edges.check("4 the last byte of forty", &long, &with(&message, 56, 1), (4, 56));
    let list = one(&[field(Type::U8).optional().sequence()]);
    edges.check("an absent sequence", &list, &group(1, 0, &[&[0; 5]]), FINE);
    edges.check("4 an absent sequence's offset", &list, &group(1, 0, &[&[0], &word(4), &word(0)]), (4, 17));
    edges.check("a present sequence", &list, &group(1, 0, &[&[1], &word(4), &word(1), &[7]]), FINE);
    edges.check(
        "5 only the extension's offset may be 0",
        &list,
        &group(1, 0, &[&[1], &word(0), &word(0)]),
        (5, 17),
    );
}

fn inline_text(edges: &mut Edges) {
    for (ty, name) in [(Type::String, "inline string"), (Type::Binary, "inline binary")] {
        let plan = one(&[field(ty).size(12)]);
        let message = |count, text: &[u8; 12]| group(1, 0, &[&[count], text]);
        let name = |what: &str| format!("{name}: {what}");
        edges.check(&name("full"), &plan, &message(12, b"Hello World!"), FINE);
        edges.check(&name("7 count 13"), &plan, &message(13, b"Hello World!"), (7, 16));
        edges.check(&name("7 count 255"), &plan, &message(255, &[0; 12]), (7, 16));
        edges.check(&name("empty"), &plan, &message(0, &[0; 12]), FINE);
        edges.check(&name("one unused byte"), &plan, &message(11, b"Hello World\0"), FINE);
        edges.check(&name("8 the unused byte"), &plan, &message(11, b"Hello World!"), (8, 28));
        edges.check(
            &name("8 the first unused byte"),
            &plan,
            &message(0, b"H\0\0\0\0\0\0\0\0\0\0\0"),
            (8, 17),
        );
        edges.check(&name("8 of several"), &plan, &message(3, b"abc\0d\0\0e\0\0\0\0"), (8, 21));
        let bad = [0xff; 12];
        edges.check(&name("7 before 8 and 9"), &plan, &message(13, &bad), (7, 16));
        edges.check(&name("8 before 9"), &plan, &message(1, &bad), (8, 18));
        let answer = if ty == Type::String { (9, 17) } else { FINE };
        edges.check(&name("9"), &plan, &message(12, &bad), answer);
        // The form is cut off by the count, though the next byte is there.
        let cut = [0xc2, 0, 0, 0, 0, 0, 0, 0, 0, 0, 0, 0];
        edges.check(&name("9 cut off"), &plan, &message(1, &cut), answer);
    }
    let one_byte = one(&[string().size(1), string().size(255)]);
    let mut long = vec![255];
    long.extend([b'z'; 255]);
    edges.check("inline capacities 1 and 255", &one_byte, &group(1, 0, &[&[1, b'a'], &long]), FINE);
    edges.check("7 capacity 1", &one_byte, &group(1, 0, &[&[2, b'a'], &long]), (7, 16));
    let two = one(&[string().size(2).optional(), field(Type::Bool)]);
    edges.check("11 behind an inline text", &two, &group(1, 0, &[&[1, 1, b'a', 0, 2]]), (11, 20));
}

fn utf8(edges: &mut Edges) {
    let indirect = one(&[string()]);
    let inline = one(&[string().size(6)]);
    let check_both = |edges: &mut Edges, bytes: &[u8], valid: bool| {
        let name = format!("text {bytes:02x?}");
        let answer = |place| if valid { FINE } else { (9, place) };
        edges.check(&name, &indirect, &group(1, 0, &[&word(4), &text(bytes)]), answer(24));
        if bytes.len() <= 6 {
            let mut field = vec![bytes.len() as u8];
            field.extend(bytes);
            field.resize(7, 0);
            edges.check(&name, &inline, &group(1, 0, &[&field]), answer(17));
        }
    };
    for form in forms() {
        check_both(edges, &form, true);
        check_both(edges, &[b"a", &form[..], b"b"].concat(), true);
    }
    for bad in broken() {
        check_both(edges, &bad, false);
    }
    for late in [&b"a\xc2"[..], b"ab\xe1\x80", b"\xf1\x80\x80a", b"\xc2\x80\x80"] {
        check_both(edges, late, false);
    }
    check_both(edges, b"sixteen bytes....sixteen bytes...\xff", false);
    check_both(edges, "sixteen bytes....\u{e9}\u{20ac}\u{1d11e}".as_bytes(), true);
    let binary = one(&[field(Type::Binary)]);
    edges.check("binary is no text", &binary, &group(1, 0, &[&word(4), &text(&[0xff; 3])]), FINE);
}

fn plain_values(edges: &mut Edges) {
    let bool = one(&[field(Type::Bool)]);
    edges.check("bool 0", &bool, &group(1, 0, &[&[0]]), FINE);
    edges.check("bool 1", &bool, &group(1, 0, &[&[1]]), FINE);
    edges.check("11 bool 2", &bool, &group(1, 0, &[&[2]]), (11, 16));
    edges.check("11 bool 255", &bool, &group(1, 0, &[&[255]]), (11, 16));
    let optional = one(&[field(Type::Bool).optional()]);
    edges.check("11 a present bool 2", &optional, &group(1, 0, &[&[1, 2]]), (11, 17));

    let millis = one(&[field(Type::TimeOfDayMilli)]);
    for (value, answer) in [(0, FINE), (86_399_999, FINE), (86_400_000, (12, 16)), (u32::MAX, (12, 16))] {
        let message = group(1, 0, &[&value.to_le_bytes()]);
        edges.check(&format!("time of day in ms {value}"), &millis, &message, answer);
    }
    let nanos = one(&[field(Type::TimeOfDayNano)]);
    for (value, answer) in [
        (0, FINE),
        (86_399_999_999_999, FINE),
        (86_400_000_000_000, (12, 16)),
        (u64::MAX, (12, 16)),
        (1 << 47, (12, 16)),
    ] {
        let message = group(1, 0, &[&u64::to_le_bytes(value)]);
        edges.check(&format!("time of day in ns {value}"), &nanos, &message, answer);
    }
    let symbols = TablePlan::new()
        .enumeration(&[3])
        .enumeration(&[i32::MIN, -1, 0, 7, i32::MAX])
        .group(1, &[field(Type::Enumeration).of(1)]);
    for (value, answer) in [
        (i32::MIN, FINE),
        (i32::MIN + 1, (10, 16)),
        (-2, (10, 16)),
        (-1, FINE),
        (0, FINE),
        (1, (10, 16)),
        (3, (10, 16)),
        (7, FINE),
        (8, (10, 16)),
        (i32::MAX - 1, (10, 16)),
        (i32::MAX, FINE),
    ] {
        let message = group(1, 0, &[&value.to_le_bytes()]);
        edges.check(&format!("symbol {value}"), &symbols, &message, answer);
    }
    // Any bytes are a value of the other plain types.
    for ty in Type::ALL {
        let fixed = if ty == Type::Fixed { 3 } else { 0 };
        let plan = one(&[field(ty).size(fixed)]);
        let judged =
            matches!(ty, Type::Bool | Type::TimeOfDayMilli | Type::TimeOfDayNano | Type::Enumeration);
        let refers = matches!(
            ty,
            Type::String | Type::Binary | Type::StaticGroup | Type::DynamicGroup | Type::AnyGroup
        );
        if !judged && !refers {
            let bytes = vec![0xff; plan.item_width(field(ty).size(fixed))];
            edges.check("any bytes", &plan, &group(1, 0, &[&bytes]), FINE);
        }
    }
}

fn sequences(edges: &mut Edges) {
    let plan = one(&[field(Type::U32).sequence()]);
    let message = |count, items: &[u8]| group(1, 0, &[&word(4), &word(count), items]);
    edges.check("no items", &plan, &message(0, &[]), FINE);
    edges.check("two items", &plan, &message(2, &[0xff; 8]), FINE);
    edges.check("13 one byte short", &plan, &message(2, &[0xff; 7]), (13, 20));
    edges.check("13 an item too many", &plan, &message(3, &[0xff; 8]), (13, 20));
    edges.check("13 2^30 items of 4", &plan, &message(1 << 30, &[]), (13, 20));
    edges.check("13 2^30 + 1 items of 4", &plan, &message((1 << 30) + 1, &[0; 4]), (13, 20));
    edges.check("13 the most items", &plan, &message(u32::MAX, &[0; 4]), (13, 20));
    edges.check("26 the count word", &plan, &group(1, 0, &[&word(4), &[0; 3]]), (26, 20));
    edges.check("6 behind the items", &plan, &message(1, &[9; 5]), (6, 28));
    let two = one(&[field(Type::U32).sequence(), field(Type::U8).sequence()]);
    edges.check("27 empty sequences share", &two, &group(1, 0, &[&word(8), &word(4), &word(0)]), (27, 24));
    edges.check("empty sequences apart", &two, &group(1, 0, &[&word(8), &word(8), &[0; 8]]), FINE);
    let wide = one(&[field(Type::Fixed).size(255).sequence()]);
    edges.check("13 a product over 2^32", &wide, &message(0x0101_0102, &[0; 254]), (13, 20));
    let bools = one(&[field(Type::Bool).sequence()]);
    edges.check("bools", &bools, &message(3, &[0, 1, 1]), FINE);
    edges.check("11 the third bool", &bools, &message(3, &[0, 1, 2]), (11, 26));
    let inline = one(&[string().size(2).sequence()]);
    edges.check("inline texts", &inline, &message(2, b"\x02ab\x01c\0"), FINE);
    edges.check("8 in the second item", &inline, &message(2, b"\x02ab\x01cd"), (8, 29));
    edges.check("7 in the second item", &inline, &message(2, b"\x02ab\x03cd"), (7, 27));
    edges.check("9 in the second item", &inline, &message(2, b"\x02ab\x01\xff\0"), (9, 28));
    let fixed = one(&[field(Type::Fixed).size(3).sequence(), field(Type::U8)]);
    edges.check("fixed items", &fixed, &group(1, 0, &[&word(5), &[7], &word(2), b"abcdef"]), FINE);

    let texts = one(&[string().sequence()]);
    // Offset 16, count 20, items 24 and 28, values from 32 on.
    let message =
        |first, second, area: &[u8]| group(1, 0, &[&word(4), &word(2), &word(first), &word(second), area]);
    let two = [text(b"ab"), text(b"c")].concat();
    edges.check("texts", &texts, &message(8, 10, &two), FINE);
    edges.check("27 an item's offset 0", &texts, &message(0, 10, &two), (27, 24));
    edges.check("27 an item in the body", &texts, &message(4, 10, &two), (27, 28));
    edges.check("27 both items are one", &texts, &message(8, 4, &two), (27, 32));
    edges.check("5 the second item", &texts, &message(8, 15, &two), (5, 28));
    edges.check("26 the second item's word", &texts, &message(8, 14, &two), (26, 42));
    let bad = [text(b"\xff"), text(b"c")].concat();
    edges.check("9 of an item before the next item's 5", &texts, &message(8, 99, &bad), (9, 36));
    // An item behind a free text, which its offset would reach in 32 bits.
    let back = |offset| group(1, 0, &[&word(10), &text(b"ab"), &word(1), &word(offset)]);
    edges.check("5 an item's offset that wraps", &texts, &back(u32::MAX - 9), (5, 30));
    edges.check("5 an item past the end", &texts, &back(4), (5, 30));
    let groups = one(&[field(Type::AnyGroup).sequence()]);
    let message = group(
        1,
        0,
        &[
            &word(4),
            &word(2),
            &word(8),
            &word(24),
            &group(1, 0, &[&word(4), &word(0)]),
            &group(1, 0, &[&word(4), &word(0)]),
        ],
    );
    edges.check("a sequence of groups, the second before its end", &groups, &message, (27, 52));
    let message = with(&message, 28, 28);
    edges.check("a sequence of groups", &groups, &message, FINE);
    edges.check("5 in a nested group", &groups, &with(&message, 48, 0), (5, 48));
    edges.check("5 in the second nested group", &groups, &with(&message, 72, 8), (5, 72));
}

fn static_groups(edges: &mut Edges) {
    let plan = TablePlan::new()
        .plain(&[field(Type::Bool), string().optional()])
        .plain(&[field(Type::StaticGroup).of(0), field(Type::U8)])
        .group(1, &[field(Type::StaticGroup).of(1), field(Type::StaticGroup).of(0).sequence()]);
    // Bool 16, flag 17, offset 18, u8 22, sequence 23, area 27.
    let message = |bool, flag, items: &[u8]| {
        group(1, 0, &[&[bool, flag], &word(9), &[7], &word(10), &text(b"ab"), &word(1), items])
    };
    let item = [&[1, 1][..], &word(4), &text(b"c")].concat();
    edges.check("static groups use the enclosing area", &plan, &message(1, 1, &item), FINE);
    edges.check("11 in a static group", &plan, &message(2, 1, &item), (11, 16));
    edges.check("11 a flag in a static group", &plan, &message(1, 2, &item), (11, 17));
    edges.check("4 in a static group", &plan, &message(1, 0, &item), (4, 18));
    edges.check("11 in an item", &plan, &message(1, 1, &with(&item, 0, 2)), (11, 37));
    edges.check("11 a flag in an item", &plan, &message(1, 1, &with(&item, 1, 2)), (11, 38));
    edges.check("5 in an item", &plan, &message(1, 1, &with(&item, 2, 9)), (5, 39));
    edges.check("27 an item's own bytes", &plan, &message(1, 1, &with(&item, 2, 0)), (27, 39));
}

fn allowed_groups(edges: &mut Edges) {
    // 0 top; 1 below 0; 2 below 1; 3 below 0; 4 alone; 5 the message.
    let named = |named| {
        TablePlan::new()
            .plain(&[])
            .below(0, 11, &[])
            .below(1, 12, &[])
            .below(0, 13, &[])
            .group(14, &[])
            .group(15, &[field(Type::DynamicGroup).of(named)])
    };
    let message = |id| group(15, 0, &[&word(4), &group(id, 0, &[])]);
    for (group, id, answer) in [
        (0, 11, FINE),
        (0, 12, FINE),
        (0, 13, FINE),
        (0, 14, (25, 20)),
        (1, 11, FINE),
        (1, 12, FINE),
        (1, 13, (25, 20)),
        (2, 11, (25, 20)),
        (2, 12, FINE),
        (3, 12, (25, 20)),
        (4, 14, FINE),
        (4, 11, (25, 20)),
        (0, 99, (2, 20)),
        (0, 0, (2, 20)),
    ] {
        let name = format!("group {id} where {group} is named");
        edges.check(&name, &named(group), &message(id), answer);
    }
    let own = message(15);
    edges.check("25 before 14", &named(0), &own, (25, 20));
    edges.check("14 where it is allowed", &named(5), &own, (14, 20));
    edges.check("2 before 25", &named(1), &message(16), (2, 20));
    edges.check("1 before 2", &named(1), &with(&message(16), 20, 11), (1, 20));
    let any = TablePlan::new().group(1, &[]).group(2, &[field(Type::AnyGroup)]);
    edges.check("any group", &any, &group(2, 0, &[&word(4), &group(1, 0, &[])]), FINE);
    edges.check(
        "2 any group but an unknown one",
        &any,
        &group(2, 0, &[&word(4), &group(3, 0, &[])]),
        (2, 20),
    );
    // An extension may hold any group, whatever the fields name.
    let extended = group(1, 4, &[&word(1), &word(4), &group(2, 0, &[&word(4), &group(1, 0, &[])])]);
    edges.check("an extension of any group", &any, &extended, FINE);
    // A chain of 64 groups: the last one is below the first.
    let mut chain = TablePlan::new().group(0, &[field(Type::DynamicGroup).optional()]);
    for above in 0..63 {
        chain = chain.child(above, u64::from(above) + 1, &[]);
    }
    let last = group(0, 0, &[&[1], &word(4), &group(63, 0, &[&[0; 5]])]);
    edges.check("the last group of a chain of 64", &chain, &last, FINE);
}

/// A message of this many levels, each level a field of the one above.
fn nested(levels: usize) -> Vec<u8> {
    let mut message = group(1, 0, &[&[0; 5]]);
    for _ in 1..levels {
        message = group(1, 0, &[&[1], &word(4), &message]);
    }
    message
}

/// The same by extensions, with `inner` at the last level.
fn nested_extensions(levels: usize, inner: Vec<u8>) -> Vec<u8> {
    let mut message = inner;
    for _ in 1..levels {
        message = group(1, 9, &[&[0; 5], &word(1), &word(4), &message]);
    }
    message
}

fn levels(edges: &mut Edges) {
    let plan = TablePlan::new()
        .group(1, &[field(Type::AnyGroup).optional()])
        .group(2, &[field(Type::DynamicGroup).of(1)]);
    edges.check("level 8", &plan, &nested(8), FINE);
    edges.check("24 level 9", &plan, &nested(9), (24, 8 * 21));
    edges.check("24 level 9 of 10", &plan, &nested(10), (24, 8 * 21));
    let plain = group(1, 0, &[&[0; 5]]);
    edges.check("level 8 by extensions", &plan, &nested_extensions(8, plain.clone()), FINE);
    edges.check("24 level 9 by extensions", &plan, &nested_extensions(9, plain.clone()), (24, 8 * 29));
    let unknown = group(3, 0, &[&[0xff; 3]]);
    edges.check("an unknown extension group at level 9", &plan, &nested_extensions(9, unknown.clone()), FINE);
    let short = with(&unknown[..15], 0, 11);
    edges.check(
        "1 an extension group of size 11 at level 9",
        &plan,
        &nested_extensions(9, short),
        (1, 8 * 29),
    );
    let cut = group(1, 0, &[&[0; 4]]);
    edges.check("24 before 14", &plan, &nested_extensions(9, cut.clone()), (24, 8 * 29));
    edges.check("14 at level 8", &plan, &nested_extensions(8, cut), (14, 7 * 29));
    // The field of group 2 at level 8 names group 2, and level 9 is group 1.
    let inner = group(2, 0, &[&word(4), &plain]);
    let mut message = inner;
    for _ in 1..8 {
        message = group(1, 0, &[&[1], &word(4), &message]);
    }
    edges.check("25 before 24", &plan, &message, (25, 7 * 21 + 20));
    let mut message = group(2, 0, &[&word(4), &group(2, 0, &[&word(0)])]);
    for _ in 1..8 {
        message = group(1, 0, &[&[1], &word(4), &message]);
    }
    edges.check("24 where it is allowed", &plan, &message, (24, 7 * 21 + 20));
    let mut message = group(2, 0, &[&word(4), &unknown]);
    for _ in 1..8 {
        message = group(1, 0, &[&[1], &word(4), &message]);
    }
    edges.check("2 before 24", &plan, &message, (2, 7 * 21 + 20));
    // Static groups are no level.
    let statics = TablePlan::new()
        .plain(&[field(Type::AnyGroup).optional()])
        .plain(&[field(Type::StaticGroup).of(0)])
        .group(1, &[field(Type::StaticGroup).of(1)]);
    edges.check("level 8 through static groups", &statics, &nested(8), FINE);
    edges.check("24 level 9 through static groups", &statics, &nested(9), (24, 8 * 21));
}

/// The longest sheet: a byte in four static groups takes eleven.
fn longest_sheet(edges: &mut Edges) {
    let inner = |group| field(Type::StaticGroup).of(group);
    let plan = TablePlan::new()
        .plain(&[field(Type::U8)])
        .plain(&[inner(0)])
        .plain(&[inner(1)])
        .plain(&[inner(2)])
        .group(1, &[inner(3).sequence()]);
    let items = 65_536 - 24;
    let message = group(1, 0, &[&word(4), &word(items as u32), &vec![0; items]]);
    let table = plan.encode();
    let length = 18 + 11 * items;
    edges.check("the longest sheet", &plan, &message, FINE);
    edges.add("46 the longest sheet", &table, to_sheet(&message, length - 1), (46, 0));
    edges.add("the longest sheet, room exact", &table, to_sheet(&message, length), FINE);
    edges.add("47 the longest sheet", &table, rewrite(&message, length, 65_535), (47, 0));
}

fn order_of_the_walk(edges: &mut Edges) {
    let plan = one(&[string(), field(Type::Bool), string()]);
    // Offset 16, bool 20, offset 21, area 25.
    let message =
        |first, bool, second, area: &[u8]| group(1, 0, &[&word(first), &[bool], &word(second), area]);
    let two = [text(b"ab"), text(b"c")].concat();
    edges.check("fields in order", &plan, &message(9, 1, 10, &two), FINE);
    edges.check(
        "9 of a field before the next one's 11",
        &plan,
        &with(&message(9, 2, 10, &two), 29, 0xff),
        (9, 29),
    );
    edges.check("11 before a later field's 5", &plan, &message(9, 2, 0, &two), (11, 20));
    edges.check("5 before a pad's 6", &plan, &message(9, 1, 0, &two), (5, 21));
    // 27 comes before the contents, 26 before 27.
    let bad = [text(b"\xff\xff"), text(b"c")].concat();
    edges.check("9 in the first", &plan, &message(9, 1, 4, &bad), (9, 29));
    let shared = [&word(2)[..], b"\0\0\0\xff", &[0; 2]].concat();
    edges.check("26 before 27", &plan, &message(9, 1, 10, &shared), (26, 31));
    let shared = [&word(3)[..], b"a\x01\0", b"\0\0\xff"].concat();
    edges.check("27 before 9", &plan, &message(9, 1, 9, &shared), (27, 30));
    // The extension comes after all fields, before the pads.
    let flagged = one(&[string()]);
    let broken = group(1, 10, &[&word(4), &text(b"ab"), &[7]]);
    edges.check("26 of the extension's word before 6", &flagged, &with(&broken, 12, 14), (26, 26));
    edges.check("13 before 27 of the extension", &flagged, &broken, (13, 22));
}
