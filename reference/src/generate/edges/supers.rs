//! Edges of fault 36: a group's field list begins with its super's, record
//! for record. And messages of groups with inherited fields.

use super::record::{gb, ge, no, st, va};
use super::{check, group, read, rewrite, text, to_sheet, with, word, write, Edges, FINE};
use crate::generate::table::{field, FieldPlan, GroupPlan, TablePlan};
use crate::question::Kind;
use crate::Type;

pub fn add(edges: &mut Edges) {
    begins_with_the_super(edges);
    forgets_the_super(edges);
    one_byte_off(edges);
    references(edges);
    lines_of_supers(edges);
    which_group(edges);
    after_the_other_faults(edges);
    messages(edges);
    refused_tables(edges);
}

fn number() -> FieldPlan {
    field(Type::U32)
}

fn string() -> FieldPlan {
    field(Type::String).size(3)
}

fn own() -> FieldPlan {
    field(Type::U8)
}

/// More than a group may be wide.
fn too_wide() -> [FieldPlan; 17] {
    [field(Type::Fixed).size(255); 17]
}

/// A super of a number and a string at 0, and at 48 a group below it.
fn below(fields: &[FieldPlan]) -> TablePlan {
    TablePlan::new().group(1, &[number(), string()]).below(0, 2, fields)
}

fn begins_with_the_super(edges: &mut Edges) {
    for (name, fields) in [
        ("a child begins with its super's fields", &[number(), string(), own()][..]),
        ("a child has just its super's fields", &[number(), string()]),
        ("a child has its super's fields twice", &[number(), string(), number(), string()]),
    ] {
        edges.table(name, below(fields).encode(), FINE);
    }
    let two = below(&[number(), string(), own()]).child(0, 3, &[own().optional(), number()]);
    edges.table("children differ behind their super's fields", two.encode(), FINE);
    let empty = TablePlan::new().plain(&[]);
    edges.table("a super of no fields", empty.clone().below(0, 1, &[number()]).encode(), FINE);
    edges.table("neither super nor child has fields", empty.below(0, 1, &[]).encode(), FINE);
    let alone = TablePlan::new().group(1, &[number(), string()]).group(2, &[string()]);
    edges.table("no super, no fields to begin with", alone.encode(), FINE);
    // A field of each type, of each flag, and the child's own.
    let fields: Vec<FieldPlan> = Type::ALL
        .iter()
        .enumerate()
        .map(|(index, &ty)| FieldPlan {
            optional: index % 2 == 0,
            sequence: index % 3 == 0,
            size: u8::from(ty == Type::Fixed),
            ..field(ty)
        })
        .collect();
    let all = TablePlan::new().enumeration(&[0]).plain(&[own()]).group(1, &fields).child(1, 2, &[own()]);
    edges.table("inherited fields of every type", all.encode(), FINE);
}

fn forgets_the_super(edges: &mut Edges) {
    for (name, fields) in [
        ("36 no fields", &[][..]),
        ("36 the last field is missing", &[number()]),
        ("36 the first field is missing", &[string()]),
        ("36 the last field is another", &[number(), own()]),
        ("36 the first field is another", &[own(), string()]),
        ("36 both fields are others", &[own(), own()]),
        ("36 another order", &[string(), number()]),
        ("36 the first field twice", &[number(), number(), string()]),
        ("36 the child's own field first", &[own(), number(), string()]),
        ("36 the child's own field in between", &[number(), own(), string()]),
    ] {
        edges.table(name, below(fields).encode(), (36, 48));
    }
    let one = TablePlan::new().group(1, &[own()]).below(0, 2, &[]);
    edges.table("36 the one field is missing", one.encode(), (36, 32));
    let most = TablePlan::new().group(1, &[own(); 64]);
    edges.table("64 inherited fields", most.clone().child(0, 2, &[]).encode(), FINE);
    edges.table("36 63 fields of 64", most.clone().below(0, 2, &[own(); 63]).encode(), (36, 65 * 16));
    let mut last = most.child(0, 2, &[]);
    last.groups[1].fields[63].ty = Type::I8;
    edges.table("36 the last of 64 fields", last.encode(), (36, 65 * 16));
    // Whether super and child have ids does not matter.
    let no_ids = |fields: &[FieldPlan]| {
        let mut plan = TablePlan::new().group(1, &[]).plain(&[number()]);
        plan.groups.push(GroupPlan { id: None, above: Some(1), fields: fields.to_vec() });
        plan.encode()
    };
    edges.table("neither super nor child has an id", no_ids(&[number()]), FINE);
    edges.table("36 neither super nor child has an id", no_ids(&[own()]), (36, 48));
}

/// Each byte of each inherited record. The others are the mark, or must be
/// zero.
fn one_byte_off(edges: &mut Edges) {
    // Enumerations at 0 and 48, the super at 96, its child at 160.
    let fields = [number(), string(), field(Type::Enumeration)];
    let plan = |child: &[FieldPlan]| {
        TablePlan::new().enumeration(&[1, 2]).enumeration(&[1, 2]).group(1, &fields).below(
            0,
            2,
            &[child, &[own()]].concat(),
        )
    };
    edges.table("three inherited fields", plan(&fields).encode(), FINE);
    for (index, inherited) in fields.into_iter().enumerate() {
        let other_type = match inherited.ty {
            Type::U32 => field(Type::I32),
            Type::String => FieldPlan { ty: Type::Binary, ..inherited },
            _ => number(),
        };
        let mut others = vec![other_type, inherited.optional(), inherited.sequence()];
        match inherited.ty {
            Type::String => others.extend([inherited.size(4), inherited.size(0)]),
            // Of equal symbols, so that both fields have the same values.
            Type::Enumeration => others.push(inherited.of(1)),
            _ => {}
        }
        for other in others {
            let mut child = fields;
            child[index] = other;
            edges.table("36 one byte off", plan(&child).encode(), (36, 160));
        }
    }
    // The other way round: the super's record has the flag.
    let plan = TablePlan::new().group(1, &[number().optional()]).below(0, 2, &[number()]);
    edges.table("36 the super's field is optional", plan.encode(), (36, 32));
}

/// Records are compared, not the groups that they name.
fn references(edges: &mut Edges) {
    let inner = |reference| field(Type::StaticGroup).of(reference);
    let plan = TablePlan::new().plain(&[own()]).plain(&[own()]).group(1, &[inner(0)]);
    edges.table("an inherited static group", plan.clone().below(2, 2, &[inner(0)]).encode(), FINE);
    edges.table("36 another static group, alike", plan.below(2, 2, &[inner(1)]).encode(), (36, 96));
    let dynamic = |reference| field(Type::DynamicGroup).of(reference).optional();
    let plan = TablePlan::new().group(1, &[dynamic(0)]);
    edges.table("a child refers to its super", plan.clone().below(0, 2, &[dynamic(0)]).encode(), FINE);
    edges.table("36 a child refers to itself", plan.below(0, 2, &[dynamic(1)]).encode(), (36, 32));
}

fn lines_of_supers(edges: &mut Edges) {
    let (first, second, third) = (field(Type::U8), field(Type::U16), field(Type::U32));
    // The first group at 0, its child at 32, and the child's child at 80.
    let plan = TablePlan::new().group(1, &[first]).below(0, 2, &[first, second]);
    edges.table("a child of a child", plan.clone().below(1, 3, &[first, second, third]).encode(), FINE);
    for (name, fields) in [
        ("36 the middle group's field is missing", &[first, third][..]),
        ("36 the first group's fields alone", &[first]),
        ("36 the first group's field is missing", &[second, third]),
        ("36 the middle group's field first", &[second, first, third]),
        ("36 a child of a child has no fields", &[]),
    ] {
        edges.table(name, plan.clone().below(1, 3, fields).encode(), (36, 80));
    }
    // The group in the middle forgets: then it is the one.
    let plan = TablePlan::new().group(1, &[first]).below(0, 2, &[second]);
    edges.table(
        "36 the middle group, its child follows it",
        plan.clone().child(1, 3, &[]).encode(),
        (36, 32),
    );
    edges.table("36 the middle group, its child does not", plan.below(1, 3, &[first]).encode(), (36, 32));
    let plan = TablePlan::new().plain(&[]).below(0, 2, &[first]).below(1, 3, &[]);
    edges.table("36 as the first group, which has no fields", plan.encode(), (36, 48));
    let plan = TablePlan::new().group(1, &[first]).below(0, 2, &[]).below(1, 3, &[first]);
    edges.table("36 the middle group has no fields", plan.encode(), (36, 32));

    let mut line = TablePlan::new().group(0, &[first]);
    for above in 0..62 {
        line = line.child(above, u64::from(above) + 1, &[]);
    }
    edges.table("a line of 64 groups", line.clone().child(62, 63, &[]).encode(), FINE);
    edges.table("36 the last of 64 groups", line.below(62, 63, &[second]).encode(), (36, 63 * 32));
}

fn which_group(edges: &mut Edges) {
    // The super at 0, a child at 32, another group at 80.
    let plan = TablePlan::new().group(1, &[number()]).child(0, 2, &[own()]).group(3, &[string()]);
    // The next group, at 112, has a super that is not the one before it.
    edges.table("the super is two groups before", plan.clone().child(0, 4, &[string()]).encode(), FINE);
    edges.table("36 begins with the group before", plan.clone().below(0, 4, &[string()]).encode(), (36, 112));
    edges.table("36 another super's fields", plan.clone().below(2, 4, &[number()]).encode(), (36, 112));
    let second = plan.below(1, 4, &[number()]);
    edges.table("36 the second child", second.clone().encode(), (36, 112));
    edges.table("36 one that is no last group", second.group(5, &[]).encode(), (36, 112));
    let first = below(&[string()]);
    edges.table("36 the first of two", first.clone().below(0, 3, &[number()]).encode(), (36, 48));
    edges.table("36 the first child", first.child(0, 3, &[]).encode(), (36, 48));
}

/// All 31 to 35 of the table come before any 36.
fn after_the_other_faults(edges: &mut Edges) {
    // A super at 0, at 32 a group that forgets it, and at 48 the next one.
    let forgets = TablePlan::new().group(1, &[own()]).below(0, 2, &[]);
    let wide = forgets.clone().group(3, &too_wide());
    edges.table("35 of a later group before 36", wide.encode(), (35, 48));
    let empty = forgets.clone().group(3, &[field(Type::StaticGroup).of(1)]);
    edges.table("35 a static group that forgets its super", empty.encode(), (35, 48));
    let mut deep = forgets.clone();
    for named in [0, 2, 3, 4, 5] {
        deep = deep.plain(&[field(Type::StaticGroup).of(named)]);
    }
    edges.table("35 the last group's depth before 36", deep.encode(), (35, 48 + 4 * 32));
    let both = TablePlan::new().group(1, &[own()]).below(0, 2, &too_wide());
    edges.table("35 before 36 of one group", both.encode(), (35, 32));
    let above = TablePlan::new().group(1, &too_wide()).below(0, 2, &[]);
    edges.table("35 of the super before 36", above.encode(), (35, 0));
    let twice = forgets.clone().group(2, &[]);
    edges.table("34 of a later record before 36", twice.encode(), (34, 48));
    let mut none = forgets.clone();
    none.groups.iter_mut().for_each(|group| group.id = None);
    edges.table("34 no id at all before 36", none.encode(), (34, 48));
    let table = forgets.group(3, &[own()]).encode();
    edges.table("36 and no other fault", table.clone(), (36, 32));
    edges.table("33 of a later record before 36", with(&table, 64 + 2, 0), (33, 64));
    edges.table("32 of a later record before 36", with(&table, 64 + 15, 1), (32, 64));
    edges.table("31 of a later record before 36", with(&table, 64, 0), (31, 64));
}

/// A number and a string, inherited by two groups with fields of their own.
fn messages(edges: &mut Edges) {
    let plan = TablePlan::new()
        .group(1, &[number(), field(Type::String)])
        .child(0, 2, &[own().optional()])
        .child(1, 3, &[field(Type::Bool)])
        .group(9, &[field(Type::DynamicGroup)])
        .group(8, &[field(Type::DynamicGroup).of(1)]);
    let table = plan.encode();
    // Number at 16 and offset at 20, then what the group adds to them.
    let base = |id, added: &[u8]| {
        let offset = 4 + added.len() as u32;
        group(id, 0, &[&word(7), &word(offset), added, &text(b"ab")])
    };
    let (first, second, third) = (base(1, &[]), base(2, &[1, 5]), base(3, &[1, 5, 1]));
    // The same, where the first group is named and where the second is.
    let named = |id, inner: &[u8]| group(id, 0, &[&word(4), inner]);
    for (message, fits_second) in [(&first, (25, 20)), (&second, FINE), (&third, FINE)] {
        edges.check("inherited fields", &plan, message, FINE);
        edges.check("a group below the named one", &plan, &named(9, message), FINE);
        edges.check("where the second is named", &plan, &named(8, message), fits_second);
        for (kind, fields) in [(Kind::ReadNumber, [FINE, (48, 0)]), (Kind::ReadBytes, [(48, 0), FINE])] {
            for (number, answer) in (0..).zip(fields) {
                edges.add("an inherited field", &table, read(kind, message, number, 0), answer);
            }
        }
        let part = read(Kind::ReadBytes, &named(9, message), 0, 0);
        edges.add("a part below the named group", &table, part, FINE);
    }
    for (message, answer) in [(&first, (28, 0)), (&second, FINE), (&third, FINE)] {
        edges.add("the second group's own field", &table, read(Kind::ReadNumber, message, 2, 0), answer);
    }
    edges.check("9 in an inherited field", &plan, &with(&third, 31, 0xff), (9, 31));
    edges.check("11 in an added field", &plan, &with(&third, 26, 2), (11, 26));
    // A group's bytes under the id of another one.
    edges.check("5 the super's bytes as the child's", &plan, &with(&first, 4, 2), (5, 20));
    edges.check("6 the child's bytes as the super's", &plan, &with(&second, 4, 1), (6, 24));

    let records = [va(&word(7)), st(b"ab")].concat();
    edges.write("inherited fields", &plan, &[gb(2), records.clone(), no(), ge()].concat(), FINE);
    edges.write("41 inherited fields alone", &plan, &[gb(2), records.clone(), ge()].concat(), (41, 24));
    let third = [gb(3), records, va(&[5]), va(&[1]), ge()].concat();
    edges.write("a group below the named one", &plan, &[gb(9), third.clone(), ge()].concat(), FINE);
    edges.write("where the second is named", &plan, &[gb(8), third, ge()].concat(), FINE);
}

/// A table with 36 answers no question, of no group.
fn refused_tables(edges: &mut Edges) {
    let table = below(&[string(), number()]).encode();
    let message = group(1, 0, &[&word(7), b"\x02ab\0"]);
    let sheet = [gb(1), va(&word(7)), st(b"ab"), ge()].concat();
    for question in [
        check(&message),
        to_sheet(&message, sheet.len()),
        write(&sheet, message.len()),
        rewrite(&message, sheet.len(), message.len()),
        read(Kind::ReadNumber, &message, 0, 0),
        read(Kind::ReadBytes, &message, 1, 0),
    ] {
        edges.add("20 a child forgets its super", &table, question, (20, 0));
    }
}
