//! Document 02's faults of a table, 36 and 37: in tables made at random, by
//! comparing their plans, and in lines of supers as long as a table can hold.
//! And the two forms of a table, `GR` and `GW`, which answer alike.

use std::collections::BTreeMap;

use blink_reference::generate::damage::{damage_widths, forget_super};
use blink_reference::generate::table::{field, random_table, TablePlan};
use blink_reference::generate::{batch, Random};
use blink_reference::question::{ask, Answer, Kind};
use blink_reference::{check_table, Fault, FaultNumber, Number, Settings, Type};

fn verdict(table: &[u8]) -> Result<(), Fault> {
    check_table(table).map(|_| ())
}

/// Document 01's list, by the type's number. 0 where size or reference decide.
const WIDTHS: [usize; 24] = [0, 1, 1, 2, 2, 4, 4, 8, 8, 8, 9, 1, 4, 8, 8, 4, 8, 4, 4, 0, 4, 0, 4, 4];

/// A group's width, over a list of all fields that it holds.
fn plain_width(plan: &TablePlan, group: usize) -> usize {
    let mut width = 0;
    let mut fields = plan.groups[group].fields.clone();
    while let Some(field) = fields.pop() {
        width += usize::from(field.optional);
        width += match field.ty {
            _ if field.sequence => 4,
            Type::String | Type::Binary if field.size > 0 => 1 + usize::from(field.size),
            Type::Fixed => field.size.into(),
            ty => WIDTHS[ty as usize],
        };
        if field.ty == Type::StaticGroup && !field.sequence {
            fields.extend(&plan.groups[usize::from(field.reference)].fields);
        }
    }
    width
}

/// Field by field: whether a group begins with its super's.
fn begins_with_super(plan: &TablePlan, group: usize) -> bool {
    let group = &plan.groups[group];
    let mut inherited = plan.inherited(group.above).iter().enumerate();
    inherited.all(|(index, field)| group.fields.get(index) == Some(field))
}

/// What is due for a plan's table with other marks or other bytes 14-15 of
/// its groups: each fault over all groups before the next fault.
fn plain_verdict(plan: &TablePlan, table: &[u8]) -> Result<(), Fault> {
    let places = plan.group_places();
    let byte = |group: usize, at: usize| table[places[group] + at];
    let stored = |group| usize::from(byte(group, 14)) + 256 * usize::from(byte(group, 15));
    let width = |group| plain_width(plan, group);
    let statics = |group: usize| plan.groups[group].fields.iter().filter(|f| f.ty == Type::StaticGroup);
    let tests: [(FaultNumber, &dyn Fn(usize) -> bool); 5] = [
        (FaultNumber::TableShape, &|group| byte(group, 1) == byte(0, 1)),
        (FaultNumber::TableNotZero, &|group| byte(group, 1) == b'W' || stored(group) == 0),
        // No plan here has a static depth over 4.
        (FaultNumber::TableWidthOrDepth, &|group| {
            width(group) <= 4_096 && statics(group).all(|field| width(field.reference.into()) > 0)
        }),
        (FaultNumber::TableInheritance, &|group| begins_with_super(plan, group)),
        (FaultNumber::TableStoredWidth, &|group| byte(group, 1) == b'R' || stored(group) == width(group)),
    ];
    for (number, holds) in tests {
        for (group, &place) in places.iter().enumerate() {
            if !holds(group) {
                return Err(Fault { number, place });
            }
        }
    }
    Ok(())
}

#[test]
fn the_first_group_at_fault() {
    let mut random = Random::new(3);
    let mut counts: BTreeMap<Option<u8>, usize> = BTreeMap::new();
    for _ in 0..30_000 {
        let mut plan = random_table(&mut random);
        let table = plan.encode();
        assert_eq!(verdict(&table), Ok(()));
        assert_eq!(plain_verdict(&plan, &table), Ok(()));
        if random.one_in(2) {
            forget_super(&mut random, &mut plan);
        }
        let mut table = plan.encode();
        for _ in 0..random.below(3) {
            table = damage_widths(&mut random, table);
        }
        let due = plain_verdict(&plan, &table);
        assert_eq!(verdict(&table), due, "{plan:?} {table:02x?}");
        *counts.entry(due.err().map(|fault| fault.number as u8)).or_default() += 1;
    }
    for (number, least) in [(31, 2_000), (32, 2_000), (35, 20), (36, 5_000), (37, 2_000)] {
        let count = counts.get(&Some(number)).copied().unwrap_or(0);
        assert!(count >= least, "{number} came {count} times");
    }
}

/// 63 groups of 64 fields in one line are 65,520 bytes.
#[test]
fn the_longest_line() {
    let forgotten = |place| Err(Fault { number: FaultNumber::TableInheritance, place });
    let mut plan = TablePlan::new().group(0, &[field(Type::U8); 64]);
    for above in 0..62 {
        plan = plan.child(above, u64::from(above) + 1, &[]);
    }
    for plan in [plan.twin(), plan] {
        let table = plan.encode();
        assert_eq!(table.len(), 65_520);
        assert_eq!(verdict(&table), Ok(()));
        for number in 0..63 {
            let mut other = plan.clone();
            other.groups[number].fields[63].ty = Type::I8;
            // A change in the first group is its child's fault.
            assert_eq!(verdict(&other.encode()), forgotten(number.max(1) * 65 * 16));
        }
        for number in 1..63 {
            let mut shorter = plan.clone();
            shorter.groups[number].fields.pop();
            assert_eq!(verdict(&shorter.encode()), forgotten(number * 65 * 16));
        }
        // Byte 14 holds the width, 64, or zero.
        let number =
            if plan.stored_widths { FaultNumber::TableStoredWidth } else { FaultNumber::TableNotZero };
        for place in plan.group_places() {
            let mut wrong = table.clone();
            wrong[place + 14] += 1;
            assert_eq!(verdict(&wrong), Err(Fault { number, place }));
        }
    }
}

/// The answer; a float as its bits, since not every float equals itself.
fn words(answer: &Result<Answer, Fault>) -> String {
    match answer {
        Ok(Answer::Number(Number::Float(value))) => format!("float {:x}", value.to_bits()),
        answer => format!("{answer:?}"),
    }
}

/// Every question about a message or a sheet has the same answer under both
/// forms of its table, and leaves the same lent bytes.
#[test]
fn both_forms_answer_alike() {
    let mut counts: BTreeMap<(Kind, bool), usize> = BTreeMap::new();
    for seed in 20_000..22_000 {
        let batch = batch(seed);
        if batch.table != batch.plan.encode() {
            continue;
        }
        let twin = batch.plan.twin().encode();
        assert_ne!(batch.table, twin);
        assert_eq!(verdict(&twin), Ok(()));
        for question in batch.questions.iter().filter(|question| question.kind != Kind::CheckTable) {
            let reply = ask(&batch.table, Settings::NONE, question);
            let other = ask(&twin, Settings::NONE, question);
            assert_eq!(words(&reply.answer), words(&other.answer), "{question:02x?}");
            assert!(reply.scratch == other.scratch, "{question:02x?}");
            assert!(reply.sheet == other.sheet, "{question:02x?}");
            assert!(reply.output == other.output, "{question:02x?}");
            *counts.entry((question.kind, reply.answer.is_ok())).or_default() += 1;
        }
    }
    for kind in Kind::ALL.into_iter().filter(|kind| kind.is_of_message() || *kind == Kind::SheetToMessage) {
        for accepted in [true, false] {
            let count = counts.get(&(kind, accepted)).copied().unwrap_or(0);
            assert!(count >= 500, "{kind:?}, accepted {accepted}: {count} times");
        }
    }
}
