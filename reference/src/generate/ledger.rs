//! Questions of the ledger, made at random from a seed.

use super::damage::{damage_message, damage_table, litter};
use super::message::{canonical, random_message, random_message_of, scattered, Value};
use super::random::Random;
use super::settings::{random_damaged, Asked, SettingsBatch};
use super::store::{random_customer, random_store};
use super::table::{field, random_id, random_table, FieldPlan, GroupPlan, TablePlan};
use super::text::random_text;
use crate::question::Question;
use crate::{Type, LINE_BYTES};

/// The batch of a seed: always the same.
pub fn ledger_batch(seed: u64) -> SettingsBatch {
    let mut random = Random::new(seed ^ 0x1ed6e2);
    let (plan, blank) = random_blank_table(&mut random);
    let mut asked: Vec<Asked> = (0..4).map(|_| ask_line(&mut random, &plan, blank)).collect();
    asked.push(ask_run(&mut random, &plan, blank));
    asked.extend((0..2).map(|_| ask_shape(&mut random, &plan)));
    let table = match random.below(24) {
        0 => damage_table(&mut random, &plan),
        _ => plan.encode(),
    };
    SettingsBatch { table, asked }
}

/// A table with a group that is Blank, or nearly so, and that group's number.
fn random_blank_table(random: &mut Random) -> (TablePlan, usize) {
    let mut plan = loop {
        let plan = random_table(random);
        if !plan.enumerations.is_empty() && plan.groups.len() < 4 {
            break plan;
        }
    };
    let (string, number) = (field(Type::String), field(Type::U32));
    let grade = field(Type::Enumeration).of(random.below(plan.enumerations.len()) as u16);
    let mut fields = vec![string, number, number, grade, string.optional()];
    if random.one_in(2) {
        fields[0].size = random.pick(&[1, 12, 39, 40, 41, 60, 255]);
    }
    fields[4].size = random.pick(&[0, 0, 5, 40]);
    if random.one_in(4) {
        spoil(random, &mut fields);
    }
    let blank = plan.groups.len();
    let id = Some(random_id(random, &plan));
    plan.groups.push(GroupPlan { id, above: None, fields });
    if random.one_in(2) {
        let id = Some(random_id(random, &plan));
        let mut fields = plan.groups[blank].fields.clone();
        fields.extend(random.one_in(2).then_some(number));
        plan.groups.push(GroupPlan { id, above: Some(blank as u16), fields });
    }
    (plan, blank)
}

/// Something else in one field, or another number of them.
fn spoil(random: &mut Random, fields: &mut Vec<FieldPlan>) {
    const OTHERS: [Type; 7] =
        [Type::Binary, Type::I32, Type::U16, Type::U64, Type::Date, Type::TimeOfDayMilli, Type::AnyGroup];
    let at = random.below(fields.len());
    match random.below(7) {
        0 => fields[at] = FieldPlan { optional: fields[at].optional, ..field(random.pick(&OTHERS)) },
        1 => fields[at].optional ^= true,
        2 => fields[at].sequence ^= true,
        3 => drop(fields.remove(at)),
        4 => fields.insert(at, fields[at]),
        5 => fields.push(field(random.pick(&OTHERS)).optional()),
        _ => fields.swap(at, 4 - at),
    }
}

fn ask_line(random: &mut Random, plan: &TablePlan, blank: usize) -> Asked {
    let message = some_message(random, plan, blank);
    let scratch = match random.below(16) {
        0 => random.below(message.len() + 1),
        1 => message.len() + 3,
        _ => message.len(),
    };
    let length = random.pick(&[0, 63, 64, 64, 64, 65, 100, 128, 128, 192]);
    let fill = random_fill(random, length);
    let question = Question::add_line(message, scratch, some_id(random, plan, blank), length, fill);
    governed(random, question)
}

/// Several messages, for a ledger that may not hold all.
fn ask_run(random: &mut Random, plan: &TablePlan, blank: usize) -> Asked {
    let messages: Vec<Vec<u8>> = (0..random.below(6))
        .map(|_| some_message(random, plan, blank))
        .filter(|one| one.len() < 400)
        .collect();
    let longest = messages.iter().map(Vec::len).max().unwrap_or(0);
    let scratch = if random.one_in(8) { random.below(longest + 1) } else { longest };
    let length = LINE_BYTES * random.below(6) + random.pick(&[0, 0, 1, 63]);
    let fill = if random.one_in(2) { 0 } else { random_fill(random, length) };
    let id = some_id(random, plan, blank);
    let question = Question::add_lines(messages.concat(), scratch, id, length, fill);
    governed(random, question)
}

fn ask_shape(random: &mut Random, plan: &TablePlan) -> Asked {
    let group = random.pick(&plan.groups_with_id());
    let id = match random.one_in(6) {
        true => random_id(random, plan),
        false => plan.groups[group].id.expect("it has one"),
    };
    let count = plan.groups[group].fields.len();
    let field = match random.below(8) {
        0 => random.pick(&[64, 255, 1 << 32, u64::MAX]),
        _ => random.below(count + 1) as u64,
    };
    Asked { store: Vec::new(), customer: 0, question: Question::field_shape(id, field) }
}

fn governed(random: &mut Random, question: Question) -> Asked {
    let store = match random.below(16) {
        0 => random_damaged(random),
        1..4 => random_store(random),
        _ => Vec::new(),
    };
    let customer = if store.is_empty() { 0 } else { random_customer(random, &store) };
    Asked { store, customer, question }
}

/// Mostly that of the group; that of another one, or of none.
fn some_id(random: &mut Random, plan: &TablePlan, blank: usize) -> u64 {
    let group = match random.below(8) {
        0 => random.pick(&plan.groups_with_id()),
        1 => return random_id(random, plan),
        _ => blank,
    };
    plan.groups[group].id.expect("it has one")
}

/// Where a line may or may not be free.
fn random_fill(random: &mut Random, length: usize) -> u64 {
    match random.below(8) {
        0 => random.below(length + 70) as u64,
        1 => length.saturating_sub(LINE_BYTES - 1) as u64,
        2 => random.pick(&[1 << 32, 1 << 63, u64::MAX - 63, u64::MAX]),
        3..6 => length.saturating_sub(LINE_BYTES) as u64,
        _ => 0,
    }
}

/// A message, mostly of the group, with a barcode of any length, good, with
/// rubbish or damaged.
fn some_message(random: &mut Random, plan: &TablePlan, blank: usize) -> Vec<u8> {
    let tree = match random.one_in(8) {
        true => random_message(random, plan),
        false => random_message_of(random, plan, blank),
    };
    let Some(mut tree) = tree else {
        return vec![0; random.below(20)];
    };
    let first = plan.groups[tree.number].fields.first();
    if let (Some(Value::Text(text)), Some(field)) = (tree.values.first_mut(), first) {
        let longest = if field.size > 0 { field.size.into() } else { usize::MAX };
        let length = random.pick(&[0, 1, 5, 12, 20, 39, 40, 40, 41, 60, 255, 256, 296]).min(longest);
        if field.ty == Type::String {
            *text = random_text(random, length);
        }
    }
    let layout = match random.one_in(2) {
        true => canonical(plan, &tree),
        false => scattered(plan, &tree, random),
    };
    match random.below(8) {
        0 => litter(random, &layout, [true; 3]).bytes,
        1 | 2 => damage_message(random, plan, &layout),
        _ => layout.bytes,
    }
}
