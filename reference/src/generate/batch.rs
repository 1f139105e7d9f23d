//! Questions made at random from a seed, all under one table.

use super::damage::{damage_message, damage_sheet, damage_table};
use super::message::{canonical, random_message, scattered, sheet, ExtensionGroup, GroupValue, Layout};
use super::random::Random;
use super::table::{random_table, TablePlan};
use crate::question::{Kind, Question};

/// A table and questions under it (those about a table have their own).
pub struct Batch {
    /// The plan of the table, which at times was damaged.
    pub plan: TablePlan,
    pub table: Vec<u8>,
    pub questions: Vec<Question>,
}

/// The batch of a seed: always the same.
pub fn batch(seed: u64) -> Batch {
    let mut random = Random::new(seed);
    let plan = random_table(&mut random);
    let mut questions = vec![Question::new(Kind::CheckTable, plan.encode())];
    for _ in 0..5 {
        let damaged = damage_table(&mut random, &plan);
        questions.push(Question::new(Kind::CheckTable, damaged));
    }
    for _ in 0..3 {
        if let Some(message) = random_message(&mut random, &plan) {
            let message = deepen(&mut random, &plan, message);
            ask_about(&mut random, &plan, &message, &mut questions);
        }
    }
    let table = match random.below(24) {
        0 => damage_table(&mut random, &plan),
        _ => plan.encode(),
    };
    Batch { plan, table, questions }
}

/// At times the message as the innermost of some seven to ten levels.
pub(super) fn deepen(random: &mut Random, plan: &TablePlan, message: GroupValue) -> GroupValue {
    if !random.one_in(8) {
        return message;
    }
    let mut inner = message;
    for _ in 0..6 + random.below(4) {
        let Some(mut outer) = random_message(random, plan) else {
            continue;
        };
        outer.extension = Some(vec![ExtensionGroup::Known(inner)]);
        inner = outer;
    }
    inner
}

fn ask_about(random: &mut Random, plan: &TablePlan, message: &GroupValue, questions: &mut Vec<Question>) {
    let plain = canonical(plan, message);
    let other = scattered(plan, message, random);
    let (sheet, records) = sheet(plan, message);
    for layout in [&plain, &other] {
        let mut inputs = vec![layout.bytes.clone()];
        for _ in 0..3 {
            inputs.push(damage_message(random, plan, layout));
        }
        for input in inputs {
            ask_message(random, input, &sheet, &plain, questions);
        }
    }
    for index in 0..5 {
        let input = match index {
            0 => sheet.clone(),
            _ => damage_sheet(random, plan, &sheet, &records),
        };
        let output = room(random, plain.bytes.len());
        questions.push(Question { output, ..Question::new(Kind::SheetToMessage, input) });
    }
}

/// All questions about one message.
pub(super) fn ask_message(
    random: &mut Random,
    input: Vec<u8>,
    sheet: &[u8],
    plain: &Layout,
    questions: &mut Vec<Question>,
) {
    let fields = 1 + random.below(6) as u64;
    for kind in Kind::OF_MESSAGES {
        let mut question = Question::new(kind, input.clone());
        question.scratch = match random.below(12) {
            0 => room(random, input.len()),
            1 => input.len() + 3,
            _ => input.len(),
        };
        if matches!(kind, Kind::MessageToSheet | Kind::Rewrite) {
            question.sheet = room(random, sheet.len());
        }
        if kind == Kind::Rewrite {
            question.output = room(random, plain.bytes.len());
        }
        if matches!(kind, Kind::ReadNumber | Kind::ReadBytes) {
            question.field = index(random, fields as usize);
            question.item = match random.below(3) {
                0 => index(random, 3),
                _ => 0,
            };
        }
        questions.push(question);
    }
}

/// Room for this many bytes: mostly enough, often just enough.
fn room(random: &mut Random, length: usize) -> usize {
    match random.below(8) {
        0 => length.saturating_sub(1),
        1 => random.below(length + 1),
        2 | 3 => length + 1 + random.below(9),
        _ => length,
    }
}

/// Mostly a number below `bound`, at times the greatest or one in between.
fn index(random: &mut Random, bound: usize) -> u64 {
    match random.below(20) {
        0 => u64::MAX,
        1 => 1 << random.below(64),
        _ => random.below(bound) as u64,
    }
}
