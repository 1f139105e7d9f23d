//! Tapes made at random from a seed.

use super::batch::deepen;
use super::damage::{damage_message, damage_table, litter};
use super::message::{canonical, random_message, scattered};
use super::random::Random;
use super::settings::{random_damaged, Asked, SettingsBatch};
use super::store::{random_customer, random_store};
use super::table::{random_table, TablePlan};
use crate::question::Question;

/// Longer runs of bytes are read as one message only: they are mostly zeros,
/// which would be thousands.
const LONGEST: usize = 1_000;

/// The batch of a seed: always the same.
pub fn tape_batch(seed: u64) -> SettingsBatch {
    let mut random = Random::new(seed ^ 0x7a9e);
    let plan = random_table(&mut random);
    let asked = (0..2).map(|_| ask_tape(&mut random, &plan)).collect();
    let table = match random.below(24) {
        0 => damage_table(&mut random, &plan),
        _ => plan.encode(),
    };
    SettingsBatch { table, asked }
}

fn ask_tape(random: &mut Random, plan: &TablePlan) -> Asked {
    let messages: Vec<Vec<u8>> = (0..random.below(6)).map(|_| some_message(random, plan)).collect();
    let longest = messages.iter().map(Vec::len).max().unwrap_or(0);
    let scratch = match random.below(8) {
        // Too short for some.
        0 if longest > 0 => messages[random.below(messages.len())].len(),
        1 => random.below(longest + 1),
        2 => longest + random.below(9),
        _ => longest,
    };
    let mut tape = messages.concat();
    match random.below(6) {
        0 => tape.truncate(random.below(tape.len() + 1)),
        1 => tape.extend(random.bytes(3)),
        _ => {}
    }
    let field = match random.below(12) {
        0 if tape.len() < LONGEST => random.below(tape.len() + 2) as u64,
        _ => 0,
    };
    let store = match random.below(12) {
        0 => random_damaged(random),
        1..4 => random_store(random),
        _ => Vec::new(),
    };
    let customer = if store.is_empty() { 0 } else { random_customer(random, &store) };
    Asked { store, customer, question: Question { field, ..Question::read_tape(tape, scratch) } }
}

/// A message: accepted, with rubbish, or damaged, mostly with a size word
/// that says how long it is; or zeros behind a small size.
fn some_message(random: &mut Random, plan: &TablePlan) -> Vec<u8> {
    let tree = if random.one_in(8) { None } else { random_message(random, plan) };
    let Some(tree) = tree else {
        let size = random.below(17);
        let mut zeros = vec![0; 4 + size];
        zeros[0] = size as u8;
        return zeros;
    };
    let tree = deepen(random, plan, tree);
    let layout = match random.one_in(2) {
        true => canonical(plan, &tree),
        false => scattered(plan, &tree, random),
    };
    match random.below(8) {
        0..4 => layout.bytes,
        4 => litter(random, &layout, [true; 3]).bytes,
        5 => {
            let mut bytes = damage_message(random, plan, &layout);
            bytes.truncate(LONGEST);
            bytes
        }
        _ => framed(damage_message(random, plan, &layout)),
    }
}

/// The bytes with a size word that says how many they are.
fn framed(mut bytes: Vec<u8>) -> Vec<u8> {
    bytes.resize(bytes.len().max(4), 0);
    let size = bytes.len() as u32 - 4;
    bytes[..4].copy_from_slice(&size.to_le_bytes());
    bytes
}
