//! Questions under settings, and about stores, made at random from a seed.

use super::batch::{ask_message, deepen};
use super::damage::{damage_message, damage_table, litter};
use super::message::{canonical, random_message, scattered, sheet};
use super::random::Random;
use super::store::{damage_store, random_customer, random_store, random_version};
use super::table::random_table;
use crate::question::{Kind, Question};
use crate::Settings;

/// A question, and the store and customer it is asked under.
pub struct Asked {
    pub store: Vec<u8>,
    pub customer: u16,
    pub question: Question,
}

impl Asked {
    pub fn settings(&self) -> Settings<'_> {
        Settings::of(&self.store, self.customer)
    }
}

/// A table and questions under it, each under its own settings; those about a
/// store have their own.
pub struct SettingsBatch {
    pub table: Vec<u8>,
    pub asked: Vec<Asked>,
}

/// The batch of a seed: always the same.
pub fn settings_batch(seed: u64) -> SettingsBatch {
    let mut random = Random::new(seed ^ 0x5e77_1265);
    let plan = random_table(&mut random);
    let mut asked = Vec::new();
    ask_stores(&mut random, &mut asked);
    for _ in 0..2 {
        let Some(message) = random_message(&mut random, &plan) else {
            continue;
        };
        let message = deepen(&mut random, &plan, message);
        let plain = canonical(&plan, &message);
        let other = scattered(&plan, &message, &mut random);
        let (sheet, _) = sheet(&plan, &message);
        for layout in [&plain, &other, &other] {
            let kinds = random.number();
            let littered = litter(&mut random, layout, [0, 1, 2].map(|bit| kinds >> bit & 1 == 1));
            let input = match random.one_in(3) {
                true => damage_message(&mut random, &plan, &littered),
                false => littered.bytes,
            };
            let store = match random.one_in(8) {
                true => random_damaged(&mut random),
                false => random_store(&mut random),
            };
            let mut questions = Vec::new();
            ask_message(&mut random, input, &sheet, &plain, &mut questions);
            let customer = random_customer(&mut random, &store);
            asked.extend(questions.into_iter().map(|question| Asked {
                store: store.clone(),
                customer,
                question,
            }));
        }
    }
    let table = match random.below(24) {
        0 => damage_table(&mut random, &plan),
        _ => plan.encode(),
    };
    SettingsBatch { table, asked }
}

pub(super) fn random_damaged(random: &mut Random) -> Vec<u8> {
    let store = random_store(random);
    damage_store(random, store)
}

/// The questions about a store: its check, readings and additions.
fn ask_stores(random: &mut Random, asked: &mut Vec<Asked>) {
    for _ in 0..4 {
        let store = match random.one_in(2) {
            true => random_damaged(random),
            false => random_store(random),
        };
        let mut questions = vec![Question::new(Kind::CheckStore, store.clone())];
        for _ in 0..2 {
            let customer = random_customer(random, &store);
            let version = random_version(random, &store);
            questions.push(Question::read_settings(store.clone(), customer, version));
            let customer = random_customer(random, &store);
            let version = random_version(random, &store);
            let mut flags = [0, 1, 2].map(|_| random.below(2) as u8);
            if random.one_in(5) {
                flags[random.below(3)] = random.pick(&[2, 3, 128, 255]);
            }
            questions.push(Question::add_settings(store.clone(), customer, version, flags));
        }
        asked.extend(questions.into_iter().map(|question| Asked {
            store: Vec::new(),
            customer: 0,
            question,
        }));
    }
}
