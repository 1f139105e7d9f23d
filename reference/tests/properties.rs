//! What the papers say of every accepted message and every allowed sheet,
//! tried on random ones. The generator's own bytes are the second opinion.

use blink_reference::generate::message::{
    canonical, random_message, scattered, sheet, ExtensionGroup, GroupValue, Spot, Value,
};
use blink_reference::generate::table::{field, random_table, TablePlan};
use blink_reference::generate::{batch, Random};
use blink_reference::question::{ask, pattern, Kind};
use blink_reference::{check_table, FaultNumber, Schema, Settings, Type};

const TREES: u64 = 20_000;
const BATCHES: u64 = 4_000;

fn sheet_of(schema: &Schema, message: &[u8]) -> Vec<u8> {
    let mut sheet = pattern(11 * message.len());
    let mut scratch = pattern(message.len());
    let length = schema
        .message_to_sheet(Settings::NONE, message, &mut scratch, &mut sheet)
        .expect("an accepted message's sheet is at most eleven times as long");
    sheet.truncate(length);
    sheet
}

/// Rewrites in the rooms of demand 3.
fn rewritten(schema: &Schema, message: &[u8]) -> Vec<u8> {
    let mut scratch = pattern(message.len());
    let mut sheet = pattern(11 * message.len());
    let mut output = pattern(message.len());
    let length = schema
        .rewrite(Settings::NONE, message, &mut scratch, &mut sheet, &mut output)
        .expect("rewriting succeeds in these rooms");
    output.truncate(length);
    output
}

/// Demand 3 of one message.
fn assert_one_form(schema: &Schema, message: &[u8]) {
    let sheet = sheet_of(schema, message);
    let form = rewritten(schema, message);
    assert!(form.len() <= message.len());
    assert_eq!(sheet_of(schema, &form), sheet);
    assert_eq!(rewritten(schema, &form), form);

    // The sheet alone makes the same message, in just that much room.
    let mut output = pattern(form.len());
    assert_eq!(schema.sheet_to_message(&sheet, &mut output), Ok(form.len()));
    assert_eq!(output, form);
    let refused = schema.sheet_to_message(&sheet, &mut output[1..]);
    assert_eq!(refused.unwrap_err().number, FaultNumber::OutputTooShort);
}

fn empty_extensions(group: &GroupValue) -> usize {
    let extension = match &group.extension {
        None => 0,
        Some(groups) if groups.is_empty() => 1,
        Some(groups) => groups
            .iter()
            .map(|group| match group {
                ExtensionGroup::Known(group) => empty_extensions(group),
                ExtensionGroup::Unknown(_) => 0,
            })
            .sum(),
    };
    extension + group.values.iter().map(empty_extensions_of_value).sum::<usize>()
}

fn empty_extensions_of_value(value: &Value) -> usize {
    match value {
        Value::Group(group) => empty_extensions(group),
        Value::Static(values) | Value::Sequence(values) => values.iter().map(empty_extensions_of_value).sum(),
        Value::Absent | Value::Plain(_) | Value::Text(_) => 0,
    }
}

#[test]
fn every_layout_of_a_tree_has_its_sheet_and_its_form() {
    let mut random = Random::new(1);
    let mut trees = 0;
    for _ in 0..TREES {
        let plan = random_table(&mut random);
        let Some(tree) = random_message(&mut random, &plan) else {
            continue;
        };
        trees += 1;
        let table = plan.encode();
        let schema = check_table(&table).expect("the generator's tables are accepted");
        let (sheet, _) = sheet(&plan, &tree);
        let form = canonical(&plan, &tree).bytes;
        for _ in 0..2 {
            let layout = scattered(&plan, &tree, &mut random);
            assert_eq!(sheet_of(&schema, &layout.bytes), sheet);
            assert_eq!(rewritten(&schema, &layout.bytes), form);
            let pads: usize = layout
                .spots
                .iter()
                .map(|(spot, _)| match spot {
                    Spot::Pad(length) => *length,
                    _ => 0,
                })
                .sum();
            let saved = pads + 4 * empty_extensions(&tree);
            assert_eq!(form.len(), layout.bytes.len() - saved);
        }
        assert_one_form(&schema, &form);
    }
    assert!(trees > TREES as usize / 2, "only {trees} trees");
}

#[test]
fn whatever_is_accepted_has_one_form() {
    let mut accepted = 0;
    for seed in 0..BATCHES {
        let batch = batch(seed);
        let Ok(schema) = check_table(&batch.table) else {
            continue;
        };
        for question in &batch.questions {
            let input = &question.input;
            match question.kind {
                Kind::CheckMessage => {
                    let mut scratch = pattern(input.len());
                    if schema.check_message(Settings::NONE, input, &mut scratch).is_ok() {
                        accepted += 1;
                        assert_one_form(&schema, input);
                    }
                }
                Kind::SheetToMessage => {
                    let mut output = vec![0; 65_536];
                    if let Ok(length) = schema.sheet_to_message(input, &mut output) {
                        let message = &output[..length];
                        assert_eq!(sheet_of(&schema, message), *input);
                        assert_eq!(rewritten(&schema, message), message);
                    }
                }
                _ => {}
            }
        }
    }
    assert!(accepted > BATCHES as usize, "only {accepted} messages");
}

/// The generator alone, without the edges, reaches every fault number.
/// `ask` tests every lent byte on the way.
#[test]
fn random_questions_reach_every_fault() {
    let mut counts = [0; 49];
    for seed in 10_000..10_000 + BATCHES {
        let batch = batch(seed);
        for question in &batch.questions {
            match ask(&batch.table, Settings::NONE, question).answer {
                Ok(_) => counts[0] += 1,
                Err(fault) => counts[fault.number as usize] += 1,
            }
        }
    }
    println!("{counts:?}");
    let numbers = (1..=14).chain(20..=37).chain(40..=48);
    let missing: Vec<usize> = numbers.filter(|&number| counts[number] == 0).collect();
    assert!(missing.is_empty(), "no case gave {missing:?}");
}

/// A byte in four static groups takes eleven bytes of the sheet.
#[test]
fn eleven_times_is_tight() {
    let inner = |group| field(Type::StaticGroup).of(group);
    let plan = TablePlan::new()
        .plain(&[field(Type::U8)])
        .plain(&[inner(0)])
        .plain(&[inner(1)])
        .plain(&[inner(2)])
        .group(1, &[inner(3).sequence()]);
    let table = plan.encode();
    let schema = check_table(&table).unwrap();
    let items = 65_536 - 24;
    let mut message = vec![0; 65_536];
    message[..4].copy_from_slice(&65_532_u32.to_le_bytes());
    message[4] = 1;
    message[16] = 4;
    message[20..24].copy_from_slice(&(items as u32).to_le_bytes());
    let sheet = sheet_of(&schema, &message);
    assert_eq!(sheet.len(), 10 + 6 + items * 11 + 2);
    assert_one_form(&schema, &message);
}
