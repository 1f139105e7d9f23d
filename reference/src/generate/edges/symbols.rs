//! Edges of the test whether a value is a symbol: every position of short
//! and long lists, and the values next to the symbols.

use super::record::{gb, ge, sq, va};
use super::{group, word, write, Edges, FINE};
use crate::generate::table::{field, TablePlan};
use crate::Type;

pub fn add(edges: &mut Edges) {
    for symbols in lists() {
        let plan = TablePlan::new().enumeration(&symbols).group(1, &[field(Type::Enumeration).sequence()]);
        every_position(edges, &plan, &symbols);
        next_to_symbols(edges, &plan, &symbols);
        in_the_middle(edges, &plan, &symbols);
    }
}

fn lists() -> Vec<Vec<i32>> {
    // 256 symbols in equal steps from the least value to the greatest, and 255
    // between them, which leave values below the first and above the last.
    let step = 16_843_009;
    let steps: Vec<i32> = (0..256).map(|number| (i64::from(i32::MIN) + number * step) as i32).collect();
    let between: Vec<i32> = steps[..255].iter().map(|symbol| symbol + step as i32 / 2).collect();
    vec![
        vec![i32::MIN],
        vec![-1],
        vec![0],
        vec![i32::MAX],
        vec![-1, 0],
        vec![i32::MIN, i32::MAX],
        vec![-5, 0, 5],
        vec![i32::MIN, 0, i32::MAX],
        between,
        steps,
        (-128..128).collect(),
    ]
}

/// A message of one sequence; its items stand from 24 on.
fn message(values: &[i32]) -> Vec<u8> {
    let items = values.iter().flat_map(|value| value.to_le_bytes());
    group(1, 0, &[&word(4), &word(values.len() as u32), &items.collect::<Vec<u8>>()])
}

/// Its sheet; the items' records stand from 16 on.
fn sheet(values: &[i32]) -> Vec<u8> {
    let items = values.iter().flat_map(|value| va(&value.to_le_bytes()));
    [gb(1), sq(values.len() as u32), items.collect(), ge()].concat()
}

/// Values that are no symbols but next to one. Of a long list only those
/// above each symbol and below the first, so that the files stay small.
fn no_symbols(symbols: &[i32]) -> Vec<i32> {
    let lower = if symbols.len() > 3 { &symbols[..1] } else { symbols };
    let below = lower.iter().filter_map(|symbol| symbol.checked_sub(1));
    let above = symbols.iter().filter_map(|symbol| symbol.checked_add(1));
    let mut values: Vec<i32> = below.chain(above).filter(|value| !symbols.contains(value)).collect();
    values.sort();
    values.dedup();
    values
}

fn every_position(edges: &mut Edges, plan: &TablePlan, symbols: &[i32]) {
    let name = format!("all {} symbols", symbols.len());
    let all = message(symbols);
    edges.check(&name, plan, &all, FINE);
    edges.add(&name, &plan.encode(), write(&sheet(symbols), all.len()), FINE);
    let falling: Vec<i32> = symbols.iter().rev().copied().collect();
    edges.check("symbols, the last first", plan, &message(&falling), FINE);
}

fn next_to_symbols(edges: &mut Edges, plan: &TablePlan, symbols: &[i32]) {
    for value in no_symbols(symbols) {
        let name = format!("10 {value} is none of {} symbols", symbols.len());
        edges.check(&name, plan, &message(&[value]), (10, 24));
    }
}

/// All symbols, and in the middle of them a value that is none.
fn in_the_middle(edges: &mut Edges, plan: &TablePlan, symbols: &[i32]) {
    let name = format!("10 in the middle of {} symbols", symbols.len());
    let others = no_symbols(symbols);
    let middle = symbols.len().div_ceil(2);
    let mut values = symbols.to_vec();
    values.insert(middle, others[others.len() / 2]);
    let all = message(&values);
    edges.check(&name, plan, &all, (10, 24 + 4 * middle));
    edges.add(&name, &plan.encode(), write(&sheet(&values), all.len()), (10, 16 + 6 * middle));
}
