//! Cases written by hand, each with the number and place that the papers
//! give: the edges that document 01 lists, the mistakes that it expects, and
//! a case for each sentence that could be read in another way.

mod ledger;
mod message;
mod read;
mod settings;
mod sheet;
mod store;
mod supers;
mod symbols;
mod table;
mod tape;
mod widths;

use super::table::TablePlan;
use crate::question::{Kind, Question};
use crate::Settings;

/// A case and its answer.
pub struct Edge {
    pub name: String,
    pub table: Vec<u8>,
    /// The store and the customer it is asked under, where that matters.
    pub settings: Option<(Vec<u8>, u16)>,
    pub question: Question,
    /// Fault number and place, 0 and 0 if it is accepted: of a tape those of
    /// each message, else one.
    pub verdicts: Vec<(u8, usize)>,
}

impl Edge {
    pub fn settings(&self) -> Settings<'_> {
        match &self.settings {
            Some((store, customer)) => Settings::of(store, *customer),
            None => Settings::NONE,
        }
    }
}

/// No fault.
const FINE: (u8, usize) = (0, 0);

pub fn edges() -> Vec<Edge> {
    let mut edges = Edges(Vec::new());
    table::add(&mut edges);
    supers::add(&mut edges);
    widths::add(&mut edges);
    message::add(&mut edges);
    symbols::add(&mut edges);
    sheet::add(&mut edges);
    read::add(&mut edges);
    store::add(&mut edges);
    settings::add(&mut edges);
    tape::add(&mut edges);
    ledger::add(&mut edges);
    edges.0
}

struct Edges(Vec<Edge>);

impl Edges {
    fn add(&mut self, name: &str, table: &[u8], question: Question, fault: (u8, usize)) {
        let (name, table) = (name.to_string(), table.to_vec());
        self.0.push(Edge { name, table, settings: None, question, verdicts: vec![fault] });
    }

    fn store(&mut self, name: &str, question: Question, fault: (u8, usize)) {
        self.add(name, &[], question, fault);
    }

    /// A question about a message under a store and a customer.
    fn under(
        &mut self,
        name: &str,
        table: &[u8],
        (store, customer): (&[u8], u16),
        question: Question,
        fault: (u8, usize),
    ) {
        let (name, table) = (name.to_string(), table.to_vec());
        let settings = Some((store.to_vec(), customer));
        self.0.push(Edge { name, table, settings, question, verdicts: vec![fault] });
    }

    fn table(&mut self, name: &str, table: Vec<u8>, fault: (u8, usize)) {
        self.add(name, &[], Question::new(Kind::CheckTable, table), fault);
    }

    /// A message check with scratch as long as the message.
    fn check(&mut self, name: &str, plan: &TablePlan, message: &[u8], fault: (u8, usize)) {
        self.add(name, &plan.encode(), check(message), fault);
    }

    /// A sheet to message with much room.
    fn write(&mut self, name: &str, plan: &TablePlan, sheet: &[u8], fault: (u8, usize)) {
        self.add(name, &plan.encode(), write(sheet, 600), fault);
    }
}

fn check(message: &[u8]) -> Question {
    Question { scratch: message.len(), ..Question::new(Kind::CheckMessage, message.to_vec()) }
}

fn write(sheet: &[u8], output: usize) -> Question {
    Question { output, ..Question::new(Kind::SheetToMessage, sheet.to_vec()) }
}

fn to_sheet(message: &[u8], sheet: usize) -> Question {
    Question { kind: Kind::MessageToSheet, sheet, ..check(message) }
}

fn rewrite(message: &[u8], sheet: usize, output: usize) -> Question {
    Question { kind: Kind::Rewrite, sheet, output, ..check(message) }
}

fn read(kind: Kind, message: &[u8], field: u64, item: u64) -> Question {
    Question { kind, field, item, ..check(message) }
}

/// Bytes as hex digits, with spaces anywhere.
pub fn hex(text: &str) -> Vec<u8> {
    let digits: Vec<u8> = text
        .chars()
        .filter(|digit| !digit.is_whitespace())
        .map(|digit| digit.to_digit(16).expect("a hex digit") as u8)
        .collect();
    digits.chunks(2).map(|pair| pair[0] << 4 | pair[1]).collect()
}

/// A group from its size word on. The parts are fields and data area.
pub fn group(id: u64, extension: u32, parts: &[&[u8]]) -> Vec<u8> {
    let rest = parts.concat();
    let mut bytes = (12 + rest.len() as u32).to_le_bytes().to_vec();
    bytes.extend(id.to_le_bytes());
    bytes.extend(extension.to_le_bytes());
    bytes.extend(rest);
    bytes
}

/// An offset, count or size.
fn word(number: u32) -> Vec<u8> {
    number.to_le_bytes().to_vec()
}

/// A string of the data area.
fn text(text: &[u8]) -> Vec<u8> {
    [word(text.len() as u32), text.to_vec()].concat()
}

/// The bytes with one replaced.
fn with(bytes: &[u8], at: usize, byte: u8) -> Vec<u8> {
    let mut bytes = bytes.to_vec();
    bytes[at] = byte;
    bytes
}

/// The bytes with a word replaced.
fn with_word(bytes: &[u8], at: usize, number: u32) -> Vec<u8> {
    let mut bytes = bytes.to_vec();
    bytes[at..at + 4].copy_from_slice(&number.to_le_bytes());
    bytes
}

/// Records of a sheet.
pub mod record {
    pub fn gb(id: u64) -> Vec<u8> {
        [b"GB".to_vec(), id.to_le_bytes().to_vec()].concat()
    }

    pub fn ge() -> Vec<u8> {
        b"GE".to_vec()
    }

    pub fn va(bytes: &[u8]) -> Vec<u8> {
        [b"VA", bytes].concat()
    }

    pub fn st(text: &[u8]) -> Vec<u8> {
        [b"ST".to_vec(), super::text(text)].concat()
    }

    pub fn sq(count: u32) -> Vec<u8> {
        [b"SQ".to_vec(), super::word(count)].concat()
    }

    pub fn sg() -> Vec<u8> {
        b"SG".to_vec()
    }

    pub fn no() -> Vec<u8> {
        b"NO".to_vec()
    }

    pub fn xt(count: u32) -> Vec<u8> {
        [b"XT".to_vec(), super::word(count)].concat()
    }

    /// A group of unknown type, given from its size word on.
    pub fn xu(group: &[u8]) -> Vec<u8> {
        [b"XU", group].concat()
    }
}
