//! The stored cases: all edges, and of the random ones as many of each kind
//! and fault number as are worth their bytes.

use std::collections::BTreeMap;

use super::{batch, edges, ledger_batch, settings_batch, tape_batch};
use crate::question::{ask, Kind, Question};
use crate::vectors::{answer_lines, encode, stored_length, Entry, FILES};
use crate::{FaultNumber, Settings};

/// How many random batches are looked at.
const BATCHES: u64 = 3_500;
/// How many of them under settings.
const SETTINGS_BATCHES: u64 = 2_500;
/// How many of tapes.
const TAPE_BATCHES: u64 = 4_000;
/// How many of ledgers.
const LEDGER_BATCHES: u64 = 1_500;
/// Longer random inputs are left out, but for zeros at their end.
const LONGEST: usize = 320;
/// Questions under a longer random table too: long lists of symbols are
/// among the edges.
const LONGEST_TABLE: usize = 800;
/// Under a longer random store too, and those about one.
const LONGEST_STORE: usize = 600;
/// Those of the ledger are asked under short tables.
const LONGEST_LEDGER_TABLE: usize = 320;

/// One stored file: its questions and the answers due.
pub struct File {
    pub name: &'static str,
    pub data: Vec<u8>,
    pub expected: String,
    /// How often each fault number is answered, 0 for none.
    pub counts: BTreeMap<u8, usize>,
}

/// All stored files, in the order of [`FILES`].
pub fn stored_files() -> Vec<File> {
    let mut shelves: Vec<Shelf> = FILES.iter().map(|_| Shelf::new()).collect();
    for edge in edges() {
        let settings = edge.settings();
        let governed = edge.settings.is_some();
        let mut put = |question: Question| {
            shelf_of(&mut shelves, question.kind, governed).put(&edge.table, settings, question);
        };
        if edge.question.kind == Kind::CheckMessage && edge.verdicts == [(0, 0)] && !governed {
            rewritings(&edge.question).into_iter().for_each(&mut put);
        }
        put(edge.question.clone());
    }
    for seed in 0..BATCHES {
        let batch = batch(seed);
        for question in batch.questions {
            let shelf = shelf_of(&mut shelves, question.kind, false);
            shelf.put_if_wanted(&batch.table, Settings::NONE, question);
        }
    }
    let batches = (0..SETTINGS_BATCHES)
        .map(settings_batch)
        .chain((0..TAPE_BATCHES).map(tape_batch))
        .chain((0..LEDGER_BATCHES).map(ledger_batch));
    for batch in batches {
        for asked in batch.asked {
            let shelf = shelf_of(&mut shelves, asked.question.kind, true);
            shelf.put_if_wanted(&batch.table, asked.settings(), asked.question.clone());
        }
    }
    shelves.into_iter().zip(FILES).map(|(shelf, (name, _))| shelf.file(name)).collect()
}

/// An accepted message's sheet and rewriting, in the rooms of demand 3.
fn rewritings(check: &Question) -> [Question; 2] {
    let length = check.input.len();
    let sheet = Question { kind: Kind::MessageToSheet, sheet: 11 * length, ..check.clone() };
    let rewrite = Question { kind: Kind::Rewrite, output: length, ..sheet.clone() };
    [sheet, rewrite]
}

/// The shelf of a kind; questions about a message have another one under
/// settings.
fn shelf_of(shelves: &mut [Shelf], kind: Kind, governed: bool) -> &mut Shelf {
    let at = FILES.iter().position(|(name, kinds)| match governed && kind.is_of_message() {
        true => *name == "settings",
        false => kinds.contains(&kind),
    });
    &mut shelves[at.expect("there is a file for each kind")]
}

/// The entries of one file.
struct Shelf {
    entries: Vec<Entry>,
    /// The table in force.
    table: Vec<u8>,
    /// The store and the customer in force.
    settings: (Vec<u8>, u16),
    /// How many random questions were put, by kind and by the fault numbers
    /// under their settings and under none.
    counts: BTreeMap<(Kind, u8, u8), usize>,
}

impl Shelf {
    fn new() -> Shelf {
        Shelf { entries: Vec::new(), table: Vec::new(), settings: (Vec::new(), 0), counts: BTreeMap::new() }
    }

    fn put(&mut self, table: &[u8], settings: Settings, question: Question) {
        let under_table = question.kind != Kind::CheckTable && !question.kind.is_of_store();
        if under_table && (self.table != table || self.entries.is_empty()) {
            self.table = table.to_vec();
            self.entries.push(Entry::Table(table.to_vec()));
        }
        if settings != Settings::of(&self.settings.0, self.settings.1) {
            self.settings = (settings.store.to_vec(), settings.customer);
            self.entries.push(Entry::Settings(settings.store.to_vec(), settings.customer));
        }
        self.entries.push(Entry::Ask(question));
    }

    fn put_if_wanted(&mut self, table: &[u8], settings: Settings, question: Question) {
        let longest = if question.kind.is_of_store() { LONGEST_STORE } else { LONGEST };
        let longest_table = match Kind::OF_LEDGERS.contains(&question.kind) {
            true => LONGEST_LEDGER_TABLE,
            false => LONGEST_TABLE,
        };
        if stored_length(&question.input) > longest
            || stored_length(table) > longest_table
            || stored_length(settings.store) > LONGEST_STORE
        {
            return;
        }
        let verdicts = |settings| ask(table, settings, &question).verdicts();
        let governed = verdicts(settings);
        let strict = if settings == Settings::NONE { governed.clone() } else { verdicts(Settings::NONE) };
        let quota = |governed, strict| match settings == Settings::NONE {
            true => quota(question.kind, governed),
            false if Kind::OF_LEDGERS.contains(&question.kind) => quota_under(governed, strict).div_ceil(4),
            false => quota_under(governed, strict),
        };
        // A tape has as many messages under all settings.
        let numbers = governed.iter().zip(&strict).map(|(governed, strict)| (governed.0, strict.0));
        let kind = question.kind;
        let is_wanted = |(governed, strict)| {
            let count = self.counts.get(&(kind, governed, strict));
            count.is_none_or(|&count| count < quota(governed, strict))
        };
        if numbers.clone().any(is_wanted) {
            for (governed, strict) in numbers {
                *self.counts.entry((kind, governed, strict)).or_default() += 1;
            }
            self.put(table, settings, question);
        }
    }

    fn file(self, name: &'static str) -> File {
        let mut counts = BTreeMap::new();
        let mut expected = String::new();
        for (line, numbers) in answer_lines(&self.entries) {
            numbers.into_iter().for_each(|number| *counts.entry(number).or_default() += 1);
            expected.push_str(&line);
            expected.push('\n');
        }
        File { name, data: encode(&self.entries), expected, counts }
    }
}

/// How many random questions of a kind and with this answer are stored.
fn quota(kind: Kind, number: u8) -> usize {
    match kind {
        _ if number == FaultNumber::MessageTooLong as u8 => 3,
        _ if number == FaultNumber::SheetTooLong as u8 => 12,
        Kind::CheckTable | Kind::CheckMessage | Kind::SheetToMessage if number > 0 => 24,
        Kind::CheckStore | Kind::ReadSettings | Kind::AddSettings if number > 0 => 60,
        Kind::CheckTable => 40,
        Kind::ReadTape if number > 0 => 8,
        Kind::ReadTape => 60,
        Kind::AddLine | Kind::AddLines if number > 0 => 2,
        Kind::FieldShape => 6,
        Kind::AddLine | Kind::AddLines => 20,
        _ if number > 0 => 10,
        Kind::CheckMessage => 100,
        Kind::MessageToSheet | Kind::SheetToMessage | Kind::Rewrite => 120,
        Kind::ReadNumber | Kind::ReadBytes => 160,
        Kind::CheckStore | Kind::ReadSettings | Kind::AddSettings => 120,
    }
}

/// How many random questions of each kind are stored with these answers under
/// their settings and under none.
fn quota_under(governed: u8, strict: u8) -> usize {
    match (governed, strict) {
        _ if strict == FaultNumber::MessageTooLong as u8 => 1,
        (0, 0) => 12,
        // Rubbish that is let through.
        (0, _) => 24,
        (50, _) => 2,
        _ if governed != strict => 6,
        (4 | 6 | 8, _) => 8,
        _ => 2,
    }
}
