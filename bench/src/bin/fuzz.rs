//! Compares the proved questions with the second program on random tables, messages, sheets, settings stores, tapes and
//! ledgers, good and damaged: `fuzz [BATCHES [FIRST SEED]]`. It stops at the first difference, and says which seed makes it.
use blink_bench::answers::{our_flags, our_number, ours, their_flags, their_number, theirs, Answer};
use blink_bench::lines::{self, Asked, Written};
use blink_bench::steps::{self, Step};
use blink_reference::generate::{batch, ledger_batch, settings_batch, tape_batch, Random};
use blink_reference::question::{pattern, Kind, Question};
use blink_reference::Settings;
use std::collections::BTreeMap;

/// The lent buffers of a question.
#[derive(PartialEq)]
struct Rooms {
    scratch: Vec<u8>,
    sheet: Vec<u8>,
    output: Vec<u8>,
    /// The store that settings are added to.
    store: Vec<u8>,
}

impl Rooms {
    fn lent(question: &Question) -> Rooms {
        let store = if question.kind == Kind::AddSettings { question.input.clone() } else { Vec::new() };
        Rooms { scratch: pattern(question.scratch), sheet: pattern(question.sheet), output: pattern(question.output), store }
    }
}

/// What each side answers, as text. A question about a store has its customer, version and flags in `field` and `item`.
fn ask_ours(table: &[u8], settings: Settings, q: &Question, rooms: &mut Rooms) -> Answer<String> {
    let under = blink_native::Settings::of(settings.store, settings.customer);
    let Rooms { scratch, sheet, output, store } = rooms;
    let (input, field, item) = (&q.input[..], q.field as usize, q.item as usize);
    let (customer, version) = (q.field as u16, q.item as u16);
    let length = |part: &mut [u8]| format!("{} bytes", part.len());
    match q.kind {
        Kind::CheckTable => ours(blink_native::check_table(input)).map(|()| String::new()),
        Kind::CheckMessage => ours(under.check_message(table, input, scratch)).map(|()| String::new()),
        Kind::MessageToSheet => ours(under.message_to_sheet(table, input, scratch, sheet)).map(length),
        Kind::SheetToMessage => ours(blink_native::sheet_to_message(table, input, output)).map(length),
        Kind::Rewrite => ours(under.rewrite(table, input, scratch, sheet, output)).map(length),
        Kind::ReadNumber => ours(under.read_number(table, input, scratch, field, item)).map(our_number),
        Kind::ReadBytes => ours(under.read_bytes(table, input, scratch, field, item))
            .map(|part| format!("{}, {} bytes", part.as_ptr() as usize - input.as_ptr() as usize, part.len())),
        Kind::CheckStore => ours(blink_native::check_store(input)).map(|()| String::new()),
        Kind::ReadSettings => ours(blink_native::read_settings(input, customer, version)).map(|flags| format!("{:?}", our_flags(flags))),
        Kind::AddSettings => {
            let [_, _, absent, pads, unused, ..] = q.item.to_le_bytes();
            ours(blink_native::add_settings(store, customer, version, [absent, pads, unused])).map(|()| String::new())
        }
        Kind::ReadTape => unreachable!("a tape is read step by step"),
        Kind::AddLine | Kind::AddLines | Kind::FieldShape => unreachable!("ledgers are compared by themselves"),
    }
}

fn ask_theirs(table: &[u8], settings: Settings, q: &Question, rooms: &mut Rooms) -> Answer<String> {
    let Settings { store: held, customer: of } = settings;
    let Rooms { scratch, sheet, output, store } = rooms;
    let input = &q.input[..];
    let (customer, version) = (q.field as u16, q.item as u16);
    let length = |n: usize| format!("{n} bytes");
    match q.kind {
        Kind::CheckTable => theirs(blink_reference::check_table(input)).map(|_| String::new()),
        Kind::CheckMessage => theirs(blink_reference::check_message(table, held, of, input, scratch)).map(|()| String::new()),
        Kind::MessageToSheet => theirs(blink_reference::message_to_sheet(table, held, of, input, scratch, sheet)).map(length),
        Kind::SheetToMessage => theirs(blink_reference::sheet_to_message(table, input, output)).map(length),
        Kind::Rewrite => theirs(blink_reference::rewrite(table, held, of, input, scratch, sheet, output)).map(length),
        Kind::ReadNumber => theirs(blink_reference::read_number(table, held, of, input, scratch, q.field, q.item)).map(their_number),
        Kind::ReadBytes => theirs(blink_reference::read_bytes(table, held, of, input, scratch, q.field, q.item))
            .map(|part| format!("{}, {} bytes", part.start, part.len())),
        Kind::CheckStore => theirs(blink_reference::check_store(input)).map(|()| String::new()),
        Kind::ReadSettings => {
            theirs(blink_reference::read_settings(input, customer, version)).map(|flags| format!("{:?}", their_flags(flags)))
        }
        Kind::AddSettings => {
            let [_, _, absent, pads, unused, ..] = q.item.to_le_bytes();
            theirs(blink_reference::add_settings(store, customer, version, absent, pads, unused)).map(|()| String::new())
        }
        Kind::ReadTape => unreachable!("a tape is read step by step"),
        Kind::AddLine | Kind::AddLines | Kind::FieldShape => unreachable!("ledgers are compared by themselves"),
    }
}

/// Asks both sides, and gives the fault number of the answer, or 0.
fn compare(seed: u64, table: &[u8], settings: Settings, question: &Question) -> u8 {
    let (mut lent, mut other) = (Rooms::lent(question), Rooms::lent(question));
    let answer = ask_ours(table, settings, question, &mut lent);
    let due = ask_theirs(table, settings, question, &mut other);
    assert!(
        answer == due && lent == other,
        "seed {seed} differs: {answer:?}, due {due:?}, lent bytes {}: table {table:02x?}, {settings:02x?}, {question:02x?}",
        if lent == other { "alike" } else { "differ" },
    );
    answer.err().map_or(0, |(number, _)| number)
}

/// Both sides' step at a place of a tape.
fn compare_step(seed: u64, table: &[u8], settings: Settings, question: &Question, at: u64) -> Step {
    let (mut scratch, mut other) = (pattern(question.scratch), pattern(question.scratch));
    let step = steps::ours(table, settings, &question.input, at, &mut scratch);
    let due = steps::theirs(table, settings, &question.input, at, &mut other);
    assert!(
        step == due && scratch == other,
        "seed {seed} differs at {at}: {step:?}, due {due:?}, scratch {}: table {table:02x?}, {settings:02x?}, {question:02x?}",
        if scratch == other { "alike" } else { "differs" },
    );
    step
}

/// All steps of a tape, and some from places where perhaps no message starts or no bytes are left; gives their fault numbers.
fn compare_tape(seed: u64, table: &[u8], settings: Settings, question: &Question) -> Vec<u8> {
    let step_at = |at| compare_step(seed, table, settings, question, at);
    let mut steps = vec![step_at(question.field)];
    while let Some(Step { ended: 0, next, .. }) = steps.last() {
        steps.push(step_at(*next));
    }
    let (mut random, length) = (Random::new(seed), question.input.len());
    let others = [random.below(length + 1), random.below(length + 1), length, length + 1, usize::MAX];
    steps.extend(others.map(|at| step_at(at as u64)));
    steps.iter().map(|step| step.number as u8).collect()
}

/// Both sides' ledgers.
struct Ledgers {
    ours: Vec<u8>,
    theirs: Vec<u8>,
}

/// Both sides' line of a message, and what it leaves of scratch and ledger.
fn compare_line(seed: u64, asked: Asked, scratch: usize, ledgers: &mut Ledgers, fill: u64) -> Written {
    let (mut lent, mut other) = (pattern(scratch), pattern(scratch));
    let written = lines::ours(asked, &mut lent, &mut ledgers.ours, fill);
    let due = lines::theirs(asked, &mut other, &mut ledgers.theirs, fill);
    let Asked { table, settings, message, type_id } = asked;
    assert!(
        written == due && lent == other && ledgers.ours == ledgers.theirs,
        "seed {seed} differs at fill {fill}: {written:?}, due {due:?}, scratch {}, ledger {}: table {table:02x?}, {settings:02x?}, message {message:02x?}, type id {type_id}",
        if lent == other { "alike" } else { "differs" },
        if ledgers.ours == ledgers.theirs { "alike" } else { "differs" },
    );
    written
}

/// One line, or those of a tape's messages, each with ledger and fill as the last left them; gives the fault numbers.
fn compare_lines(seed: u64, table: &[u8], settings: Settings, question: &Question) -> Vec<u8> {
    let mut ledgers = Ledgers { ours: pattern(question.output), theirs: pattern(question.output) };
    let (tape, mut fill, mut at, mut numbers) = (&question.input[..], question.item, 0, Vec::new());
    loop {
        let next = match question.kind {
            Kind::AddLine => tape.len(),
            _ => steps::theirs(table, settings, tape, at as u64, &mut pattern(question.scratch)).next as usize,
        };
        let asked = Asked { table, settings, message: &tape[at..next], type_id: question.field };
        let written = compare_line(seed, asked, question.scratch, &mut ledgers, fill);
        numbers.push(written.number as u8);
        if written.number == 0 {
            fill = written.length;
        }
        at = next;
        if at == tape.len() {
            return numbers;
        }
    }
}

fn compare_shape(seed: u64, table: &[u8], question: &Question) -> u8 {
    let (type_id, field) = (question.field, question.item);
    let (shape, due) = (lines::our_shape(table, type_id, field), lines::their_shape(table, type_id, field));
    assert!(shape == due, "seed {seed} differs: {shape:?}, due {due:?}: table {table:02x?}, field {field} of type id {type_id}");
    shape.number as u8
}

fn main() {
    let mut arguments = std::env::args().skip(1).map(|word| word.parse().expect("a number"));
    let batches: u64 = arguments.next().unwrap_or(100_000);
    let first: u64 = arguments.next().unwrap_or(0);
    let (mut counts, mut steps, mut calls) = (BTreeMap::<u8, u64>::new(), 0, 0);
    for seed in first..first + batches {
        let mut count = |number| *counts.entry(number).or_default() += 1;
        let plain = batch(seed);
        for question in &plain.questions {
            count(compare(seed, &plain.table, Settings::NONE, question));
        }
        let governed = settings_batch(seed);
        for asked in &governed.asked {
            count(compare(seed, &governed.table, asked.settings(), &asked.question));
        }
        let tapes = tape_batch(seed);
        for asked in &tapes.asked {
            let numbers = compare_tape(seed, &tapes.table, asked.settings(), &asked.question);
            steps += numbers.len();
            numbers.into_iter().for_each(&mut count);
        }
        let ledgers = ledger_batch(seed);
        for asked in &ledgers.asked {
            let numbers = match asked.question.kind {
                Kind::FieldShape => vec![compare_shape(seed, &ledgers.table, &asked.question)],
                _ => compare_lines(seed, &ledgers.table, asked.settings(), &asked.question),
            };
            calls += numbers.len();
            numbers.into_iter().for_each(&mut count);
        }
    }
    let all = counts.values().sum::<u64>();
    println!("{all} questions agree, {steps} of them steps of tapes, {calls} of the ledger; by fault number (0: none):");
    for (number, count) in counts {
        println!("{number:>4} {count:>10}");
    }
}
