//! A question to the library with lent bytes of stated lengths, and its
//! reply, tested for what the papers promise of lent bytes.

use std::ops::Range;

use crate::{
    add_line, add_settings, check_message, check_store, check_table, field_shape, message_to_sheet,
    next_message, read_bytes, read_bytes_part, read_bytes_verdict, read_number, read_settings, rewrite,
    sheet_to_message, Fault, FaultNumber, FieldShape, Ignored, Number, Schema, Settings, TapeMessage,
    TapeReader, LINE_BYTES,
};

/// The public questions, with the numbers that stored cases use.
#[derive(Clone, Copy, Debug, PartialEq, Eq, PartialOrd, Ord)]
#[repr(u32)]
pub enum Kind {
    CheckTable = 1,
    CheckMessage,
    MessageToSheet,
    SheetToMessage,
    Rewrite,
    ReadNumber,
    ReadBytes,
    // 8 is no question: the store and customer in force.
    CheckStore = 9,
    ReadSettings,
    AddSettings,
    ReadTape,
    AddLine,
    FieldShape,
    AddLines,
}

impl Kind {
    pub const ALL: [Kind; 14] = [
        Kind::CheckTable,
        Kind::CheckMessage,
        Kind::MessageToSheet,
        Kind::SheetToMessage,
        Kind::Rewrite,
        Kind::ReadNumber,
        Kind::ReadBytes,
        Kind::CheckStore,
        Kind::ReadSettings,
        Kind::AddSettings,
        Kind::ReadTape,
        Kind::AddLine,
        Kind::FieldShape,
        Kind::AddLines,
    ];

    /// The questions about a message, which settings may govern.
    pub const OF_MESSAGES: [Kind; 5] =
        [Kind::CheckMessage, Kind::MessageToSheet, Kind::Rewrite, Kind::ReadNumber, Kind::ReadBytes];

    /// Those of the ledger.
    pub const OF_LEDGERS: [Kind; 3] = [Kind::AddLine, Kind::FieldShape, Kind::AddLines];

    /// The questions about a settings store.
    pub const OF_STORES: [Kind; 3] = [Kind::CheckStore, Kind::ReadSettings, Kind::AddSettings];

    pub fn from_number(number: u32) -> Option<Kind> {
        Kind::ALL.into_iter().find(|&kind| kind as u32 == number)
    }

    pub fn is_of_message(self) -> bool {
        Kind::OF_MESSAGES.contains(&self)
    }

    pub fn is_of_store(self) -> bool {
        Kind::OF_STORES.contains(&self)
    }
}

/// One question. Lengths and numbers that its kind does not use are 0.
#[derive(Clone, Debug, PartialEq, Eq)]
pub struct Question {
    pub kind: Kind,
    /// The table, message, sheet, store or tape that the question is about. A
    /// store that settings are added to is lent too.
    pub input: Vec<u8>,
    /// Lengths of the lent scratch, sheet room, and output or ledger.
    pub scratch: usize,
    pub sheet: usize,
    pub output: usize,
    /// The field, a customer, where a tape's reader starts, or a type id.
    pub field: u64,
    /// The item, a version, how many of a tape's answers are not asked for, a
    /// ledger's fill, or the field of a type; behind the version of an addition
    /// its flags.
    pub item: u64,
}

impl Question {
    /// A question that lends nothing.
    pub fn new(kind: Kind, input: Vec<u8>) -> Question {
        Question { kind, input, scratch: 0, sheet: 0, output: 0, field: 0, item: 0 }
    }

    pub fn read_settings(store: Vec<u8>, customer: u16, version: u16) -> Question {
        let (field, item) = (customer.into(), version.into());
        Question { field, item, ..Question::new(Kind::ReadSettings, store) }
    }

    pub fn add_settings(store: Vec<u8>, customer: u16, version: u16, flags: [u8; 3]) -> Question {
        let [low, high] = version.to_le_bytes();
        let [absent, pads, unused] = flags;
        let item = u64::from_le_bytes([low, high, absent, pads, unused, 0, 0, 0]);
        Question { field: customer.into(), item, ..Question::new(Kind::AddSettings, store) }
    }

    /// All of a tape.
    pub fn read_tape(tape: Vec<u8>, scratch: usize) -> Question {
        Question { scratch, ..Question::new(Kind::ReadTape, tape) }
    }

    /// A message's line, for a ledger of this length and fill.
    pub fn add_line(message: Vec<u8>, scratch: usize, type_id: u64, ledger: usize, fill: u64) -> Question {
        let (output, field, item) = (ledger, type_id, fill);
        Question { scratch, output, field, item, ..Question::new(Kind::AddLine, message) }
    }

    /// The same for all messages of a tape, one after the other.
    pub fn add_lines(tape: Vec<u8>, scratch: usize, type_id: u64, ledger: usize, fill: u64) -> Question {
        Question { kind: Kind::AddLines, ..Question::add_line(tape, scratch, type_id, ledger, fill) }
    }

    pub fn field_shape(type_id: u64, field: u64) -> Question {
        Question { field: type_id, item: field, ..Question::new(Kind::FieldShape, Vec::new()) }
    }

    fn fill(&self) -> usize {
        self.item.try_into().expect("a fill is no longer than a length")
    }

    fn customer(&self) -> u16 {
        self.field.try_into().expect("a customer's number has 16 bits")
    }

    /// The version and the flags of an addition.
    fn addition(&self) -> (u16, [u8; 3]) {
        let [low, high, absent, pads, unused, 0, 0, 0] = self.item.to_le_bytes() else {
            panic!("an addition's version and flags have 40 bits");
        };
        (u16::from_le_bytes([low, high]), [absent, pads, unused])
    }
}

/// What a question that is not refused answers.
#[derive(Clone, Debug, PartialEq)]
pub enum Answer {
    /// A check found no fault.
    Accepted,
    /// Bytes written to the sheet room, or to the output when a message is
    /// written.
    Written(usize),
    Number(Number),
    /// A part of the message.
    Part(Range<usize>),
    Settings(Ignored),
    /// All steps of a tape's reader, the last of which found that it has
    /// ended.
    Steps(Vec<Step>),
    /// The ledger's new fill.
    Fill(usize),
    /// What became of each message of a tape.
    Calls(Vec<Call>),
    Shape(FieldShape),
}

/// One step of a tape's reader.
#[derive(Clone, Debug, PartialEq)]
pub struct Step {
    /// The reader's place before and after.
    pub start: usize,
    pub next: usize,
    /// What the check answered, or nothing where the tape has ended.
    pub answer: Option<Result<(), Fault>>,
    /// What was handed out.
    pub bytes: Vec<u8>,
    /// The scratch afterwards; before each step it holds its pattern.
    pub scratch: Vec<u8>,
}

/// One call of a run that makes a ledger.
#[derive(Clone, Debug, PartialEq)]
pub struct Call {
    /// The length of the message.
    pub length: usize,
    pub answer: Result<usize, Fault>,
    /// The fill for the next call.
    pub fill: usize,
    /// The scratch afterwards; before each call it holds its pattern.
    pub scratch: Vec<u8>,
}

/// Fault number and place, 0 and 0 if there is no fault.
pub fn verdict<T>(answer: &Result<T, Fault>) -> (u8, usize) {
    match answer {
        Ok(_) => (0, 0),
        Err(fault) => (fault.number as u8, fault.place),
    }
}

/// The answer or refusal, and every lent byte afterwards.
#[derive(Clone, Debug)]
pub struct Reply {
    pub answer: Result<Answer, Fault>,
    pub scratch: Vec<u8>,
    pub sheet: Vec<u8>,
    /// The output, or the ledger.
    pub output: Vec<u8>,
    /// The store that settings were added to; else empty.
    pub store: Vec<u8>,
}

impl Reply {
    /// Fault number and place; of a tape, those of each message.
    pub fn verdicts(&self) -> Vec<(u8, usize)> {
        match &self.answer {
            Ok(Answer::Calls(calls)) => calls.iter().map(|call| verdict(&call.answer)).collect(),
            Ok(Answer::Steps(steps)) => {
                steps.iter().filter_map(|step| step.answer.as_ref()).map(verdict).collect()
            }
            answer => vec![verdict(answer)],
        }
    }
}

/// What lent bytes hold before a question.
pub fn pattern(length: usize) -> Vec<u8> {
    (0..length).map(|index| 2 + (index % 251) as u8).collect()
}

/// Asks under the given table and settings (a question about a table or a
/// store has it as input). Panics if lent bytes are not as the papers say.
pub fn ask(table: &[u8], settings: Settings<'_>, question: &Question) -> Reply {
    ask_over(table, settings, question, &pattern(question.output))
}

/// The same where the lent output, or ledger, holds these bytes before.
pub fn ask_over(table: &[u8], settings: Settings<'_>, question: &Question, before: &[u8]) -> Reply {
    let Settings { store, customer } = settings;
    let input = &question.input[..];
    let (field, item) = (question.field, question.item);
    let mut scratch = pattern(question.scratch);
    let mut sheet = pattern(question.sheet);
    let mut output = before.to_vec();
    let mut lent_store = match question.kind {
        Kind::AddSettings => input.to_vec(),
        _ => Vec::new(),
    };
    let answer = match question.kind {
        Kind::CheckTable => check_table(input).map(|_| Answer::Accepted),
        Kind::CheckMessage => {
            check_message(table, store, customer, input, &mut scratch).map(|()| Answer::Accepted)
        }
        Kind::MessageToSheet => {
            message_to_sheet(table, store, customer, input, &mut scratch, &mut sheet).map(Answer::Written)
        }
        Kind::SheetToMessage => sheet_to_message(table, input, &mut output).map(Answer::Written),
        Kind::Rewrite => {
            rewrite(table, store, customer, input, &mut scratch, &mut sheet, &mut output).map(Answer::Written)
        }
        Kind::ReadNumber => {
            read_number(table, store, customer, input, &mut scratch, field, item).map(Answer::Number)
        }
        Kind::ReadBytes => {
            read_bytes(table, store, customer, input, &mut scratch, field, item).map(Answer::Part)
        }
        Kind::CheckStore => check_store(input).map(|()| Answer::Accepted),
        Kind::ReadSettings => {
            let version = item.try_into().expect("a version has 16 bits");
            read_settings(input, question.customer(), version).map(Answer::Settings)
        }
        Kind::AddSettings => {
            let (version, [absent, pads, unused]) = question.addition();
            add_settings(&mut lent_store, question.customer(), version, absent, pads, unused)
                .map(|()| Answer::Accepted)
        }
        Kind::ReadTape => {
            let next =
                |reader: &mut _, scratch: &mut _| next_message(table, store, customer, reader, scratch);
            Ok(Answer::Steps(steps(question, next)))
        }
        Kind::AddLine => {
            add_line(table, store, customer, input, &mut scratch, field, &mut output, question.fill())
                .map(Answer::Fill)
        }
        Kind::FieldShape => field_shape(table, field, item).map(Answer::Shape),
        Kind::AddLines => {
            let add = |message: &_, scratch: &mut _, ledger: &mut _, fill| {
                add_line(table, store, customer, message, scratch, field, ledger, fill)
            };
            Ok(Answer::Calls(calls(table, settings, question, &mut output, add)))
        }
    };
    let reply = Reply { answer, scratch, sheet, output, store: lent_store };
    assert_scratch(question, &reply);
    assert_sheet(table, settings, question, &reply);
    assert_output(question, before, &reply);
    assert_ledger(table, settings, question, before, &reply);
    assert_store(question, &reply);
    assert_twins(table, settings, question, &reply);
    assert_steps(table, settings, question, &reply);
    reply
}

/// Reads a tape until it ends.
fn steps<'q>(
    question: &'q Question,
    mut next: impl FnMut(&mut TapeReader<'q>, &mut [u8]) -> Option<TapeMessage<'q>>,
) -> Vec<Step> {
    let place = question.field.try_into().expect("a place is no longer than a length");
    let mut reader = TapeReader { tape: &question.input, place };
    let mut steps: Vec<Step> = Vec::new();
    while steps.last().is_none_or(|step| step.answer.is_some()) {
        assert!(steps.len() <= question.input.len(), "there are no more messages than bytes");
        let start = reader.place;
        let mut scratch = pattern(question.scratch);
        let message = next(&mut reader, &mut scratch);
        steps.push(Step {
            start,
            next: reader.place,
            answer: message.map(|message| message.answer),
            bytes: message.map_or(Vec::new(), |message| message.bytes.to_vec()),
            scratch,
        });
    }
    steps
}

/// Enters the messages that a reader finds on a tape, a cut tail too, each
/// given ledger and fill as the last left them.
fn calls(
    table: &[u8],
    settings: Settings,
    question: &Question,
    ledger: &mut [u8],
    mut add: impl FnMut(&[u8], &mut [u8], &mut [u8], usize) -> Result<usize, Fault>,
) -> Vec<Call> {
    let Settings { store, customer } = settings;
    let mut reader = TapeReader::new(&question.input);
    let mut fill = question.fill();
    let mut calls = Vec::new();
    while !reader.has_ended() {
        let start = reader.place;
        next_message(table, store, customer, &mut reader, &mut pattern(question.scratch));
        let message = &question.input[start..reader.place];
        let mut scratch = pattern(question.scratch);
        let answer = add(message, &mut scratch, ledger, fill);
        fill = answer.unwrap_or(fill);
        calls.push(Call { length: message.len(), answer, fill, scratch });
    }
    calls
}

/// Whether a lent buffer holds its pattern from `from` on.
fn untouched_from(lent: &[u8], from: usize) -> bool {
    lent[from..] == pattern(lent.len())[from..]
}

/// After 20, 23, 21 and 50 untouched; after all else its first bytes, as many
/// as the message has, are zero and the rest untouched.
fn assert_scratch(question: &Question, reply: &Reply) {
    let before_walk = reply.answer.as_ref().is_err_and(is_before_walk);
    let walks = question.kind.is_of_message() || question.kind == Kind::AddLine;
    let cleared = match walks && !before_walk {
        true => question.input.len(),
        false => 0,
    };
    assert_cleared(&reply.scratch, cleared);
}

fn is_before_walk(fault: &Fault) -> bool {
    use FaultNumber::{MessageTooLong, ScratchTooShort, StoreDamaged, TableRefused};
    matches!(fault.number, TableRefused | MessageTooLong | ScratchTooShort | StoreDamaged)
}

fn assert_cleared(scratch: &[u8], cleared: usize) {
    assert!(scratch[..cleared].iter().all(|&byte| byte == 0));
    assert!(untouched_from(scratch, cleared));
}

/// Of a tape, the same by message. A message that is there is as long as its
/// size word says, so that 22 is that of a cut tail, and leaves the scratch
/// untouched. With a prepared schema all answers are the same.
fn assert_steps(table: &[u8], settings: Settings, question: &Question, reply: &Reply) {
    let Ok(Answer::Steps(given)) = &reply.answer else {
        return;
    };
    for step in given {
        let cleared = match &step.answer {
            None => 0,
            Some(Err(fault)) if is_before_walk(fault) || fault.number == FaultNumber::LengthNotSize => 0,
            Some(_) => step.next - step.start,
        };
        assert_cleared(&step.scratch, cleared);
    }
    if let Ok(schema) = check_table(table) {
        let next = |reader: &mut _, scratch: &mut _| Schema::next_message(&schema, settings, reader, scratch);
        assert!(*given == steps(question, next));
    }
}

/// Untouched on a refusal, but for a rewriting refused by 47: then, as after
/// success, it starts with the sheet and the rest is untouched.
fn assert_sheet(table: &[u8], settings: Settings, question: &Question, reply: &Reply) {
    let written = match (question.kind, &reply.answer) {
        (Kind::MessageToSheet, Ok(Answer::Written(length))) => *length,
        (Kind::Rewrite, Ok(_)) => assert_rewritten_sheet(table, settings, question, reply),
        (Kind::Rewrite, Err(fault)) if fault.number == FaultNumber::OutputTooShort => {
            assert_rewritten_sheet(table, settings, question, reply)
        }
        _ => 0,
    };
    assert!(untouched_from(&reply.sheet, written));
}

/// The room starts with the message's sheet; gives the sheet's length.
fn assert_rewritten_sheet(table: &[u8], settings: Settings, question: &Question, reply: &Reply) -> usize {
    let Settings { store, customer } = settings;
    let mut scratch = vec![0; question.input.len()];
    let mut sheet = vec![0; question.sheet];
    let length = message_to_sheet(table, store, customer, &question.input, &mut scratch, &mut sheet)
        .expect("a message that passed 46 has a sheet that fits");
    assert_eq!(reply.sheet[..length], sheet[..length]);
    length
}

/// Untouched on a refusal; else the rest is untouched behind a message that
/// is as long as 4 + its size word.
fn assert_output(question: &Question, before: &[u8], reply: &Reply) {
    let written = match (question.kind, &reply.answer) {
        (Kind::SheetToMessage | Kind::Rewrite, Ok(Answer::Written(length))) => {
            let size = u32::from_le_bytes(reply.output[..4].try_into().expect("four bytes"));
            assert_eq!(*length, 4 + size as usize);
            *length
        }
        (Kind::AddLine | Kind::AddLines, _) => return,
        _ => 0,
    };
    assert!(reply.output[written..] == before[written..]);
}

/// Untouched but for the lines from the fill on, one for each call that is not
/// refused. The scratch is as in other questions about a message. With a
/// prepared schema all answers are the same.
fn assert_ledger(table: &[u8], settings: Settings, question: &Question, before: &[u8], reply: &Reply) {
    let given: &[Call] = match (question.kind, &reply.answer) {
        (Kind::AddLines, Ok(Answer::Calls(calls))) => calls,
        (Kind::AddLine, answer) => {
            let answer = answer.as_ref().map_err(|fault| *fault).map(|answer| match answer {
                Answer::Fill(fill) => *fill,
                other => unreachable!("{other:?} does not answer a line"),
            });
            let fill = answer.unwrap_or(question.fill());
            &[Call { length: question.input.len(), answer, fill, scratch: reply.scratch.clone() }]
        }
        _ => return,
    };
    let mut fill = question.fill();
    for call in given {
        assert_eq!(call.fill, if call.answer.is_ok() { fill + LINE_BYTES } else { fill });
        fill = call.fill;
        let before_walk = call.answer.as_ref().is_err_and(is_before_walk);
        assert_cleared(&call.scratch, if before_walk { 0 } else { call.length });
    }
    let (from, to) = match fill == question.fill() {
        true => (0, 0),
        false => (question.fill(), fill),
    };
    assert!(reply.output[..from] == before[..from] && reply.output[to..] == before[to..]);
    let (Ok(schema), Kind::AddLines) = (check_table(table), question.kind) else {
        return;
    };
    let mut ledger = before.to_vec();
    let add = |message: &_, scratch: &mut _, ledger: &mut _, fill| {
        schema.add_line(settings, message, scratch, question.field, ledger, fill)
    };
    assert!(calls(table, settings, question, &mut ledger, add) == given && ledger == reply.output);
}

/// Untouched on a refusal; else a record that says what was added stands
/// behind those that were there, and no other byte has changed.
fn assert_store(question: &Question, reply: &Reply) {
    if question.kind != Kind::AddSettings {
        return assert!(reply.store.is_empty());
    }
    let mut due = question.input.clone();
    if reply.answer.is_ok() {
        let at = 9 * due.chunks(9).take_while(|record| record.starts_with(b"CS")).count();
        let (version, flags) = question.addition();
        let (customer, version) = (question.customer().to_le_bytes(), version.to_le_bytes());
        due[at..at + 9].copy_from_slice(&[&b"CS"[..], &customer, &version, &flags].concat());
    }
    assert!(reply.store == due);
}

/// The bytes answer and its twin agree with the reply.
fn assert_twins(table: &[u8], settings: Settings, question: &Question, reply: &Reply) {
    let Settings { store, customer } = settings;
    if question.kind != Kind::ReadBytes {
        return;
    }
    let (field, item) = (question.field, question.item);
    let input = &question.input[..];
    let mut scratch = pattern(question.scratch);
    let part = read_bytes_part(table, store, customer, input, &mut scratch, field, item);
    assert_eq!(scratch, reply.scratch);
    let mut scratch = pattern(question.scratch);
    let verdict = read_bytes_verdict(table, store, customer, input, &mut scratch, field, item);
    assert_eq!(scratch, reply.scratch);
    match &reply.answer {
        Ok(Answer::Part(range)) => {
            assert_eq!(part, &input[range.clone()]);
            assert_eq!(verdict, Ok(()));
        }
        Ok(other) => unreachable!("{other:?} does not answer a reading as bytes"),
        Err(fault) => {
            assert!(part.is_empty());
            assert_eq!(verdict, Err(*fault));
        }
    }
}
