//! Stored cases: the files that the proved program is run on. Their format
//! is described in crates/conformance/README.md.

use crate::question::{ask, verdict, Answer, Call, Kind, Question, Reply, Step};
use crate::{FieldShape, Ignored, Number, Settings};

/// The stored files, by name, and the kinds of questions each holds. Those of
/// `settings` are asked under stores, those of `tape` and `ledger` at times,
/// all others under none.
pub const FILES: [(&str, &[Kind]); 11] = [
    ("table", &[Kind::CheckTable]),
    ("check", &[Kind::CheckMessage]),
    ("sheet", &[Kind::MessageToSheet]),
    ("write", &[Kind::SheetToMessage]),
    ("rewrite", &[Kind::Rewrite]),
    ("number", &[Kind::ReadNumber]),
    ("bytes", &[Kind::ReadBytes]),
    ("store", &Kind::OF_STORES),
    ("settings", &Kind::OF_MESSAGES),
    ("tape", &[Kind::ReadTape]),
    ("ledger", &Kind::OF_LEDGERS),
];

const HEADER: usize = 40;
/// The kinds of records that ask nothing.
const TABLE: u32 = 0;
const SETTINGS: u32 = 8;

/// A record of a file.
#[derive(Clone, Debug, PartialEq, Eq)]
pub enum Entry {
    /// The table in force from here on.
    Table(Vec<u8>),
    /// The store and the customer in force from here on.
    Settings(Vec<u8>, u16),
    Ask(Question),
}

impl Entry {
    fn input(&self) -> &[u8] {
        match self {
            Entry::Table(table) => table,
            Entry::Settings(store, _) => store,
            Entry::Ask(question) => &question.input,
        }
    }
}

/// Zeros at the end are not stored, so that long inputs stay small.
pub fn stored_length(input: &[u8]) -> usize {
    input.iter().rposition(|&byte| byte != 0).map_or(0, |at| at + 1)
}

/// The bytes of a file with these records.
pub fn encode(entries: &[Entry]) -> Vec<u8> {
    let mut file = Vec::new();
    for entry in entries {
        let input = entry.input();
        let stored = stored_length(input);
        let (kind, lent, numbers) = match entry {
            Entry::Table(_) => (TABLE, [0; 3], [0; 2]),
            Entry::Settings(_, customer) => (SETTINGS, [0; 3], [u64::from(*customer), 0]),
            Entry::Ask(q) => (q.kind as u32, [q.scratch, q.sheet, q.output], [q.field, q.item]),
        };
        file.extend(kind.to_le_bytes());
        for length in [input.len(), stored].into_iter().chain(lent) {
            let length = u32::try_from(length).expect("lengths fit in 32 bits");
            file.extend(length.to_le_bytes());
        }
        for number in numbers {
            file.extend(number.to_le_bytes());
        }
        file.extend(&input[..stored]);
    }
    file
}

/// The records of a file, or nothing if it is none.
pub fn decode(mut file: &[u8]) -> Option<Vec<Entry>> {
    let mut entries = Vec::new();
    while !file.is_empty() {
        let header = file.get(..HEADER)?;
        let word = |index: usize| crate::wire::u32_at(header, index * 4);
        let length = word(1) as usize;
        let stored = word(2) as usize;
        let mut input = file.get(HEADER..HEADER + stored)?.to_vec();
        input.resize(length, 0);
        file = &file[HEADER + stored..];
        entries.push(match word(0) {
            TABLE => Entry::Table(input),
            SETTINGS => Entry::Settings(input, crate::wire::u64_at(header, 24).try_into().ok()?),
            kind => Entry::Ask(Question {
                kind: Kind::from_number(kind)?,
                input,
                scratch: word(3) as usize,
                sheet: word(4) as usize,
                output: word(5) as usize,
                field: crate::wire::u64_at(header, 24),
                item: crate::wire::u64_at(header, 32),
            }),
        });
    }
    Some(entries)
}

/// The line that answers each question, and its fault numbers (0 for none):
/// one, or of a tape those of each message.
pub fn answer_lines(entries: &[Entry]) -> Vec<(String, Vec<u8>)> {
    let mut table: &[u8] = &[];
    let mut settings = Settings::NONE;
    let mut lines = Vec::new();
    for entry in entries {
        match entry {
            Entry::Table(bytes) => table = bytes,
            Entry::Settings(store, customer) => settings = Settings::of(store, *customer),
            Entry::Ask(question) => {
                let reply = ask(table, settings, question);
                let numbers = reply.verdicts().into_iter().map(|(number, _)| number).collect();
                lines.push((answer_line(question, &reply), numbers));
            }
        }
    }
    lines
}

fn answer_line(question: &Question, reply: &Reply) -> String {
    let answer = reply.answer.as_ref().ok();
    if let Some(Answer::Steps(steps)) = answer {
        let asked = steps.iter().skip(question.item as usize);
        return asked.map(step_words).collect::<Vec<_>>().join("; ");
    }
    if let Some(Answer::Calls(calls)) = answer {
        let calls: String = calls.iter().map(call_words).collect();
        return format!("{calls}{}", adler32(&reply.output));
    }
    let (number, place) = verdict(&reply.answer);
    let mut words = vec![number.to_string(), place.to_string()];
    match question.kind {
        Kind::CheckTable | Kind::CheckMessage | Kind::CheckStore | Kind::AddSettings => {}
        Kind::ReadSettings => {
            let ignored = match answer {
                Some(Answer::Settings(ignored)) => *ignored,
                _ => Ignored::NOTHING,
            };
            let flags = [ignored.absent, ignored.pads, ignored.unused];
            words.extend(flags.map(|flag| u8::from(flag).to_string()));
        }
        Kind::MessageToSheet | Kind::SheetToMessage | Kind::Rewrite => {
            let length = match answer {
                Some(Answer::Written(length)) => *length,
                _ => 0,
            };
            words.push(length.to_string());
        }
        Kind::ReadNumber => words.push(match answer {
            Some(Answer::Number(number)) => number_words(*number),
            _ => "refused".to_string(),
        }),
        Kind::ReadBytes => {
            let part = match answer {
                Some(Answer::Part(part)) => part.clone(),
                _ => 0..0,
            };
            words.push(part.start.to_string());
            words.push(part.len().to_string());
            words.push(adler32(&question.input[part]).to_string());
        }
        Kind::AddLine => {
            let fill = match answer {
                Some(Answer::Fill(fill)) => *fill,
                _ => 0,
            };
            words.push(fill.to_string());
        }
        Kind::FieldShape => {
            let numbers = match answer {
                Some(Answer::Shape(FieldShape { ty, optional, sequence, size })) => {
                    [*ty as u8, u8::from(*optional), u8::from(*sequence), *size]
                }
                _ => [0; 4],
            };
            words.extend(numbers.map(|number| number.to_string()));
        }
        Kind::ReadTape | Kind::AddLines => unreachable!("a tape's messages were answered before"),
    }
    for lent in lent_buffers(question.kind, reply) {
        words.push(adler32(lent).to_string());
    }
    words.join(" ")
}

/// The buffers that a question of this kind lends, in the answer's order.
fn lent_buffers(kind: Kind, reply: &Reply) -> Vec<&[u8]> {
    match kind {
        Kind::CheckTable | Kind::CheckStore | Kind::ReadSettings | Kind::FieldShape => vec![],
        Kind::AddSettings => vec![&reply.store],
        Kind::CheckMessage | Kind::ReadNumber | Kind::ReadBytes => vec![&reply.scratch],
        Kind::MessageToSheet => vec![&reply.scratch, &reply.sheet],
        Kind::SheetToMessage => vec![&reply.output],
        Kind::Rewrite => vec![&reply.scratch, &reply.sheet, &reply.output],
        Kind::AddLine => vec![&reply.scratch, &reply.output],
        Kind::ReadTape | Kind::AddLines => vec![],
    }
}

fn step_words(step: &Step) -> String {
    let answer = match &step.answer {
        None => "ended".to_string(),
        Some(answer) => {
            let (number, place) = verdict(answer);
            format!("{number} {place}")
        }
    };
    let (length, part, scratch) = (step.bytes.len(), adler32(&step.bytes), adler32(&step.scratch));
    format!("{answer} {} {length} {part} {scratch}", step.next)
}

fn call_words(call: &Call) -> String {
    let (number, place) = verdict(&call.answer);
    format!("{number} {place} {} {}; ", call.fill, adler32(&call.scratch))
}

fn number_words(number: Number) -> String {
    match number {
        Number::Signed(value) => format!("signed {value}"),
        Number::Unsigned(value) => format!("unsigned {value}"),
        Number::Bool(value) => format!("bool {}", u8::from(value)),
        Number::Decimal { exponent, mantissa } => format!("decimal {exponent} {mantissa}"),
        Number::Float(value) => format!("float {}", value.to_bits()),
    }
}

/// The Adler-32 checksum (RFC 1950).
pub fn adler32(bytes: &[u8]) -> u32 {
    const MODULUS: u32 = 65_521;
    // The longest run whose sums stay below 2^32.
    const RUN: usize = 5_552;
    let (mut low, mut high) = (1, 0);
    for run in bytes.chunks(RUN) {
        for &byte in run {
            low += u32::from(byte);
            high += low;
        }
        low %= MODULUS;
        high %= MODULUS;
    }
    high << 16 | low
}

#[cfg(test)]
mod tests {
    use super::*;

    #[test]
    fn adler32_of_known_texts() {
        assert_eq!(adler32(b""), 1);
        assert_eq!(adler32(b"Wikipedia"), 0x11e6_0398);
        // Not reduced in between, the sums would pass 2^32.
        let long = vec![0xff; 1 << 20];
        let (low, high) = long.iter().fold((1u64, 0u64), |(low, high), &byte| {
            let low = (low + u64::from(byte)) % 65_521;
            (low, (high + low) % 65_521)
        });
        assert_eq!(u64::from(adler32(&long)), high << 16 | low);
    }

    #[test]
    fn entries_survive_a_file() {
        let entries = [
            Entry::Table(b"EN\0\0".to_vec()),
            Entry::Settings(b"CS\0\0\x01\0\0\0\x01\0".to_vec(), 65_535),
            Entry::Ask(Question {
                scratch: 1,
                sheet: 2,
                output: 3,
                field: u64::MAX,
                item: 1 << 40,
                ..Question::new(Kind::Rewrite, vec![0, 7, 0])
            }),
            Entry::Ask(Question::new(Kind::CheckMessage, vec![0; 70_000])),
            Entry::Ask(Question::add_settings(vec![0; 9], 65_535, 65_535, [255; 3])),
        ];
        let file = encode(&entries);
        assert_eq!(file.len(), 5 * HEADER + 2 + 9 + 2);
        assert_eq!(decode(&file).unwrap(), entries);
        assert_eq!(decode(&file[..file.len() - 1]), None);
    }
}
