//! Answers questions, one a line, on standard input.
//!
//! Bytes are lowercase hex, the empty ones `-`; lengths and numbers decimal:
//!
//! ```text
//! table T
//! check T M SCRATCH STORE CUSTOMER
//! sheet T M SCRATCH STORE CUSTOMER ROOM
//! write T S OUTPUT
//! rewrite T M SCRATCH STORE CUSTOMER ROOM OUTPUT
//! num T M SCRATCH STORE CUSTOMER FIELD ITEM
//! bytes T M SCRATCH STORE CUSTOMER FIELD ITEM
//! store STORE
//! storeadd STORE CUSTOMER VERSION ABSENT PADS UNUSED
//! storeget STORE CUSTOMER VERSION
//! tape T TAPE SCRATCH STORE CUSTOMER
//! ledger T M SCRATCH STORE CUSTOMER TYPE LEDGER FILL
//! shape T TYPE FIELD
//! ```
//!
//! The answer is one line: fault number and place, `0 0` and the answer if
//! there is no fault, or `error: ...` for a line that is no question. That of
//! a tape is `NUMBER:PLACE:LENGTH` for each message, joined by `;`, with the
//! length of what is handed out, or `-` for a tape of no bytes.

use std::io::{self, BufRead, BufReader, BufWriter, Write};
use std::process::ExitCode;

use blink_reference::question::{ask_over, pattern, verdict, Answer, Kind, Question, Reply, Step};
use blink_reference::{FieldShape, Ignored, Number, Settings};

/// The longest room that is lent; a longer one is a mistake in the line.
const MAX_ROOM: usize = 1 << 26;

fn main() -> io::Result<ExitCode> {
    let mut input = BufReader::new(io::stdin().lock());
    let mut output = BufWriter::new(io::stdout().lock());
    let mut line = Vec::new();
    let mut failed = false;
    for number in 1.. {
        // Whoever waits for answers before asking on gets them.
        if input.buffer().is_empty() {
            output.flush()?;
        }
        line.clear();
        if input.read_until(b'\n', &mut line)? == 0 {
            break;
        }
        match answer(String::from_utf8_lossy(&line).trim_end_matches(['\r', '\n'])) {
            Ok(answer) => writeln!(output, "{answer}")?,
            Err(why) => {
                failed = true;
                eprintln!("line {number}: {why}");
                writeln!(output, "error: {why}")?;
            }
        }
    }
    Ok(ExitCode::from(u8::from(failed)))
}

/// The answer to a line, or what is wrong with the line.
fn answer(line: &str) -> Result<String, String> {
    let Line { table, store, customer, question, ledger } = parse(line)?;
    let before = ledger.unwrap_or_else(|| pattern(question.output));
    let reply = ask_over(&table, Settings::of(&store, customer), &question, &before);
    Ok(match &reply.answer {
        Ok(Answer::Steps(steps)) => tape_words(steps),
        Ok(answer) => format!("0 0{}", answer_words(answer, &question, &reply)),
        Err(fault) => format!("{} {}", fault.number as u8, fault.place),
    })
}

/// A question, and the table, store and customer it is asked under, where
/// there are any.
struct Line {
    table: Vec<u8>,
    store: Vec<u8>,
    customer: u16,
    question: Question,
    /// What the lent ledger holds, where one is lent.
    ledger: Option<Vec<u8>>,
}

fn parse(line: &str) -> Result<Line, String> {
    let words: Vec<&str> = line.split(' ').collect();
    let kind = match words[0] {
        "table" => Kind::CheckTable,
        "check" => Kind::CheckMessage,
        "sheet" => Kind::MessageToSheet,
        "write" => Kind::SheetToMessage,
        "rewrite" => Kind::Rewrite,
        "num" => Kind::ReadNumber,
        "bytes" => Kind::ReadBytes,
        "store" => Kind::CheckStore,
        "storeadd" => Kind::AddSettings,
        "storeget" => Kind::ReadSettings,
        "tape" => Kind::ReadTape,
        "ledger" => Kind::AddLine,
        "shape" => Kind::FieldShape,
        "" => return Err("no question".to_string()),
        other => return Err(format!("unknown question `{other}`")),
    };
    let due = match kind {
        Kind::CheckTable | Kind::CheckStore => 1,
        Kind::SheetToMessage | Kind::ReadSettings | Kind::FieldShape => 3,
        Kind::CheckMessage | Kind::ReadTape => 5,
        Kind::MessageToSheet | Kind::AddSettings => 6,
        Kind::Rewrite | Kind::ReadNumber | Kind::ReadBytes => 7,
        Kind::AddLine | Kind::AddLines => 8,
    };
    if words.len() - 1 != due {
        let given = words.len() - 1;
        return Err(format!("`{}` takes {due} words, not {given}", words[0]));
    }
    let first = bytes(words[1])?;
    let whole = |question| Line { table: Vec::new(), store: Vec::new(), customer: 0, question, ledger: None };
    match kind {
        Kind::CheckTable | Kind::CheckStore => return Ok(whole(Question::new(kind, first))),
        Kind::ReadSettings => {
            let (customer, version) = (short(words[2])?, short(words[3])?);
            return Ok(whole(Question::read_settings(first, customer, version)));
        }
        Kind::AddSettings => {
            let (customer, version) = (short(words[2])?, short(words[3])?);
            let flags = [byte(words[4])?, byte(words[5])?, byte(words[6])?];
            return Ok(whole(Question::add_settings(first, customer, version, flags)));
        }
        Kind::FieldShape => {
            let question = Question::field_shape(number(words[2])?, number(words[3])?);
            return Ok(Line { table: first, ..whole(question) });
        }
        _ => {}
    }
    let mut question = Question::new(kind, bytes(words[2])?);
    if kind == Kind::SheetToMessage {
        question.output = room(words[3])?;
        return Ok(Line { table: first, ..whole(question) });
    }
    question.scratch = room(words[3])?;
    match kind {
        Kind::MessageToSheet => question.sheet = room(words[6])?,
        Kind::Rewrite => {
            question.sheet = room(words[6])?;
            question.output = room(words[7])?;
        }
        Kind::ReadNumber | Kind::ReadBytes => {
            question.field = number(words[6])?;
            question.item = number(words[7])?;
        }
        _ => {}
    }
    let (store, customer) = (bytes(words[4])?, short(words[5])?);
    let mut ledger = None;
    if kind == Kind::AddLine {
        let lent = bytes(words[7])?;
        question.field = number(words[6])?;
        question.output = lent.len();
        question.item = number(words[8])?;
        ledger = Some(lent);
    }
    Ok(Line { table: first, store, customer, question, ledger })
}

fn bytes(word: &str) -> Result<Vec<u8>, String> {
    if word == "-" {
        return Ok(Vec::new());
    }
    let digits: Option<Vec<u8>> = word.bytes().map(hex_digit).collect();
    match digits {
        Some(digits) if !digits.is_empty() && digits.len() % 2 == 0 => {
            Ok(digits.chunks(2).map(|pair| pair[0] << 4 | pair[1]).collect())
        }
        _ => Err(format!("`{}` is no lowercase hex of whole bytes", start(word))),
    }
}

fn hex_digit(digit: u8) -> Option<u8> {
    match digit {
        b'0'..=b'9' => Some(digit - b'0'),
        b'a'..=b'f' => Some(digit - b'a' + 10),
        _ => None,
    }
}

fn room(word: &str) -> Result<usize, String> {
    match number(word)?.try_into() {
        Ok(length) if length <= MAX_ROOM => Ok(length),
        _ => Err(format!("a room of {word} bytes is over {MAX_ROOM}")),
    }
}

fn number(word: &str) -> Result<u64, String> {
    let decimal = !word.is_empty() && word.bytes().all(|digit| digit.is_ascii_digit());
    match word.parse() {
        Ok(number) if decimal => Ok(number),
        _ => Err(format!("`{}` is no decimal number below 2^64", start(word))),
    }
}

/// A customer or a version.
fn short(word: &str) -> Result<u16, String> {
    number(word)?.try_into().map_err(|_| format!("{word} is over 65535"))
}

fn byte(word: &str) -> Result<u8, String> {
    number(word)?.try_into().map_err(|_| format!("{word} is over 255"))
}

/// As much of a word as a message needs to show.
fn start(word: &str) -> String {
    match word.char_indices().nth(24) {
        Some((end, _)) => format!("{}...", &word[..end]),
        None => word.to_string(),
    }
}

fn answer_words(answer: &Answer, question: &Question, reply: &Reply) -> String {
    match answer {
        Answer::Accepted if question.kind == Kind::AddSettings => format!(" {}", hex(&reply.store)),
        Answer::Accepted => String::new(),
        Answer::Settings(Ignored { absent, pads, unused }) => {
            format!(" {} {} {}", u8::from(*absent), u8::from(*pads), u8::from(*unused))
        }
        Answer::Written(length) if question.kind == Kind::MessageToSheet => {
            format!(" {}", hex(&reply.sheet[..*length]))
        }
        Answer::Written(length) => format!(" {}", hex(&reply.output[..*length])),
        Answer::Number(number) => match number {
            Number::Signed(value) => format!(" signed {value}"),
            Number::Unsigned(value) => format!(" unsigned {value}"),
            Number::Bool(value) => format!(" bool {}", u8::from(*value)),
            Number::Decimal { exponent, mantissa } => format!(" decimal {exponent} {mantissa}"),
            Number::Float(value) => format!(" float {:016x}", value.to_bits()),
        },
        Answer::Part(part) => {
            let bytes = &question.input[part.clone()];
            format!(" {} {} {}", part.start, part.len(), hex(bytes))
        }
        Answer::Fill(fill) => format!(" {fill} {}", hex(&reply.output)),
        Answer::Shape(FieldShape { ty, optional, sequence, size }) => {
            format!(" {} {} {} {size}", *ty as u8, u8::from(*optional), u8::from(*sequence))
        }
        Answer::Steps(_) | Answer::Calls(_) => unreachable!("a tape has its own words"),
    }
}

fn tape_words(steps: &[Step]) -> String {
    let entry = |step: &Step| {
        let (number, place) = verdict(step.answer.as_ref()?);
        Some(format!("{number}:{place}:{}", step.bytes.len()))
    };
    let entries: Vec<String> = steps.iter().filter_map(entry).collect();
    match entries.is_empty() {
        true => "-".to_string(),
        false => entries.join(";"),
    }
}

fn hex(bytes: &[u8]) -> String {
    if bytes.is_empty() {
        return "-".to_string();
    }
    bytes.iter().map(|byte| format!("{byte:02x}")).collect()
}
