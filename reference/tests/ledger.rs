//! Document 02's ledger: its sentences one by one, and random questions
//! against a plain reading that makes the line of the message's sheet.

use std::collections::BTreeMap;

use blink_reference::generate::edges::group;
use blink_reference::generate::table::{field, FieldPlan, TablePlan};
use blink_reference::generate::{edges, ledger_batch, Asked, Random};
use blink_reference::question::{ask, pattern, Answer, Call, Kind, Question};
use blink_reference::{
    add_line, check_message, check_table, field_shape, message_to_sheet, Fault, FaultNumber, FieldShape,
    Settings, Type,
};

const BLANK: u64 = 1;
const CHILD: u64 = 2;

fn fields() -> [FieldPlan; 5] {
    let (string, number) = (field(Type::String), field(Type::U32));
    [string, number, number, field(Type::Enumeration), string.optional()]
}

/// Blank, and a group below it.
fn table() -> Vec<u8> {
    TablePlan::new().enumeration(&[-1, 0, 3]).group(BLANK, &fields()).child(0, CHILD, &[]).encode()
}

fn message_of(id: u64, barcode: &[u8], grade: i32) -> Vec<u8> {
    let count = barcode.len() as u32;
    let numbers = [2_680, 5_912].map(u32::to_le_bytes).concat();
    let (offset, grade) = (21_u32.to_le_bytes(), grade.to_le_bytes());
    group(id, 0, &[&offset, &numbers, &grade, &[0; 5], &count.to_le_bytes(), barcode])
}

fn message(barcode: &[u8]) -> Vec<u8> {
    message_of(BLANK, barcode, 3)
}

/// With no settings and scratch enough, for the group Blank.
fn enter(message: &[u8], ledger: &mut [u8], fill: usize) -> Result<usize, Fault> {
    add_line(&table(), &[], 0, message, &mut vec![7; message.len()], BLANK, ledger, fill)
}

fn refusal(number: FaultNumber) -> Result<usize, Fault> {
    Err(Fault { number, place: 0 })
}

/// "one fixed 64-byte ledger line: mark `LB`, barcode count u8, barcode up to
/// 40 bytes and zeros, density, speed and grade as wire bytes, zeros to 64"
#[test]
fn a_line_by_its_bytes() {
    let mut due = b"LB\x0fQZ-2026-07-0042".to_vec();
    due.resize(43, 0);
    due.extend(b"\x78\x0a\0\0\x18\x17\0\0\xff\xff\xff\xff");
    due.resize(64, 0);
    let mut ledger = pattern(200);
    let message = message_of(BLANK, b"QZ-2026-07-0042", -1);
    assert_eq!(enter(&message, &mut ledger, 100), Ok(164));
    assert_eq!(ledger[..100], pattern(200)[..100]);
    assert_eq!(ledger[100..164], due);
    assert_eq!(ledger[164..], pattern(200)[164..]);

    let barcode: Vec<u8> = (b'0'..b'0' + 40).collect();
    let mut ledger = [0xee; 64];
    assert_eq!(enter(&self::message(&barcode), &mut ledger, 0), Ok(64));
    assert_eq!(ledger[..3], *b"LB\x28");
    assert_eq!(ledger[3..43], barcode);
    assert_eq!(ledger[43..], *b"\x78\x0a\0\0\x18\x17\0\0\x03\0\0\0\0\0\0\0\0\0\0\0\0");
}

/// The line of an inline barcode is that of the same one in the data area.
#[test]
fn inline_strings_are_strings() {
    let mut fields = fields();
    fields[0].size = 40;
    fields[4].size = 9;
    let inline = TablePlan::new().enumeration(&[-1, 0, 3]).group(BLANK, &fields).encode();
    for count in 0..=40 {
        let barcode = &[b'x'; 40][..count];
        let mut bytes = vec![count as u8];
        bytes.extend(barcode);
        bytes.resize(41, 0);
        let numbers = [2_680, 5_912, 3].map(u32::to_le_bytes).concat();
        let inlined = group(BLANK, 0, &[&bytes, &numbers, &[0; 11]]);
        let (mut ledger, mut other) = ([1; 64], [2; 64]);
        let answer = add_line(&inline, &[], 0, &inlined, &mut [0; 100], BLANK, &mut ledger, 0);
        assert_eq!(answer, enter(&message(barcode), &mut other, 0));
        match answer {
            Ok(fill) => assert_eq!((fill, ledger), (64, other)),
            Err(_) => assert_eq!((count, ledger, other), (0, [1; 64], [2; 64])),
        }
    }
}

/// "makes no line and leaves the ledger as it was", "tested last, same effect"
#[test]
fn a_refusal_leaves_the_ledger_as_it_was() {
    use FaultNumber::{BarcodeLength, LedgerFull, NotBlank};
    let cases = [
        (message(b""), 64, 0, refusal(BarcodeLength)),
        (message(&[b'x'; 41]), 64, 0, refusal(BarcodeLength)),
        (message(b""), 0, 0, refusal(BarcodeLength)),
        (message_of(CHILD, b"x", 3), 64, 0, refusal(NotBlank)),
        (message_of(CHILD, b"", 3), 64, 9, refusal(NotBlank)),
        (message(b"x"), 63, 0, refusal(LedgerFull)),
        (message(b"x"), 64, 1, refusal(LedgerFull)),
        (message(b"x"), 64, 64, refusal(LedgerFull)),
        (message(b"x"), 64, 65, refusal(LedgerFull)),
        (message(b"x"), 200, usize::MAX, refusal(LedgerFull)),
        (message(b"x"), 200, usize::MAX - 63, refusal(LedgerFull)),
        (message(b"\xff"), 0, 7, Err(Fault { number: FaultNumber::NotUtf8, place: 41 })),
        (message_of(CHILD, b"", 2), 0, 7, Err(Fault { number: FaultNumber::NoSuchSymbol, place: 28 })),
    ];
    for (message, length, fill, due) in cases {
        let mut ledger = pattern(length);
        assert_eq!(enter(&message, &mut ledger, fill), due);
        assert_eq!(ledger, pattern(length));
    }
}

/// "From an empty ledger, over any run of calls, each given ledger and fill as
/// the last left them, it holds exactly the lines of the messages that none of
/// these refuse, in order, up to the first 56."
#[test]
fn a_ledger_holds_the_lines_of_its_run() {
    let line_of = |message: &[u8]| {
        let mut line = [9; 64];
        enter(message, &mut line, 0).map(|_| line)
    };
    let mut random = Random::new(5);
    let mut full = 0;
    for _ in 0..2_000 {
        let messages: Vec<Vec<u8>> = (0..random.below(12))
            .map(|_| match random.below(6) {
                0 => message(b"\xff"),
                1 => message(&[b'x'; 50][..random.pick(&[0, 41])]),
                2 => message_of(CHILD, b"child", 3),
                _ => message_of(BLANK, &random.number().to_string().into_bytes(), random.pick(&[-1, 0, 3])),
            })
            .collect();
        let length = 64 * random.below(9) + random.below(64);
        let before = random.bytes(length);
        let (mut ledger, mut fill) = (before.clone(), 0);
        let (mut due, mut is_full) = (Vec::new(), false);
        for message in &messages {
            let answer = enter(message, &mut ledger, fill);
            fill = answer.unwrap_or(fill);
            is_full |= answer == refusal(FaultNumber::LedgerFull);
            match line_of(message) {
                Ok(line) if !is_full => due.extend(line),
                Ok(_) => assert_eq!(answer, refusal(FaultNumber::LedgerFull)),
                // Its own number, whether or not the ledger is full.
                Err(fault) => assert_eq!(answer, Err(fault)),
            }
        }
        full += usize::from(is_full);
        assert_eq!(fill, due.len());
        assert_eq!(ledger[..fill], due);
        assert_eq!(ledger[fill..], before[fill..]);
    }
    assert!((500..1_500).contains(&full), "{full} ledgers became full");
}

/// The field records of the group with this id.
fn records(table: &[u8], id: u64) -> Option<Vec<&[u8]>> {
    let records: Vec<&[u8]> = table.chunks(16).collect();
    let head = records.iter().position(|record| {
        matches!(&record[..2], b"GR" | b"GW") && record[10] == 1 && record[2..10] == id.to_le_bytes()
    })?;
    let count = usize::from(records[head][13]);
    Some(records[head + 1..head + 1 + count].to_vec())
}

/// Type, optional and sequence of Blank's fields.
const SHAPES: [[u8; 3]; 5] = [[17, 0, 0], [5, 0, 0], [5, 0, 0], [20, 0, 0], [17, 1, 0]];

/// What is due for one message: the answer, and the ledger.
fn plain(
    table: &[u8],
    settings: Settings,
    message: &[u8],
    question: &Question,
    ledger: &mut [u8],
    fill: usize,
) -> Result<usize, Fault> {
    let Settings { store, customer } = settings;
    check_message(table, store, customer, message, &mut pattern(question.scratch))?;
    let mut sheet = vec![0; 11 * message.len()];
    let scratch = &mut vec![0; message.len()];
    let length = message_to_sheet(table, store, customer, message, scratch, &mut sheet).unwrap();
    let sheet = &sheet[..length];
    let id = question.field;
    let is_named = sheet.starts_with(&[&b"GB"[..], &id.to_le_bytes()].concat());
    let fields = records(table, id).unwrap_or_default();
    if !is_named || !fields.iter().map(|record| &record[2..5]).eq(SHAPES.iter().map(|shape| &shape[..])) {
        return refusal(FaultNumber::NotBlank);
    }
    let (barcode, rest) = sheet[12..].split_first_chunk::<4>().unwrap();
    let (barcode, rest) = rest.split_at(u32::from_le_bytes(*barcode) as usize);
    if barcode.is_empty() || barcode.len() > 40 {
        return refusal(FaultNumber::BarcodeLength);
    }
    if ledger.len() as u128 <= 63 + fill as u128 {
        return refusal(FaultNumber::LedgerFull);
    }
    let zeros = vec![0; 40 - barcode.len()];
    let (density, speed, grade) = (&rest[2..6], &rest[8..12], &rest[14..18]);
    let line = [b"LB", &[barcode.len() as u8][..], barcode, &zeros, density, speed, grade, &[0; 9]].concat();
    ledger[fill..fill + 64].copy_from_slice(&line);
    Ok(fill + 64)
}

/// The messages of a tape by their size words, the rest as one; under a
/// refused table all is the rest.
fn messages<'t>(table: &[u8], tape: &'t [u8]) -> Vec<&'t [u8]> {
    if check_table(table).is_err() {
        return if tape.is_empty() { Vec::new() } else { vec![tape] };
    }
    let (mut messages, mut at) = (Vec::new(), 0);
    while at < tape.len() {
        let size: u128 =
            (0..4).map(|byte| u128::from(*tape.get(at + byte).unwrap_or(&255)) << (8 * byte)).sum();
        let end = (at as u128 + 4 + size).min(tape.len() as u128) as usize;
        messages.push(&tape[at..end]);
        at = end;
    }
    messages
}

/// Asks one question of the ledger, and gives the fault numbers.
fn compare(table: &[u8], settings: Settings, question: &Question) -> Vec<u8> {
    let reply = ask(table, settings, question);
    let mut ledger = pattern(question.output);
    let mut fill = question.item as usize;
    match (question.kind, &reply.answer) {
        (Kind::AddLine, answer) => {
            let due = plain(table, settings, &question.input, question, &mut ledger, fill);
            assert_eq!(*answer, due.map(Answer::Fill), "{question:02x?}");
        }
        (Kind::AddLines, Ok(Answer::Calls(calls))) => {
            let messages = messages(table, &question.input);
            assert_eq!(calls.len(), messages.len());
            for (Call { answer, .. }, message) in calls.iter().zip(messages) {
                assert_eq!(*answer, plain(table, settings, message, question, &mut ledger, fill));
                fill = answer.unwrap_or(fill);
            }
        }
        (Kind::FieldShape, answer) => {
            assert_eq!(*answer, plain_shape(table, question.field, question.item).map(Answer::Shape));
        }
        (kind, answer) => unreachable!("{kind:?} does not answer {answer:?}"),
    }
    assert!(reply.output == ledger, "{question:02x?}");
    reply.verdicts().into_iter().map(|(number, _)| number).collect()
}

fn plain_shape(table: &[u8], id: u64, field: u64) -> Result<FieldShape, Fault> {
    let refused = |number| Err(Fault { number, place: 0 });
    if check_table(table).is_err() {
        return refused(FaultNumber::TableRefused);
    }
    let Some(fields) = records(table, id) else {
        return refused(FaultNumber::UnknownType);
    };
    let numbered: BTreeMap<u64, &&[u8]> = (0..).zip(&fields).collect();
    match numbered.get(&field) {
        None => refused(FaultNumber::NoSuchFieldOrItem),
        Some(record) => Ok(FieldShape {
            ty: Type::from_number(record[2]).unwrap(),
            optional: record[3] == 1,
            sequence: record[4] == 1,
            size: record[5],
        }),
    }
}

/// `ask` tests on the way what is promised of lent bytes.
#[test]
fn random_lines_are_those_of_a_plain_reading() {
    let mut counts: BTreeMap<(Kind, u8), usize> = BTreeMap::new();
    let mut compare = |table: &[u8], settings: Settings, question: &Question| {
        for number in compare(table, settings, question) {
            *counts.entry((question.kind, number)).or_default() += 1;
        }
    };
    for seed in 50_000..70_000 {
        let batch = ledger_batch(seed);
        for asked in &batch.asked {
            compare(&batch.table, Asked::settings(asked), &asked.question);
        }
    }
    for edge in edges().iter().filter(|edge| Kind::OF_LEDGERS.contains(&edge.question.kind)) {
        compare(&edge.table, edge.settings(), &edge.question);
    }
    let of_messages = (0..=14).chain(20..=22).chain([26, 27, 50, 54, 55, 56]);
    let of_shapes = [0, 2, 20, 28];
    let wanted = of_messages
        .flat_map(|number| [(Kind::AddLine, number), (Kind::AddLines, number)])
        .chain(of_shapes.map(|number| (Kind::FieldShape, number)));
    let missing: Vec<_> = wanted.filter(|case| counts.get(case).is_none_or(|&count| count < 9)).collect();
    assert!(missing.is_empty(), "few cases gave {missing:?}: {counts:?}");
}

/// The answers of the questions at the top of the crate are those of a schema
/// that was prepared.
#[test]
fn a_prepared_schema_answers_the_same() {
    let table = table();
    let schema = check_table(&table).unwrap();
    for message in [message(b"QZ-1"), message(b""), message(b"\xff"), message_of(CHILD, b"QZ-1", 0)] {
        for (id, fill) in [(BLANK, 0), (BLANK, 1), (CHILD, 0), (7, 0)] {
            let (mut ledger, mut other) = ([3; 64], [3; 64]);
            let (mut scratch, mut cleared) = ([5; 60], [5; 60]);
            let answer = add_line(&table, &[], 0, &message, &mut scratch, id, &mut ledger, fill);
            let due = schema.add_line(Settings::NONE, &message, &mut cleared, id, &mut other, fill);
            assert_eq!((answer, ledger, scratch), (due, other, cleared));
        }
    }
    for (id, field) in [(BLANK, 0), (BLANK, 4), (BLANK, 5), (CHILD, 4), (3, 0)] {
        assert_eq!(field_shape(&table, id, field), schema.field_shape(id, field));
    }
}
