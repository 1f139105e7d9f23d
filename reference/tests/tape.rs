//! Document 02's tape: its sentences one by one, and random tapes against a
//! plain reading that first cuts a tape into messages and then asks about
//! each one alone.

use std::collections::BTreeMap;

use blink_reference::generate::edges::group;
use blink_reference::generate::store::{setting, store};
use blink_reference::generate::table::{field, TablePlan};
use blink_reference::generate::{edges, settings_batch, tape_batch, Random};
use blink_reference::question::{ask, pattern, Answer, Kind, Question};
use blink_reference::{
    check_message, check_table, next_message, Fault, FaultNumber, Settings, TapeMessage, TapeReader, Type,
};

fn fault(number: FaultNumber, place: usize) -> Result<(), Fault> {
    Err(Fault { number, place })
}

/// A text, and a group without fields.
fn table() -> Vec<u8> {
    TablePlan::new().group(1, &[field(Type::String)]).group(2, &[]).encode()
}

/// A message with this text.
fn message(text: &[u8]) -> Vec<u8> {
    let count = text.len() as u32;
    group(1, 0, &[&4_u32.to_le_bytes(), &count.to_le_bytes(), text])
}

/// With no settings and scratch of 100 bytes, which is tested to be untouched
/// or cleared as far as said.
fn next<'t>(table: &[u8], reader: &mut TapeReader<'t>, cleared: usize) -> Option<TapeMessage<'t>> {
    let mut scratch = pattern(100);
    let message = next_message(table, &[], 0, reader, &mut scratch);
    assert!(scratch[..cleared].iter().all(|&byte| byte == 0));
    assert_eq!(scratch[cleared..], pattern(100)[cleared..]);
    message
}

/// All answers of a reader with no settings and scratch of 100 bytes.
fn answers(table: &[u8], tape: &[u8]) -> Vec<Result<(), Fault>> {
    let mut reader = TapeReader::new(tape);
    std::iter::from_fn(|| next_message(table, &[], 0, &mut reader, &mut [0; 100]))
        .map(|message| message.answer)
        .collect()
}

/// "hands out the next message's own bytes (the empty part if refused) with
/// its check answer"
#[test]
fn a_message_is_handed_out_as_a_part_of_the_tape() {
    let (first, broken, last) = (message(b"one"), message(b"\xff"), message(b"three"));
    let tape = [&first[..], &broken, &last].concat();
    let mut reader = TapeReader::new(&tape);
    let given = next(&table(), &mut reader, 27).unwrap();
    assert_eq!((given.bytes, given.answer), (&first[..], Ok(())));
    assert_eq!(given.bytes.as_ptr(), tape.as_ptr());
    let given = next(&table(), &mut reader, 25).unwrap();
    assert_eq!((given.bytes, given.answer), (&[][..], fault(FaultNumber::NotUtf8, 24)));
    let given = next(&table(), &mut reader, 29).unwrap();
    assert_eq!((given.bytes, given.answer), (&last[..], Ok(())));
    assert_eq!(given.bytes.as_ptr(), tape[52..].as_ptr());
    assert_eq!(next(&table(), &mut reader, 0), None);
}

/// "A refused message is passed over by its size word." Whatever the size and
/// the fault.
#[test]
fn a_refused_message_is_passed_over() {
    let good = message(b"good");
    for size in (0..40_u32).chain([1_000, 65_532, 65_533, 70_000]) {
        let refused = [size.to_le_bytes().to_vec(), vec![0; size as usize]].concat();
        let tape = [&refused[..], &good].concat();
        let mut reader = TapeReader::new(&tape);
        let mut scratch = vec![0; 65_536];
        let given = next_message(&table(), &[], 0, &mut reader, &mut scratch).unwrap();
        let number = match size {
            0..12 => FaultNumber::SizeUnder12,
            12..65_533 => FaultNumber::UnknownType,
            _ => FaultNumber::MessageTooLong,
        };
        assert_eq!((given.bytes, given.answer), (&[][..], fault(number, 0)));
        assert_eq!(reader.place, 4 + size as usize);
        let given = next_message(&table(), &[], 0, &mut reader, &mut scratch).unwrap();
        assert_eq!((given.bytes, given.answer), (&good[..], Ok(())));
    }
}

/// "With no bytes left the tape ends without a refusal; once ended, none are
/// left."
#[test]
fn a_tape_stays_ended() {
    let good = message(b"good");
    let refused = b"no table".to_vec();
    for table in [table(), refused, Vec::new()] {
        for tape in [&[][..], &good, &good[..20], &[0]] {
            let mut reader = TapeReader::new(tape);
            let given = next_message(&table, &[], 0, &mut reader, &mut [0; 100]);
            assert_eq!(given.is_some(), !tape.is_empty());
            assert!(reader.has_ended());
            for _ in 0..3 {
                assert_eq!(next(&table, &mut reader, 0), None);
                assert_eq!(reader.place, tape.len());
            }
        }
        for place in [good.len(), good.len() + 1, usize::MAX] {
            let mut reader = TapeReader { tape: &good, place };
            assert_eq!(next(&table, &mut reader, 0), None);
            assert_eq!(reader.place, place);
        }
    }
}

/// "If 1 to 3 are left, or the size passes the tape's end, answer 22 with the
/// place on the tape where it starts, scratch untouched, and end."
#[test]
fn a_cut_tail() {
    let good = message(b"good");
    let great = [&u32::MAX.to_le_bytes()[..], &good].concat();
    let tails: Vec<&[u8]> = (1..good.len()).map(|cut| &good[..cut]).chain([&great[..]]).collect();
    for before in [0, 1, 2, 5] {
        for tail in &tails {
            let tape = [&good.repeat(before)[..], tail].concat();
            let start = good.len() * before;
            let mut reader = TapeReader { tape: &tape, place: start };
            let given = next(&table(), &mut reader, 0).unwrap();
            assert_eq!((given.bytes, given.answer), (&[][..], fault(FaultNumber::LengthNotSize, start)));
            assert_eq!(reader.place, tape.len());
            // No scratch is asked for, and no store.
            let mut reader = TapeReader { tape: &tape, place: start };
            assert_eq!(next_message(&table(), &[1], 0, &mut reader, &mut []), Some(given));
        }
    }
}

/// "Where bytes are left, 20 comes first and ends the tape, then that 22; 23
/// and 21 keep their order per message." And then 50.
#[test]
fn the_order_of_the_faults() {
    use FaultNumber::{LengthNotSize, MessageTooLong, ScratchTooShort, StoreDamaged, TableRefused};
    let long = [&65_533_u32.to_le_bytes()[..], &[0; 65_533]].concat();
    let (good, broken) = (message(b"good"), message(b"\xff\xff\xff\xff\xff"));
    let tape = [&long[..], &broken, &good, &long, &[0; 4], &good, &long[..65_536]].concat();
    let read = |table: &[u8], scratch: usize| {
        let mut reader = TapeReader::new(&tape);
        let mut scratch = vec![0; scratch];
        std::iter::from_fn(|| next_message(table, &[7], 0, &mut reader, &mut scratch))
            .map(|message| message.answer.map_err(|fault| fault.number))
            .collect::<Vec<_>>()
    };
    assert_eq!(read(&[], 0), [Err(TableRefused)]);
    let due = |broken, good, short| {
        [MessageTooLong, broken, good, MessageTooLong, short, good, LengthNotSize].map(Err).to_vec()
    };
    assert_eq!(read(&table(), 0), due(ScratchTooShort, ScratchTooShort, ScratchTooShort));
    assert_eq!(read(&table(), 28), due(ScratchTooShort, StoreDamaged, StoreDamaged));
    assert_eq!(read(&table(), 29), due(StoreDamaged, StoreDamaged, StoreDamaged));
}

/// "Other places count from the message's start", and the answers are those
/// of the messages alone.
#[test]
fn places_count_from_the_messages_start() {
    let bad = [message(b"a\xff"), group(3, 0, &[]), group(2, 0, &[b"\0?"]), vec![11; 15], group(1, 1, &[])];
    let bad: Vec<Vec<u8>> = bad
        .map(|mut message| {
            let size = message.len() as u32 - 4;
            message[..4].copy_from_slice(&size.to_le_bytes());
            message
        })
        .to_vec();
    let alone: Vec<_> =
        bad.iter().map(|message| check_message(&table(), &[], 0, message, &mut [0; 100])).collect();
    assert!(alone.iter().all(Result::is_err));
    assert_eq!(answers(&table(), &bad.concat()), alone);
    let good = message(b"good");
    let tape: Vec<u8> = bad.iter().flat_map(|bad| [&good[..], bad].concat()).collect();
    let due: Vec<_> = alone.iter().flat_map(|&answer| [Ok(()), answer]).collect();
    assert_eq!(answers(&table(), &tape), due);
}

/// As many messages as a tape can have: it is read in one pass.
#[test]
fn a_tape_of_zeros() {
    for length in [65_536, 1 << 22] {
        let tape = vec![0; length];
        let table = table();
        let schema = check_table(&table).unwrap();
        let mut reader = TapeReader::new(&tape);
        let mut count = 0;
        while let Some(given) = schema.next_message(Settings::NONE, &mut reader, &mut [9; 4]) {
            assert_eq!(given.answer, fault(FaultNumber::SizeUnder12, 0));
            count += 1;
        }
        assert_eq!(count, length / 4);
    }
}

/// The messages of a tape and, where one is cut off, its place; by the sums
/// of the sizes, in numbers that cannot wrap.
fn plain_messages(tape: &[u8], place: u128) -> (Vec<&[u8]>, Option<usize>) {
    let end = tape.len() as u128;
    let mut starts = vec![place];
    let mut cut = None;
    loop {
        let start = starts[starts.len() - 1];
        if start >= end {
            break;
        }
        let size = |at: usize| (0..4).map(|byte| u128::from(tape[at + byte]) << (8 * byte)).sum::<u128>();
        if start + 4 > end || start + 4 + size(start as usize) > end {
            cut = Some(start as usize);
            break;
        }
        starts.push(start + 4 + size(start as usize));
    }
    (starts.windows(2).map(|pair| &tape[pair[0] as usize..pair[1] as usize]).collect(), cut)
}

/// What is due: bytes handed out, answer, and scratch, by message.
type Due = Vec<(Vec<u8>, Result<(), Fault>, Vec<u8>)>;

fn plain(table: &[u8], settings: Settings, question: &Question) -> Due {
    let (messages, cut) = plain_messages(&question.input, question.field.into());
    let untouched = pattern(question.scratch);
    if check_table(table).is_err() {
        let any = !messages.is_empty() || cut.is_some();
        let refusal = (Vec::new(), fault(FaultNumber::TableRefused, 0), untouched);
        return if any { vec![refusal] } else { Vec::new() };
    }
    let mut due: Due = Vec::new();
    for message in messages {
        let mut scratch = untouched.clone();
        let answer = check_message(table, settings.store, settings.customer, message, &mut scratch);
        due.push((if answer.is_ok() { message.to_vec() } else { Vec::new() }, answer, scratch));
    }
    due.extend(cut.map(|place| (Vec::new(), fault(FaultNumber::LengthNotSize, place), untouched)));
    due
}

fn given(table: &[u8], settings: Settings, question: &Question) -> Due {
    let Ok(Answer::Steps(mut steps)) = ask(table, settings, question).answer else {
        unreachable!("a tape is read in steps");
    };
    let end = steps.pop().unwrap();
    assert_eq!((end.answer, end.bytes), (None, Vec::new()));
    assert_eq!((end.start, end.scratch), (end.next, pattern(question.scratch)));
    steps.into_iter().map(|step| (step.bytes, step.answer.unwrap(), step.scratch)).collect()
}

/// `ask` tests on the way that a prepared schema gives the same answers.
#[test]
fn random_tapes_are_read_as_by_a_plain_reading() {
    let mut counts: BTreeMap<u8, usize> = BTreeMap::new();
    let mut compare = |table: &[u8], settings: Settings, question: &Question| {
        let given = given(table, settings, question);
        assert!(given == plain(table, settings, question), "{question:02x?}");
        for (_, answer, _) in given {
            *counts.entry(answer.map_or_else(|fault| fault.number as u8, |()| 0)).or_default() += 1;
        }
    };
    for seed in 50_000..80_000 {
        let batch = tape_batch(seed);
        for asked in &batch.asked {
            compare(&batch.table, asked.settings(), &asked.question);
        }
    }
    for edge in edges().iter().filter(|edge| edge.question.kind == Kind::ReadTape) {
        compare(&edge.table, edge.settings(), &edge.question);
    }
    let numbers = (0..=14).chain(20..=27).chain([50]);
    let missing: Vec<u8> =
        numbers.filter(|number| counts.get(number).is_none_or(|&count| count < 9)).collect();
    assert!(missing.is_empty(), "few cases gave {missing:?}: {counts:?}");
}

/// Tapes of messages that were asked about for themselves, cut anywhere: the
/// answers before the cut are those of the messages alone.
#[test]
fn messages_end_to_end_answer_as_alone() {
    let mut random = Random::new(11);
    let mut read = 0;
    for seed in 0..3_000 {
        let batch = settings_batch(seed);
        if check_table(&batch.table).is_err() {
            continue;
        }
        let messages: Vec<&[u8]> = batch
            .asked
            .iter()
            .filter(|asked| asked.question.kind == Kind::CheckMessage)
            .map(|asked| &asked.question.input[..])
            .filter(|input| plain_messages(input, 0) == (vec![input], None) && input.len() < 1_000)
            .collect();
        let tape = messages.concat();
        let kept = tape.len() - random.below(tape.len() + 1) * random.below(2);
        let flags = random.pick(&[[0, 0, 0], [1, 1, 1]]);
        let held = store(&[setting(4, 1, flags)], 0);
        let scratch = random.pick(&[1_000, 1_000, 60, 0]);
        let question = Question::read_tape(tape[..kept].to_vec(), scratch);
        let given = given(&batch.table, Settings::of(&held, 4), &question);
        let mut end = 0;
        for (index, message) in messages.iter().enumerate() {
            end += message.len();
            if end > kept {
                break;
            }
            let mut alone = pattern(scratch);
            let answer = check_message(&batch.table, &held, 4, message, &mut alone);
            assert_eq!((&given[index].1, &given[index].2), (&answer, &alone));
            assert_eq!(given[index].0, if answer.is_ok() { message } else { &[][..] });
            read += 1;
        }
    }
    assert!(read > 5_000, "only {read} messages were read");
}
