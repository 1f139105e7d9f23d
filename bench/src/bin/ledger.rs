//! A ledger's line beside the check of the same message, and a whole tape into a ledger, each beside the second program. The
//! table is checked in each call on both sides.
use blink_bench::answers::{ours, theirs};
use blink_bench::{compare, compare_rates, heading, heading_rates, messages, steps, stores, tapes};
use blink_native::{Ledger, LINE_LENGTH};
use blink_reference::{Settings, TapeReader};
use std::hint::black_box;

const TABLE: &[u8] = include_bytes!("../../../samples/blank.table");
/// The type id of the blanks' group.
const BLANK: u64 = 1;
const MESSAGES: usize = 100_000;
const RATE: usize = 300;

/// What a question about a blank takes, but for the rooms.
struct Asked<'a> {
    table: &'a [u8],
    settings: Settings<'a>,
    message: &'a [u8],
}

impl Asked<'_> {
    fn under(&self) -> blink_native::Settings<'_> {
        blink_native::Settings::of(self.settings.store, self.settings.customer)
    }

    fn our_check(&self, scratch: &mut [u8]) -> bool {
        self.under().check_message(self.table, self.message, scratch).is_ok()
    }

    fn their_check(&self, scratch: &mut [u8]) -> bool {
        let Settings { store, customer } = self.settings;
        blink_reference::check_message(self.table, store, customer, self.message, scratch).is_ok()
    }

    fn our_line(&self, scratch: &mut [u8], line: &mut [u8]) -> Result<(), blink_native::Fault> {
        self.under().add_line(self.table, self.message, scratch, BLANK, &mut Ledger::new(line))
    }

    fn their_line(&self, scratch: &mut [u8], line: &mut [u8]) -> Result<usize, blink_reference::Fault> {
        let Settings { store, customer } = self.settings;
        blink_reference::add_line(self.table, store, customer, self.message, scratch, BLANK, line, 0)
    }
}

/// A line, and the check of its message, by both sides; then each side's line beside its own check.
fn time_line(name: &str, asked: &Asked) {
    let (mut scratch, mut other) = (vec![0u8; asked.message.len()], vec![0u8; asked.message.len()]);
    let (mut line, mut other_line) = ([0xa5; LINE_LENGTH], [0x5a; LINE_LENGTH]);
    assert_eq!(ours(asked.our_line(&mut scratch, &mut line)), Ok(()), "{name}");
    assert_eq!(theirs(asked.their_line(&mut other, &mut other_line)), Ok(LINE_LENGTH), "{name}");
    assert_eq!(line, other_line, "{name}");
    heading("proved", "reference");
    compare(
        &format!("check{name}"),
        &mut || _ = black_box(black_box(asked).our_check(&mut scratch)),
        &mut || _ = black_box(black_box(asked).their_check(&mut other)),
    );
    compare(
        &format!("a line{name}"),
        &mut || _ = black_box(black_box(asked).our_line(&mut scratch, &mut line)),
        &mut || _ = black_box(black_box(asked).their_line(&mut other, &mut other_line)),
    );
    heading("a line", "check");
    compare(
        &format!("proved{name}"),
        &mut || _ = black_box(black_box(asked).our_line(&mut scratch, &mut line)),
        &mut || _ = black_box(black_box(asked).our_check(&mut other)),
    );
    compare(
        &format!("reference{name}"),
        &mut || _ = black_box(black_box(asked).their_line(&mut scratch, &mut line)),
        &mut || _ = black_box(black_box(asked).their_check(&mut other)),
    );
}

/// A tape, and what it is read under.
struct Shift<'a> {
    table: &'a [u8],
    settings: Settings<'a>,
    tape: &'a [u8],
}

impl Shift<'_> {
    /// How far the ledger is filled, by steps along the tape and a line for each accepted message.
    fn ours(&self, scratch: &mut [u8], ledger: &mut [u8]) -> usize {
        let under = blink_native::Settings::of(self.settings.store, self.settings.customer);
        let mut ledger = Ledger::new(ledger);
        let mut at = 0;
        loop {
            let step = steps::ours(self.table, self.settings, self.tape, at, scratch);
            if step.ended == 1 {
                return ledger.fill();
            }
            if step.number == 0 {
                let message = &self.tape[step.offset as usize..][..step.length as usize];
                _ = under.add_line(self.table, message, scratch, BLANK, &mut ledger);
            }
            at = step.next;
        }
    }

    fn theirs(&self, scratch: &mut [u8], ledger: &mut [u8]) -> usize {
        let Settings { store, customer } = self.settings;
        let mut reader = TapeReader::new(self.tape);
        let mut fill = 0;
        while let Some(message) = blink_reference::next_message(self.table, store, customer, &mut reader, scratch) {
            if message.answer.is_ok() {
                let line = blink_reference::add_line(self.table, store, customer, message.bytes, scratch, BLANK, ledger, fill);
                fill = line.unwrap_or(fill);
            }
        }
        fill
    }
}

/// The whole tape into a ledger that has room for all of it, with both sides in turn. Both must write the same bytes.
fn time_tape(name: &str, shift: &Shift) {
    let (mut scratch, mut other) = (vec![0u8; 65_536], vec![0u8; 65_536]);
    let (mut ledger, mut other_ledger) = (vec![0u8; MESSAGES * LINE_LENGTH], vec![0u8; MESSAGES * LINE_LENGTH]);
    let lines = MESSAGES - MESSAGES / RATE;
    assert_eq!(shift.ours(&mut scratch, &mut ledger), lines * LINE_LENGTH, "{name}");
    assert_eq!(shift.theirs(&mut other, &mut other_ledger), lines * LINE_LENGTH, "{name}");
    assert!(ledger == other_ledger, "{name}");
    compare_rates(
        &format!("step by step{name}"),
        lines,
        &mut || _ = black_box(black_box(shift).ours(&mut scratch, &mut ledger)),
        &mut || _ = black_box(black_box(shift).theirs(&mut other, &mut other_ledger)),
    );
}

fn main() {
    let case = &messages::cases()[0];
    let store = stores::three(10);
    let settings = Settings::of(&store, 3);
    time_line("", &Asked { table: &case.table, settings: Settings::NONE, message: &case.message });
    time_line(", under settings", &Asked { table: &case.table, settings, message: &case.message });

    let tape = tapes::shift(MESSAGES, RATE);
    println!("a tape of {MESSAGES} blanks, one in {RATE} bad, {} bytes, into a ledger", tape.len());
    heading_rates("lines", "proved", "reference");
    time_tape("", &Shift { table: TABLE, settings: Settings::NONE, tape: &tape });
    time_tape(", under settings", &Shift { table: TABLE, settings, tape: &tape });
}
