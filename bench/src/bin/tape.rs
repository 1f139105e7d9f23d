//! How many messages of a tape are read in a second: 100,000 blanks, one in 300 bad. `tape [FILE]` leaves the tape in a
//! file, for the same with FlatBuffers.
use blink_bench::{compare_rates, heading_rates, steps, stores, tapes};
use blink_reference::{Settings, TapeReader};
use std::hint::black_box;

const TABLE: &[u8] = include_bytes!("../../../samples/blank.table");
const MESSAGES: usize = 100_000;
const RATE: usize = 300;

extern "C" {
    fn tape_count_accepted(
        table: *const u8,
        table_length: usize,
        store: *const u8,
        store_length: usize,
        customer: u16,
        tape: *const u8,
        tape_length: usize,
        scratch: *mut u8,
        scratch_length: usize,
    ) -> usize;
}

/// The tape, and what it is read under.
struct Shift<'a> {
    table: &'a [u8],
    settings: Settings<'a>,
    tape: &'a [u8],
}

impl Shift<'_> {
    /// How many messages are accepted, by steps that each take the table's bytes.
    fn our_steps(&self, scratch: &mut [u8]) -> usize {
        let (mut at, mut accepted) = (0, 0);
        loop {
            let step = steps::ours(self.table, self.settings, self.tape, at, scratch);
            if step.ended == 1 {
                return accepted;
            }
            accepted += usize::from(step.number == 0);
            at = step.next;
        }
    }

    fn their_steps(&self, scratch: &mut [u8]) -> usize {
        let Settings { store, customer } = self.settings;
        let mut reader = TapeReader::new(self.tape);
        let mut accepted = 0;
        while let Some(message) = blink_reference::next_message(self.table, store, customer, &mut reader, scratch) {
            accepted += usize::from(message.answer.is_ok());
        }
        accepted
    }

    /// The same by a loop that has the table's index.
    fn our_loop(&self, scratch: &mut [u8]) -> usize {
        let Shift { table, settings: Settings { store, customer }, tape } = self;
        // SAFETY: each pointer comes with the length of its slice, and `scratch` is no other's.
        unsafe {
            tape_count_accepted(
                table.as_ptr(),
                table.len(),
                store.as_ptr(),
                store.len(),
                *customer,
                tape.as_ptr(),
                tape.len(),
                scratch.as_mut_ptr(),
                scratch.len(),
            )
        }
    }

    fn their_loop(&self, scratch: &mut [u8]) -> usize {
        let Ok(schema) = blink_reference::check_table(self.table) else {
            return 0;
        };
        let mut reader = TapeReader::new(self.tape);
        let mut accepted = 0;
        while let Some(message) = schema.next_message(self.settings, &mut reader, scratch) {
            accepted += usize::from(message.answer.is_ok());
        }
        accepted
    }
}

/// Both ways, with both sides in turn.
fn time(name: &str, shift: &Shift) {
    let (mut scratch, mut other) = (vec![0u8; 65_536], vec![0u8; 65_536]);
    let due = MESSAGES - MESSAGES / RATE;
    let counts = [
        shift.our_steps(&mut scratch),
        shift.their_steps(&mut other),
        shift.our_loop(&mut scratch),
        shift.their_loop(&mut other),
    ];
    assert_eq!(counts, [due; 4], "{name}");
    compare_rates(
        &format!("step by step{name}"),
        MESSAGES,
        &mut || _ = black_box(black_box(shift).our_steps(&mut scratch)),
        &mut || _ = black_box(black_box(shift).their_steps(&mut other)),
    );
    compare_rates(
        &format!("by a loop with the index{name}"),
        MESSAGES,
        &mut || _ = black_box(black_box(shift).our_loop(&mut scratch)),
        &mut || _ = black_box(black_box(shift).their_loop(&mut other)),
    );
}

fn main() {
    let tape = tapes::shift(MESSAGES, RATE);
    if let Some(name) = std::env::args_os().nth(1) {
        std::fs::write(name, &tape).expect("the tape is written");
    }
    println!("a tape of {MESSAGES} blanks, one in {RATE} bad, {} bytes", tape.len());
    heading_rates("messages", "proved", "reference");
    time("", &Shift { table: TABLE, settings: Settings::NONE, tape: &tape });
    let store = stores::three(10);
    time(", under settings", &Shift { table: TABLE, settings: Settings::of(&store, 3), tape: &tape });
}
