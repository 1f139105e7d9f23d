//! A tape to time: what the stations of a shift store, end to end.

use crate::messages::{blank_message, Blank};
use blink_reference::generate::Random;

const STATIONS: [&str; 5] = ["QZ", "QZ-B", "EAST", "LINE-2", "KILN-07"];
const NOTES: [&str; 6] = [
    "knot left",
    "small chip at the rim",
    "colour off",
    "Riß am Rand, 3 µm",
    "second pass",
    "moved to the drying room because the first reading was unsteady",
];

/// So many different blanks, each a message; one in `rate` is damaged.
pub fn shift(count: usize, rate: usize) -> Vec<u8> {
    let mut random = Random::new(0x7a9e);
    let mut tape = Vec::new();
    for number in 0..count {
        let message = measured(&mut random, number);
        match number % rate == rate - 1 {
            true => tape.extend(damaged(message, number / rate)),
            false => tape.extend(message),
        }
    }
    tape
}

/// A blank of its own barcode; two in three without a note.
fn measured(random: &mut Random, number: usize) -> Vec<u8> {
    let barcode = format!("{}-2026-11-{number:05}", random.pick(&STATIONS));
    blank_message(&Blank {
        barcode: barcode.as_bytes(),
        density: 2_500 + random.below(300) as u32,
        speed: 5_500 + random.below(500) as u32,
        grade: random.below(4) as u32,
        note: random.one_in(3).then(|| random.pick(&NOTES).as_bytes()),
    })
}

/// Something wrong with the message, one thing after the other: a byte of the barcode, the note's flag, the grade, the type id,
/// the barcode's offset, or a size too small for the fields. The size word says how long it is, so the tape goes on behind it.
fn damaged(mut message: Vec<u8>, turn: usize) -> Vec<u8> {
    match turn % 6 {
        0 => message[44] = 0xff,
        1 => message[32] = 2,
        2 => message[28] = 5,
        3 => message[4] = 2,
        4 => message[18] = 1,
        _ => {
            message.truncate(24);
            message[0] = 20;
        }
    }
    message
}
