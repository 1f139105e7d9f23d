//! Reads tapes, messages end to end, enters each good blank into a ledger, and writes its lines into a file:
//!
//!     cargo run --example ledger -- LEDGER TABLE TAPE..
//!
//! `make examples` runs it on samples/.
use blink_native::{Ledger, Table, LINE_LENGTH, MESSAGE_LIMIT};
use std::error::Error;

const USAGE: &str = "usage: ledger LEDGER TABLE TAPE..";

/// The type id of the blanks' group.
const BLANK: u64 = 1;

fn main() -> Result<(), Box<dyn Error>> {
    let mut names = std::env::args().skip(1);
    let output = names.next().ok_or(USAGE)?;
    let table = std::fs::read(names.next().ok_or(USAGE)?)?;
    let table = Table::new(table).map_err(|fault| fault.to_string())?;
    let mut scratch = vec![0; MESSAGE_LIMIT];
    // Room for the lines of a shift.
    let mut room = vec![0; 100_000 * LINE_LENGTH];
    let mut ledger = Ledger::new(&mut room);
    for name in names {
        let tape = std::fs::read(&name)?;
        let mut reader = table.tape(&tape);
        loop {
            let start = reader.place();
            let entered = match reader.next() {
                Some(Ok(message)) => table.add_line(message, &mut scratch, BLANK, &mut ledger),
                Some(Err(fault)) => Err(fault),
                None => break,
            };
            if let Err(fault) = entered {
                println!("{name}: refused at {start}, {fault}");
            }
        }
    }
    for line in ledger.lines() {
        let barcode = &line[3..][..usize::from(line[2])];
        println!("{}", String::from_utf8_lossy(barcode));
    }
    std::fs::write(&output, ledger.bytes())?;
    println!("{output}: {} lines", ledger.lines().len());
    Ok(())
}
