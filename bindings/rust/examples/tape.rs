//! Reads a tape, messages end to end, and says which of them are refused and how many are accepted:
//!
//!     cargo run --example tape -- TABLE TAPE..
//!
//! `make examples` runs it on samples/.
use blink_native::Table;
use std::error::Error;

const USAGE: &str = "usage: tape TABLE TAPE..";

fn main() -> Result<(), Box<dyn Error>> {
    let mut names = std::env::args().skip(1);
    let table = std::fs::read(names.next().ok_or(USAGE)?)?;
    let table = Table::new(table).map_err(|fault| fault.to_string())?;
    for name in names {
        let tape = std::fs::read(&name)?;
        let mut reader = table.tape(&tape);
        let mut accepted = 0;
        loop {
            let start = reader.place();
            match reader.next() {
                // The message's own bytes, for every other question.
                Some(Ok(_message)) => accepted += 1,
                Some(Err(fault)) => println!("{name}: refused at {start}, {fault}"),
                None => break,
            }
        }
        println!("{name}: {accepted} accepted");
    }
    Ok(())
}
