//! Checks messages of the Blank group and prints the barcode of each one that is accepted:
//!
//!     cargo run --example check -- TABLE MESSAGE..
//!     cargo run --example check -- --under STORE CUSTOMER TABLE MESSAGE..
//!
//! `make examples` runs it on samples/. A refused message hands out nothing but its fault, whichever question is asked.
use blink_native::{check_store, Settings, Table, MESSAGE_LIMIT};
use std::error::Error;

const USAGE: &str = "usage: check [--under STORE CUSTOMER] TABLE MESSAGE..";

/// Blank's first field: fields count from 0.
const BARCODE: usize = 0;

fn main() -> Result<(), Box<dyn Error>> {
    let mut names = std::env::args().skip(1).peekable();
    let (mut store, mut customer) = (Vec::new(), 0);
    if names.next_if_eq("--under").is_some() {
        store = std::fs::read(names.next().ok_or(USAGE)?)?;
        customer = names.next().ok_or(USAGE)?.parse()?;
        check_store(&store).map_err(|fault| fault.to_string())?;
    }
    let settings = Settings::of(&store, customer);
    let table = std::fs::read(names.next().ok_or(USAGE)?)?;
    let table = Table::new(table).map_err(|fault| fault.to_string())?;
    let table = table.under(settings);

    let mut scratch = vec![0; MESSAGE_LIMIT];
    for name in names {
        let message = std::fs::read(&name)?;
        match table.check_message(&message, &mut scratch) {
            Ok(()) => println!("{name}: accepted"),
            Err(fault) => println!("{name}: refused, {fault}"),
        }
        // It makes every check itself, so it may be asked first.
        match table.read_str(&message, &mut scratch, BARCODE, 0) {
            Ok(barcode) => println!("{name}: barcode {barcode}"),
            Err(error) => println!("{name}: no barcode, {error}"),
        }
    }
    Ok(())
}
