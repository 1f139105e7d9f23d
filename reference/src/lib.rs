//! Blink Native (beta4): the second program.
//!
//! Written from the papers alone, so that a wrong definition in the proved
//! reader and writer is noticed. "Document 01" is the paper of the house
//! rules, which decides, "document 02" that of the later changes to them;
//! "document 004" is the specification of the format.
//!
//! A [`Schema`] is prepared once by [`check_table`] and then asked about many
//! messages. The functions of this module are the same questions in one
//! call, with the table's bytes: a table that is refused gives fault 20. A
//! question about a message takes [`Settings`] too, here as a store and a
//! customer.
//!
//! ```
//! // A group of type id 2: a u32, and an optional one (Bill of document 004).
//! let table = b"\
//!     GR\x02\0\0\0\0\0\0\0\x01\0\0\x02\0\0\
//!     FD\x05\0\0\0\0\0\0\0\0\0\0\0\0\0\
//!     FD\x05\x01\0\0\0\0\0\0\0\0\0\0\0\0";
//! let message = b"\x15\0\0\0\x02\0\0\0\0\0\0\0\0\0\0\0\xe8\x03\0\0\x01\x64\0\0\0";
//! let mut scratch = [0; 25];
//!
//! use blink_reference::Settings;
//! let schema = blink_reference::check_table(table)?;
//! schema.check_message(Settings::NONE, message, &mut scratch)?;
//! let tip = schema.read_number(Settings::NONE, message, &mut scratch, 1, 0)?;
//! assert_eq!(tip, blink_reference::Number::Unsigned(100));
//!
//! // Without a tip, its bytes must be zero, unless the settings of the
//! // station's customer say otherwise.
//! let mut untipped = *message;
//! untipped[20] = 0;
//! let fault = schema.check_message(Settings::NONE, &untipped, &mut scratch).unwrap_err();
//! assert_eq!((fault.number as u8, fault.place), (4, 21));
//! let mut store = [0; 90];
//! blink_reference::add_settings(&mut store, 7, 1, 1, 0, 0)?;
//! schema.check_message(Settings::of(&store, 7), &untipped, &mut scratch)?;
//!
//! // Messages end to end: a refused one is passed over.
//! let tape = [&untipped[..], message].concat();
//! let mut reader = blink_reference::TapeReader::new(&tape);
//! let first = schema.next_message(Settings::NONE, &mut reader, &mut scratch).unwrap();
//! assert_eq!((first.answer, first.bytes), (Err(fault), &[][..]));
//! let second = schema.next_message(Settings::NONE, &mut reader, &mut scratch).unwrap();
//! assert_eq!((second.answer, second.bytes), (Ok(()), &message[..]));
//! assert_eq!(schema.next_message(Settings::NONE, &mut reader, &mut scratch), None);
//! # Ok::<(), blink_reference::Fault>(())
//! ```
//!
//! No question allocates. Lent bytes are left as the papers say: after
//! faults 20, 23, 21 and 50, and the 22 of a tape's cut tail, the scratch is
//! untouched, after all else its first bytes, as many as the message has, are
//! zero. A refusal leaves an output, a store or a ledger untouched.

mod area;
mod check;
mod fault;
#[cfg(feature = "generate")]
pub mod generate;
mod ledger;
pub mod question;
mod read;
mod schema;
mod settings;
mod sheet;
mod table;
mod tape;
mod utf8;
pub mod vectors;
mod wire;
mod write;

use std::ops::Range;

pub use fault::{Fault, FaultNumber};
pub use ledger::{FieldShape, LINE_BYTES};
pub use read::Number;
pub use schema::{Schema, Type};
pub use settings::{add_settings, check_store, read_settings, Ignored, Settings};
pub use table::check_table;
pub use tape::{TapeMessage, TapeReader};

/// Asks under the schema of a table, or gives fault 20, whatever the table's
/// own place.
#[inline]
fn under<T>(table: &[u8], question: impl FnOnce(&Schema<'_>) -> Result<T, Fault>) -> Result<T, Fault> {
    let mut schema = Schema::EMPTY;
    match schema.load(table) {
        Ok(()) => question(&schema),
        Err(_) => Err(Fault::at(FaultNumber::TableRefused, 0)),
    }
}

/// As [`Schema::check_message`].
pub fn check_message(
    table: &[u8],
    store: &[u8],
    customer: u16,
    message: &[u8],
    scratch: &mut [u8],
) -> Result<(), Fault> {
    under(table, |schema| schema.check_message(Settings::of(store, customer), message, scratch))
}

/// As [`Schema::message_to_sheet`].
pub fn message_to_sheet(
    table: &[u8],
    store: &[u8],
    customer: u16,
    message: &[u8],
    scratch: &mut [u8],
    sheet: &mut [u8],
) -> Result<usize, Fault> {
    under(table, |schema| schema.message_to_sheet(Settings::of(store, customer), message, scratch, sheet))
}

/// As [`Schema::sheet_to_message`].
pub fn sheet_to_message(table: &[u8], sheet: &[u8], output: &mut [u8]) -> Result<usize, Fault> {
    under(table, |schema| schema.sheet_to_message(sheet, output))
}

/// As [`Schema::rewrite`].
pub fn rewrite(
    table: &[u8],
    store: &[u8],
    customer: u16,
    message: &[u8],
    scratch: &mut [u8],
    sheet: &mut [u8],
    output: &mut [u8],
) -> Result<usize, Fault> {
    under(table, |schema| schema.rewrite(Settings::of(store, customer), message, scratch, sheet, output))
}

/// As [`Schema::read_number`].
pub fn read_number(
    table: &[u8],
    store: &[u8],
    customer: u16,
    message: &[u8],
    scratch: &mut [u8],
    field: u64,
    item: u64,
) -> Result<Number, Fault> {
    under(table, |schema| schema.read_number(Settings::of(store, customer), message, scratch, field, item))
}

/// As [`Schema::read_bytes`].
pub fn read_bytes(
    table: &[u8],
    store: &[u8],
    customer: u16,
    message: &[u8],
    scratch: &mut [u8],
    field: u64,
    item: u64,
) -> Result<Range<usize>, Fault> {
    under(table, |schema| schema.read_bytes(Settings::of(store, customer), message, scratch, field, item))
}

/// Document 01's bytes answer: the part itself, the empty part on a refusal.
pub fn read_bytes_part<'m>(
    table: &[u8],
    store: &[u8],
    customer: u16,
    message: &'m [u8],
    scratch: &mut [u8],
    field: u64,
    item: u64,
) -> &'m [u8] {
    match read_bytes(table, store, customer, message, scratch, field, item) {
        Ok(part) => &message[part],
        Err(_) => &[],
    }
}

/// Its twin question: why the part is empty, if it was refused.
pub fn read_bytes_verdict(
    table: &[u8],
    store: &[u8],
    customer: u16,
    message: &[u8],
    scratch: &mut [u8],
    field: u64,
    item: u64,
) -> Result<(), Fault> {
    read_bytes(table, store, customer, message, scratch, field, item).map(|_| ())
}

/// As [`Schema::next_message`]; where bytes are left, a table that is refused
/// ends the tape.
pub fn next_message<'t>(
    table: &[u8],
    store: &[u8],
    customer: u16,
    reader: &mut TapeReader<'t>,
    scratch: &mut [u8],
) -> Option<TapeMessage<'t>> {
    if reader.has_ended() {
        return None;
    }
    let settings = Settings::of(store, customer);
    match under(table, |schema| Ok(schema.next_message(settings, reader, scratch))) {
        Ok(message) => message,
        Err(fault) => Some(reader.end(fault)),
    }
}

/// As [`Schema::add_line`].
#[allow(clippy::too_many_arguments)]
pub fn add_line(
    table: &[u8],
    store: &[u8],
    customer: u16,
    message: &[u8],
    scratch: &mut [u8],
    type_id: u64,
    ledger: &mut [u8],
    fill: usize,
) -> Result<usize, Fault> {
    under(table, |schema| {
        schema.add_line(Settings::of(store, customer), message, scratch, type_id, ledger, fill)
    })
}

/// As [`Schema::field_shape`].
pub fn field_shape(table: &[u8], type_id: u64, field: u64) -> Result<FieldShape, Fault> {
    under(table, |schema| schema.field_shape(type_id, field))
}
