//! Blink Native (beta4) messages: the proved questions, safe for Rust.
//!
//! Every question takes any bytes, and makes every check it needs: a table, a message or a sheet may be asked about
//! unseen. A refusal is an [`Err`] with the first [`Fault`]'s number and place, and hands out nothing.
//!
//! `scratch` is working room, at least as long as the message; [`MESSAGE_LIMIT`] bytes are enough for every message. After
//! faults 20, 21, 23 and 50 it is untouched. After every other answer its first bytes, as many as the message has, are
//! zero, and the rest is untouched.
//!
//! A [`Table`] that was checked once is a type of its own, and has the questions as its methods.
//!
//! Some customers' stations leave rubbish in bytes that mean nothing. [`Settings`] say, by customer, in which; they answer
//! the same questions.
//!
//! A tape is a station's messages end to end. A [`TapeReader`] hands out one after another, past those that are refused.
//!
//! A [`Ledger`] has a line of [`LINE_LENGTH`] bytes for each blank that was entered, and for nothing else.
//!
//! ```
//! // A bill has an amount and, perhaps, a tip.
//! let table = b"GR\x02\0\0\0\0\0\0\0\x01\0\0\x02\0\0\
//!               FD\x05\0\0\0\0\0\0\0\0\0\0\0\0\0\
//!               FD\x05\x01\0\0\0\0\0\0\0\0\0\0\0\0";
//! let message = b"\x15\0\0\0\x02\0\0\0\0\0\0\0\0\0\0\0\xe8\x03\0\0\x01\x64\0\0\0";
//! let mut scratch = [0; blink_native::MESSAGE_LIMIT];
//!
//! use blink_native::Number;
//! assert_eq!(blink_native::read_number(table, message, &mut scratch, 0, 0)?, Number::Unsigned(1000));
//! assert_eq!(blink_native::read_number(table, message, &mut scratch, 1, 0)?, Number::Unsigned(100));
//!
//! // The presence flag of the tip, byte 20, must be 0 or 1.
//! let mut damaged = *message;
//! damaged[20] = 2;
//! let fault = blink_native::read_number(table, &damaged, &mut scratch, 0, 0).unwrap_err();
//! assert_eq!(fault.to_string(), "fault 11 at byte 20: a bool or a presence flag is neither 0 nor 1");
//! # Ok::<(), blink_native::Fault>(())
//! ```
#![warn(missing_docs)]

mod boundary;
mod fault;
mod ledger;
mod settings;
mod table;
mod tape;
mod text;

pub use fault::Fault;
pub use ledger::{add_line, Ledger};
pub use settings::{add_settings, check_store, read_settings, Ignored, Settings};
pub use table::{Table, Under};
pub use tape::TapeReader;
pub use text::TextError;

/// No message is longer, in bytes.
pub const MESSAGE_LIMIT: usize = 65_536;

/// No schema table is longer, in bytes.
pub const TABLE_LIMIT: usize = 65_536;

/// No sheet is longer, in bytes.
pub const SHEET_LIMIT: usize = 1_048_576;

/// A sheet is at most this many times as long as its message.
pub const SHEET_FACTOR: usize = 11;

/// Every line of a ledger is so long, in bytes.
pub const LINE_LENGTH: usize = 64;

/// The version of the library that is linked: major, minor, patch.
///
/// ```
/// assert_eq!(blink_native::version(), [0, 3, 0]);
/// ```
pub fn version() -> [u8; 3] {
    // SAFETY: it takes nothing.
    let [_, version @ ..] = unsafe { boundary::blink_version() }.to_be_bytes();
    version
}

/// Whether it is accepted.
pub type Verdict = Result<(), Fault>;

/// A field's value that is a number.
#[derive(Clone, Copy, Debug, PartialEq)]
pub enum Number {
    /// i8, i16, i32 and i64, dates and times, and the symbols of an enumeration.
    Signed(i64),
    /// u8, u16, u32 and u64, and times of day.
    Unsigned(u64),
    /// A bool.
    Bool(bool),
    /// `mantissa` times ten to `exponent`, as it stands in the message: 1 times ten and 10 times one differ.
    Decimal {
        /// The power of ten.
        exponent: i8,
        /// What it is times.
        mantissa: i64,
    },
    /// The float whose bits are the message's eight bytes, a NaN's too.
    Float(f64),
}

/// What a field of a group is.
#[derive(Clone, Copy, Debug, PartialEq, Eq, Hash)]
pub struct FieldShape {
    /// Its type, 1 to 23: 5 is a u32, 17 a string, 20 an enumeration, 22 a dynamic group, and so on.
    pub type_number: u8,
    /// Whether it may be absent.
    pub optional: bool,
    /// Whether it is a sequence.
    pub sequence: bool,
    /// The capacity of an inline string or binary, or a fixed field's length; else 0.
    pub size: u8,
}

fn verdict(number: u32, place: u64) -> Verdict {
    match number {
        0 => Ok(()),
        _ => Err(Fault { number: number as u8, place: place as usize }),
    }
}

/// The bytes that were written at the start of a room.
fn written(answer: boundary::BlinkWritten, room: &mut [u8]) -> Result<&mut [u8], Fault> {
    verdict(answer.number, answer.place)?;
    Ok(&mut room[..answer.length as usize])
}

/// Is the schema table accepted? Faults 30 to 37. `samples/README.md` says how a table is written.
///
/// Its groups may store their widths (`GW`) or not (`GR`): questions about a message or a sheet have the same answers.
///
/// ```
/// // A bill's amount takes 4 bytes, and its tip 5 with the flag.
/// let mut table = *b"GW\x02\0\0\0\0\0\0\0\x01\0\0\x02\x09\0\
///                    FD\x05\0\0\0\0\0\0\0\0\0\0\0\0\0\
///                    FD\x05\x01\0\0\0\0\0\0\0\0\0\0\0\0";
/// assert_eq!(blink_native::check_table(&table), Ok(()));
///
/// table[14] = 8;
/// let fault = blink_native::check_table(&table).unwrap_err();
/// assert_eq!(fault.to_string(), "fault 37 at byte 0: the width that a group stores is not its own");
/// ```
pub fn check_table(table: &[u8]) -> Verdict {
    // SAFETY: pointer and length are a slice's own.
    let answer = unsafe { boundary::blink_check_table(table.as_ptr(), table.len()) };
    verdict(answer.number, answer.place)
}

/// What a field is, of the group that has this type id. Fields count from 0, the super group's first.
///
/// Fault 20 says that the table is refused, 2 that no group has the id, and 28 that the group has no such field.
///
/// ```
/// # let table = b"GR\x02\0\0\0\0\0\0\0\x01\0\0\x02\0\0\
/// #               FD\x05\0\0\0\0\0\0\0\0\0\0\0\0\0\
/// #               FD\x05\x01\0\0\0\0\0\0\0\0\0\0\0\0";
/// use blink_native::{field_shape, FieldShape};
/// let tip = FieldShape { type_number: 5, optional: true, sequence: false, size: 0 };
/// assert_eq!(field_shape(table, 2, 1)?, tip);
/// assert_eq!(field_shape(table, 2, 2).unwrap_err().number, 28);
/// assert_eq!(field_shape(table, 3, 0).unwrap_err().number, 2);
/// # Ok::<(), blink_native::Fault>(())
/// ```
pub fn field_shape(table: &[u8], type_id: u64, field: usize) -> Result<FieldShape, Fault> {
    // SAFETY: pointer and length are a slice's own.
    let answer = unsafe { boundary::blink_field_shape(table.as_ptr(), table.len(), type_id, field as u64) };
    verdict(answer.number, answer.place)?;
    Ok(FieldShape {
        type_number: answer.type_number as u8,
        optional: answer.optional != 0,
        sequence: answer.sequence != 0,
        size: answer.size as u8,
    })
}

/// Is the message accepted under the table?
///
/// ```
/// # let table = b"GR\x02\0\0\0\0\0\0\0\x01\0\0\x02\0\0\
/// #               FD\x05\0\0\0\0\0\0\0\0\0\0\0\0\0\
/// #               FD\x05\x01\0\0\0\0\0\0\0\0\0\0\0\0";
/// # let message = b"\x15\0\0\0\x02\0\0\0\0\0\0\0\0\0\0\0\xe8\x03\0\0\x01\x64\0\0\0";
/// let mut scratch = vec![0; message.len()];
/// assert!(blink_native::check_message(table, message, &mut scratch).is_ok());
///
/// let cut = &message[..20];
/// assert_eq!(blink_native::check_message(table, cut, &mut scratch).unwrap_err().number, 22);
/// ```
pub fn check_message(table: &[u8], message: &[u8], scratch: &mut [u8]) -> Verdict {
    Settings::NONE.check_message(table, message, scratch)
}

/// Reads a tape, messages end to end, from its start: an iterator over the accepted messages and the others' faults.
///
/// ```
/// # let table = b"GR\x02\0\0\0\0\0\0\0\x01\0\0\x02\0\0\
/// #               FD\x05\0\0\0\0\0\0\0\0\0\0\0\0\0\
/// #               FD\x05\x01\0\0\0\0\0\0\0\0\0\0\0\0";
/// # let message = b"\x15\0\0\0\x02\0\0\0\0\0\0\0\0\0\0\0\xe8\x03\0\0\x01\x64\0\0\0";
/// // Three bills; the second one's tip has a wrong flag.
/// let mut tape = message.repeat(3);
/// tape[45] = 2;
///
/// let bills: Vec<_> = blink_native::tape(table, &tape).collect();
/// assert_eq!(bills, [Ok(&message[..]), Err(blink_native::Fault { number: 11, place: 20 }), Ok(&message[..])]);
/// ```
pub fn tape<'a, 't>(table: &'a [u8], tape: &'t [u8]) -> TapeReader<'a, 't> {
    Settings::NONE.tape(table, tape)
}

/// Writes the message's sheet, its meaning as a row of records, at the start of the room `sheet`, and answers that part.
///
/// A room of [`SHEET_FACTOR`] times the message's length is always enough; a shorter one may give fault 46. The rest of the
/// room is untouched, and on a refusal all of it.
///
/// ```
/// # let table = b"GR\x02\0\0\0\0\0\0\0\x01\0\0\x02\0\0\
/// #               FD\x05\0\0\0\0\0\0\0\0\0\0\0\0\0\
/// #               FD\x05\x01\0\0\0\0\0\0\0\0\0\0\0\0";
/// # let message = b"\x15\0\0\0\x02\0\0\0\0\0\0\0\0\0\0\0\xe8\x03\0\0\x01\x64\0\0\0";
/// let mut scratch = vec![0; message.len()];
/// let mut room = vec![0; blink_native::SHEET_FACTOR * message.len()];
/// let sheet = blink_native::message_to_sheet(table, message, &mut scratch, &mut room)?;
/// assert_eq!(sheet, b"GB\x02\0\0\0\0\0\0\0VA\xe8\x03\0\0VA\x64\0\0\0GE");
/// # Ok::<(), blink_native::Fault>(())
/// ```
pub fn message_to_sheet<'a>(
    table: &[u8],
    message: &[u8],
    scratch: &mut [u8],
    sheet: &'a mut [u8],
) -> Result<&'a mut [u8], Fault> {
    Settings::NONE.message_to_sheet(table, message, scratch, sheet)
}

/// Writes the message that a sheet stands for, in its one shortest form, at the start of the room `output`, and answers that
/// part.
///
/// A room of [`MESSAGE_LIMIT`] bytes is enough for every message; a shorter one may give fault 47. The rest of the room is
/// untouched, and on a refusal all of it.
///
/// ```
/// # let table = b"GR\x02\0\0\0\0\0\0\0\x01\0\0\x02\0\0\
/// #               FD\x05\0\0\0\0\0\0\0\0\0\0\0\0\0\
/// #               FD\x05\x01\0\0\0\0\0\0\0\0\0\0\0\0";
/// # let bill = b"\x15\0\0\0\x02\0\0\0\0\0\0\0\0\0\0\0\xe8\x03\0\0\x01\x64\0\0\0";
/// let sheet = b"GB\x02\0\0\0\0\0\0\0VA\xe8\x03\0\0VA\x64\0\0\0GE";
/// let mut room = vec![0; blink_native::MESSAGE_LIMIT];
/// let message = blink_native::sheet_to_message(table, sheet, &mut room)?;
/// assert_eq!(message, bill);
/// # Ok::<(), blink_native::Fault>(())
/// ```
pub fn sheet_to_message<'a>(table: &[u8], sheet: &[u8], output: &'a mut [u8]) -> Result<&'a mut [u8], Fault> {
    // SAFETY: pointers and lengths are slices' own, and no slice shares a byte with the output.
    let answer = unsafe {
        boundary::blink_sheet_to_message(
            table.as_ptr(),
            table.len(),
            sheet.as_ptr(),
            sheet.len(),
            output.as_mut_ptr(),
            output.len(),
        )
    };
    written(answer, output)
}

/// Writes the message anew, in the one shortest form of its meaning, at the start of the room `output`, and answers that
/// part. Two messages that mean the same are rewritten to the same bytes.
///
/// A sheet room of [`SHEET_FACTOR`] times the message's length and an output of the message's length are always enough. The
/// output's rest is untouched, and on a refusal all of it. The sheet room holds the message's sheet at its start after
/// success and after fault 47; else it is untouched.
///
/// ```
/// # let table = b"GR\x02\0\0\0\0\0\0\0\x01\0\0\x02\0\0\
/// #               FD\x05\0\0\0\0\0\0\0\0\0\0\0\0\0\
/// #               FD\x05\x01\0\0\0\0\0\0\0\0\0\0\0\0";
/// # let message = b"\x15\0\0\0\x02\0\0\0\0\0\0\0\0\0\0\0\xe8\x03\0\0\x01\x64\0\0\0";
/// let mut padded = message.to_vec();
/// padded.extend([0; 3]);
/// padded[0] += 3;
///
/// let mut scratch = vec![0; padded.len()];
/// let mut sheet = vec![0; blink_native::SHEET_FACTOR * padded.len()];
/// let mut output = vec![0; padded.len()];
/// let rewritten = blink_native::rewrite(table, &padded, &mut scratch, &mut sheet, &mut output)?;
/// assert_eq!(rewritten, message);
/// # Ok::<(), blink_native::Fault>(())
/// ```
pub fn rewrite<'a>(
    table: &[u8],
    message: &[u8],
    scratch: &mut [u8],
    sheet: &mut [u8],
    output: &'a mut [u8],
) -> Result<&'a mut [u8], Fault> {
    Settings::NONE.rewrite(table, message, scratch, sheet, output)
}

/// Reads a field of the message's own group as a number.
///
/// Fields count from 0, and so do the items of a sequence; `item` is 0 where the field is no sequence. After the message's
/// own faults: 28 no such field, 29 absent, 28 no such item, 48 no number.
///
/// ```
/// # let table = b"GR\x02\0\0\0\0\0\0\0\x01\0\0\x02\0\0\
/// #               FD\x05\0\0\0\0\0\0\0\0\0\0\0\0\0\
/// #               FD\x05\x01\0\0\0\0\0\0\0\0\0\0\0\0";
/// # let message = b"\x15\0\0\0\x02\0\0\0\0\0\0\0\0\0\0\0\xe8\x03\0\0\x01\x64\0\0\0";
/// # let mut scratch = vec![0; message.len()];
/// use blink_native::{read_number, Number};
/// assert_eq!(read_number(table, message, &mut scratch, 0, 0)?, Number::Unsigned(1000));
/// assert_eq!(read_number(table, message, &mut scratch, 2, 0).unwrap_err().number, 28);
/// # Ok::<(), blink_native::Fault>(())
/// ```
pub fn read_number(
    table: &[u8],
    message: &[u8],
    scratch: &mut [u8],
    field: usize,
    item: usize,
) -> Result<Number, Fault> {
    Settings::NONE.read_number(table, message, scratch, field, item)
}

/// A field's bytes, as they lie in the message: strings and binaries without their count, fixed fields, and dynamic groups
/// with their size word, so that such a part is a message too.
///
/// `field`, `item` and faults are as for [`read_number`]; 48 says that the field has no bytes to hand out.
///
/// ```
/// // A greeting is a string.
/// let table = b"GR\x01\0\0\0\0\0\0\0\x01\0\0\x01\0\0\
///               FD\x11\0\0\0\0\0\0\0\0\0\0\0\0\0";
/// let message = b"\x19\0\0\0\x01\0\0\0\0\0\0\0\0\0\0\0\x04\0\0\0\x05\0\0\0Hello";
/// let mut scratch = vec![0; message.len()];
/// assert_eq!(blink_native::read_bytes(table, message, &mut scratch, 0, 0)?, b"Hello");
/// # Ok::<(), blink_native::Fault>(())
/// ```
pub fn read_bytes<'a>(
    table: &[u8],
    message: &'a [u8],
    scratch: &mut [u8],
    field: usize,
    item: usize,
) -> Result<&'a [u8], Fault> {
    Settings::NONE.read_bytes(table, message, scratch, field, item)
}

/// A string, as a part of the message.
///
/// As [`read_bytes`], and the bytes must be UTF-8 as Rust has it. An accepted message's strings are, but for one case, which
/// is [`TextError::NotStr`]: the format's table lets halves of surrogate pairs pass.
///
/// ```
/// # let table = b"GR\x01\0\0\0\0\0\0\0\x01\0\0\x01\0\0\
/// #               FD\x11\0\0\0\0\0\0\0\0\0\0\0\0\0";
/// # let message = b"\x19\0\0\0\x01\0\0\0\0\0\0\0\0\0\0\0\x04\0\0\0\x05\0\0\0Hello";
/// # let mut scratch = vec![0; message.len()];
/// use blink_native::{read_str, TextError};
/// assert_eq!(read_str(table, message, &mut scratch, 0, 0)?, "Hello");
///
/// let half = b"\x17\0\0\0\x01\0\0\0\0\0\0\0\0\0\0\0\x04\0\0\0\x03\0\0\0\xed\xa0\x80";
/// assert!(matches!(read_str(table, half, &mut scratch, 0, 0), Err(TextError::NotStr(_))));
/// # Ok::<(), TextError>(())
/// ```
pub fn read_str<'a>(
    table: &[u8],
    message: &'a [u8],
    scratch: &mut [u8],
    field: usize,
    item: usize,
) -> Result<&'a str, TextError> {
    Settings::NONE.read_str(table, message, scratch, field, item)
}
