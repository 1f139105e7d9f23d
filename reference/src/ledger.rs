//! Document 02's ledger: one line of 64 bytes for each message of the Blank
//! group that passed.

use crate::check::{HEADER, WORD};
use crate::fault::{require, Fault, FaultNumber};
use crate::read::bytes_at;
use crate::schema::{Field, Schema, Type};
use crate::settings::Settings;
use crate::wire::u64_at;

/// The bytes of a line.
pub const LINE_BYTES: usize = 64;

const MARK: [u8; 2] = *b"LB";
/// Where in a line the barcode stands, behind the mark and its count.
const BARCODE: usize = 3;
const MAX_BARCODE: usize = 40;
/// Where density, sound speed and grade stand, and their bytes together.
const NUMBERS: usize = BARCODE + MAX_BARCODE;
const NUMBERS_WIDTH: usize = 12;

/// The types of Blank's fields: barcode, density, sound speed, grade, note.
/// None is a sequence, and the note alone is optional.
const BLANK: [Type; 5] = [Type::String, Type::U32, Type::U32, Type::Enumeration, Type::String];
const NOTE: usize = 4;

/// What a table says of a field, but for its reference.
#[derive(Clone, Copy, Debug, PartialEq, Eq)]
pub struct FieldShape {
    pub ty: Type,
    pub optional: bool,
    pub sequence: bool,
    /// Inline capacity, or the width of a fixed; else 0.
    pub size: u8,
}

impl Schema<'_> {
    /// The shape of a field of the group with this type id. Fields count from
    /// 0. Fault 2 if there is no such group, 28 if it has no such field.
    pub fn field_shape(&self, type_id: u64, field: u64) -> Result<FieldShape, Fault> {
        let group = self.find_group(type_id).ok_or(Fault::at(FaultNumber::UnknownType, 0))?;
        let index = usize::try_from(field).ok();
        let record = index.and_then(|index| self.field_records(group).get(index));
        let record = record.ok_or(Fault::at(FaultNumber::NoSuchFieldOrItem, 0))?;
        let ty = Type::from_number(record[2]).expect("the table check tested the type");
        Ok(FieldShape { ty, optional: record[3] == 1, sequence: record[4] == 1, size: record[5] })
    }

    /// Enters a message's line at `fill` and gives the new fill. After the
    /// message's own faults: 54 unless its type is `type_id` and has Blank's
    /// fields, 55 for a barcode that a line cannot hold, 56 where less than a
    /// line is free. A refusal leaves the ledger as it was.
    ///
    /// ```
    /// // One grade, 3; Blank of type id 1, its barcode inline.
    /// let table = b"\
    ///     EN\x01\0\0\0\0\0\0\0\0\0\0\0\0\0\
    ///     SY\x03\0\0\0\0\0\0\0\0\0\0\0\0\0\
    ///     GR\x01\0\0\0\0\0\0\0\x01\0\0\x05\0\0\
    ///     FD\x11\0\0\x06\0\0\0\0\0\0\0\0\0\0\
    ///     FD\x05\0\0\0\0\0\0\0\0\0\0\0\0\0\
    ///     FD\x05\0\0\0\0\0\0\0\0\0\0\0\0\0\
    ///     FD\x14\0\0\0\0\0\0\0\0\0\0\0\0\0\
    ///     FD\x11\x01\0\0\0\0\0\0\0\0\0\0\0\0";
    /// let message = b"\x24\0\0\0\x01\0\0\0\0\0\0\0\0\0\0\0\
    ///     \x04QZ-1\0\0\x78\x0a\0\0\x18\x17\0\0\x03\0\0\0\0\0\0\0\0";
    ///
    /// use blink_reference::Settings;
    /// let schema = blink_reference::check_table(table)?;
    /// let mut ledger = [0xff; 100];
    /// let fill = schema.add_line(Settings::NONE, message, &mut [0; 40], 1, &mut ledger, 0)?;
    /// assert_eq!((fill, &ledger[..8]), (64, &b"LB\x04QZ-1\0"[..]));
    /// assert_eq!(ledger[43..55], *b"\x78\x0a\0\0\x18\x17\0\0\x03\0\0\0");
    ///
    /// // The rest is too short for another line.
    /// let fault = schema.add_line(Settings::NONE, message, &mut [0; 40], 1, &mut ledger, fill).unwrap_err();
    /// assert_eq!((fault.number as u8, fault.place), (56, 0));
    /// assert_eq!(ledger[fill..], [0xff; 36]);
    /// # Ok::<(), blink_reference::Fault>(())
    /// ```
    pub fn add_line(
        &self,
        settings: Settings<'_>,
        message: &[u8],
        scratch: &mut [u8],
        type_id: u64,
        ledger: &mut [u8],
        fill: usize,
    ) -> Result<usize, Fault> {
        self.check_message(settings, message, scratch)?;
        let barcode_field = match self.blank_barcode(type_id) {
            Some(field) if u64_at(message, WORD) == type_id => field,
            _ => return Err(Fault::at(FaultNumber::NotBlank, 0)),
        };
        let barcode = bytes_at(message, barcode_field, HEADER).expect("a string has bytes");
        let barcode = &message[barcode];
        let fits = (1..=MAX_BARCODE).contains(&barcode.len());
        require(fits, FaultNumber::BarcodeLength, 0)?;
        let Some(line) = ledger.get_mut(fill..).and_then(|free| free.get_mut(..LINE_BYTES)) else {
            return Err(Fault::at(FaultNumber::LedgerFull, 0));
        };

        // No flags or other fields stand between the three numbers.
        let numbers = HEADER + self.field_width(barcode_field);
        let numbers = &message[numbers..numbers + NUMBERS_WIDTH];
        line.fill(0);
        line[..BARCODE - 1].copy_from_slice(&MARK);
        line[BARCODE - 1] = barcode.len() as u8;
        line[BARCODE..BARCODE + barcode.len()].copy_from_slice(barcode);
        line[NUMBERS..NUMBERS + NUMBERS_WIDTH].copy_from_slice(numbers);
        Ok(fill + LINE_BYTES)
    }

    /// The barcode's field of the group with this type id, if it has just
    /// Blank's fields.
    fn blank_barcode(&self, type_id: u64) -> Option<Field> {
        let group = self.find_group(type_id)?;
        if usize::from(group.field_count) != BLANK.len() {
            return None;
        }
        let mut fields = self.fields(group).zip(BLANK).enumerate();
        let blank = fields.all(|(index, (field, ty))| {
            field.ty == ty && field.optional == (index == NOTE) && !field.sequence
        });
        blank.then(|| self.fields(group).next())?
    }
}
