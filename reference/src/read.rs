//! Reading one field of the message's own group.

use std::ops::Range;

use crate::check::{HEADER, WORD};
use crate::fault::{require, Fault, FaultNumber};
use crate::schema::{Field, Schema, Type};
use crate::settings::Settings;
use crate::wire::{array_at, u32_at, u64_at};

/// The answer of a reading as a number.
#[derive(Clone, Copy, Debug, PartialEq)]
pub enum Number {
    Signed(i64),
    Unsigned(u64),
    Bool(bool),
    /// `mantissa` times ten to the `exponent`, kept as the pair.
    Decimal {
        exponent: i8,
        mantissa: i64,
    },
    /// The float whose bits are the eight bytes.
    Float(f64),
}

impl Schema<'_> {
    /// Reads a field, or an item of a sequence, as a number. Fields and items
    /// count from 0; a field that is no sequence has item 0 alone.
    pub fn read_number(
        &self,
        settings: Settings<'_>,
        message: &[u8],
        scratch: &mut [u8],
        field: u64,
        item: u64,
    ) -> Result<Number, Fault> {
        self.check_message(settings, message, scratch)?;
        let (field, at) = self.find_item(message, field, item)?;
        number_at(message, field.ty, at).ok_or(Fault::at(FaultNumber::OtherKind, 0))
    }

    /// Reads a field, or an item of a sequence, as the part of the message
    /// that holds it: without the count for a text, with its size word for a
    /// dynamic group.
    pub fn read_bytes(
        &self,
        settings: Settings<'_>,
        message: &[u8],
        scratch: &mut [u8],
        field: u64,
        item: u64,
    ) -> Result<Range<usize>, Fault> {
        self.check_message(settings, message, scratch)?;
        let (field, at) = self.find_item(message, field, item)?;
        bytes_at(message, field, at).ok_or(Fault::at(FaultNumber::OtherKind, 0))
    }

    /// Where an item of the accepted message stands: faults 28 and 29.
    fn find_item(&self, message: &[u8], field: u64, item: u64) -> Result<(Field, usize), Fault> {
        let group = self.find_group(u64_at(message, WORD)).expect("an accepted message's type is known");
        let known = field < u64::from(group.field_count);
        require(known, FaultNumber::NoSuchFieldOrItem, 0)?;

        let mut at = HEADER;
        let mut fields = self.fields(group);
        for before in fields.by_ref().take(field as usize) {
            at += self.field_width(before);
        }
        let field = fields.next().expect("the field's number was tested");
        if field.optional {
            require(message[at] == 1, FaultNumber::FieldAbsent, 0)?;
            at += 1;
        }
        if !field.sequence {
            require(item == 0, FaultNumber::NoSuchFieldOrItem, 0)?;
            return Ok((field, at));
        }
        let location = target(message, at);
        let known = item < u64::from(u32_at(message, location));
        require(known, FaultNumber::NoSuchFieldOrItem, 0)?;
        let width = self.item_width(field);
        Ok((field, location + WORD + item as usize * width))
    }
}

/// Where the offset at `at` of an accepted message leads.
fn target(message: &[u8], at: usize) -> usize {
    at + u32_at(message, at) as usize
}

fn number_at(message: &[u8], ty: Type, at: usize) -> Option<Number> {
    let signed = |value: i64| Some(Number::Signed(value));
    let unsigned = |value: u64| Some(Number::Unsigned(value));
    match ty {
        Type::U8 => unsigned(message[at].into()),
        Type::U16 => unsigned(u16::from_le_bytes(array_at(message, at)).into()),
        Type::U32 | Type::TimeOfDayMilli => unsigned(u32_at(message, at).into()),
        Type::U64 | Type::TimeOfDayNano => unsigned(u64_at(message, at)),
        Type::I8 => signed(i8::from_le_bytes(array_at(message, at)).into()),
        Type::I16 => signed(i16::from_le_bytes(array_at(message, at)).into()),
        Type::I32 | Type::Date | Type::Enumeration => {
            signed(i32::from_le_bytes(array_at(message, at)).into())
        }
        Type::I64 | Type::Millitime | Type::Nanotime => signed(i64::from_le_bytes(array_at(message, at))),
        Type::Bool => Some(Number::Bool(message[at] == 1)),
        Type::Decimal => Some(Number::Decimal {
            exponent: i8::from_le_bytes(array_at(message, at)),
            mantissa: i64::from_le_bytes(array_at(message, at + 1)),
        }),
        Type::F64 => Some(Number::Float(f64::from_le_bytes(array_at(message, at)))),
        Type::String
        | Type::Binary
        | Type::Fixed
        | Type::StaticGroup
        | Type::DynamicGroup
        | Type::AnyGroup => None,
    }
}

/// The part of an accepted message that the bytes answer hands out for the
/// item at `at`.
pub(crate) fn bytes_at(message: &[u8], field: Field, at: usize) -> Option<Range<usize>> {
    match field.ty {
        Type::String | Type::Binary if field.size > 0 => {
            let text = at + 1;
            Some(text..text + usize::from(message[at]))
        }
        Type::String | Type::Binary => {
            let location = target(message, at);
            let text = location + WORD;
            Some(text..text + u32_at(message, location) as usize)
        }
        Type::Fixed => Some(at..at + field.size),
        Type::DynamicGroup | Type::AnyGroup => {
            let start = target(message, at);
            Some(start..start + WORD + u32_at(message, start) as usize)
        }
        _ => None,
    }
}
