//! A ledger's line and a field's shape by both sides, in the form that C has.
use blink_native as _;
use blink_reference::{Fault, Settings};

/// `number` 0: not refused; `length`: the ledger's new fill.
#[repr(C)]
#[derive(Debug, PartialEq)]
pub struct Written {
    pub number: u32,
    pub place: u64,
    pub length: u64,
}

/// `number` 0: not refused.
#[repr(C)]
#[derive(Debug, PartialEq)]
pub struct Shape {
    pub number: u32,
    pub place: u64,
    pub type_number: u32,
    pub optional: u32,
    pub sequence: u32,
    pub size: u32,
}

extern "C" {
    fn blink_add_line(
        table: *const u8,
        table_length: usize,
        store: *const u8,
        store_length: usize,
        customer: u16,
        message: *const u8,
        message_length: usize,
        scratch: *mut u8,
        scratch_length: usize,
        type_id: u64,
        ledger: *mut u8,
        ledger_length: usize,
        fill: u64,
    ) -> Written;

    fn blink_field_shape(table: *const u8, table_length: usize, type_id: u64, field: u64) -> Shape;
}

/// What a line is asked of, but for the rooms.
#[derive(Clone, Copy)]
pub struct Asked<'a> {
    pub table: &'a [u8],
    pub settings: Settings<'a>,
    pub message: &'a [u8],
    pub type_id: u64,
}

/// The proved line, at any fill: the bindings keep to whole lines.
pub fn ours(asked: Asked, scratch: &mut [u8], ledger: &mut [u8], fill: u64) -> Written {
    let Asked { table, settings: Settings { store, customer }, message, type_id } = asked;
    // SAFETY: each pointer comes with the length of its slice, and neither `scratch` nor `ledger` is another's.
    unsafe {
        blink_add_line(
            table.as_ptr(),
            table.len(),
            store.as_ptr(),
            store.len(),
            customer,
            message.as_ptr(),
            message.len(),
            scratch.as_mut_ptr(),
            scratch.len(),
            type_id,
            ledger.as_mut_ptr(),
            ledger.len(),
            fill,
        )
    }
}

/// The second program's.
pub fn theirs(asked: Asked, scratch: &mut [u8], ledger: &mut [u8], fill: u64) -> Written {
    let Asked { table, settings: Settings { store, customer }, message, type_id } = asked;
    match blink_reference::add_line(table, store, customer, message, scratch, type_id, ledger, fill as usize) {
        Ok(fill) => Written { number: 0, place: 0, length: fill as u64 },
        Err(Fault { number, place }) => Written { number: number as u32, place: place as u64, length: 0 },
    }
}

pub fn our_shape(table: &[u8], type_id: u64, field: u64) -> Shape {
    // SAFETY: pointer and length are a slice's own.
    unsafe { blink_field_shape(table.as_ptr(), table.len(), type_id, field) }
}

pub fn their_shape(table: &[u8], type_id: u64, field: u64) -> Shape {
    match blink_reference::field_shape(table, type_id, field) {
        Ok(shape) => Shape {
            number: 0,
            place: 0,
            type_number: shape.ty as u32,
            optional: shape.optional.into(),
            sequence: shape.sequence.into(),
            size: shape.size.into(),
        },
        Err(Fault { number, place }) => {
            Shape { number: number as u32, place: place as u64, type_number: 0, optional: 0, sequence: 0, size: 0 }
        }
    }
}
