//! A step of both tape readers, in the form that C has.
use blink_native as _;
use blink_reference::{Settings, TapeMessage, TapeReader};

/// `number` 0: not refused; `ended` 1: no bytes are left. The part is empty on a refusal and at the end.
#[repr(C)]
#[derive(Debug, PartialEq)]
pub struct Step {
    pub number: u32,
    pub place: u64,
    pub ended: u32,
    pub offset: u64,
    pub length: u64,
    pub next: u64,
}

extern "C" {
    fn blink_next_message(
        table: *const u8,
        table_length: usize,
        store: *const u8,
        store_length: usize,
        customer: u16,
        tape: *const u8,
        tape_length: usize,
        at: u64,
        scratch: *mut u8,
        scratch_length: usize,
    ) -> Step;
}

/// The proved step, of which the bindings show the iterator only.
pub fn ours(table: &[u8], settings: Settings, tape: &[u8], at: u64, scratch: &mut [u8]) -> Step {
    let Settings { store, customer } = settings;
    // SAFETY: each pointer comes with the length of its slice, and `scratch` is no other's.
    unsafe {
        blink_next_message(
            table.as_ptr(),
            table.len(),
            store.as_ptr(),
            store.len(),
            customer,
            tape.as_ptr(),
            tape.len(),
            at,
            scratch.as_mut_ptr(),
            scratch.len(),
        )
    }
}

/// The second program's.
pub fn theirs(table: &[u8], settings: Settings, tape: &[u8], at: u64, scratch: &mut [u8]) -> Step {
    let mut reader = TapeReader { tape, place: at as usize };
    let message = blink_reference::next_message(table, settings.store, settings.customer, &mut reader, scratch);
    let (number, place) = match message {
        Some(TapeMessage { answer: Err(fault), .. }) => (fault.number as u32, fault.place as u64),
        _ => (0, 0),
    };
    let part = message.map_or(&[][..], |message| message.bytes);
    let offset = if part.is_empty() { 0 } else { part.as_ptr() as usize - tape.as_ptr() as usize };
    Step { number, place, ended: u32::from(message.is_none()), offset: offset as u64, length: part.len() as u64, next: reader.place as u64 }
}
