//! What include/blink_native.h declares.

#[repr(C)]
pub struct BlinkVerdict {
    pub number: u32,
    pub place: u64,
}

#[repr(C)]
pub struct BlinkWritten {
    pub number: u32,
    pub place: u64,
    pub length: u64,
}

#[repr(C)]
pub struct BlinkNumber {
    pub number: u32,
    pub place: u64,
    pub kind: u32,
    pub exponent: i32,
    pub bits: u64,
}

#[repr(C)]
pub struct BlinkPart {
    pub number: u32,
    pub place: u64,
    pub offset: u64,
    pub length: u64,
}

#[repr(C)]
pub struct BlinkSettings {
    pub number: u32,
    pub place: u64,
    pub absent: u32,
    pub pads: u32,
    pub unused: u32,
}

#[repr(C)]
pub struct BlinkStep {
    pub number: u32,
    pub place: u64,
    pub ended: u32,
    pub offset: u64,
    pub length: u64,
    pub next: u64,
}

#[repr(C)]
pub struct BlinkShape {
    pub number: u32,
    pub place: u64,
    pub type_number: u32,
    pub optional: u32,
    pub sequence: u32,
    pub size: u32,
}

extern "C" {
    pub fn blink_version() -> u32;

    pub fn blink_fault_words(number: u32, room: *mut u8, room_length: usize) -> usize;

    pub fn blink_check_table(table: *const u8, table_length: usize) -> BlinkVerdict;

    pub fn blink_check_message(
        table: *const u8,
        table_length: usize,
        store: *const u8,
        store_length: usize,
        customer: u16,
        message: *const u8,
        message_length: usize,
        scratch: *mut u8,
        scratch_length: usize,
    ) -> BlinkVerdict;

    pub fn blink_next_message(
        table: *const u8,
        table_length: usize,
        store: *const u8,
        store_length: usize,
        customer: u16,
        tape: *const u8,
        tape_length: usize,
        at: u64,
        scratch: *mut u8,
        scratch_length: usize,
    ) -> BlinkStep;

    pub fn blink_message_to_sheet(
        table: *const u8,
        table_length: usize,
        store: *const u8,
        store_length: usize,
        customer: u16,
        message: *const u8,
        message_length: usize,
        scratch: *mut u8,
        scratch_length: usize,
        sheet: *mut u8,
        sheet_length: usize,
    ) -> BlinkWritten;

    pub fn blink_sheet_to_message(
        table: *const u8,
        table_length: usize,
        sheet: *const u8,
        sheet_length: usize,
        output: *mut u8,
        output_length: usize,
    ) -> BlinkWritten;

    pub fn blink_rewrite(
        table: *const u8,
        table_length: usize,
        store: *const u8,
        store_length: usize,
        customer: u16,
        message: *const u8,
        message_length: usize,
        scratch: *mut u8,
        scratch_length: usize,
        sheet: *mut u8,
        sheet_length: usize,
        output: *mut u8,
        output_length: usize,
    ) -> BlinkWritten;

    pub fn blink_read_number(
        table: *const u8,
        table_length: usize,
        store: *const u8,
        store_length: usize,
        customer: u16,
        message: *const u8,
        message_length: usize,
        scratch: *mut u8,
        scratch_length: usize,
        field: u64,
        item: u64,
    ) -> BlinkNumber;

    pub fn blink_read_bytes(
        table: *const u8,
        table_length: usize,
        store: *const u8,
        store_length: usize,
        customer: u16,
        message: *const u8,
        message_length: usize,
        scratch: *mut u8,
        scratch_length: usize,
        field: u64,
        item: u64,
    ) -> BlinkPart;

    pub fn blink_field_shape(table: *const u8, table_length: usize, type_id: u64, field: u64) -> BlinkShape;

    pub fn blink_add_line(
        table: *const u8,
        table_length: usize,
        store: *const u8,
        store_length: usize,
        customer: u16,
        message: *const u8,
        message_length: usize,
        scratch: *mut u8,
        scratch_length: usize,
        type_id: u64,
        ledger: *mut u8,
        ledger_length: usize,
        fill: u64,
    ) -> BlinkWritten;

    pub fn blink_check_store(store: *const u8, store_length: usize) -> BlinkVerdict;

    pub fn blink_read_settings(
        store: *const u8,
        store_length: usize,
        customer: u16,
        version: u16,
    ) -> BlinkSettings;

    pub fn blink_add_settings(
        store: *mut u8,
        store_length: usize,
        customer: u16,
        version: u16,
        absent: u8,
        pads: u8,
        unused: u8,
    ) -> BlinkVerdict;
}
