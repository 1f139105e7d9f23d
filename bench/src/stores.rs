//! Settings stores to time: what a plant keeps, and what a hostile sender would make.

/// `CS`, customer, version, and the flags to ignore faults 4, 6 and 8.
fn record(customer: u16, version: u16, flags: [u8; 3]) -> Vec<u8> {
    let mut record = b"CS".to_vec();
    record.extend(customer.to_le_bytes());
    record.extend(version.to_le_bytes());
    record.extend(flags);
    record
}

/// Three customers, with room for so many records in all; the last one's settings ignore everything.
pub fn three(room: usize) -> Vec<u8> {
    let mut store = [record(1, 1, [0, 1, 0]), record(2, 1, [1, 0, 1]), record(3, 1, [1, 1, 1])].concat();
    store.resize(9 * room, 0);
    store
}

/// So many customers, each with one record.
pub fn customers(count: u16) -> Vec<u8> {
    (0..count).flat_map(|customer| record(customer, 1, [1, 0, 1])).collect()
}

/// A megabyte of as many customers as there can be, in turn, with rising versions: each record would have to be held
/// against all before it.
pub fn hostile() -> Vec<u8> {
    (0..1_048_576 / 9).flat_map(|index: u32| record(index as u16, (index >> 16) as u16, [0, 1, 0])).collect()
}
