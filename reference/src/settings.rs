//! Document 02's settings store: what each customer's stations may leave in
//! bytes that mean nothing.
//!
//! Records of 9 bytes stand from the start: the mark `CS`, customer, version,
//! and a flag for each of the faults 4, 6 and 8. All bytes after them, the
//! rest, are zero. A customer's versions rise in the order they stand, so the
//! last record of a customer is the newest, which governs.

use crate::fault::{require, Fault, FaultNumber};
use crate::wire::{first_nonzero, u16_at};

const RECORD: usize = 9;
const MARK: [u8; 2] = *b"CS";
/// Where in a record the flags stand.
const FLAGS: usize = 6;

type Record = [u8; RECORD];

/// The faults that are not made: what one record's flags say.
#[derive(Clone, Copy, Debug, Default, PartialEq, Eq)]
pub struct Ignored {
    /// Fault 4, the bytes of absent fields.
    pub absent: bool,
    /// Fault 6, the pads of every group.
    pub pads: bool,
    /// Fault 8, the unused bytes of inline texts.
    pub unused: bool,
}

impl Ignored {
    pub const NOTHING: Ignored = Ignored { absent: false, pads: false, unused: false };
}

/// Under what a message is asked about: a store, and the customer whose
/// newest settings in it govern. A store without any of the customer's, as
/// the empty one, ignores nothing.
#[derive(Clone, Copy, Debug, Default, PartialEq, Eq)]
pub struct Settings<'s> {
    pub store: &'s [u8],
    pub customer: u16,
}

impl<'s> Settings<'s> {
    /// Of the empty store: nothing is ignored.
    pub const NONE: Settings<'static> = Settings { store: &[], customer: 0 };

    pub fn of(store: &'s [u8], customer: u16) -> Settings<'s> {
        Settings { store, customer }
    }

    /// What the governing record says, or fault 50.
    #[inline]
    pub fn ignored(self) -> Result<Ignored, Fault> {
        let newest = newest_of(records(self.store)?, self.customer);
        Ok(newest.map_or(Ignored::NOTHING, ignored_by))
    }
}

/// Checks a settings store: fault 50 at the first record, or the rest, that
/// is wrong.
pub fn check_store(store: &[u8]) -> Result<(), Fault> {
    records(store).map(|_| ())
}

/// What the record of a customer and a version says, the newest or an older
/// one. Fault 59 if it is not there.
pub fn read_settings(store: &[u8], customer: u16, version: u16) -> Result<Ignored, Fault> {
    let records = records(store)?;
    let record =
        records.iter().find(|record| (customer_of(record), version_of(record)) == (customer, version));
    record.map(ignored_by).ok_or(Fault::at(FaultNumber::NoSuchSettings, 0))
}

/// Adds a record behind the last one. Fault 50 where the store is wrong or
/// would become so, 51 where it has no room; either leaves it as it was.
pub fn add_settings(
    store: &mut [u8],
    customer: u16,
    version: u16,
    absent: u8,
    pads: u8,
    unused: u8,
) -> Result<(), Fault> {
    let [customer_low, customer_high] = customer.to_le_bytes();
    let [version_low, version_high] = version.to_le_bytes();
    let [first, second] = MARK;
    let record =
        [first, second, customer_low, customer_high, version_low, version_high, absent, pads, unused];
    let records = records(store)?;
    let at = records.len() * RECORD;
    let rises = newest_of(records, customer).is_none_or(|newest| version_of(newest) < version);
    require(rises && has_flags(&record), FaultNumber::StoreDamaged, at)?;
    let Some(room) = store.get_mut(at..at + RECORD) else {
        return Err(Fault::at(FaultNumber::StoreFull, 0));
    };
    room.copy_from_slice(&record);
    Ok(())
}

/// The records of a store that passes, or fault 50.
#[inline]
fn records(store: &[u8]) -> Result<&[Record], Fault> {
    let (chunks, _) = store.as_chunks::<RECORD>();
    // Whatever follows the last mark is the rest. If it is not zero, then it
    // does not matter whether a record was meant: the place is the same.
    let count = chunks.iter().position(|chunk| !chunk.starts_with(&MARK)).unwrap_or(chunks.len());
    let (records, rest) = (&chunks[..count], &store[count * RECORD..]);
    if let Some(index) = first_bad(records) {
        return Err(Fault::at(FaultNumber::StoreDamaged, index * RECORD));
    }
    require(first_nonzero(rest).is_none(), FaultNumber::StoreDamaged, count * RECORD)?;
    Ok(records)
}

#[inline]
fn customer_of(record: &Record) -> u16 {
    u16_at(record, 2)
}

#[inline]
fn version_of(record: &Record) -> u16 {
    u16_at(record, 4)
}

#[inline]
fn has_flags(record: &Record) -> bool {
    record[FLAGS..].iter().all(|&flag| flag <= 1)
}

#[inline]
fn ignored_by(record: &Record) -> Ignored {
    let flag = |index: usize| record[FLAGS + index] == 1;
    Ignored { absent: flag(0), pads: flag(1), unused: flag(2) }
}

/// The last record of a customer.
#[inline]
fn newest_of(records: &[Record], customer: u16) -> Option<&Record> {
    records.iter().rev().find(|record| customer_of(record) == customer)
}

/// So many records are held against all before them; it is the quickest.
const FEW: usize = 16;

/// The index of the first record with a flag that is none, or a version that
/// does not rise.
#[inline]
fn first_bad(records: &[Record]) -> Option<usize> {
    if records.len() > FEW {
        return first_bad_of_many(records);
    }
    (0..records.len()).find(|&index| {
        let record = &records[index];
        let newest = newest_of(&records[..index], customer_of(record));
        !has_flags(record) || newest.is_some_and(|newest| version_of(newest) >= version_of(record))
    })
}

/// The same in a time that grows with the number of records alone, however
/// many customers they are of. A small table is quickly cleared and mostly
/// enough; in the large one each customer has its own slot.
#[inline(never)]
fn first_bad_of_many(records: &[Record]) -> Option<usize> {
    first_bad_by_slots::<1_024>(records)
        .or_else(|SharedSlot| first_bad_by_slots::<65_536>(records))
        .expect("there are as many slots as customers")
}

/// Two customers have the same slot.
#[derive(Debug)]
struct SharedSlot;

#[inline(never)]
fn first_bad_by_slots<const SLOTS: usize>(records: &[Record]) -> Result<Option<usize>, SharedSlot> {
    // By slot, one more than the index of its customer's newest record.
    let mut slots = [0_u32; SLOTS];
    for (index, record) in records.iter().enumerate() {
        let slot = &mut slots[usize::from(customer_of(record)) % SLOTS];
        if *slot > 0 {
            let newest = &records[*slot as usize - 1];
            if customer_of(newest) != customer_of(record) {
                return Err(SharedSlot);
            }
            if version_of(newest) >= version_of(record) {
                return Ok(Some(index));
            }
        }
        if !has_flags(record) {
            return Ok(Some(index));
        }
        *slot = u32::try_from(index + 1).expect("a store has fewer than 2^32 records");
    }
    Ok(None)
}
