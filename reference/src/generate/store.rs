//! Settings stores: records, written by hand or drawn, and damaged ones.

use super::random::Random;

/// What a record says. A flag may be any byte.
#[derive(Clone, Copy, Debug, PartialEq, Eq)]
pub struct Setting {
    pub customer: u16,
    pub version: u16,
    pub flags: [u8; 3],
}

pub fn setting(customer: u16, version: u16, flags: [u8; 3]) -> Setting {
    Setting { customer, version, flags }
}

impl Setting {
    pub fn encode(self) -> Vec<u8> {
        [&b"CS"[..], &self.customer.to_le_bytes(), &self.version.to_le_bytes(), &self.flags].concat()
    }
}

/// The store with these records and so many zeros behind them.
pub fn store(settings: &[Setting], free: usize) -> Vec<u8> {
    let mut store: Vec<u8> = settings.iter().flat_map(|setting| setting.encode()).collect();
    store.resize(store.len() + free, 0);
    store
}

/// All combinations of the three flags.
pub const COMBINATIONS: [[u8; 3]; 8] =
    [[0, 0, 0], [1, 0, 0], [0, 1, 0], [0, 0, 1], [1, 1, 0], [1, 0, 1], [0, 1, 1], [1, 1, 1]];

/// Numbers at the ends, and some that are alike in their low bits.
const CUSTOMERS: [u16; 10] = [0, 1, 7, 7 + 256, 7 + 1_024, 7 + 4_096, 255, 256, 65_279, 65_535];

/// Records whose versions rise: mostly few, at times more than a table of
/// slots may hold.
pub fn random_settings(random: &mut Random) -> Vec<Setting> {
    let count = match random.below(24) {
        0 => 17 + random.below(40),
        1 if random.one_in(4) => 257 + random.below(1_200),
        _ => random.below(9),
    };
    let many = random.one_in(4);
    let mut settings: Vec<Setting> = Vec::new();
    while settings.len() < count {
        let customer = match many {
            true => random.number() as u16 >> random.below(12),
            false => random.pick(&CUSTOMERS),
        };
        let newest = settings.iter().rev().find(|setting| setting.customer == customer);
        let least = newest.map_or(0, |setting| u32::from(setting.version) + 1);
        let version = least + random.pick(&[0, 0, 1, 5, 255, 256, 65_535 - least.min(65_535)]);
        // A customer whose versions are used up gets no more.
        match u16::try_from(version) {
            Ok(version) => settings.push(setting(customer, version, random.pick(&COMBINATIONS))),
            Err(_) if settings.iter().filter(|setting| setting.version == 65_535).count() > 8 => break,
            Err(_) => {}
        }
    }
    settings
}

/// A store that passes: full, nearly so, or with room for more.
pub fn random_store(random: &mut Random) -> Vec<u8> {
    let settings = random_settings(random);
    let free = random.pick(&[0, 0, 1, 8, 9, 10, 17, 18, 40]);
    store(&settings, free)
}

/// The same with something wrong in it (by chance, nothing).
pub fn damage_store(random: &mut Random, mut store: Vec<u8>) -> Vec<u8> {
    let records = store.chunks_exact(9).take_while(|record| record.starts_with(b"CS")).count();
    if records == 0 {
        store.resize(1 + random.below(30), 0);
        let at = random.below(store.len());
        store[at] = random.pick(&[1, b'C', 255]);
        return store;
    }
    // Wrong records come late, so that there are good ones before them.
    let record = 9 * random.below(records).max(random.below(records));
    let other = 9 * random.below(records);
    match random.below(12) {
        0 => store[record + random.below(2)] ^= 1 << random.below(8),
        1 | 2 => store[record + 6 + random.below(3)] = random.pick(&[2, 3, 128, 255]),
        3 => store[record..record + 9].fill(0),
        4 => store.truncate(record + 1 + random.below(8)),
        5 if store.len() > 9 * records => {
            let free = store.len() - 9 * records;
            store[9 * records + random.below(free)] = random.pick(&[1, b'C', 255]);
        }
        5 => store.extend(&[b'C', b'S', 0, 0, 0, 0, 0, 0][..1 + random.below(8)]),
        // The same version again, or an older one: of any customer.
        6 => store.copy_within(other..other + 6, record),
        7 => {
            let copy = store[other..other + 9].to_vec();
            store.splice(record..record, copy);
        }
        8 => store.copy_within(other + 2..other + 4, record + 2),
        9 => store[record + 4..record + 6].fill(0),
        10 => drop(store.drain(record..record + 1 + random.below(8))),
        _ => {
            let at = random.below(store.len());
            store[at] ^= 1 << random.below(8);
        }
    }
    store
}

/// A customer of the store, or another one.
pub fn random_customer(random: &mut Random, store: &[u8]) -> u16 {
    let records = store.len() / 9;
    if records == 0 || random.one_in(6) {
        return random.pick(&CUSTOMERS);
    }
    let at = 9 * random.below(records);
    u16::from_le_bytes([store[at + 2], store[at + 3]])
}

/// A version of the store, one near it, or any.
pub fn random_version(random: &mut Random, store: &[u8]) -> u16 {
    let records = store.len() / 9;
    if records == 0 || random.one_in(8) {
        return random.pick(&[0, 1, 2, 255, 256, 65_535]);
    }
    let at = 9 * random.below(records);
    let version = u16::from_le_bytes([store[at + 4], store[at + 5]]);
    version.wrapping_add(random.pick(&[0, 0, 0, 1, 1, 2, 65_535]))
}
