//! Edges of the settings store: its check, readings and additions.

use super::{with, Edges, FINE};
use crate::generate::store::{setting, store, Setting, COMBINATIONS};
use crate::question::{Kind, Question};

pub fn add(edges: &mut Edges) {
    shapes(edges);
    every_byte(edges);
    flags(edges);
    versions(edges);
    rests(edges);
    like_numbers(edges);
    long_stores(edges);
    readings(edges);
    additions(edges);
    refused_additions(edges);
    which_comes_first(edges);
}

impl Edges {
    fn check_store(&mut self, name: &str, store: &[u8], fault: (u8, usize)) {
        self.store(name, Question::new(Kind::CheckStore, store.to_vec()), fault);
    }

    /// All questions about a store: the check, a reading of the settings that
    /// `held` names, and an addition of settings that rise. A fault of the
    /// store is that of all three.
    fn all_of_store(&mut self, name: &str, store: &[u8], held: Setting, fault: (u8, usize)) {
        self.check_store(name, store, fault);
        let question = Question::read_settings(store.to_vec(), held.customer, held.version);
        self.store(name, question, fault);
        let question = Question::add_settings(store.to_vec(), held.customer, 65_535, held.flags);
        let records = store.chunks_exact(9).take_while(|record| record.starts_with(b"CS")).count();
        let full = store.len() - 9 * records < 9;
        self.store(name, question, if fault == FINE && full { (51, 0) } else { fault });
    }
}

const NOTHING: [u8; 3] = [0; 3];
const ALL: [u8; 3] = [1; 3];

fn shapes(edges: &mut Edges) {
    edges.check_store("no bytes", &[], FINE);
    for length in 1..=20 {
        edges.check_store("zeros alone", &vec![0; length], FINE);
    }
    edges.check_store("a million zeros", &vec![0; 1_048_592], FINE);
    let one = store(&[setting(1, 1, ALL)], 0);
    edges.check_store("one record", &one, FINE);
    for length in 1..9 {
        edges.check_store("50 a record cut off", &one[..length], (50, 0));
        edges.check_store("50 a record cut off and zeros", &[&one[..length], &[0; 30]].concat(), {
            // With its customer and version, flags of zero make a record.
            if length >= 2 {
                FINE
            } else {
                (50, 0)
            }
        });
    }
    edges.check_store("customer 0, version 0", &store(&[setting(0, 0, NOTHING)], 0), FINE);
    edges.check_store("customer and version 65,535", &store(&[setting(65_535, 65_535, ALL)], 0), FINE);
    edges.check_store("50 the mark turned round", &with(&with(&one, 0, b'S'), 1, b'C'), (50, 0));
    edges.check_store("50 a mark in small letters", &with(&one, 0, b'c'), (50, 0));
    edges.check_store("50 a mark of zeros", &with(&with(&one, 0, 0), 1, 0), (50, 0));
    edges.check_store("50 one byte in front", &[&[0], &one[..], &[0; 8]].concat(), (50, 0));
    edges.check_store("50 a table", b"EN\x01\0\0\0\0\0\0\0\0\0\0\0\0\0", (50, 0));
}

/// Two versions of a customer and one of another, with a tail.
fn every_byte(edges: &mut Edges) {
    let held = [setting(1, 1, [1, 0, 0]), setting(1, 2, [0, 1, 0]), setting(2, 1, [0, 0, 1])];
    let good = store(&held, 13);
    edges.all_of_store("three records", &good, held[0], FINE);
    for at in 0..good.len() {
        let start = at.min(27) / 9 * 9;
        for (name, byte) in
            [("a byte's high bit", good[at] | 0x80), ("a byte of zero", 0), ("a byte of 2", 2)]
        {
            if byte == good[at] {
                continue;
            }
            let fault = match (at, byte) {
                // The rest, a mark, a flag.
                (27.., _) => (50, 27),
                _ if at - start < 2 => (50, start),
                _ if at - start >= 6 && byte > 1 => (50, start),
                // Versions of the first customer: 1 and then 2.
                (4, 2..) | (5, 1..) | (13, 0) => (50, 9),
                // A version that customer 2 has already, or is past.
                (2 | 11, 2) => (50, 18),
                _ => FINE,
            };
            edges.check_store(name, &with(&good, at, byte), fault);
        }
    }
    // A damaged store has no settings to read, and takes none.
    for at in [0, 10, 15, 26, 27, 39] {
        let bad = with(&good, at, 9);
        edges.all_of_store("50 in every question", &bad, held[0], (50, at.min(27) / 9 * 9));
    }
    // The first fault counts, whatever it is.
    edges.check_store("50 of two", &with(&with(&good, 39, 1), 18, 0), (50, 18));
    edges.check_store("50 of two, a flag first", &with(&with(&good, 9, 0), 8, 2), (50, 0));
    edges.check_store("50 of two, a version first", &with(&with(&good, 13, 1), 18, 1), (50, 9));
}

fn flags(edges: &mut Edges) {
    for flags in COMBINATIONS {
        edges.check_store("flags", &store(&[setting(1, 1, flags)], 3), FINE);
    }
    for at in 0..3 {
        for flag in [2, 3, 128, 254, 255] {
            let mut flags = [0, 1, 0];
            flags[at] = flag;
            let bad = setting(1, 1, flags);
            edges.check_store("50 a flag", &store(&[bad], 3), (50, 0));
            let behind = [setting(1, 0, ALL), bad, setting(2, 0, ALL)];
            edges.check_store("50 a flag of the second record", &store(&behind, 0), (50, 9));
        }
    }
}

fn versions(edges: &mut Edges) {
    let two = |first, second| store(&[setting(7, first, ALL), setting(7, second, ALL)], 5);
    for (first, second) in [(0, 1), (1, 2), (255, 256), (1, 256), (32_767, 32_768), (65_534, 65_535)] {
        edges.check_store("versions rise", &two(first, second), FINE);
        edges.check_store("50 versions fall", &two(second, first), (50, 9));
    }
    for version in [0, 1, 255, 256, 65_535] {
        edges.check_store("50 the same version again", &two(version, version), (50, 9));
    }
    // Other customers' records in between are of no account.
    let between = |version| {
        let records = [
            setting(7, 5, ALL),
            setting(8, 9, ALL),
            setting(9, 1, NOTHING),
            setting(7, version, NOTHING),
            setting(8, 10, ALL),
        ];
        store(&records, 9)
    };
    edges.check_store("versions rise between others'", &between(6), FINE);
    edges.check_store("a version that another customer has passed", &between(8), FINE);
    for version in [0, 1, 4, 5] {
        edges.check_store("50 a version of one customer between others'", &between(version), (50, 27));
    }
    // The newest counts, not the first.
    let third = |version| store(&[setting(7, 1, ALL), setting(7, 9, ALL), setting(7, version, ALL)], 0);
    edges.check_store("50 above the first version, not the newest", &third(5), (50, 18));
    edges.check_store("above the newest", &third(10), FINE);
    // Customers may come in any order, and the same version is each one's own.
    let others = [setting(9, 3, ALL), setting(0, 3, ALL), setting(65_535, 3, ALL), setting(1, 3, ALL)];
    edges.check_store("versions of several customers", &store(&others, 1), FINE);
}

fn rests(edges: &mut Edges) {
    let one = setting(1, 1, [0, 1, 0]);
    for free in 0..=18 {
        edges.all_of_store("a rest of zeros", &store(&[one], free), one, FINE);
    }
    for free in 1..=10 {
        for at in [0, free / 2, free - 1] {
            for byte in [1, b'C', 255] {
                let rest = with(&store(&[one], free), 9 + at, byte);
                edges.check_store("50 a rest that is not zero", &rest, (50, 9));
            }
        }
    }
    // Nine zeros and then a record: the rest has begun.
    let hole = [store(&[one], 9), store(&[setting(2, 1, ALL)], 0)].concat();
    edges.all_of_store("50 a hole", &hole, one, (50, 9));
    edges.check_store("50 a hole at the start", &hole[9..], (50, 0));
    let later = [store(&[one], 27), store(&[setting(2, 1, ALL)], 9)].concat();
    edges.check_store("50 a record behind three holes", &later, (50, 9));
    edges.check_store("50 a record of half a place further", &[&[0; 4], &hole[..9]].concat(), (50, 0));
    // A rest as long as some records, and its last byte.
    for free in [31, 64, 1_000] {
        let long = store(&[one], free);
        edges.check_store("a long rest", &long, FINE);
        edges.check_store("50 the last byte of a long rest", &with(&long, 9 + free - 1, 1), (50, 9));
    }
}

/// Customers that are alike in some of their bits.
fn like_numbers(edges: &mut Edges) {
    for step in [1, 2, 128, 256, 512, 1_024, 2_048, 4_096, 8_192, 16_384, 32_768] {
        for customer in [0, 5] {
            let other = customer + step;
            let records = [setting(customer, 9, ALL), setting(other, 3, NOTHING)];
            edges.all_of_store("two customers alike", &store(&records, 9), records[0], FINE);
            let again = |customer, version| {
                let more = setting(customer, version, ALL);
                store(&[records[0], records[1], more], 9)
            };
            edges.check_store("the first again", &again(customer, 10), FINE);
            edges.check_store("50 the first again", &again(customer, 9), (50, 18));
            edges.check_store("the second again", &again(other, 4), FINE);
            edges.check_store("50 the second again", &again(other, 3), (50, 18));
        }
    }
    // More of them than a few.
    for step in [1, 16, 64, 256, 1_024, 2_048] {
        let alike: Vec<Setting> = (0..30).map(|index| setting(3 + index * step, 60 - index, ALL)).collect();
        edges.check_store("thirty customers alike", &store(&alike, 0), FINE);
        for (customer, version) in [(3, 60), (3 + 29 * step, 31), (3 + 15 * step, 45)] {
            let again = [&alike[..], &[setting(customer, version, ALL)]].concat();
            edges.check_store("50 one of thirty again", &store(&again, 0), (50, 270));
            let again = [&alike[..], &[setting(customer, version + 1, ALL)]].concat();
            edges.check_store("one of thirty, newer", &store(&again, 0), FINE);
        }
    }
}

/// So many records, of as many customers or of fewer.
fn records(count: u16, customers: u16) -> Vec<Setting> {
    let flags = |index: u16| COMBINATIONS[usize::from(index) % 8];
    (0..count).map(|index| setting(index % customers * 9, index / customers, flags(index))).collect()
}

fn long_stores(edges: &mut Edges) {
    for count in [15, 16, 17, 18, 100, 300] {
        for customers in [1, 3, 10, count] {
            let good = records(count, customers);
            let last = usize::from(count) - 1;
            edges.check_store("many records", &store(&good, 4), FINE);
            // The last customer's version again, or that of the first record.
            for earlier in [last - usize::from(customers.min(count - 1)), 0, last / 2] {
                let mut bad = good.clone();
                bad[last] = Setting { flags: ALL, ..good[earlier] };
                edges.check_store("50 a fall at the last record", &store(&bad, 4), (50, 9 * last));
                if customers == count && earlier == 0 {
                    let (held, room) = (good[1], store(&bad, 9));
                    edges.all_of_store("50 in every question about many", &room, held, (50, 9 * last));
                }
            }
            let mut bad = good.clone();
            bad[last].flags[2] = 2;
            edges.check_store("50 a flag at the last record", &store(&bad, 4), (50, 9 * last));
            let tail = with(&store(&good, 4), 9 * last + 12, 7);
            edges.check_store("50 a tail behind many records", &tail, (50, 9 * last + 9));
        }
    }
    // As many records as stand in 65,536 bytes, each of its own customer.
    let most = records(7_281, 7_281);
    edges.check_store("7,281 records", &store(&most, 7), FINE);
    let mut bad = most.clone();
    bad[7_280] = most[0];
    edges.check_store("50 a fall at the last of 7,281 records", &store(&bad, 7), (50, 65_520));
    let newer = Question::add_settings(store(&most, 9), 0, 1, ALL);
    edges.store("an addition to 7,281 records", newer, FINE);
    // Of one customer, from version 0 on.
    let mut one = records(2_000, 1);
    edges.check_store("2,000 versions", &store(&one, 0), FINE);
    one[1_999].version = 1_998;
    edges.check_store("50 the last of 2,000 versions", &store(&one, 0), (50, 17_991));
}

fn readings(edges: &mut Edges) {
    let held = [
        setting(7, 1, [1, 0, 0]),
        setting(8, 1, [0, 1, 0]),
        setting(7, 2, [0, 0, 1]),
        setting(0, 0, [1, 1, 0]),
        setting(65_535, 65_535, [0, 1, 1]),
        setting(7 + 256, 2, [1, 1, 1]),
        setting(7, 513, [0, 0, 0]),
    ];
    let good = store(&held, 20);
    for record in held {
        let question = Question::read_settings(good.clone(), record.customer, record.version);
        edges.store("settings that are there", question, FINE);
    }
    let missing = [
        (7, 0),
        (7, 3),
        (7, 512),
        (8, 2),
        (8, 0),
        (9, 1),
        (0, 1),
        (1, 0),
        (65_535, 0),
        (65_535, 65_534),
        (7 + 256, 1),
        (7 + 512, 2),
        (1_792, 1),
        (0x5343, 0),
    ];
    for (customer, version) in missing {
        edges.store("59", Question::read_settings(good.clone(), customer, version), (59, 0));
    }
    for empty in [vec![], vec![0; 5], vec![0; 9], vec![0; 900], vec![0; 1_048_592]] {
        edges.store("59 no settings at all", Question::read_settings(empty, 0, 0), (59, 0));
    }
    for flags in COMBINATIONS {
        let question = Question::read_settings(store(&[setting(3, 4, flags)], 0), 3, 4);
        edges.store("each combination", question, FINE);
    }
    let full = store(&held, 0);
    edges.store("of a full store", Question::read_settings(full.clone(), 7, 513), FINE);
    edges.store("59 in a full store", Question::read_settings(full.clone(), 7, 514), (59, 0));
    // 50 comes before 59, and also where the settings stand before the fault.
    let bad = with(&full, 62, 2);
    edges.store("50 before 59", Question::read_settings(bad.clone(), 7, 514), (50, 54));
    edges.store("50 behind the settings", Question::read_settings(bad.clone(), 7, 1), (50, 54));
    edges.store("50 in the settings", Question::read_settings(bad, 7, 513), (50, 54));
    let many = store(&records(300, 100), 3);
    for (customer, version, fault) in [(0, 0, FINE), (891, 2, FINE), (891, 3, (59, 0)), (892, 0, (59, 0))] {
        edges.store("of 300 records", Question::read_settings(many.clone(), customer, version), fault);
    }
}

fn additions(edges: &mut Edges) {
    let held = [setting(7, 3, [1, 0, 0]), setting(8, 9, [0, 1, 0])];
    for flags in COMBINATIONS {
        for (customer, version) in [(7, 4), (8, 10), (9, 0), (0, 0), (65_535, 65_535), (7, 65_535)] {
            let question = Question::add_settings(store(&held, 20), customer, version, flags);
            edges.store("an addition", question, FINE);
        }
    }
    for length in [9, 10, 17, 18, 100, 65_536, 1_048_592] {
        let question = Question::add_settings(vec![0; length], 0x4342, 0x4544, [1, 0, 1]);
        edges.store("the first addition", question, FINE);
    }
    // The lent buffer may be longer than any table.
    let mut long = store(&held, 0);
    long.resize(1_048_592, 0);
    edges.store("an addition to a long store", Question::add_settings(long, 7, 4, ALL), FINE);
    for free in [9, 10, 17, 18] {
        edges.store("room", Question::add_settings(store(&held, free), 7, 4, ALL), FINE);
    }
    for count in [16, 17, 300] {
        let good = store(&records(count, 10), 9);
        let newest = (count - 1) / 10;
        let last = (count - 1) % 10 * 9;
        let place = 9 * usize::from(count);
        let question = Question::add_settings(good.clone(), last, newest + 1, ALL);
        edges.store("an addition to many", question, FINE);
        let question = Question::add_settings(good.clone(), last, newest, ALL);
        edges.store("50 an addition to many", question, (50, place));
        edges.store("a new customer", Question::add_settings(good, 1, 0, ALL), FINE);
    }
}

fn refused_additions(edges: &mut Edges) {
    let held =
        [setting(7, 3, [1, 0, 0]), setting(8, 9, [0, 1, 0]), setting(7, 65_535, ALL), setting(8, 10, ALL)];
    let good = store(&held, 20);
    for (customer, version) in [(7, 0), (7, 3), (7, 4), (7, 65_535), (8, 0), (8, 9), (8, 10)] {
        let question = Question::add_settings(good.clone(), customer, version, NOTHING);
        edges.store("50 a version that does not rise", question, (50, 36));
    }
    for at in 0..3 {
        for flag in [2, 3, 128, 255] {
            let mut flags = [1, 0, 1];
            flags[at] = flag;
            let question = Question::add_settings(good.clone(), 9, 9, flags);
            edges.store("50 a flag that is none", question, (50, 36));
            edges.store("50 a flag, in no bytes", Question::add_settings(vec![], 9, 9, flags), (50, 0));
        }
    }
    for free in 0..9 {
        let short = store(&held, free);
        edges.store("51", Question::add_settings(short.clone(), 8, 11, ALL), (51, 0));
        edges.store("51 a new customer", Question::add_settings(short, 0, 0, ALL), (51, 0));
        edges.store("51 in zeros", Question::add_settings(vec![0; free], 1, 1, ALL), (51, 0));
    }
    // 65,535 is the last version.
    let last = store(&[setting(1, 65_535, ALL)], 9);
    for version in [0, 1, 65_534, 65_535] {
        let question = Question::add_settings(last.clone(), 1, version, ALL);
        edges.store("50 after the last version", question, (50, 9));
    }
}

/// 50 of the store, 50 of the addition, 51.
fn which_comes_first(edges: &mut Edges) {
    let held = [setting(7, 3, [1, 0, 0]), setting(8, 9, [0, 1, 0])];
    let (same, flag, newer) = ((7, 3, ALL), (9, 0, [0, 2, 0]), (7, 4, ALL));
    let ask = |store: &[u8], (customer, version, flags)| {
        Question::add_settings(store.to_vec(), customer, version, flags)
    };
    for free in 0..9 {
        let short = store(&held, free);
        edges.store("50 before 51, a version", ask(&short, same), (50, 18));
        edges.store("50 before 51, a flag", ask(&short, flag), (50, 18));
    }
    for free in [1, 8] {
        // A rest that is not zero has no room to say that it has none.
        for at in [0, free - 1] {
            let bad = with(&store(&held, free), 18 + at, 1);
            for addition in [same, flag, newer] {
                edges.store("50 of a tail before 51", ask(&bad, addition), (50, 18));
            }
        }
    }
    for (at, place) in [(0, 0), (8, 0), (10, 9), (15, 9), (18, 18), (30, 18)] {
        let bad = with(&store(&held, 13), at, 3);
        for addition in [same, flag, newer] {
            edges.store("50 of the store first", ask(&bad, addition), (50, place));
        }
    }
    let full = with(&store(&held, 0), 7, 3);
    edges.store("50 of a full store", ask(&full, newer), (50, 0));
    let hole = [store(&held, 9), store(&[setting(1, 1, ALL)], 0)].concat();
    for addition in [same, flag, newer] {
        edges.store("50 a hole takes no addition", ask(&hole, addition), (50, 18));
    }
}
