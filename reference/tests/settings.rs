//! Document 02's settings, on random stores and messages: the store's
//! questions against plain ones that hold each record against all before it,
//! and what the papers say of messages under settings.

use std::collections::BTreeMap;

use blink_reference::generate::damage::litter;
use blink_reference::generate::message::{canonical, random_message, scattered, sheet};
use blink_reference::generate::store::{
    damage_store, random_customer, random_store, random_version, setting, store, Setting, COMBINATIONS,
};
use blink_reference::generate::table::random_table;
use blink_reference::generate::{edges, settings_batch, Random};
use blink_reference::question::{ask, pattern, Answer, Kind};
use blink_reference::{
    add_settings, check_store, check_table, read_settings, Fault, FaultNumber, Ignored, Number, Schema,
    Settings,
};

fn damaged(place: usize) -> Fault {
    Fault { number: FaultNumber::StoreDamaged, place }
}

fn word_at(store: &[u8], at: usize) -> u16 {
    u16::from(store[at]) + 256 * u16::from(store[at + 1])
}

/// Where the first record, or the rest, at fault starts.
fn plain_fault(store: &[u8]) -> Option<usize> {
    let mut at = 0;
    while store[at..].iter().any(|&byte| byte != 0) {
        let whole = store.len() - at >= 9 && store[at] == b'C' && store[at + 1] == b'S';
        if !whole || store[at + 6..at + 9].iter().any(|&flag| flag > 1) {
            return Some(at);
        }
        for before in (0..at).step_by(9) {
            let same = word_at(store, before + 2) == word_at(store, at + 2);
            if same && word_at(store, before + 4) >= word_at(store, at + 4) {
                return Some(at);
            }
        }
        at += 9;
    }
    None
}

/// The records of a store that passes.
fn plain_records(store: &[u8]) -> Vec<Setting> {
    store
        .chunks_exact(9)
        .take_while(|record| record.iter().any(|&byte| byte != 0))
        .map(|record| setting(word_at(record, 2), word_at(record, 4), [record[6], record[7], record[8]]))
        .collect()
}

fn ignored(flags: [u8; 3]) -> Ignored {
    let [absent, pads, unused] = flags.map(|flag| flag == 1);
    Ignored { absent, pads, unused }
}

/// Of all records of a customer that with the greatest version.
fn plain_newest(records: &[Setting], customer: u16) -> Ignored {
    let newest =
        records.iter().filter(|record| record.customer == customer).max_by_key(|record| record.version);
    newest.map_or(Ignored::NOTHING, |record| ignored(record.flags))
}

fn some_store(random: &mut Random) -> Vec<u8> {
    let mut store = random_store(random);
    for _ in 0..random.below(3) {
        store = damage_store(random, store);
    }
    store
}

#[test]
fn a_store_is_checked_as_by_a_plain_check() {
    let mut random = Random::new(4);
    let mut refused = 0;
    let mut check = |store: &[u8]| {
        let due = plain_fault(store).map_or(Ok(()), |place| Err(damaged(place)));
        assert_eq!(check_store(store), due, "{store:02x?}");
        refused += usize::from(due.is_err());
    };
    for _ in 0..60_000 {
        check(&some_store(&mut random));
    }
    for edge in edges() {
        if edge.question.kind.is_of_store() && edge.question.input.len() < 100_000 {
            check(&edge.question.input);
        }
    }
    assert!(refused > 20_000, "only {refused} stores were refused");
}

#[test]
fn settings_are_read_as_by_a_plain_search() {
    let mut random = Random::new(5);
    let mut counts = [0; 2];
    for _ in 0..40_000 {
        let store = some_store(&mut random);
        let customer = random_customer(&mut random, &store);
        let version = random_version(&mut random, &store);
        let read = read_settings(&store, customer, version);
        let governing = Settings::of(&store, customer).ignored();
        if let Some(place) = plain_fault(&store) {
            assert_eq!(read, Err(damaged(place)));
            assert_eq!(governing, Err(damaged(place)));
            continue;
        }
        let records = plain_records(&store);
        let held = records.iter().find(|record| (record.customer, record.version) == (customer, version));
        let missing = Fault { number: FaultNumber::NoSuchSettings, place: 0 };
        assert_eq!(read, held.map(|record| ignored(record.flags)).ok_or(missing));
        assert_eq!(governing, Ok(plain_newest(&records, customer)));
        counts[usize::from(held.is_some())] += 1;
    }
    assert!(counts.iter().all(|&count| count > 2_000), "{counts:?}");
}

/// 50 exactly where the store with the record put in, in a longer buffer if
/// need be, would be 50. Else 51, or the record stands where it belongs.
#[test]
fn an_addition_is_refused_where_it_would_do_harm() {
    let mut random = Random::new(6);
    let mut counts: BTreeMap<u8, usize> = BTreeMap::new();
    for _ in 0..60_000 {
        let before = some_store(&mut random);
        let customer = random_customer(&mut random, &before);
        let version = random_version(&mut random, &before);
        let mut flags = random.pick(&COMBINATIONS);
        if random.one_in(8) {
            flags[random.below(3)] = random.number() as u8;
        }
        let mut after = before.clone();
        let [absent, pads, unused] = flags;
        let answer = add_settings(&mut after, customer, version, absent, pads, unused);
        let number = answer.map_or_else(|fault| fault.number as u8, |()| 0);
        *counts.entry(number).or_default() += 1;
        if answer.is_err() {
            assert_eq!(after, before);
        }
        if let Some(place) = plain_fault(&before) {
            assert_eq!(answer, Err(damaged(place)));
            continue;
        }
        let records = plain_records(&before);
        let with_it = [&records[..], &[setting(customer, version, flags)]].concat();
        let mut put_in = store(&with_it, 0);
        if let Some(place) = plain_fault(&put_in) {
            assert_eq!(place, 9 * records.len());
            assert_eq!(answer, Err(damaged(place)));
        } else if put_in.len() > before.len() {
            assert_eq!(answer, Err(Fault { number: FaultNumber::StoreFull, place: 0 }));
        } else {
            assert_eq!(answer, Ok(()));
            put_in.resize(before.len(), 0);
            assert_eq!(after, put_in);
            assert_eq!(check_store(&after), Ok(()));
            // The new settings govern their customer; all others, and what
            // can be read of older ones, are as they were.
            assert_eq!(Settings::of(&after, customer).ignored(), Ok(ignored(flags)));
            for record in &records {
                let read = |store| read_settings(store, record.customer, record.version);
                assert_eq!(read(&after), read(&before));
                if record.customer != customer {
                    let governing = |store| Settings::of(store, record.customer).ignored();
                    assert_eq!(governing(&after), governing(&before));
                }
            }
            let unknown = customer ^ 0x4000;
            let governing = |store| Settings::of(store, unknown).ignored();
            assert_eq!(governing(&after), governing(&before));
        }
    }
    for number in [0, 50, 51] {
        assert!(counts[&number] > 4_000, "{counts:?}");
    }
}

/// A megabyte of as many customers as there can be, each with its versions.
/// Records held against all before them would take minutes.
#[test]
fn a_hostile_store() {
    let count = 1_048_576 / 9;
    let mut records: Vec<Setting> = (0..count)
        .map(|index| setting((index * 40_503) as u16, (index / 65_536) as u16, COMBINATIONS[index % 8]))
        .collect();
    let good = store(&records, 4);
    assert_eq!(check_store(&good), Ok(()));
    let last = records[count - 1];
    assert_eq!(Settings::of(&good, last.customer).ignored(), Ok(ignored(last.flags)));
    let mut full = good.clone();
    let number = |answer: Result<(), Fault>| answer.unwrap_err().number;
    assert_eq!(number(add_settings(&mut full, last.customer, 2, 0, 0, 0)), FaultNumber::StoreFull);
    records[count - 1].version = 0;
    assert_eq!(check_store(&store(&records, 4)), Err(damaged(9 * (count - 1))));
    // Of one customer, too.
    let one: Vec<Setting> = (0..65_536).map(|version| setting(9, version as u16, [0, 1, 0])).collect();
    assert_eq!(check_store(&store(&one, 0)), Ok(()));
}

fn check(schema: &Schema, settings: Settings, message: &[u8]) -> Result<(), Fault> {
    schema.check_message(settings, message, &mut pattern(message.len()))
}

fn sheet_of(schema: &Schema, settings: Settings, message: &[u8]) -> Vec<u8> {
    let mut sheet = pattern(11 * message.len());
    let mut scratch = pattern(message.len());
    let length = schema.message_to_sheet(settings, message, &mut scratch, &mut sheet).unwrap();
    sheet.truncate(length);
    sheet
}

/// In the rooms of demand 3.
fn rewritten(schema: &Schema, settings: Settings, message: &[u8]) -> Vec<u8> {
    let mut scratch = pattern(message.len());
    let mut sheet = pattern(11 * message.len());
    let mut output = pattern(message.len());
    let length = schema.rewrite(settings, message, &mut scratch, &mut sheet, &mut output).unwrap();
    output.truncate(length);
    output
}

/// A store for each combination of flags, of customer 1.
fn each_setting() -> [Vec<u8>; 8] {
    COMBINATIONS.map(|flags| store(&[setting(1, 1, flags)], 0))
}

/// Whatever stands in ignored bytes, the sheet and the rewritten message are
/// those of the values alone; and that message needs no settings.
#[test]
fn an_ignored_byte_does_not_reach_the_sheet() {
    let mut random = Random::new(7);
    let stores = each_setting();
    let mut littered = 0;
    for _ in 0..12_000 {
        let plan = random_table(&mut random);
        let Some(tree) = random_message(&mut random, &plan) else {
            continue;
        };
        let table = plan.encode();
        let schema = check_table(&table).unwrap();
        let (due, _) = sheet(&plan, &tree);
        let form = canonical(&plan, &tree).bytes;
        for store in &stores {
            assert_eq!(check(&schema, Settings::of(store, 1), &form), Ok(()));
        }
        for layout in [canonical(&plan, &tree), scattered(&plan, &tree, &mut random)] {
            let chosen = random.below(8);
            let settings = Settings::of(&stores[chosen], 1);
            let flags = COMBINATIONS[chosen].map(|flag| flag == 1);
            for _ in 0..2 {
                let message = litter(&mut random, &layout, flags).bytes;
                littered += usize::from(message != layout.bytes);
                assert_eq!(sheet_of(&schema, settings, &message), due);
                assert_eq!(rewritten(&schema, settings, &message), form);
                // Settings that ignore more change nothing.
                assert_eq!(sheet_of(&schema, Settings::of(&stores[7], 1), &message), due);
            }
        }
    }
    assert!(littered > 12_000, "only {littered} messages had rubbish");
}

/// A float as its bits, since not every float equals itself.
fn words(answer: &Result<Answer, Fault>) -> String {
    match answer {
        Ok(Answer::Number(Number::Float(value))) => format!("float {:x}", value.to_bits()),
        answer => format!("{answer:?}"),
    }
}

/// Of questions about damaged messages too: what is accepted with nothing
/// ignored is accepted under all settings, with the same sheet; and under any
/// setting demand 3 holds.
#[test]
fn settings_let_through_more_and_never_other() {
    let stores = each_setting();
    let (mut strict, mut lax) = (0, 0);
    for seed in 30_000..33_000 {
        let batch = settings_batch(seed);
        let Ok(schema) = check_table(&batch.table) else {
            continue;
        };
        for asked in batch.asked.iter().filter(|asked| asked.question.kind == Kind::CheckMessage) {
            let message = &asked.question.input[..];
            if message.len() > 65_536 {
                continue;
            }
            let plain = check(&schema, Settings::NONE, message).is_ok();
            strict += usize::from(plain);
            let settings = stores.iter().map(|store| Settings::of(store, 1));
            let accepted: Vec<Settings> =
                settings.filter(|&settings| check(&schema, settings, message).is_ok()).collect();
            if plain {
                assert_eq!(accepted.len(), 8);
            }
            lax += usize::from(!plain && !accepted.is_empty());
            let Some(&first) = accepted.first() else {
                continue;
            };
            let sheet = sheet_of(&schema, first, message);
            let form = rewritten(&schema, first, message);
            assert!(form.len() <= message.len());
            assert_eq!(check(&schema, Settings::NONE, &form), Ok(()));
            assert_eq!(sheet_of(&schema, Settings::NONE, &form), sheet);
            assert_eq!(rewritten(&schema, Settings::NONE, &form), form);
            for &other in &accepted {
                assert_eq!(sheet_of(&schema, other, message), sheet);
                assert_eq!(rewritten(&schema, other, message), form);
            }
        }
    }
    assert!(strict > 2_000 && lax > 2_000, "{strict} strict, {lax} lax");
}

/// Of a store that passes, an answer depends on the governing flags alone.
/// `ask` tests every lent byte on the way.
#[test]
fn nothing_but_the_governing_flags_matters() {
    let stores = each_setting();
    let mut counts = [0; 60];
    for seed in 40_000..43_000 {
        let batch = settings_batch(seed);
        for asked in &batch.asked {
            let reply = ask(&batch.table, asked.settings(), &asked.question);
            counts[reply.answer.as_ref().map_or_else(|fault| fault.number as usize, |_| 0)] += 1;
            if !asked.question.kind.is_of_message() {
                continue;
            }
            let Ok(governing) = asked.settings().ignored() else {
                continue;
            };
            let alike = COMBINATIONS.iter().position(|&flags| ignored(flags) == governing).unwrap();
            let other = ask(&batch.table, Settings::of(&stores[alike], 1), &asked.question);
            assert_eq!(words(&reply.answer), words(&other.answer));
            assert!(reply.scratch == other.scratch);
            assert!(reply.sheet == other.sheet);
            assert!(reply.output == other.output);
        }
    }
    let numbers = (0..=14).chain(20..=29).chain([46, 47, 48, 50, 51, 59]);
    let missing: Vec<usize> = numbers.filter(|&number| counts[number] == 0).collect();
    assert!(missing.is_empty(), "no case gave {missing:?}");
}
