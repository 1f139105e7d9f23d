//! The public questions beside the second program, with the table checked in each call on both sides.
//! Buffers are written once before, and not cleared between calls.
use blink_bench::answers::{our_number, ours, their_number, theirs};
use blink_bench::{compare, heading, messages, stores, tables};
use std::hint::black_box;

fn time_table(name: &str, table: &[u8]) {
    assert_eq!(ours(blink_native::check_table(table)), theirs(blink_reference::check_table(table).map(|_| ())), "{name}");
    compare(
        &format!("table: {name}"),
        &mut || _ = black_box(blink_native::check_table(black_box(table))),
        &mut || _ = black_box(blink_reference::check_table(black_box(table)).is_ok()),
    );
}

fn time_check(case: &messages::Case) {
    let messages::Case { name, table, message } = case;
    let (mut scratch, mut other) = (vec![0u8; message.len()], vec![0u8; message.len()]);
    let answer = theirs(blink_reference::check_message(table, &[], 0, message, &mut other));
    assert_eq!(ours(blink_native::check_message(table, message, &mut scratch)), answer, "{name}");
    compare(
        &format!("check: {name}"),
        &mut || _ = black_box(blink_native::check_message(black_box(table), black_box(message), &mut scratch)),
        &mut || _ = black_box(blink_reference::check_message(black_box(table), black_box(&[]), 0, black_box(message), &mut other)),
    );
}

/// One message that is accepted: its check, its sheet, the sheet's message, and rewriting. Both sides must write the same bytes.
fn time_message(case: &messages::Case) {
    time_check(case);
    let messages::Case { name, table, message } = case;
    let (mut scratch, mut other) = (vec![0u8; message.len()], vec![0u8; message.len()]);
    let (mut room, mut other_room) = (vec![0u8; 11 * message.len()], vec![0u8; 11 * message.len()]);
    let (mut output, mut other_output) = (vec![0u8; message.len()], vec![0u8; message.len()]);

    let length = blink_reference::message_to_sheet(table, &[], 0, message, &mut other, &mut other_room).expect("a sheet");
    let sheet = other_room[..length].to_vec();
    assert_eq!(blink_native::message_to_sheet(table, message, &mut scratch, &mut room).as_deref(), Ok(&sheet[..]), "{name}");
    compare(
        &format!("to sheet: {name}"),
        &mut || _ = black_box(blink_native::message_to_sheet(black_box(table), black_box(message), &mut scratch, &mut room).is_ok()),
        &mut || _ = black_box(blink_reference::message_to_sheet(black_box(table), black_box(&[]), 0, black_box(message), &mut other, &mut other_room)),
    );

    assert_eq!(blink_native::sheet_to_message(table, &sheet, &mut output).as_deref(), Ok(&message[..]), "{name}");
    compare(
        &format!("to message: {name}"),
        &mut || _ = black_box(blink_native::sheet_to_message(black_box(table), black_box(&sheet), &mut output).is_ok()),
        &mut || _ = black_box(blink_reference::sheet_to_message(black_box(table), black_box(&sheet), &mut other_output)),
    );
    compare(
        &format!("rewrite: {name}"),
        &mut || _ = black_box(blink_native::rewrite(black_box(table), black_box(message), &mut scratch, &mut room, &mut output).is_ok()),
        &mut || _ = black_box(blink_reference::rewrite(black_box(table), black_box(&[]), 0, black_box(message), &mut other, &mut other_room, &mut other_output)),
    );
}

/// What the sorting line asks of a station's message: its barcode and its density.
fn time_readings(case: &messages::Case) {
    let messages::Case { table, message, .. } = case;
    let (mut scratch, mut other) = (vec![0u8; message.len()], vec![0u8; message.len()]);
    let density = theirs(blink_reference::read_number(table, &[], 0, message, &mut other, 1, 0)).map(their_number);
    assert_eq!(ours(blink_native::read_number(table, message, &mut scratch, 1, 0)).map(our_number), density);
    compare(
        "read: a station's number",
        &mut || _ = black_box(blink_native::read_number(black_box(table), black_box(message), &mut scratch, 1, 0)),
        &mut || _ = black_box(blink_reference::read_number(black_box(table), black_box(&[]), 0, black_box(message), &mut other, 1, 0)),
    );
    compare(
        "read: a station's barcode",
        &mut || _ = black_box(blink_native::read_bytes(black_box(table), black_box(message), &mut scratch, 0, 0).is_ok()),
        &mut || _ = black_box(blink_reference::read_bytes(black_box(table), black_box(&[]), 0, black_box(message), &mut other, 0, 0)),
    );
}

fn time_store(name: &str, store: &[u8]) {
    assert_eq!(ours(blink_native::check_store(store)), theirs(blink_reference::check_store(store)), "{name}");
    compare(
        &format!("store: {name}"),
        &mut || _ = black_box(blink_native::check_store(black_box(store))),
        &mut || _ = black_box(blink_reference::check_store(black_box(store))),
    );
}

/// A message's check under the settings of a customer.
fn time_settings(case: &messages::Case, store: &[u8], customer: u16) {
    let messages::Case { name, table, message } = case;
    let (mut scratch, mut other) = (vec![0u8; message.len()], vec![0u8; message.len()]);
    let answer = theirs(blink_reference::check_message(table, store, customer, message, &mut other));
    let under = |store| blink_native::Settings::of(store, customer);
    assert_eq!(ours(under(store).check_message(table, message, &mut scratch)), answer, "{name}");
    compare(
        &format!("check under settings: {name}"),
        &mut || _ = black_box(under(black_box(store)).check_message(black_box(table), black_box(message), &mut scratch)),
        &mut || _ = black_box(blink_reference::check_message(black_box(table), black_box(store), customer, black_box(message), &mut other)),
    );
}

fn main() {
    heading("proved", "reference");
    for (name, table) in [
        ("a station's (11 records)", tables::blank()),
        ("a station's, widths stored", tables::stored(tables::blank(), &[21])),
        ("static tower", tables::tower(false)),
        ("static tower, widths stored", tables::stored(tables::tower(false), &[1, 64, 4096, 0, 0, 0])),
        ("tower of sequences", tables::tower(true)),
        ("tower of sequences, widths stored", tables::stored(tables::tower(true), &[1, 256, 256, 256, 256, 256])),
        ("64 KiB of enumerations", tables::enumerations()),
        ("64 groups in a chain", tables::chain(64, 1)),
        ("64 in a chain, widths stored", tables::stored(tables::chain(64, 1), &[4; 64])),
        ("63 in a chain, 64 fields each", tables::chain(63, 64)),
    ] {
        time_table(name, &table);
    }
    let cases = messages::cases();
    for case in &cases {
        time_message(case);
    }
    for case in &messages::symbol_cases() {
        time_check(case);
    }
    time_readings(&cases[0]);
    for (name, store) in [
        ("3 records", stores::three(3)),
        ("3 records, room for 10", stores::three(10)),
        ("100 customers", stores::customers(100)),
        ("7,281 customers", stores::customers(7_281)),
        ("1 MiB of 65,536 customers in turn", stores::hostile()),
    ] {
        time_store(name, &store);
    }
    time_settings(&cases[0], &stores::three(10), 3);
}
