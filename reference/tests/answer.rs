//! The program `answer`, one question a line.

use std::io::Write;
use std::process::{Command, Output, Stdio};

fn run(input: &str) -> Output {
    let mut child = Command::new(env!("CARGO_BIN_EXE_answer"))
        .stdin(Stdio::piped())
        .stdout(Stdio::piped())
        .stderr(Stdio::piped())
        .spawn()
        .unwrap();
    let mut stdin = child.stdin.take().unwrap();
    stdin.write_all(input.as_bytes()).unwrap();
    drop(stdin);
    child.wait_with_output().unwrap()
}

/// Bill of document 004.
const TABLE: &str = "47520200000000000000010000020000\
    46440500000000000000000000000000\
    46440501000000000000000000000000";
const MESSAGE: &str = "15000000020000000000000000000000e80300000164000000";
/// Without its last record.
const SHEET: &str = "474202000000000000005641e8030000564164000000";

#[test]
fn every_question() {
    let questions = format!(
        "table {TABLE}\n\
         table -\n\
         check {TABLE} {MESSAGE} 25 - 0\n\
         check {TABLE} {MESSAGE} 24 - 0\n\
         check 00 {MESSAGE} 24 - 0\n\
         sheet {TABLE} {MESSAGE} 25 - 0 24\n\
         sheet {TABLE} {MESSAGE} 25 - 0 23\n\
         write {TABLE} {SHEET}4745 25\n\
         write {TABLE} {SHEET} 25\n\
         rewrite {TABLE} {MESSAGE} 25 - 0 24 25\n\
         rewrite {TABLE} {MESSAGE} 25 - 0 24 24\n\
         num {TABLE} {MESSAGE} 25 - 0 0 0\n\
         num {TABLE} {MESSAGE} 25 - 0 18446744073709551615 0\n\
         bytes {TABLE} {MESSAGE} 25 - 0 0 0\n"
    );
    let answers = format!(
        "0 0\n\
         30 0\n\
         0 0\n\
         21 0\n\
         20 0\n\
         0 0 {SHEET}4745\n\
         46 0\n\
         0 0 {MESSAGE}\n\
         40 22\n\
         0 0 {MESSAGE}\n\
         47 0\n\
         0 0 unsigned 1000\n\
         28 0\n\
         48 0\n"
    );
    let output = run(&questions);
    assert_eq!(String::from_utf8(output.stdout).unwrap(), answers);
    assert!(output.status.success());
    assert!(output.stderr.is_empty());
}

/// Customer 7: at first version 1 ignores 4, then version 258 nothing.
const STORE: &str = "435307000100010000435307000201000000";

/// The message without its tip, whose bytes are not zero.
#[test]
fn questions_under_settings() {
    let message = MESSAGE.replace("0164", "0064");
    let (older, newer) = (&STORE[..18], STORE);
    let untipped = "474202000000000000005641e80300004e4f4745";
    let rewritten = "15000000020000000000000000000000e80300000000000000";
    let questions = format!(
        "check {TABLE} {message} 25 - 7\n\
         check {TABLE} {message} 25 {older} 7\n\
         check {TABLE} {message} 25 {older} 8\n\
         check {TABLE} {message} 25 {newer} 7\n\
         check {TABLE} {message} 25 {newer}01 7\n\
         check {TABLE} {message} 24 {newer}01 7\n\
         sheet {TABLE} {message} 25 {older}00 7 20\n\
         rewrite {TABLE} {message} 25 {older} 7 20 25\n\
         num {TABLE} {message} 25 {older} 7 0 0\n\
         num {TABLE} {message} 25 {older} 7 1 0\n\
         bytes {TABLE} {message} 25 {newer} 7 0 0\n"
    );
    let answers = format!(
        "4 21\n\
         0 0\n\
         4 21\n\
         4 21\n\
         50 18\n\
         21 0\n\
         0 0 {untipped}\n\
         0 0 {rewritten}\n\
         0 0 unsigned 1000\n\
         29 0\n\
         4 21\n"
    );
    let output = run(&questions);
    assert_eq!(String::from_utf8(output.stdout).unwrap(), answers);
    assert!(output.status.success());
}

#[test]
fn questions_about_stores() {
    let questions = format!(
        "store -\n\
         store {STORE}0000\n\
         store {STORE}0001\n\
         storeget {STORE} 7 1\n\
         storeget {STORE} 7 258\n\
         storeget {STORE} 7 513\n\
         storeget {STORE}01 7 513\n\
         storeadd {STORE}00000000000000000000 65535 0 0 1 1\n\
         storeadd {STORE}000000000000000000 7 258 0 0 0\n\
         storeadd {STORE} 7 259 0 255 0\n\
         storeadd {STORE} 7 259 0 1 0\n"
    );
    let answers = format!(
        "0 0\n\
         0 0\n\
         50 18\n\
         0 0 1 0 0\n\
         0 0 0 0 0\n\
         59 0\n\
         50 18\n\
         0 0 {STORE}4353ffff000000010100\n\
         50 18\n\
         50 18\n\
         51 0\n"
    );
    let output = run(&questions);
    assert_eq!(String::from_utf8(output.stdout).unwrap(), answers);
    assert!(output.status.success());
}

#[test]
fn tapes() {
    let untipped = MESSAGE.replace("0164", "0064");
    let store = &STORE[..18];
    let questions = format!(
        "tape {TABLE} - 0 - 0\n\
         tape 00 - 0 01 0\n\
         tape {TABLE} {MESSAGE} 25 - 0\n\
         tape {TABLE} {MESSAGE}{untipped}{MESSAGE} 25 - 0\n\
         tape {TABLE} {MESSAGE}{untipped}{MESSAGE} 25 {store} 7\n\
         tape {TABLE} {MESSAGE}00000000{MESSAGE}000000 24 - 0\n\
         tape {TABLE} {MESSAGE}00000000{MESSAGE}ffffffff 25 {store}01 7\n\
         tape 00 {MESSAGE}00 25 {store}01 7\n\
         tape 00 00 0 - 0\n"
    );
    let answers = "-\n\
         -\n\
         0:0:25\n\
         0:0:25;4:21:0;0:0:25\n\
         0:0:25;0:0:25;0:0:25\n\
         21:0:0;1:0:0;21:0:0;22:54:0\n\
         50:9:0;50:9:0;50:9:0;22:54:0\n\
         20:0:0\n\
         20:0:0\n";
    let output = run(&questions);
    assert_eq!(String::from_utf8(output.stdout).unwrap(), answers);
    assert!(output.status.success());
}

/// Grade 3; Blank with type id 1, its note inline.
const BLANK_TABLE: &str = "454e0100000000000000000000000000\
    53590300000000000000000000000000\
    47520100000000000000010000050000\
    46441100000000000000000000000000\
    46440500000000000000000000000000\
    46440500000000000000000000000000\
    46441400000000000000000000000000\
    46441101000700000000000000000000";
/// Barcode QZ-1, and no note.
const BLANK: &str = "2d00000001000000000000000000000019000000\
    780a0000181700000300000000000000000000000004000000515a2d31";

#[test]
fn ledgers() {
    let zeros = |count| "00".repeat(count);
    let line = format!("4c4204515a2d31{}780a00001817000003000000{}", zeros(36), zeros(9));
    let (lent, rest) = ("ff".repeat(64), "ee".repeat(9));
    let dusty = BLANK.replace("515a", "ff5a");
    let rubbish = BLANK.replace("000000000004", "007700000004");
    let questions = format!(
        "ledger {BLANK_TABLE} {BLANK} 49 - 0 1 {lent} 0\n\
         ledger {BLANK_TABLE} {BLANK} 49 - 0 1 {rest}{lent}{rest} 9\n\
         ledger {BLANK_TABLE} {BLANK} 49 - 0 1 {lent} 1\n\
         ledger {BLANK_TABLE} {BLANK} 49 - 0 1 - 18446744073709551615\n\
         ledger {BLANK_TABLE} {BLANK} 49 - 0 2 - 0\n\
         ledger {BLANK_TABLE} {dusty} 49 - 0 2 - 0\n\
         ledger {BLANK_TABLE} {BLANK} 48 01 0 2 - 0\n\
         ledger {BLANK_TABLE} {BLANK} 49 01 0 2 - 0\n\
         ledger {TABLE} {MESSAGE} 25 - 0 2 - 0\n\
         ledger 00 {MESSAGE} 25 - 0 2 - 0\n\
         ledger {BLANK_TABLE} {rubbish} 49 {STORE} 7 1 {lent} 0\n\
         ledger {BLANK_TABLE} {rubbish} 49 {older} 7 1 {lent} 0\n",
        older = &STORE[..18]
    );
    let answers = format!(
        "0 0 64 {line}\n\
         0 0 73 {rest}{line}{rest}\n\
         56 0\n\
         56 0\n\
         54 0\n\
         9 45\n\
         21 0\n\
         50 0\n\
         54 0\n\
         20 0\n\
         4 37\n\
         0 0 64 {line}\n"
    );
    let output = run(&questions);
    assert_eq!(String::from_utf8(output.stdout).unwrap(), answers);
    assert!(output.status.success());
}

#[test]
fn shapes() {
    let questions = format!(
        "shape {BLANK_TABLE} 1 0\n\
         shape {BLANK_TABLE} 1 3\n\
         shape {BLANK_TABLE} 1 4\n\
         shape {BLANK_TABLE} 1 5\n\
         shape {BLANK_TABLE} 2 5\n\
         shape {BLANK_TABLE} 18446744073709551615 0\n\
         shape - 1 0\n"
    );
    let answers = "0 0 17 0 0 0\n\
         0 0 20 0 0 0\n\
         0 0 17 1 0 7\n\
         28 0\n\
         2 0\n\
         2 0\n\
         20 0\n";
    let output = run(&questions);
    assert_eq!(String::from_utf8(output.stdout).unwrap(), answers);
    assert!(output.status.success());
}

#[test]
fn answers_of_each_type() {
    let table = |ty: &str| format!("47520100000000000000010000010000 4644{ty}").replace(' ', "");
    let message = |size: &str, field: &str| format!("{size}000000010000000000000000000000{field}");
    let cases = [
        ("num", "0200000000000000000000000000", "0d", "80", "0 0 signed -128"),
        ("num", "0b00000000000000000000000000", "0d", "01", "0 0 bool 1"),
        ("num", "0a00000000000000000000000000", "15", "fffeffffffffffffff", "0 0 decimal -1 -2"),
        ("num", "0900000000000000000000000000", "14", "010000000000f07f", "0 0 float 7ff0000000000001"),
        ("bytes", "1300000300000000000000000000", "0f", "616263", "0 0 16 3 616263"),
        ("bytes", "1100000300000000000000000000", "10", "02616200", "0 0 17 2 6162"),
        ("bytes", "1100000300000000000000000000", "10", "00000000", "0 0 17 0 -"),
    ];
    for (question, ty, size, field, answer) in cases {
        let line = format!("{question} {} {} 99 - 0 0 0", table(ty), message(size, field));
        let output = run(&line);
        assert_eq!(String::from_utf8_lossy(&output.stdout).trim_end(), answer);
    }
}

#[test]
fn lines_that_are_no_question() {
    let input = "\n\
        tabel 00\n\
        table\n\
        table 0\n\
        table 0G\n\
        table 4A\n\
        check 00 00 -1 - 0\n\
        check 00 00 99999999999 - 0\n\
        num 00 00 0 - 0 18446744073709551616 0\n\
        check 00  00 0 - 0\n\
        check 00 00 0\n\
        check 00 00 0 - 65536\n\
        storeget 00 0 65536\n\
        storeadd 00 0 0 0 256 0\n\
        tape 00 00 0\n\
        ledger 00 00 0 - 0 1 00\n\
        ledger 00 00 0 - 0 1 8 0\n\
        ledger 00 00 0 - 0 1 00 18446744073709551616\n\
        shape 00 1\n\
        shape 00 01 -\n\
        table 00\n";
    let output = run(input);
    let stdout = String::from_utf8(output.stdout).unwrap();
    let lines: Vec<&str> = stdout.lines().collect();
    assert_eq!(lines.len(), 21);
    for line in &lines[..20] {
        assert!(line.starts_with("error: "), "{line}");
    }
    assert_eq!(lines[20], "30 0");
    assert_eq!(output.status.code(), Some(1));
    let stderr = String::from_utf8(output.stderr).unwrap();
    assert_eq!(stderr.lines().count(), 20);
    assert!(stderr.starts_with("line 1: "));
}
