//! The stored cases are what the generator makes, and reach every fault.

use std::fs;
use std::path::Path;

use blink_reference::generate::stored::stored_files;
use blink_reference::vectors::{decode, Entry};

fn conformance() -> std::path::PathBuf {
    Path::new(env!("CARGO_MANIFEST_DIR")).join("../crates/conformance")
}

#[test]
fn stored_files_are_the_generators() {
    for file in stored_files() {
        let path = conformance().join("data").join(file.name);
        let data = fs::read(path.with_extension("vec")).unwrap();
        assert!(data == file.data, "{}.vec differs", file.name);
        let path = conformance().join("expected").join(file.name);
        let expected = fs::read_to_string(path.with_extension("txt")).unwrap();
        assert!(expected == file.expected, "{}.txt differs", file.name);
    }
}

#[test]
fn every_fault_is_stored_ten_times() {
    let mut counts = [0; 60];
    let mut bytes = 0;
    for file in stored_files() {
        bytes += file.data.len() + file.expected.len();
        for (number, count) in file.counts {
            counts[usize::from(number)] += count;
        }
    }
    for number in (0..=14).chain(20..=37).chain(40..=48).chain([50, 51, 54, 55, 56, 59]) {
        assert!(counts[number] >= 10, "{number} comes {} times", counts[number]);
    }
    assert!(bytes < 3_300_000, "{bytes} bytes");
}

/// The lengths that a program without a heap makes room for.
#[test]
fn lengths_keep_their_limits() {
    for file in stored_files() {
        for entry in decode(&file.data).unwrap() {
            match entry {
                Entry::Table(table) => assert!(table.len() <= 65_568),
                Entry::Settings(store, _) => assert!(store.len() <= 65_568),
                Entry::Ask(question) => {
                    assert!(question.input.len() <= 1_048_592);
                    assert!(question.scratch <= 65_600);
                    assert!(question.sheet <= 786_432);
                    assert!(question.output <= 65_600);
                }
            }
        }
    }
}
