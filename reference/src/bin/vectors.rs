//! Writes the stored cases and prints how often each fault number comes.
//!
//! `vectors DIRECTORY`, with the directory that holds data/ and expected/
//! (crates/conformance).

use std::collections::BTreeMap;
use std::path::Path;
use std::process::ExitCode;
use std::{fs, io};

use blink_reference::generate::stored::{stored_files, File};

fn main() -> ExitCode {
    let Some(directory) = std::env::args_os().nth(1) else {
        eprintln!("usage: vectors DIRECTORY");
        return ExitCode::from(2);
    };
    let files = stored_files();
    if let Err(error) = write(Path::new(&directory), &files) {
        eprintln!("{}: {error}", Path::new(&directory).display());
        return ExitCode::from(1);
    }
    print_counts(&files);
    ExitCode::SUCCESS
}

fn write(directory: &Path, files: &[File]) -> io::Result<()> {
    let (data, expected) = (directory.join("data"), directory.join("expected"));
    fs::create_dir_all(&data)?;
    fs::create_dir_all(&expected)?;
    for file in files {
        fs::write(data.join(file.name).with_extension("vec"), &file.data)?;
        fs::write(expected.join(file.name).with_extension("txt"), &file.expected)?;
    }
    Ok(())
}

/// A line for each fault number, a column for each file.
fn print_counts(files: &[File]) {
    let mut numbers: BTreeMap<u8, usize> = BTreeMap::new();
    for (&number, &count) in files.iter().flat_map(|file| &file.counts) {
        *numbers.entry(number).or_default() += count;
    }
    let names: String = files.iter().map(|file| format!("{:>9}", file.name)).collect();
    println!("fault{names}      all");
    for (number, all) in &numbers {
        let counts: String =
            files.iter().map(|file| format!("{:>9}", file.counts.get(number).unwrap_or(&0))).collect();
        println!("{number:>5}{counts}{all:>9}");
    }
    let bytes: String =
        files.iter().map(|file| format!("{:>9}", file.data.len() + file.expected.len())).collect();
    let all: usize = files.iter().map(|file| file.data.len() + file.expected.len()).sum();
    println!("bytes{bytes}{all:>9}");
}
