//! Asks the stored questions again and compares with the stored answers.
//!
//! `replay DIRECTORY [NAME..]`, with the directory that holds data/ and
//! expected/ (crates/conformance), of all files or of these. Exit code 1 and
//! the first difference if there is one.

use std::path::Path;
use std::process::ExitCode;

use blink_reference::vectors::{answer_lines, decode, FILES};

fn main() -> ExitCode {
    let mut arguments = std::env::args_os().skip(1);
    let Some(directory) = arguments.next() else {
        eprintln!("usage: replay DIRECTORY [NAME..]");
        return ExitCode::from(2);
    };
    let chosen: Vec<_> = arguments.collect();
    for (name, _) in FILES {
        if !chosen.is_empty() && !chosen.iter().any(|chosen| chosen == name) {
            continue;
        }
        if let Err(why) = replay(Path::new(&directory), name) {
            println!("{name}: {why}");
            return ExitCode::from(1);
        }
    }
    ExitCode::SUCCESS
}

fn replay(directory: &Path, name: &str) -> Result<(), String> {
    let data = directory.join("data").join(name).with_extension("vec");
    let data = std::fs::read(data).map_err(|error| error.to_string())?;
    let expected = directory.join("expected").join(name).with_extension("txt");
    let expected = std::fs::read_to_string(expected).map_err(|error| error.to_string())?;
    let entries = decode(&data).ok_or("not a file of records")?;
    let lines = answer_lines(&entries);
    let expected: Vec<&str> = expected.lines().collect();
    for (index, ((line, _), expected)) in lines.iter().zip(&expected).enumerate() {
        if line != expected {
            return Err(format!("question {} gives `{line}`, stored is `{expected}`", index + 1));
        }
    }
    if lines.len() != expected.len() {
        let (asked, stored) = (lines.len(), expected.len());
        return Err(format!("{asked} questions, {stored} answers"));
    }
    Ok(())
}
