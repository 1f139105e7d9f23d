//! The stored cases notice mistakes: each file of mutants/ makes one in a
//! copy of the library, and the stored answers must then differ.

use std::fs;
use std::path::{Path, PathBuf};
use std::process::Command;

/// A wrong variant of the library.
struct Edit {
    name: String,
    file: PathBuf,
    old: String,
    new: String,
}

impl Edit {
    /// Reads an edit: `# why`, then `file:`, `old:` and `new:`, a line each.
    fn read(path: &Path) -> Edit {
        let text = fs::read_to_string(path).unwrap();
        let lines: Vec<&str> = text.lines().collect();
        let [why, file, old, new] = lines[..] else {
            panic!("{} does not have four lines", path.display());
        };
        let value = |line: &str, key: &str| {
            let value = line.strip_prefix(key);
            value.unwrap_or_else(|| panic!("{}: no `{key}`", path.display())).to_string()
        };
        assert!(why.starts_with("# "), "{}: no reason", path.display());
        Edit {
            name: path.file_stem().unwrap().to_string_lossy().into_owned(),
            file: value(file, "file: ").into(),
            old: value(old, "old: "),
            new: value(new, "new: "),
        }
    }

    fn apply(&self, copy: &Path) {
        let path = copy.join(&self.file);
        let text = fs::read_to_string(&path).unwrap();
        let times = text.matches(&self.old).count();
        assert_eq!(times, 1, "{}: `old` occurs {times} times", self.name);
        fs::write(&path, text.replace(&self.old, &self.new)).unwrap();
    }
}

fn root() -> &'static Path {
    Path::new(env!("CARGO_MANIFEST_DIR"))
}

/// A copy of the library without the generator, below the target directory.
fn copy_library(name: &str) -> PathBuf {
    let copy = Path::new(env!("CARGO_TARGET_TMPDIR")).join("mutants").join(name);
    for directory in ["src", "src/bin"] {
        fs::create_dir_all(copy.join(directory)).unwrap();
        for entry in fs::read_dir(root().join(directory)).unwrap() {
            let path = entry.unwrap().path();
            if path.is_file() {
                let name = Path::new(directory).join(path.file_name().unwrap());
                fs::copy(&path, copy.join(name)).unwrap();
            }
        }
    }
    copy
}

fn compile(copy: &Path, arguments: &[&str]) {
    let rustc = std::env::var_os("RUSTC").unwrap_or_else(|| "rustc".into());
    let output = Command::new(rustc)
        .current_dir(copy)
        .args(["--edition", "2021", "-C", "opt-level=0", "-C", "debuginfo=0", "-L", "."])
        .args(arguments)
        .output()
        .expect("rustc runs");
    let errors = String::from_utf8_lossy(&output.stderr);
    assert!(output.status.success(), "{}:\n{errors}", copy.display());
}

/// Builds the copy and asks the stored questions, the named files before all:
/// whether an answer differs (or the copy stops in the middle).
fn differs(copy: &Path, first: &[&str]) -> bool {
    compile(copy, &["--crate-type", "rlib", "--crate-name", "blink_reference", "src/lib.rs"]);
    compile(copy, &["--extern", "blink_reference", "src/bin/replay.rs"]);
    let replay = |names: &[&str]| {
        let conformance = root().join("../crates/conformance");
        let output = Command::new(copy.join("replay")).arg(conformance).args(names).output();
        !output.expect("the built program runs").status.success()
    };
    (!first.is_empty() && replay(first)) || replay(&[])
}

#[test]
fn stored_cases_notice_every_mutant() {
    let unedited = copy_library("unedited");
    assert!(!differs(&unedited, &[]), "the unedited library differs");

    let mut paths: Vec<PathBuf> =
        fs::read_dir(root().join("mutants")).unwrap().map(|entry| entry.unwrap().path()).collect();
    paths.sort();
    assert!(paths.len() >= 20);
    let mut unnoticed = Vec::new();
    for path in paths {
        let edit = Edit::read(&path);
        let copy = copy_library(&edit.name);
        edit.apply(&copy);
        // It saves time to begin where a difference is likely.
        let first: &[&str] = match edit.name.split_once('-') {
            Some(("settings", _)) => &["store", "settings"],
            Some(("tape", _)) => &["tape"],
            Some(("ledger", _)) => &["ledger"],
            _ => &[],
        };
        if !differs(&copy, first) {
            unnoticed.push(edit.name);
        }
    }
    assert!(unnoticed.is_empty(), "not noticed: {unnoticed:?}");
}
