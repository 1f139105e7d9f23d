//! Links the benchmarks of the leaves and of the tape with proved static libraries of their own (`rt staticlib` writes
//! them); the others come by bindings/rust.
use std::path::Path;

fn main() {
    let root = Path::new(env!("CARGO_MANIFEST_DIR")).parent().expect("bench/ stands in the repository");
    for (program, library) in [("leaves", "wire_bench"), ("tape", "tape_bench")] {
        let archive = root.join(format!("target/staticlib/lib{library}.a"));
        println!("cargo:rerun-if-changed={}", archive.display());
        println!("cargo:rustc-link-arg-bin={program}={}", archive.display());
    }
}
