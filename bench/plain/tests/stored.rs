//! What the program crate `try_problems` is run on and held to is what the
//! programs `run_cases` and `families` here print, one after the other.

use std::path::Path;
use std::process::Command;

fn printed(program: &str, what: &str) -> Vec<u8> {
    let output = Command::new(program).arg(what).output().unwrap();
    assert!(output.status.success());
    output.stdout
}

fn stored(what: &str) -> Vec<u8> {
    let crates = Path::new(env!("CARGO_MANIFEST_DIR")).join("../../crates");
    std::fs::read(crates.join("try_problems").join(what)).unwrap()
}

#[test]
fn stored_files_are_what_is_printed() {
    let programs = [env!("CARGO_BIN_EXE_run_cases"), env!("CARGO_BIN_EXE_families")];
    for what in ["stdin", "stdout"] {
        let both: Vec<u8> = programs.iter().flat_map(|program| printed(program, what)).collect();
        assert!(stored(what) == both, "crates/try_problems/{what}");
    }
}
