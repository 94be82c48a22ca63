//! The programs, from standard input to standard output.

use plain::{cases, listing, smt};
use std::io::Write;
use std::process::{Command, Stdio};

fn output(program: &str, input: &[u8]) -> String {
    let mut command = Command::new(program);
    let mut child = command.stdin(Stdio::piped()).stdout(Stdio::piped()).spawn().unwrap();
    // A program that has read enough may close its input; that is no fault.
    let _ = child.stdin.take().unwrap().write_all(input);
    let output = child.wait_with_output().unwrap();
    assert!(output.status.success());
    String::from_utf8(output.stdout).unwrap()
}

#[test]
fn plain_prints_the_listing() {
    let program = env!("CARGO_BIN_EXE_plain");
    for case in cases::all() {
        assert_eq!(output(program, &case.bytes), listing(&case.bytes), "case {}", case.name);
    }
    assert_eq!(output(program, &[]), "refused 2 0\n");
    assert_eq!(output(program, &[64, 64, 0]), "refused 2 0\n");
    assert_eq!(output(program, &[64; 645]), "refused 4 0\n");
    assert_eq!(output(program, &[65; 100_000]), "refused 3 0\n");
}

#[test]
fn smt_prints_the_script() {
    let program = env!("CARGO_BIN_EXE_smt");
    for case in cases::all() {
        assert_eq!(output(program, &case.bytes), smt::script(&case.bytes), "case {}", case.name);
    }
}
