//! Instructions, counted by valgrind's callgrind.

use crate::child;
use library::TUNABLES;
use std::path::Path;
use std::process::{Command, Stdio};

/// Whether valgrind can be started.
pub fn can_be_counted() -> bool {
    let mut command = Command::new("valgrind");
    let silent = command.arg("--version").stdout(Stdio::null()).stderr(Stdio::null());
    silent.status().is_ok_and(|status| status.success())
}

/// The instructions per problem of the library and of the plain
/// implementation: those of a run that decides each problem once, less those
/// of a run that decides none.
pub fn per_problem(problems: &Path, count: usize) -> Option<[u64; 2]> {
    let without = of_run("ours", problems, 0)?;
    let [ours, plain] = [of_run("ours", problems, 1)?, of_run("plain", problems, 1)?];
    Some([ours, plain].map(|with| with.saturating_sub(without) / count as u64))
}

/// The instructions of a child that decides each problem a number of times.
fn of_run(side: &str, problems: &Path, times: usize) -> Option<u64> {
    let mut command = Command::new("valgrind");
    command.env(TUNABLES.0, TUNABLES.1);
    command.args(["--tool=callgrind", "--callgrind-out-file=/dev/null"]);
    command.args(child::command("calls", side, problems, times));
    let output = command.stdout(Stdio::null()).output().ok()?;
    let said = String::from_utf8_lossy(&output.stderr).into_owned();
    let line = said.lines().find(|line| line.contains("Collected :"))?;
    line.split_whitespace().last()?.parse().ok()
}
