//! Programs for the processor that the library is compiled for, under the toolchain's emulator.

use crate::TUNABLES;
use std::fs::File;
use std::io::{self, Read};
use std::path::Path;
use std::process::{Command, Stdio};

/// Runs a program as `rt` does, without a variable of the environment. The emulator can be given words of its own.
pub(crate) fn command(own: &[&str], program: &str) -> Command {
    let tools = env!("HAMZULAPH_TOOLS");
    let mut command = Command::new(format!("{tools}/bin/qemu-x86_64"));
    command.env_clear().args(own).arg(format!("{tools}/lib/ld-linux-x86-64.so.2"));
    command.args(["--library-path", &format!("{tools}/lib"), program]);
    command
}

/// What makes the emulator write a line for each instruction that it comes to.
const TELL_EACH: [&str; 3] = ["-one-insn-per-tb", "-d", "exec,nochain"];

/// The instructions of `counted.c`, which decides each problem of a file so many times, up to nine.
pub fn instructions(problems: &Path, times: usize) -> io::Result<u64> {
    let mut command = command(&TELL_EACH, env!("HAMZULAPH_COUNTED"));
    command.env(TUNABLES.0, TUNABLES.1);
    command.arg(times.to_string()).stdin(File::open(problems)?).stderr(Stdio::piped());
    let mut child = command.spawn()?;
    let counted = child.stderr.take().map_or(Ok(0), lines);
    let status = child.wait()?;
    if status.success() {
        counted
    } else {
        Err(io::Error::other(format!("{command:?}: {status}")))
    }
}

fn lines(mut from: impl Read) -> io::Result<u64> {
    let (mut count, mut block) = (0, vec![0; 1 << 16]);
    loop {
        let size = from.read(&mut block)?;
        if size == 0 {
            return Ok(count);
        }
        count += block[..size].iter().filter(|&&byte| byte == b'\n').count() as u64;
    }
}
