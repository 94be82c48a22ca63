//! The word of an SMT solver for a problem.

use std::io::{self, Write};
use std::process::{Command, Stdio};

/// A solver that reads SMT-LIB 2 from standard input.
pub struct Solver {
    /// The program.
    pub name: &'static str,
    /// What makes it read standard input, keep its state between questions
    /// and end after twenty seconds.
    arguments: &'static [&'static str],
}

/// The solvers that are asked, where they are installed.
pub const SOLVERS: [Solver; 2] = [
    Solver { name: "z3", arguments: &["-in", "-T:20"] },
    Solver { name: "cvc5", arguments: &["--incremental", "--lang=smt2", "--tlimit=20000", "-"] },
];

impl Solver {
    /// Whether the solver can be started.
    pub fn is_installed(&self) -> bool {
        let mut command = Command::new(self.name);
        let silent = command.arg("--version").stdout(Stdio::null()).stderr(Stdio::null());
        silent.status().is_ok_and(|status| status.success())
    }

    /// What the solver writes for a script.
    pub fn output(&self, script: &str) -> io::Result<String> {
        let mut command = Command::new(self.name);
        command.args(self.arguments).stdin(Stdio::piped());
        let mut child = command.stdout(Stdio::piped()).stderr(Stdio::null()).spawn()?;
        // A solver that gives up may close its input; what it wrote tells.
        let _ = child.stdin.take().map(|mut input| input.write_all(script.as_bytes()));
        let output = child.wait_with_output()?;
        Ok(String::from_utf8_lossy(&output.stdout).into_owned())
    }

    /// The word's number for the script of one problem, as in an answer:
    /// 0 entailed, 1 not-entailed, 2 contradictory. Nothing if the solver
    /// does not know or takes too long.
    pub fn word(&self, script: &str) -> io::Result<Option<u8>> {
        let output = self.output(script)?;
        Ok(word_of(&output.split_whitespace().collect::<Vec<&str>>()))
    }

    /// The words' numbers for the scripts of several problems, put before one
    /// process; before one for each problem if a word is missing then.
    pub fn words(&self, scripts: &[&str]) -> io::Result<Vec<Option<u8>>> {
        let output = self.output(&together(scripts))?;
        let answers: Vec<&str> = output.split_whitespace().collect();
        let words: Vec<Option<u8>> = answers.chunks(2).map(word_of).collect();
        if words.len() == scripts.len() && words.iter().all(Option::is_some) {
            return Ok(words);
        }
        scripts.iter().map(|script| self.word(script)).collect()
    }
}

/// The word's number for a solver's answers to a problem's two questions.
fn word_of(answers: &[&str]) -> Option<u8> {
    match answers {
        ["unsat", "unsat"] => Some(2),
        ["sat", "unsat"] => Some(0),
        ["sat", "sat"] => Some(1),
        _ => None,
    }
}

/// One script for several problems, each in a scope of its own.
pub fn together(scripts: &[impl AsRef<str>]) -> String {
    const LOGIC: &str = "(set-logic QF_UFLRA)\n";
    let mut all = String::from(LOGIC);
    for script in scripts.iter().map(AsRef::as_ref) {
        let rest = script.strip_prefix(LOGIC).unwrap_or(script);
        all.push_str(&format!("(push 1)\n{rest}(pop 1)\n"));
    }
    all
}
