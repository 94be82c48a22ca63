//! Compares the decider's word with an SMT solver's.
//!
//! `versus GENERATOR COUNT SEED SOLVER [ARGUMENT...]` takes problems from a
//! generator until COUNT were compared, and gives each to the solver's
//! standard input. Refused problems are passed over. For example
//! `versus congruent 500 1 z3 -in` or `versus congruent 500 1 cvc5
//! --incremental --lang=smt2 -`.

use plain::gen::{self, Generator};
use plain::{decide, smt, Answer, PLACES};
use std::collections::BTreeMap;
use std::env;
use std::error::Error;
use std::io::Write;
use std::process::{Command, ExitCode, Stdio};

/// What is asked for on the command line.
struct Request {
    generator: Generator,
    count: usize,
    seed: u64,
    solver: Vec<String>,
}

fn main() -> Result<ExitCode, Box<dyn Error>> {
    let request = request().ok_or("versus GENERATOR COUNT SEED SOLVER [ARGUMENT...]")?;
    let mut agreed: BTreeMap<&str, usize> = BTreeMap::new();
    let (mut compared, mut passed_over, mut disagreed) = (0, 0, 0);
    for index in 0.. {
        if compared == request.count {
            break;
        }
        let bytes = (request.generator)(request.seed, index);
        let Some(word) = word(&bytes) else {
            passed_over += 1;
            continue;
        };
        let other = solver_word(&request.solver, &smt::script(&bytes))?;
        compared += 1;
        if word == other {
            *agreed.entry(word).or_default() += 1;
        } else {
            disagreed += 1;
            println!("index {index}: {word}, the solver says {other}");
        }
    }
    println!(
        "{compared} compared, {disagreed} disagree, {passed_over} refused; agreed: {agreed:?}"
    );
    Ok(ExitCode::from(u8::from(disagreed > 0)))
}

fn request() -> Option<Request> {
    let mut arguments = env::args().skip(1);
    let name = arguments.next()?;
    let (_, generator) = gen::all().find(|(known, _)| *known == name)?;
    let count = arguments.next()?.parse().ok()?;
    let seed = arguments.next()?.parse().ok()?;
    let solver: Vec<String> = arguments.collect();
    (!solver.is_empty()).then_some(Request { generator, count, seed, solver })
}

/// The decider's word; nothing for a refusal.
fn word(bytes: &[u8]) -> Option<&'static str> {
    let (mut nums, mut dens) = ([0; PLACES], [0; PLACES]);
    match decide(bytes, &mut nums, &mut dens) {
        Answer::Entailed { .. } => Some("entailed"),
        Answer::NotEntailed { .. } => Some("not-entailed"),
        Answer::Contradictory { .. } => Some("contradictory"),
        Answer::Refused { .. } => None,
    }
}

/// The solver's word, from its two answers.
fn solver_word(solver: &[String], script: &str) -> Result<&'static str, Box<dyn Error>> {
    let output = run(solver, script)?;
    let mut answers = output.split_whitespace();
    Ok(match (answers.next(), answers.next()) {
        (Some("unsat"), Some("unsat")) => "contradictory",
        (Some("sat"), Some("unsat")) => "entailed",
        (Some("sat"), Some("sat")) => "not-entailed",
        _ => return Err(format!("the solver wrote: {output}").into()),
    })
}

fn run(solver: &[String], script: &str) -> Result<String, Box<dyn Error>> {
    let mut command = Command::new(&solver[0]);
    command.args(&solver[1..]).stdin(Stdio::piped()).stdout(Stdio::piped());
    let mut child = command.spawn()?;
    child.stdin.take().ok_or("no way to the solver")?.write_all(script.as_bytes())?;
    Ok(String::from_utf8(child.wait_with_output()?.stdout)?)
}
