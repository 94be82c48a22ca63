//! What this program does when it runs itself: to be counted by valgrind, or
//! to find out how much stack is enough.

use crate::timing::decide_all;
use differential::sides::{Side, Told, OURS, PLAIN};
use std::env;
use std::error::Error;
use std::fs;
use std::hint::black_box;
use std::path::{Path, PathBuf};
use std::process::Command;
use std::thread;

/// Who decides in a child.
pub const SIDES: [(&str, Side); 3] =
    [("ours", OURS), ("plain", PLAIN), ("nobody", Side { decide: nothing, ..PLAIN })];

/// The stack of the thread in which a child decides.
pub const STACK: usize = 1 << 20;

fn nothing(_: &[u8], _: &mut [i32], _: &mut [i32]) -> Told {
    Told { word: 3, number: 0, figure: 0 }
}

/// This program as a child: who decides, which problems, and how often or
/// with how much of the stack taken.
pub fn command(task: &str, side: &str, problems: &Path, number: usize) -> Vec<String> {
    let program = env::current_exe().unwrap_or_default();
    let words = [&program.to_string_lossy(), task, side, &problems.to_string_lossy()];
    let number = number.to_string();
    words.into_iter().chain([number.as_str()]).map(str::to_string).collect()
}

/// Starts a command given by its words.
pub fn start(words: &[String]) -> Command {
    let mut command = Command::new(&words[0]);
    command.args(&words[1..]);
    command
}

/// Does what a child is told.
pub fn work(arguments: &[String]) -> Result<(), Box<dyn Error>> {
    let [task, side, file, number] = arguments else {
        return Err("a child has four arguments".into());
    };
    let side = SIDES.iter().find(|(name, _)| name == side).ok_or("no such side")?.1;
    let (problems, number) = (load(Path::new(file))?, number.parse()?);
    match task.as_str() {
        "calls" => decide_all(side, &problems, number),
        "stack" => decide_after_taking(side, problems, number)?,
        _ => return Err("no such task".into()),
    }
    Ok(())
}

/// Decides in a thread of which so many bytes of stack are taken already.
fn decide_after_taking(side: Side, problems: Vec<Vec<u8>>, bytes: usize) -> Result<(), String> {
    let (mut nums, mut dens) = (vec![0; plain::PLACES], vec![0; plain::PLACES]);
    let mut decide = move || {
        for problem in &problems {
            black_box((side.decide)(problem, &mut nums, &mut dens));
        }
    };
    let taking = move || {
        let here = 0u8;
        take(address(&here).saturating_sub(bytes), &mut decide);
    };
    let thread = thread::Builder::new().stack_size(STACK).spawn(taking);
    thread.map_err(|error| error.to_string())?.join().map_err(|_| "no stack left".to_string())
}

/// Takes stack, a little at each call, down to an address; then goes on.
#[inline(never)]
fn take(down_to: usize, then: &mut dyn FnMut()) {
    let mut taken = [0u8; 128];
    black_box(&mut taken);
    if address(&taken[0]) > down_to {
        take(down_to, then);
    } else {
        then();
    }
    black_box(&mut taken);
}

fn address(of: &u8) -> usize {
    black_box(of as *const u8 as usize)
}

/// Writes problems to a file beside the program, for a child.
pub fn keep(name: &str, problems: &[Vec<u8>]) -> Result<PathBuf, Box<dyn Error>> {
    let program = env::current_exe()?;
    let folder = program.ancestors().nth(2).ok_or("the program stands in no folder")?;
    let folder = folder.join("measure");
    fs::create_dir_all(&folder)?;
    let mut bytes = Vec::new();
    for problem in problems {
        bytes.extend_from_slice(&(problem.len() as u16).to_be_bytes());
        bytes.extend_from_slice(problem);
    }
    let file = folder.join(name.replace([' ', ','], "_"));
    fs::write(&file, bytes)?;
    Ok(file)
}

fn load(file: &Path) -> Result<Vec<Vec<u8>>, Box<dyn Error>> {
    let bytes = fs::read(file)?;
    let (mut problems, mut rest) = (Vec::new(), &bytes[..]);
    while let Some((length, behind)) = rest.split_first_chunk() {
        let length = usize::from(u16::from_be_bytes(*length));
        let (problem, behind) = behind.split_at_checked(length).ok_or("a cut file")?;
        problems.push(problem.to_vec());
        rest = behind;
    }
    Ok(problems)
}
