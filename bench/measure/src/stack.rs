//! The stack that a decision takes.

use crate::child::{command, start, STACK};
use std::path::Path;
use std::process::Stdio;

/// The steps of the search, in bytes.
const STEP: usize = 256;
/// How closely the stack is measured, in bytes: a step, and what the child
/// takes at once.
pub const CLOSELY: usize = 512;

/// The stack that one side's decisions of some problems take at most: the
/// most that can be taken before them and before nothing, compared.
pub fn taken(side: &str, problems: &Path) -> Result<usize, String> {
    let (before_nothing, before) = (most_before("nobody", problems)?, most_before(side, problems)?);
    Ok(before_nothing.saturating_sub(before))
}

/// The most stack that can be taken before a side decides so that it still
/// comes to an end.
fn most_before(side: &str, problems: &Path) -> Result<usize, String> {
    let (mut enough, mut too_much) = (0, STACK / STEP);
    if !ends(side, problems, enough) || ends(side, problems, too_much) {
        return Err(format!("the stack of {side} cannot be measured"));
    }
    while too_much - enough > 1 {
        let middle = enough.midpoint(too_much);
        if ends(side, problems, middle) {
            enough = middle;
        } else {
            too_much = middle;
        }
    }
    Ok(enough * STEP)
}

/// Whether a child that has taken so many steps of its stack comes to an end.
fn ends(side: &str, problems: &Path, steps: usize) -> bool {
    let mut child = start(&command("stack", side, problems, steps * STEP));
    let ended = child.stdout(Stdio::null()).stderr(Stdio::null()).status();
    ended.is_ok_and(|status| status.success())
}
