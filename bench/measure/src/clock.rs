//! Processor time, which a busy machine disturbs far less than the time of
//! day. Where the system does not tell it, the time of day is taken for both
//! this thread and its children.

use std::fs;
use std::sync::OnceLock;
use std::time::{Duration, Instant};

/// How often a second the system counts the time of children.
const TICKS: u64 = 100;

/// Whether the times are processor times.
pub fn is_processor_time() -> bool {
    scheduled().is_some() && waited_for().is_some()
}

/// The time that this thread has taken so far.
pub fn of_thread() -> Duration {
    scheduled().unwrap_or_else(time_of_day)
}

/// The time that children have taken that came to an end.
pub fn of_children() -> Duration {
    if is_processor_time() {
        waited_for().unwrap_or_default()
    } else {
        time_of_day()
    }
}

/// The thread's time on a processor, which the system brings up to date
/// every few milliseconds.
fn scheduled() -> Option<Duration> {
    let said = fs::read_to_string("/proc/thread-self/schedstat").ok()?;
    Some(Duration::from_nanos(said.split_whitespace().next()?.parse().ok()?))
}

/// The time of children in user mode and in the system: fields 16 and 17,
/// counted from 1; the second is a name in brackets that may hold blanks.
fn waited_for() -> Option<Duration> {
    let said = fs::read_to_string("/proc/self/stat").ok()?;
    let (_, after_name) = said.rsplit_once(')')?;
    let mut fields = after_name.split_whitespace().skip(13);
    let user: u64 = fields.next()?.parse().ok()?;
    let system: u64 = fields.next()?.parse().ok()?;
    Some(Duration::from_millis((user + system) * 1000 / TICKS))
}

fn time_of_day() -> Duration {
    static START: OnceLock<Instant> = OnceLock::new();
    START.get_or_init(Instant::now).elapsed()
}
