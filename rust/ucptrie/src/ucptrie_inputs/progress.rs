//! What a slow command has done so far, which it says between its steps.
use crate::host::io::IsTerminal;
use crate::host::time::Instant;
use crate::host::*;
use crate::support::prelude::*;
use crate::ucptrie_inputs::streams::say_step;

/// How many seconds a command takes before it says what it has done.
const PATIENCE: u64 = 2;

/// Returns the time at which a command starts, or `None` if the clock cannot be read.
pub fn started(rt: &HostRuntime) -> Option<Instant> {
    Instant::now(rt).ok()
}

/// Returns whether a command with this start is slow.
fn is_slow(rt: &HostRuntime, start: Instant) -> bool {
    match start.elapsed(rt) {
        Ok(time) => time.as_secs() >= PATIENCE,
        Err(_) => false,
    }
}

/// Says on standard error that a step is done and how many bytes it read or made, if standard error
/// is a terminal and the command is slow.
pub fn report(rt: &HostRuntime, start: Option<Instant>, step: &str, bytes: usize) {
    if let Some(start) = start
        && is_slow(rt, start)
        && rt.stderr().is_terminal()
    {
        say_step(rt, step, bytes);
    }
}
