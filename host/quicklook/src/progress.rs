//! What the program says beside its results: the step that it is at, on a terminal, and notes.

use std::io::Write;

/// Runs a step; a terminal shows its name while it lasts.
pub fn step<T>(name: &'static str, work: impl FnOnce() -> T) -> T {
    if unsafe { libc::isatty(2) } == 0 {
        return work();
    }
    say(&format!("\r\x1b[K{name} "));
    let result = work();
    say("\r\x1b[K");
    result
}

/// A line for the user beside the results.
pub fn note(text: &str) {
    say(&format!("quicklook: {text}\n"));
}

/// Where standard error cannot be written there is nobody to tell.
fn say(text: &str) {
    let _ = std::io::stderr().write_all(text.as_bytes());
}
