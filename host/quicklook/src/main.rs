//! quicklook: radar quicklooks from decibel rasters, by the proved engine.
//! The program reads files, lends memory to the engine and writes what it answers; it decides nothing about pixels.

mod arguments;
mod bytes;
mod commands;
mod demo;
mod elements;
mod explain;
mod folder;
mod gdal;
mod json;
mod memory;
mod naming;
mod npy;
mod origin;
mod outputs;
mod parts;
mod progress;
mod rights;
mod said;
mod scene;
mod sheet;
mod signals;
mod source;
mod standing;
mod threads;
mod trouble;
mod view;

use clap::Parser;
use progress::note;
use std::panic::{self, AssertUnwindSafe};
use std::process::ExitCode;
use trouble::{INTERNAL_STATUS, Outcome, Trouble};

fn main() -> ExitCode {
    memory::first_stack();
    signals::start();
    rights::start();
    panic::set_hook(Box::new(|what| note(&format!("internal error, nothing is written: {what}"))));
    ExitCode::from(status(|| threads::within(work)))
}

fn work() -> Outcome<()> {
    match arguments::Arguments::try_parse() {
        Ok(arguments) => commands::run(arguments.command),
        Err(error) if error.use_stderr() => Err(Trouble::Usage(error.to_string().trim_start_matches("error: ").trim_end().to_string())),
        // Help and version are results.
        Err(error) => commands::print(&error.to_string()),
    }
}

/// Runs the program's work, and tells what went wrong. Whatever goes wrong in the program itself ends here.
fn status(work: impl FnOnce() -> Outcome<()>) -> u8 {
    let status = match panic::catch_unwind(AssertUnwindSafe(work)) {
        Ok(Ok(())) => 0,
        Ok(Err(trouble)) => {
            note(&trouble.to_string());
            trouble.status()
        }
        Err(_) => INTERNAL_STATUS,
    };
    standing::undo_all();
    status
}

#[cfg(test)]
mod tests {
    use super::*;

    #[test]
    fn a_fault_of_the_program_is_told_as_one() {
        assert_eq!(status(|| threads::within(|| panic!("planted"))), INTERNAL_STATUS);
    }
}
