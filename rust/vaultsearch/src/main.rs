//! The command line for real sizes. `help.txt` is its guide; what is proved is the library behind `vault`.

mod arguments;
mod bill;
mod collect;
mod commands;
mod failure;
mod identity;
mod input;
mod inspect;
mod lines;
mod make_vault;
mod names;
mod output;
mod progress;
mod rows;
mod text;

use failure::Failure;
use std::process::ExitCode;

fn main() -> ExitCode {
    let words: Vec<std::ffi::OsString> = std::env::args_os().skip(1).collect();
    let no_thread = |error| Err(Failure::Memory(format!("no thread with a stack of {} bytes: {error}", vault::STACK)));
    match vault::on_large_stack(|| commands::run(words)).unwrap_or_else(no_thread) {
        Ok(()) => ExitCode::SUCCESS,
        Err(failure) => {
            text::say(format!("vaultsearch: {failure}"));
            ExitCode::from(failure.status())
        }
    }
}
