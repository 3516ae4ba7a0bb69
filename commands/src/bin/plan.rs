//! From events on standard input to the script of their plan.

use std::env;
use std::process::ExitCode;

use commands::{events, input, planning};

fn main() -> ExitCode {
    let mut words = env::args_os().skip(1);
    let threads = words
        .next()
        .and_then(|word| planning::threads_of(word.to_str()?));
    let (Some(threads), None) = (threads, words.next()) else {
        return input::usage("plan N, with events on standard input");
    };
    input::filter("plan", events::MAX_BYTES, |file| {
        planning::script(threads, file).map_err(|refused| refused.to_string())
    })
}
