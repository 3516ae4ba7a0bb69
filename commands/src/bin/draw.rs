//! From a script on standard input to a picture of its run.

use std::env;
use std::process::ExitCode;

use commands::{input, picture, recording};
use wospinzo::MAX_SCRIPT;

fn main() -> ExitCode {
    if env::args_os().count() > 1 {
        return input::usage("draw, with a script on standard input");
    }
    // One byte more than a script may have shows that one is too long.
    input::filter("draw", MAX_SCRIPT + 1, |script| {
        let recording = recording::record(script)?;
        Ok(picture::draw(&recording).into_bytes())
    })
}
