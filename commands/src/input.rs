//! Standard input and output of a command, and how it ends.

use std::io::{self, Read, Write};
use std::process::ExitCode;

/// The status of a command that could not do its work.
const FAILED: u8 = 1;
/// The status of a command that was called in the wrong way.
const USAGE: u8 = 2;

/// The first bytes of standard input, `limit` at most.
pub fn read_at_most(limit: usize) -> io::Result<Vec<u8>> {
    let mut bytes = Vec::new();
    io::stdin()
        .lock()
        .take(limit as u64)
        .read_to_end(&mut bytes)?;
    Ok(bytes)
}

/// Writes the whole output.
pub fn write_all(bytes: &[u8]) -> io::Result<()> {
    let mut out = io::stdout().lock();
    out.write_all(bytes)?;
    out.flush()
}

/// Says on standard error what went wrong.
pub fn fail(command: &str, message: &str) -> ExitCode {
    eprintln!("{command}: {message}");
    ExitCode::from(FAILED)
}

/// Says on standard error how the command is called.
pub fn usage(words: &str) -> ExitCode {
    eprintln!("usage: {words}");
    ExitCode::from(USAGE)
}

/// Reads, does the work, writes what came of it, and answers how it ended.
///
/// Nothing is written where the work fails.
pub fn filter(
    command: &str,
    limit: usize,
    work: impl FnOnce(&[u8]) -> Result<Vec<u8>, String>,
) -> ExitCode {
    let Ok(bytes) = read_at_most(limit) else {
        return fail(command, "standard input could not be read");
    };
    let output = match work(&bytes) {
        Ok(output) => output,
        Err(message) => return fail(command, &message),
    };
    match write_all(&output) {
        Ok(()) => ExitCode::SUCCESS,
        Err(_) => fail(command, "the output could not be written"),
    }
}
