//! Where a run stops before its end, in words.

use wospinzo::{phase, Phase, Refusal};

/// Characters of the line that are said, at most.
const SAID: usize = 60;

/// The first line that was turned down.
#[derive(Clone, Debug, PartialEq, Eq)]
pub struct Stop {
    pub refusal: Refusal,
    /// From 1.
    pub line: usize,
    /// The line itself, characters 32 to 126 alone.
    pub text: String,
    /// The thread that asked, where the line is a move.
    pub thread: Option<usize>,
    pub reason: String,
}

impl Stop {
    /// The whole in one sentence.
    pub fn words(&self) -> String {
        let said = match self.text.as_str() {
            "" => String::new(),
            text if text.len() > SAID => format!(", {} ...", &text[..SAID]),
            text => format!(", {text}"),
        };
        format!(
            "Stopped at line {}{said}: refused {}, {}.",
            self.line, self.refusal as u8, self.reason
        )
    }
}

/// Why a line was turned down before any move, with so many threads.
pub fn bad_line(refusal: Refusal, threads: usize, text: &str) -> String {
    match refusal {
        Refusal::BadSize => "the number of threads must be 1 to 200".to_string(),
        Refusal::NoThread => format!("the thread's number is not below {threads}"),
        Refusal::BadTarget => format!("the target is not below {threads}"),
        Refusal::BadForm if text.is_empty() => "the line is empty".to_string(),
        Refusal::BadForm => "this is no form of a script".to_string(),
        other => other.to_string(),
    }
}

/// Why a move was turned down on a table.
pub fn bad_move(refusal: Refusal, table: &[u8], thread: usize, holder: Option<usize>) -> String {
    match (refusal, holder) {
        (Refusal::MutexHeld, Some(holder)) => format!("thread {holder} holds the mutex"),
        (Refusal::NotInPhase, _) => match phase(table, thread as u16) {
            Some(phase) => no_such_move(thread, phase),
            None => refusal.to_string(),
        },
        _ => refusal.to_string(),
    }
}

fn no_such_move(thread: usize, phase: Phase) -> String {
    format!(
        "thread {thread} is in phase {}, which has no such move",
        phase as u8
    )
}
