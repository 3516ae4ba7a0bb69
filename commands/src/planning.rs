//! From events to the script of their plan.

use std::fmt;

use wospinzo::{check, plan, plan_length, plan_size, write_script, Refusal, Rejected, MAX_SCRIPT};

use crate::events::{self, ThreadEvent};
use crate::explain::explain;

/// Why there is no script: the refusal, the line of the events where it has one,
/// and the reason.
#[derive(Debug, PartialEq, Eq)]
pub struct Refused {
    pub refusal: Refusal,
    /// From 1.
    pub line: Option<usize>,
    pub reason: String,
}

impl Refused {
    fn whole(refusal: Refusal, reason: String) -> Refused {
        Refused {
            refusal,
            line: None,
            reason,
        }
    }
}

impl fmt::Display for Refused {
    fn fmt(&self, f: &mut fmt::Formatter) -> fmt::Result {
        write!(f, "refused {}", self.refusal as u8)?;
        if let Some(line) = self.line {
            write!(f, ", line {line}")?;
        }
        write!(f, ": {}", self.reason)
    }
}

/// The number of threads that a word names, none where it is no number. One
/// above 16 bits becomes the largest, which is too large as well.
pub fn threads_of(word: &str) -> Option<u16> {
    let digits = !word.is_empty() && word.bytes().all(|byte| byte.is_ascii_digit());
    digits.then(|| word.parse().unwrap_or(u16::MAX))
}

/// The script that shows the events of a file, with so many threads.
pub fn script(threads: u16, file: &[u8]) -> Result<Vec<u8>, Refused> {
    check(threads, &[]).map_err(|rejected| {
        let reason = "the number of threads must be 1 to 200".to_string();
        Refused::whole(rejected.refusal, reason)
    })?;
    let events = events::read(file).map_err(|bad| Refused {
        refusal: Refusal::BadForm,
        line: Some(bad.line),
        reason: bad.reason.to_string(),
    })?;
    let triples = triples(threads, &events)
        .map_err(|rejected| refused_history(threads, rejected, &events))?;
    written(threads, &triples).map_err(|rejected| refused_script(rejected, events.len()))
}

/// The plan's triples.
fn triples(threads: u16, events: &[ThreadEvent]) -> Result<Vec<u8>, Rejected> {
    let history = events::history(events);
    let moves = plan_length(threads, &history)?;
    let mut triples = vec![0; plan_size(moves)];
    plan(threads, &history, &mut triples)?;
    Ok(triples)
}

fn written(threads: u16, triples: &[u8]) -> Result<Vec<u8>, Rejected> {
    let mut script = vec![0; MAX_SCRIPT];
    let bytes = write_script(threads, triples, &mut script)?;
    script.truncate(bytes);
    Ok(script)
}

fn refused_history(threads: u16, rejected: Rejected, events: &[ThreadEvent]) -> Refused {
    let up_to = events.len().min(rejected.place + 1);
    Refused {
        refusal: rejected.refusal,
        line: Some(rejected.place + 1),
        reason: explain(threads, rejected.refusal, &events[..up_to]),
    }
}

fn refused_script(rejected: Rejected, events: usize) -> Refused {
    let reason = match rejected.refusal {
        Refusal::BadForm => format!(
            "the script of these {events} events would be longer than a script may be, 30,000 bytes"
        ),
        other => other.to_string(),
    };
    Refused::whole(rejected.refusal, reason)
}

#[cfg(test)]
mod tests {
    use super::*;

    #[test]
    fn a_history_becomes_the_script_that_shows_it() {
        let file = b"(event 0 (enter exclusive call))\n(event 0 (enter exclusive return))\n";
        let script = script(1, file).unwrap();
        let lines =
            "(threads 1)\n(0 (call exclusive))\n(0 (go))\n(0 (set 0))\n(0 (go))\n(0 (go))\n";
        assert_eq!(String::from_utf8(script).unwrap(), lines);
    }

    #[test]
    fn a_bad_line_comes_before_a_bad_event() {
        let file = b"(event 0 (enter shared return))\n(event)\n";
        let refused = script(1, file).unwrap_err();
        assert_eq!((refused.refusal, refused.line), (Refusal::BadForm, Some(2)));
    }

    #[test]
    fn the_number_of_threads_comes_first() {
        for word in ["0", "201", "65536", "99999999999999999999"] {
            let threads = threads_of(word).unwrap();
            let refused = script(threads, b"(event)\n").unwrap_err();
            assert_eq!((refused.refusal, refused.line), (Refusal::BadSize, None));
        }
        assert_eq!(["", "-1", "two", "1 "].map(threads_of), [None; 4]);
    }

    /// Rounds of a reader, and the bytes of their script: seven moves a round.
    #[test]
    fn a_script_is_at_most_as_long_as_a_run_takes() {
        let round = "(event 0 (enter shared call))\n(event 0 (enter shared return))\n\
                     (event 0 (leave shared call))\n(event 0 (leave shared return))\n";
        let longest = script(1, round.repeat(416).as_bytes()).unwrap();
        assert_eq!(longest.len(), 12 + 416 * (6 * 9 + 18));
        let refused = script(1, round.repeat(417).as_bytes()).unwrap_err();
        assert_eq!((refused.refusal, refused.line), (Refusal::BadForm, None));
    }
}
