//! Reading events in the spelling of a run's output.

use wospinzo::{Event, MAX_HISTORY};

/// The most events that a history holds.
pub const MAX_EVENTS: usize = MAX_HISTORY / 2;
/// Bytes after which a file has a line that is no event, or an event too many.
/// The longest event, `(event 199 (leave exclusive return))`, has 36.
pub const MAX_BYTES: usize = 40 * (MAX_EVENTS + 2);

/// An event of a thread. Event `i` of a file, from 0, is its line `i + 1`.
#[derive(Clone, Copy, Debug, PartialEq, Eq)]
pub struct ThreadEvent {
    /// The thread's number, up to 999.
    pub thread: u16,
    pub event: Event,
}

impl ThreadEvent {
    /// The pair of a history. A number above 255 is written as 255, which is no
    /// thread either.
    fn pair(self) -> [u8; 2] {
        [self.thread.min(255) as u8, self.event as u8]
    }
}

/// A line that is no event.
#[derive(Clone, Copy, Debug, PartialEq, Eq)]
pub struct BadLine {
    /// From 1.
    pub line: usize,
    pub reason: &'static str,
}

const NO_EVENT: &str = "not an event, which is written like (event 0 (enter shared call))";
const NO_LINE_FEED: &str = "the line does not end in a line feed";
const TOO_MANY: &str = "more than 30,000 events";

/// The history of events: byte pairs of thread and event.
pub fn history(events: &[ThreadEvent]) -> Vec<u8> {
    events.iter().flat_map(|event| event.pair()).collect()
}

/// The events of a file, one a line. A last line `(steps K)` or `(refused R L)`,
/// as a run prints it, is passed over.
pub fn read(file: &[u8]) -> Result<Vec<ThreadEvent>, BadLine> {
    let mut events = Vec::new();
    let mut lines = file.split_inclusive(|&byte| byte == b'\n').peekable();
    while let Some(line) = lines.next() {
        let bad = |reason| BadLine {
            line: events.len() + 1,
            reason,
        };
        let form = line.strip_suffix(b"\n").ok_or(bad(NO_LINE_FEED))?;
        if lines.peek().is_none() && is_end(form) {
            break;
        }
        let event = read_event(form).ok_or(bad(NO_EVENT))?;
        if events.len() == MAX_EVENTS {
            return Err(bad(TOO_MANY));
        }
        events.push(event);
    }
    Ok(events)
}

/// The text between two others.
fn between<'a>(text: &'a [u8], before: &[u8], after: &[u8]) -> Option<&'a [u8]> {
    text.strip_prefix(before)?.strip_suffix(after)
}

/// `(event T (name))`.
fn read_event(form: &[u8]) -> Option<ThreadEvent> {
    let inner = between(form, b"(event ", b"))")?;
    let at = inner.iter().position(|&byte| byte == b' ')?;
    let name = inner[at..].strip_prefix(b" (")?;
    Some(ThreadEvent {
        thread: number(&inner[..at])?,
        event: event_of(name)?,
    })
}

fn event_of(name: &[u8]) -> Option<Event> {
    let mut all = Event::ALL.into_iter();
    all.find(|event| event.to_string().as_bytes() == name)
}

/// A number of one to three digits without leading zeros, as a script has them.
fn number(digits: &[u8]) -> Option<u16> {
    let spelled = is_number(digits) && digits.len() <= 3;
    let text = std::str::from_utf8(digits).ok()?;
    text.parse().ok().filter(|_| spelled)
}

fn is_number(digits: &[u8]) -> bool {
    let leading_zero = digits.len() > 1 && digits[0] == b'0';
    !digits.is_empty() && !leading_zero && digits.iter().all(u8::is_ascii_digit)
}

/// `(steps K)` or `(refused R L)`, with which a run's output ends.
fn is_end(form: &[u8]) -> bool {
    let steps = between(form, b"(steps ", b")").is_some_and(is_number);
    let refused = between(form, b"(refused ", b")").is_some_and(|inner| {
        let mut words = inner.split(|&byte| byte == b' ');
        words.clone().count() == 2 && words.all(is_number)
    });
    steps || refused
}

#[cfg(test)]
mod tests {
    use super::*;

    fn bad(file: &str) -> BadLine {
        read(file.as_bytes()).unwrap_err()
    }

    #[test]
    fn every_event_is_read_as_it_is_printed() {
        for event in Event::ALL {
            let line = format!("(event 17 ({event}))\n");
            let read = read(line.as_bytes());
            assert_eq!(read, Ok(vec![ThreadEvent { thread: 17, event }]));
        }
    }

    #[test]
    fn the_end_of_a_run_is_passed_over_as_the_last_line_alone() {
        let event = "(event 0 (enter shared call))\n";
        for end in ["(steps 120)\n", "(refused 7 6)\n"] {
            let whole = format!("{event}{end}");
            assert_eq!(read(whole.as_bytes()).map(|events| events.len()), Ok(1));
            let early = format!("{event}{end}{event}");
            assert_eq!((bad(&early).line, bad(&early).reason), (2, NO_EVENT));
        }
    }

    #[test]
    fn other_lines_are_no_events() {
        for form in [
            "",
            "(event 0 (enter shared call)",
            "(event 0 (enter shared call)) ",
            "(event 00 (enter shared call))",
            "(event 1000 (enter shared call))",
            "(event +1 (enter shared call))",
            "(event 0  (enter shared call))",
            "(event 0 (enter shared calls))",
            "(event (enter shared call))",
            "(steps)",
            "(steps 01)",
            "(refused 7)",
            "(refused 7 6 5)",
        ] {
            assert_eq!(bad(&format!("{form}\n")).reason, NO_EVENT, "{form}");
        }
        assert_eq!(bad("(event 0 (enter shared call))").reason, NO_LINE_FEED);
        assert_eq!(bad("(event 0 (enter shared call))\n(steps 1)").line, 2);
    }

    #[test]
    fn at_most_as_many_events_as_a_history_holds() {
        let mut file = "(event 199 (leave exclusive return))\n".repeat(MAX_EVENTS);
        assert!(file.len() < MAX_BYTES);
        assert_eq!(
            read(file.as_bytes()).map(|events| events.len()),
            Ok(MAX_EVENTS)
        );
        file.push_str("(event 0 (enter shared call))\n");
        assert_eq!((bad(&file).line, bad(&file).reason), (30_001, TOO_MANY));
    }

    #[test]
    fn a_number_above_a_byte_is_no_thread_in_the_history() {
        let event = ThreadEvent {
            thread: 256,
            event: Event::EnterSharedCall,
        };
        assert_eq!(history(&[event]), [255, 1]);
    }
}
