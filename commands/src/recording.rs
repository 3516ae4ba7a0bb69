//! A script's run, move by move.

use wospinzo::{
    busy, forbidden, fresh, move_answer, mutex_held, nodes, read_script, table_size, Event, Move,
    MoveAnswer, Node, Outcome, Rejected, MAX_SCRIPT,
};

use crate::lines::{self, Notes};
use crate::spans::Track;
use crate::stop::{self, Stop};

/// A move that was made.
#[derive(Clone, Copy, Debug)]
pub struct Step {
    /// The line of the script, from 1.
    pub line: usize,
    pub thread: usize,
    pub mov: Move,
    pub event: Option<Event>,
    pub retry: bool,
}

/// A thread after each move.
#[derive(Clone, Debug, Default)]
pub struct Row {
    pub nodes: Track<Node>,
    pub busy: Track<bool>,
    pub forbidden: Track<bool>,
}

/// What is drawn.
#[derive(Clone, Debug, Default)]
pub struct Recording {
    /// One a thread; none where the first line was turned down.
    pub rows: Vec<Row>,
    /// One a column.
    pub steps: Vec<Step>,
    /// Who holds the mutex after each move.
    pub mutex: Track<Option<usize>>,
    pub notes: Vec<Notes>,
    pub stop: Option<Stop>,
}

impl Recording {
    pub fn events(&self) -> impl Iterator<Item = (usize, &Step, Event)> {
        let steps = self.steps.iter().enumerate();
        steps.filter_map(|(column, step)| Some((column, step, step.event?)))
    }

    /// How many moves were retries.
    pub fn retries(&self) -> usize {
        self.steps.iter().filter(|step| step.retry).count()
    }
}

/// A request of a script: its line, and what it asks for.
struct Request {
    line: usize,
    thread: usize,
    mov: Move,
}

/// Runs a script up to its end, or to the first line that is turned down.
pub fn record(script: &[u8]) -> Result<Recording, String> {
    let mut accepted = script;
    let mut stop = None;
    let (threads, requests) = match read(script)? {
        Ok(read) => read,
        Err(rejected) => {
            accepted = lines::before(script, rejected.place);
            // Nothing comes before the first line.
            let before = read(accepted)?.unwrap_or_default();
            stop = Some(unread(script, rejected, before.0));
            before
        }
    };
    let mut recorder = Recorder::new(threads);
    if let Some(refused) = requests.iter().find_map(|request| recorder.make(request)) {
        accepted = lines::before(script, refused.line);
        stop = Some(Stop {
            text: lines::text(script, refused.line),
            ..refused
        });
    }
    Ok(Recording {
        notes: lines::notes(accepted),
        stop,
        ..recorder.recording
    })
}

type Read = (usize, Vec<Request>);

/// The threads and the requests of a script, or the line that was turned down;
/// a script too long has no such line.
fn read(script: &[u8]) -> Result<Result<Read, Rejected>, String> {
    let mut triples = vec![0; MAX_SCRIPT];
    match read_script(script, &mut triples) {
        Err(rejected) if rejected.place == 0 => Err(format!(
            "refused {}: the script is longer than 30,000 bytes",
            rejected.refusal as u8
        )),
        Err(rejected) => Ok(Err(rejected)),
        Ok(read) => {
            let requests = requests(script, &triples[..read.bytes]);
            let requests = requests.ok_or("the script has a move that is not known here")?;
            Ok(Ok((read.threads.into(), requests)))
        }
    }
}

/// Each triple with its line, none where one is no move.
fn requests(script: &[u8], triples: &[u8]) -> Option<Vec<Request>> {
    let lines = lines::of_moves(script).into_iter();
    lines
        .zip(triples.chunks_exact(3))
        .map(|(line, triple)| {
            Some(Request {
                line,
                thread: triple[0].into(),
                mov: Move::from_numbers(triple[1].into(), triple[2].into())?,
            })
        })
        .collect()
}

/// The stop at a line that could not be read.
fn unread(script: &[u8], rejected: Rejected, threads: usize) -> Stop {
    let text = lines::text(script, rejected.place);
    Stop {
        refusal: rejected.refusal,
        line: rejected.place,
        thread: None,
        reason: stop::bad_line(rejected.refusal, threads, &text),
        text,
    }
}

/// A table, and what was recorded of it.
struct Recorder {
    table: Vec<u8>,
    holder: Option<usize>,
    recording: Recording,
}

impl Recorder {
    /// A fresh table; one of no threads is left empty.
    fn new(threads: usize) -> Recorder {
        let mut table = vec![0; table_size(threads as u16)];
        let size = fresh(threads as u16, &mut table).unwrap_or(0);
        table.truncate(size);
        let recording = Recording {
            rows: vec![Row::default(); threads],
            ..Recording::default()
        };
        Recorder {
            table,
            holder: None,
            recording,
        }
    }

    /// Makes a move and records what it left, or answers why it was refused.
    fn make(&mut self, request: &Request) -> Option<Stop> {
        match move_answer(&mut self.table, request.thread as u16, request.mov) {
            Ok(answer) => {
                self.keep(request, answer);
                None
            }
            Err(refusal) => Some(Stop {
                refusal,
                line: request.line,
                thread: Some(request.thread),
                reason: stop::bad_move(refusal, &self.table, request.thread, self.holder),
                text: String::new(),
            }),
        }
    }

    fn keep(&mut self, request: &Request, answer: MoveAnswer) {
        // Whoever made the move that took the mutex holds it.
        self.holder = match mutex_held(&self.table) {
            Some(true) => self.holder.or(Some(request.thread)),
            _ => None,
        };
        self.recording.mutex.push(self.holder);
        self.keep_rows();
        self.recording.steps.push(Step {
            line: request.line,
            thread: request.thread,
            mov: request.mov,
            event: match answer.outcome {
                Outcome::Shown(event) => Some(event),
                Outcome::Quiet => None,
            },
            retry: answer.retry,
        });
    }

    fn keep_rows(&mut self) {
        let rows = &mut self.recording.rows;
        let mut codes = vec![0; rows.len()];
        // A table that moves have left is sound, and there is room.
        let written = nodes(&self.table, &mut codes).unwrap_or(0);
        for (thread, (row, &code)) in rows.iter_mut().zip(&codes[..written]).enumerate() {
            row.nodes.push(Node::from_code(code).unwrap_or(Node::Free));
            let thread = thread as u16;
            row.busy.push(busy(&self.table, thread) == Some(true));
            row.forbidden
                .push(forbidden(&self.table, thread) == Some(true));
        }
    }
}

#[cfg(test)]
mod tests {
    use super::*;
    use wospinzo::Refusal;

    fn stop(script: &str) -> (u8, usize, String) {
        let stop = record(script.as_bytes()).unwrap().stop.unwrap();
        (stop.refusal as u8, stop.line, stop.reason)
    }

    #[test]
    fn a_run_is_recorded() {
        let script =
            "(threads 2)\n(1 (call exclusive))\n(note a)\n(1 (go))\n(1 (set 0))\n(0 (call shared))\n";
        let recording = record(script.as_bytes()).unwrap();
        assert_eq!(recording.stop, None);
        let lines: Vec<_> = recording.steps.iter().map(|step| step.line).collect();
        assert_eq!(lines, [2, 4, 5, 6]);
        let shown: Vec<_> = recording
            .events()
            .map(|(at, _, event)| (at, event))
            .collect();
        assert_eq!(
            shown,
            [(0, Event::EnterExclusiveCall), (3, Event::EnterSharedCall)]
        );
        let column = |at| {
            recording
                .rows
                .iter()
                .map(move |row| row.nodes.at(at).unwrap())
        };
        assert!(column(0).eq([Node::Free, Node::Ee]));
        assert!(column(3).eq([Node::Es, Node::Saf]));
        assert_eq!(recording.rows[0].forbidden.at(1), Some(false));
        assert_eq!(recording.rows[0].forbidden.at(2), Some(true));
        assert_eq!(recording.mutex.at(0), Some(None));
        assert_eq!(recording.mutex.at(3), Some(Some(1)));
    }

    #[test]
    fn the_mutex_has_the_holder_that_took_it() {
        let script = "(threads 2)\n(0 (call exclusive))\n(0 (go))\n(0 (set 0))\n(0 (go))\n\
                      (0 (set 1))\n(0 (go))\n(0 (go))\n(0 (go))\n(0 (clear 0))\n(0 (clear 1))\n\
                      (0 (go))\n(1 (call exclusive))\n(1 (go))\n";
        let recording = record(script.as_bytes()).unwrap();
        let held: Vec<_> = recording
            .mutex
            .spans()
            .iter()
            .map(|span| (span.value, span.from, span.to))
            .collect();
        let expected = [
            (None, 0, 1),
            (Some(0), 1, 10),
            (None, 10, 12),
            (Some(1), 12, 13),
        ];
        assert_eq!(held, expected);
    }

    #[test]
    fn the_first_line_turned_down_is_the_stop() {
        let start = "(threads 2)\n(0 (call exclusive))\n(0 (go))\n(1 (call exclusive))\n";
        let held = (7, 5, "thread 0 holds the mutex".to_string());
        assert_eq!(stop(&format!("{start}(1 (go))\n")), held);
        // A move that is refused comes before a later line that has no form.
        assert_eq!(stop(&format!("{start}(1 (go))\n(1 (gone))\n")), held);
        let (number, line, reason) = stop(&format!("{start}(1 (relent))\n(1 (go))\n"));
        assert_eq!((number, line), (6, 5));
        assert_eq!(reason, "thread 1 is in phase 9, which has no such move");
        assert_eq!(stop(&format!("{start}(2 (go))\n")).0, 3);
        assert_eq!(stop(&format!("{start}(0 (set 2))\n")).0, 5);
        assert_eq!(stop(&format!("{start}(0 (go)\n")).0, 8);
    }

    #[test]
    fn a_first_line_turned_down_leaves_no_rows() {
        for (script, number) in [("", 8), ("(threads 201)\n(0 (go))\n", 1), ("\n", 8)] {
            let recording = record(script.as_bytes()).unwrap();
            assert_eq!((recording.rows.len(), recording.steps.len()), (0, 0));
            let stop = recording.stop.unwrap();
            assert_eq!((stop.refusal as u8, stop.line), (number, 1));
        }
    }

    #[test]
    fn a_script_too_long_is_not_run() {
        let longest = format!("(threads 1)\n(note {})\n", " ".repeat(MAX_SCRIPT - 20));
        assert_eq!(longest.len(), MAX_SCRIPT);
        assert!(record(longest.as_bytes()).is_ok());
        let longer = format!("{longest}\n");
        assert!(record(longer.as_bytes())
            .unwrap_err()
            .starts_with("refused 8"));
        assert_eq!(Refusal::BadForm as u8, 8);
    }
}
