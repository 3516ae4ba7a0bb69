//! Answers that tell of retries with a fault: what the model answers, changed.

use std::collections::HashSet;

use crate::faults::{Fault, OF_COUNT};
use crate::model::{Lines, Move, Record, CLEAR, GO, HOLD, RELENT, SET};
use crate::part::{number_of, retried, retries_of, value_of, without_retries};
use crate::part::{Entry, Model, Part};
use crate::tables;

/// The model with a fault in its retries.
pub struct Retrying {
    pub fault: Fault,
}

/// Whether a move that was accepted in this table says that it was a retry.
fn said(fault: Fault, table: &[u8], [thread, mov, target]: [u16; 3], answer: u64) -> bool {
    let retry = retries_of(answer) > 0;
    let made = (mov, table[3 + 3 * usize::from(thread)]);
    let forbidden = table[5 + 3 * usize::from(target)];
    match fault {
        Fault::RetryNeverSaid => false,
        Fault::RetryAlwaysSaid => value_of(answer) == 0,
        Fault::GoIn4NoRetry => retry && made != (GO, 4),
        Fault::HoldNoRetry => retry && mov != HOLD,
        Fault::RelentNoRetry => retry && mov != RELENT,
        Fault::Busy1NoRetry => retry && made != (GO, 11),
        Fault::SetIn10NoRetry => retry && made != (SET, 10),
        Fault::SetIn15NoRetry => retry && made != (SET, 15),
        Fault::ClearIn15NoRetry => retry && mov != CLEAR,
        Fault::SetIn15AsIn10 => retry && (made != (SET, 15) || forbidden == 1),
        Fault::Busy0Retry => retry || made == (GO, 11),
        Fault::NewFlagRetry => retry || made == (SET, 10),
        Fault::FlagClearedRetry => retry || mov == CLEAR,
        Fault::GoIn3Retry => retry || made == (GO, 3),
        Fault::GoIn12Retry => retry || made == (GO, 12),
        Fault::GoIn18Retry => retry || made == (GO, 18),
        Fault::EventRetry => retry || value_of(answer) > 0,
        _ => retry,
    }
}

/// What a run makes of a script: the thread of each move made and whether it is a
/// retry, whether a line stops the run, and the move refused by 6 or 7.
#[derive(Default)]
struct Trace {
    made: Vec<(usize, bool)>,
    stopped: bool,
    refused: Option<(Move, u8)>,
}

impl Trace {
    /// The retries among the moves made.
    fn retries(&self) -> impl Iterator<Item = &(usize, bool)> {
        self.made.iter().filter(|(_, retry)| *retry)
    }
}

fn trace(script: &[u8]) -> Trace {
    let mut trace = Trace::default();
    let Ok(lines) = Lines::start(script) else {
        return trace;
    };
    let mut table = tables::fresh(lines.threads);
    for line in lines {
        let Ok(line) = line else {
            trace.stopped = true;
            return trace;
        };
        let Some(made) = line else { continue };
        let [thread, target] = [made.thread, made.target].map(|number| number as u16);
        let answer = Model.make_move(&mut table, thread, made.mov, target);
        if number_of(answer) != 0 {
            trace.stopped = true;
            trace.refused = Some((made, number_of(answer)));
            return trace;
        }
        trace.made.push((made.thread, retries_of(answer) > 0));
    }
    trace
}

/// The retries that a run with the fault counts.
fn counted(fault: Fault, script: &[u8], retries: u64) -> u64 {
    let trace = trace(script);
    match fault {
        Fault::RunCountsNone => 0,
        Fault::RunCountsMoves => trace.made.len() as u64,
        Fault::RunCountsThreads => trace.retries().collect::<HashSet<_>>().len() as u64,
        Fault::RunCountsRefused => retries + u64::from(trace.refused.is_some()),
        Fault::RunCountsRefusedHold => match trace.refused {
            Some((Move { mov: HOLD, .. }, 7)) => retries + 1,
            _ => retries,
        },
        Fault::RunWithoutLast => retries.saturating_sub(1),
        Fault::RunWithoutLastMove => {
            retries - u64::from(trace.made.last().is_some_and(|(_, retry)| *retry))
        }
        Fault::RunStoppedCountsNone if trace.stopped => 0,
        Fault::RunCountOf8 => retries & 0xff,
        Fault::RunCountOf11 => retries & 0x7ff,
        _ => retries,
    }
}

impl Retrying {
    /// The answer of an entry that makes no move.
    fn other(&self, entry: Entry, answer: u64) -> u64 {
        if self.fault == Fault::OtherRetry(entry) && number_of(answer) == 0 {
            return retried(answer, 1);
        }
        answer
    }
}

impl Part for Retrying {
    fn make_move(&self, table: &mut [u8], thread: u16, mov: u16, target: u16) -> u64 {
        let before = table.to_vec();
        let answer = Model.make_move(table, thread, mov, target);
        if number_of(answer) != 0 {
            return retried(answer, u64::from(self.fault == Fault::RefusedRetry));
        }
        let said = said(self.fault, &before, [thread, mov, target], answer);
        retried(without_retries(answer), u64::from(said))
    }
    fn run(&self, script: &[u8], out: &mut [u8]) -> u64 {
        let answer = Model.run(script, out);
        match number_of(answer) {
            0 if OF_COUNT.contains(&self.fault) => {
                let count = counted(self.fault, script, retries_of(answer));
                retried(without_retries(answer), count)
            }
            12 if self.fault == Fault::RunRefusedCounts => {
                retried(answer, trace(script).retries().count() as u64)
            }
            _ => answer,
        }
    }
    fn fresh(&self, threads: u16, out: &mut [u8]) -> u64 {
        self.other(Entry::Fresh, Model.fresh(threads, out))
    }
    fn nodes(&self, table: &[u8], out: &mut [u8]) -> u64 {
        self.other(Entry::Nodes, Model.nodes(table, out))
    }
    fn open_moves(&self, table: &[u8], thread: u16, out: &mut [u8]) -> u64 {
        self.other(Entry::OpenMoves, Model.open_moves(table, thread, out))
    }
    fn check(&self, threads: u16, history: &[u8]) -> u64 {
        self.other(Entry::Check, Model.check(threads, history))
    }
    fn plan(&self, threads: u16, history: &[u8], out: &mut [u8]) -> u64 {
        self.other(Entry::Plan, Model.plan(threads, history, out))
    }
    fn plan_length(&self, threads: u16, history: &[u8]) -> u64 {
        self.other(Entry::PlanLength, Model.plan_length(threads, history))
    }
    fn watch_start(&self, threads: u16, record: &mut Record) -> u64 {
        self.other(Entry::WatchStart, Model.watch_start(threads, record))
    }
    fn watch_event(&self, record: &mut Record, thread: u16, event: u16) -> u64 {
        let answer = Model.watch_event(record, thread, event);
        self.other(Entry::WatchEvent, answer)
    }
    fn watch_inside(&self, record: &Record) -> u64 {
        self.other(Entry::WatchInside, Model.watch_inside(record))
    }
    fn write_script(&self, threads: u16, triples: &[u8], out: &mut [u8]) -> u64 {
        let answer = Model.write_script(threads, triples, out);
        self.other(Entry::WriteScript, answer)
    }
    fn read_script(&self, script: &[u8], out: &mut [u8]) -> u64 {
        self.other(Entry::ReadScript, Model.read_script(script, out))
    }
    fn dispatch(&self, table: &mut [u8]) -> u64 {
        self.other(Entry::Dispatch, Model.dispatch(table))
    }
}
