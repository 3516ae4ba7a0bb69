//! Random calls of each entry, valid and damaged, with outputs that are too
//! short, just long enough and longer.

use crate::histories;
use crate::lists;
use crate::model::{self, Answer, LAST_MOVE, MAX_HISTORY, MAX_SCRIPT, RUN_ROOM};
use crate::part::{Call, Entry};
use crate::random::Random;
use crate::scripts;
use crate::spelling::{self, LIST_ROOM};
use crate::tables;
use crate::watchers;

/// An output for what takes `needed` bytes, mostly long enough.
fn output(r: &mut Random, needed: usize) -> Vec<u8> {
    let len = match r.below(10) {
        0 => 0,
        1 => needed.saturating_sub(1),
        2 => r.below(needed + 1),
        3 => needed + 1,
        4 => needed + r.below(40),
        _ => needed,
    };
    let mut out = vec![r.byte(); len];
    let upto = len.min(700);
    out[len - upto..].copy_from_slice(&r.bytes(upto));
    out
}

/// A number of threads to start with, in range as a rule.
fn to_start(r: &mut Random) -> u16 {
    match r.below(8) {
        0 => r.pick(&[0, 1, 200, 201, 255, 256, 257, 456, 457, 32768, 65535]),
        1 => r.word() as u16,
        _ => tables::threads(r) as u16,
    }
}

fn fresh(r: &mut Random) -> Call {
    let threads = to_start(r);
    let needed = model::table_size(usize::from(threads).min(300));
    Call::fresh(threads, output(r, needed))
}

/// A thread's open moves in a table, none where the table has none.
fn open(table: &[u8], thread: u16) -> Vec<u8> {
    let mut open = vec![0; 4 * model::MAX_THREADS];
    match model::open_moves(table, thread, &mut open) {
        Answer::Done(size) => open.truncate(size),
        Answer::Refused(..) => open.clear(),
    }
    open
}

/// A thread of the table, the holder of the mutex more often than others.
fn mover(r: &mut Random, table: &[u8]) -> u16 {
    let threads = (table.len() / 3).max(2) - 1;
    let holder = table
        .iter()
        .skip(3)
        .step_by(3)
        .position(|&phase| model::is_holder(phase));
    match holder {
        Some(thread) if r.chance(1, 2) => thread as u16,
        _ => tables::near(r, threads),
    }
}

fn make_move(r: &mut Random) -> Call {
    let table = tables::any(r);
    let thread = mover(r, &table);
    let open = open(&table, thread);
    if !open.is_empty() && r.chance(1, 2) {
        let at = 2 * r.below(open.len() / 2);
        return Call::make_move(table, thread, u16::from(open[at]), u16::from(open[at + 1]));
    }
    let mov = tables::mov(r);
    let target = if model::takes_target(mov) || r.chance(1, 8) {
        tables::near(r, (table.len() / 3).max(2) - 1)
    } else {
        0
    };
    Call::make_move(table, thread, mov, target)
}

fn dispatch(r: &mut Random) -> Call {
    Call::dispatch(tables::any(r))
}

fn nodes(r: &mut Random) -> Call {
    let table = tables::any(r);
    let needed = (table.len() / 3).max(1) - 1;
    Call::nodes(table, output(r, needed))
}

fn open_moves(r: &mut Random) -> Call {
    let table = tables::any(r);
    let thread = mover(r, &table);
    let needed = open(&table, thread).len();
    Call::open_moves(table, thread, output(r, needed))
}

/// A number of threads, in range as a rule, and a history for it.
fn history(r: &mut Random) -> (u16, Vec<u8>) {
    let threads = tables::threads(r);
    let pairs = match r.below(400) {
        0 => MAX_HISTORY / 2,
        1 => MAX_HISTORY / 2 + 1,
        2 => r.below(MAX_HISTORY / 2),
        3..=20 => 0,
        _ => r.below(60),
    };
    let careless = r.chance(1, 4);
    let mut history = histories::history(r, threads, pairs, careless);
    if r.chance(1, 3) {
        history = histories::damaged(r, threads, &history);
    }
    (stated(r, threads), history)
}

/// The number of threads that a call states, as a rule the right one.
fn stated(r: &mut Random, threads: usize) -> u16 {
    match r.below(16) {
        0 => r.pick(&[0, 201, 255, 256, 257, 65535]),
        1 => threads as u16 + 256 * (1 + r.below(255) as u16),
        2 => (threads as u16).saturating_sub(1),
        _ => threads as u16,
    }
}

fn check(r: &mut Random) -> Call {
    let (threads, history) = history(r);
    Call::check(threads, history)
}

fn plan(r: &mut Random) -> Call {
    let (threads, history) = history(r);
    let needed = 3 * histories::plan_moves(usize::from(threads), &history);
    Call::plan(threads, history, output(r, needed.min(14_000_000)))
}

fn plan_length(r: &mut Random) -> Call {
    let (threads, history) = history(r);
    Call::plan_length(threads, history)
}

/// A script, in order two times of three.
fn script(r: &mut Random) -> Vec<u8> {
    let mut script = match r.below(400) {
        0 => scripts::script_of_size(r, MAX_SCRIPT),
        1 => scripts::script_of_size(r, MAX_SCRIPT + 1),
        2 => {
            let size = 200 + r.below(MAX_SCRIPT);
            scripts::script_of_size(r, size)
        }
        3 => vec![],
        _ => {
            let lines = r.below(60);
            scripts::script(r, lines)
        }
    };
    if !script.is_empty() && r.chance(1, 3) {
        script = scripts::damaged(r, &script);
    }
    script
}

fn run(r: &mut Random) -> Call {
    let script = script(r);
    let mut room = vec![0; RUN_ROOM];
    let needed = match model::run(&script, &mut room) {
        Ok(ran) => ran.bytes,
        Err(_) => 14,
    };
    Call::run(script, output(r, needed))
}

fn watch_start(r: &mut Random) -> Call {
    let mut record = watchers::any(r);
    if r.chance(1, 2) {
        record.fill_with(|| r.byte());
    }
    Call::watch_start(to_start(r), &record)
}

fn watch_event(r: &mut Random) -> Call {
    let record = watchers::any(r);
    let [thread, event] = watchers::event(r, &record);
    Call::watch_event(&record, thread, event)
}

fn watch_inside(r: &mut Random) -> Call {
    Call::watch_inside(&watchers::any(r))
}

/// A list of moves for so many threads, in order two times of three.
fn list(r: &mut Random, threads: usize) -> Vec<u8> {
    let list = match r.below(400) {
        0 => lists::of_size(r, threads, MAX_SCRIPT),
        1 => lists::of_size(r, threads, MAX_SCRIPT + 1),
        2 => {
            let moves = r.below(MAX_SCRIPT / 9);
            lists::list(r, threads, moves)
        }
        _ => {
            let moves = r.below(60);
            lists::list(r, threads, moves)
        }
    };
    if r.chance(1, 3) {
        lists::damaged(r, threads, &list)
    } else {
        list
    }
}

fn write_script(r: &mut Random) -> Call {
    let threads = tables::threads(r);
    let list = list(r, threads);
    let mut room = [0; MAX_SCRIPT];
    let needed = match spelling::write_script(threads as u16, &list, &mut room) {
        Answer::Done(size) => size,
        Answer::Refused(..) => 40,
    };
    Call::write_script(stated(r, threads), list, output(r, needed))
}

fn read_script(r: &mut Random) -> Call {
    let threads = tables::threads(r);
    let script = match r.below(4) {
        0 => {
            let list = list(r, threads);
            let moves = list
                .chunks_exact(3)
                .filter(|triple| triple[1] <= LAST_MOVE as u8);
            scripts::with_notes(r, threads, &moves.flatten().copied().collect::<Vec<_>>())
        }
        _ => script(r),
    };
    let mut room = [0; LIST_ROOM];
    let needed = match spelling::read_script(&script, &mut room) {
        Ok(reading) => reading.bytes,
        Err(_) => 30,
    };
    Call::read_script(script, output(r, needed))
}

/// A random call of an entry.
pub fn any(r: &mut Random, entry: Entry) -> Call {
    match entry {
        Entry::Fresh => fresh(r),
        Entry::Move => make_move(r),
        Entry::Nodes => nodes(r),
        Entry::OpenMoves => open_moves(r),
        Entry::Check => check(r),
        Entry::Plan => plan(r),
        Entry::PlanLength => plan_length(r),
        Entry::Run => run(r),
        Entry::WatchStart => watch_start(r),
        Entry::WatchEvent => watch_event(r),
        Entry::WatchInside => watch_inside(r),
        Entry::WriteScript => write_script(r),
        Entry::ReadScript => read_script(r),
        Entry::Dispatch => dispatch(r),
    }
}
