//! The entries of the part, as the archive exports them, and the calls that
//! are made of them.
//!
//! An answer's low byte is the refusal's number, 0 where accepted. The rest of a
//! refusal is its place. Of an accepted call the next 32 bits are the number
//! answered: a count, or for the move the event's code, 0 for quiet. The watcher
//! answers 0, and its question 1 for yes and 0 for no. Reading a script answers N
//! and 256 times the number of bytes. The dispatcher answers 0 for waiting, else
//! four bytes: 128 and the event's code, the thread, the move and the target. The
//! bits from 40 upward count the retries: 1 for a move that was one, for a run
//! those among its moves, and 0 for every other entry.

use crate::model::{self, Answer, Outcome, Ran, Record, Refusal, Turn};
use crate::spelling::{self, Reading};

/// The entries of the part. Those that an archive lacks keep the default.
pub trait Part {
    fn fresh(&self, threads: u16, out: &mut [u8]) -> u64;
    fn make_move(&self, table: &mut [u8], thread: u16, mov: u16, target: u16) -> u64;
    fn nodes(&self, table: &[u8], out: &mut [u8]) -> u64;
    fn open_moves(&self, table: &[u8], thread: u16, out: &mut [u8]) -> u64;
    fn check(&self, _threads: u16, _history: &[u8]) -> u64 {
        panic!("the part has no check")
    }
    fn plan(&self, _threads: u16, _history: &[u8], _out: &mut [u8]) -> u64 {
        panic!("the part has no plan")
    }
    fn plan_length(&self, _threads: u16, _history: &[u8]) -> u64 {
        panic!("the part has no plan's length")
    }
    fn run(&self, _script: &[u8], _out: &mut [u8]) -> u64 {
        panic!("the part has no run")
    }
    fn watch_start(&self, _threads: u16, _record: &mut Record) -> u64 {
        panic!("the part has no watcher")
    }
    fn watch_event(&self, _record: &mut Record, _thread: u16, _event: u16) -> u64 {
        panic!("the part has no watcher")
    }
    fn watch_inside(&self, _record: &Record) -> u64 {
        panic!("the part has no watcher")
    }
    fn write_script(&self, _threads: u16, _triples: &[u8], _out: &mut [u8]) -> u64 {
        panic!("the part writes no scripts")
    }
    fn read_script(&self, _script: &[u8], _out: &mut [u8]) -> u64 {
        panic!("the part reads no scripts")
    }
    fn dispatch(&self, _table: &mut [u8]) -> u64 {
        panic!("the part has no dispatcher")
    }
}

pub fn done(value: u64) -> u64 {
    value << 8
}

pub fn refused(number: u64, place: u64) -> u64 {
    place << 8 | number
}

/// The answer to a script that was read.
pub fn done_reading(threads: u64, bytes: u64) -> u64 {
    done(threads + 256 * bytes)
}

/// The dispatcher's answer where it is waiting.
pub const WAITING: u64 = 0;

/// The dispatcher's answer where it made a move of thread, move and target, which
/// shows this event, 0 for none.
pub fn turned(request: [u16; 3], event: u64) -> u64 {
    let [thread, mov, target] = request.map(u64::from);
    done(128 + event + (thread << 8) + (mov << 16) + (target << 24))
}

/// The refusal's number, 0 where accepted.
pub fn number_of(answer: u64) -> u8 {
    answer as u8
}

/// The number answered, or the place of a refusal.
pub fn value_of(answer: u64) -> u64 {
    match number_of(answer) {
        0 => answer >> 8 & 0xffff_ffff,
        _ => answer >> 8,
    }
}

/// An accepted answer with so many retries.
pub fn retried(answer: u64, retries: u64) -> u64 {
    answer | retries << 40
}

/// The retries of an accepted answer.
pub fn retries_of(answer: u64) -> u64 {
    match number_of(answer) {
        0 => answer >> 40,
        _ => 0,
    }
}

/// An answer without its retries.
pub fn without_retries(answer: u64) -> u64 {
    match number_of(answer) {
        0 => done(value_of(answer)),
        _ => answer,
    }
}

/// The model as a part.
pub struct Model;

fn encoded(answer: Answer) -> u64 {
    match answer {
        Answer::Done(value) => done(value as u64),
        Answer::Refused(refusal, place) => refused(refusal as u64, place as u64),
    }
}

/// A watcher's answer; its refusals have place 0.
fn watched(answer: Result<u64, Refusal>) -> u64 {
    match answer {
        Ok(value) => done(value),
        Err(refusal) => refused(refusal as u64, 0),
    }
}

impl Part for Model {
    fn fresh(&self, threads: u16, out: &mut [u8]) -> u64 {
        encoded(model::fresh(threads, out))
    }
    fn make_move(&self, table: &mut [u8], thread: u16, mov: u16, target: u16) -> u64 {
        match model::make_move(table, thread, mov, target) {
            Outcome::Shown(event) => done(u64::from(event)),
            Outcome::Quiet => done(0),
            Outcome::Retry => retried(done(0), 1),
            Outcome::Refused(refusal) => refused(refusal as u64, 0),
        }
    }
    fn nodes(&self, table: &[u8], out: &mut [u8]) -> u64 {
        encoded(model::nodes(table, out))
    }
    fn open_moves(&self, table: &[u8], thread: u16, out: &mut [u8]) -> u64 {
        encoded(model::open_moves(table, thread, out))
    }
    fn check(&self, threads: u16, history: &[u8]) -> u64 {
        encoded(model::check(threads, history))
    }
    fn plan(&self, threads: u16, history: &[u8], out: &mut [u8]) -> u64 {
        encoded(model::plan(threads, history, out))
    }
    fn plan_length(&self, threads: u16, history: &[u8]) -> u64 {
        encoded(model::plan_length(threads, history))
    }
    fn run(&self, script: &[u8], out: &mut [u8]) -> u64 {
        match model::run(script, out) {
            Ok(Ran { bytes, retries }) => retried(done(bytes as u64), retries as u64),
            Err(refusal) => refused(refusal as u64, 0),
        }
    }
    fn watch_start(&self, threads: u16, record: &mut Record) -> u64 {
        watched(model::watch_start(threads, record).map(|()| 0))
    }
    fn watch_event(&self, record: &mut Record, thread: u16, event: u16) -> u64 {
        watched(model::watch_event(record, thread, event).map(|()| 0))
    }
    fn watch_inside(&self, record: &Record) -> u64 {
        watched(model::watch_inside(record).map(u64::from))
    }
    fn write_script(&self, threads: u16, triples: &[u8], out: &mut [u8]) -> u64 {
        encoded(spelling::write_script(threads, triples, out))
    }
    fn read_script(&self, script: &[u8], out: &mut [u8]) -> u64 {
        match spelling::read_script(script, out) {
            Ok(Reading { threads, bytes }) => done_reading(threads as u64, bytes as u64),
            Err((refusal, place)) => refused(refusal as u64, place as u64),
        }
    }
    fn dispatch(&self, table: &mut [u8]) -> u64 {
        match model::dispatch(table) {
            Turn::Moved { request, event } => turned(request, event.into()),
            Turn::Waiting => WAITING,
            Turn::Refused(refusal) => refused(refusal as u64, 0),
        }
    }
}

#[derive(Clone, Copy, PartialEq, Eq, PartialOrd, Ord, Debug)]
pub enum Entry {
    Fresh,
    Move,
    Nodes,
    OpenMoves,
    Check,
    Plan,
    PlanLength,
    Run,
    WatchStart,
    WatchEvent,
    WatchInside,
    WriteScript,
    ReadScript,
    Dispatch,
}

pub const ENTRIES: [Entry; 14] = [
    Entry::Fresh,
    Entry::Move,
    Entry::Nodes,
    Entry::OpenMoves,
    Entry::Check,
    Entry::Plan,
    Entry::PlanLength,
    Entry::Run,
    Entry::WatchStart,
    Entry::WatchEvent,
    Entry::WatchInside,
    Entry::WriteScript,
    Entry::ReadScript,
    Entry::Dispatch,
];

impl Entry {
    pub fn name(self) -> &'static str {
        [
            "fresh",
            "move",
            "nodes",
            "open_moves",
            "check",
            "plan",
            "plan_length",
            "run",
            "watch_start",
            "watch_event",
            "watch_inside",
            "write_script",
            "read_script",
            "dispatch",
        ][self as usize]
    }

    pub fn is_of_history(self) -> bool {
        matches!(self, Entry::Check | Entry::Plan | Entry::PlanLength)
    }

    pub fn is_of_watcher(self) -> bool {
        matches!(
            self,
            Entry::WatchStart | Entry::WatchEvent | Entry::WatchInside
        )
    }

    pub fn is_of_writing(self) -> bool {
        matches!(self, Entry::WriteScript | Entry::ReadScript)
    }

    /// Whether the entry makes moves that may be retries, so that its answer tells
    /// of them.
    pub fn makes_retries(self) -> bool {
        matches!(self, Entry::Move | Entry::Run)
    }

    /// The refusals that the entry can give.
    pub fn refusals(self) -> &'static [u8] {
        match self {
            Entry::Fresh => &[1, 12],
            Entry::Move => &[1, 2, 3, 4, 5, 6, 7],
            Entry::Nodes => &[1, 2, 12],
            Entry::OpenMoves => &[1, 2, 3, 12],
            Entry::Check | Entry::PlanLength => &[1, 8, 9, 10, 11],
            Entry::Plan => &[1, 8, 9, 10, 11, 12],
            Entry::Run => &[8, 12],
            Entry::WatchStart => &[1],
            Entry::WatchEvent => &[1, 9, 10, 11, 13],
            Entry::WatchInside => &[1, 13],
            Entry::WriteScript => &[1, 3, 4, 5, 8, 12],
            Entry::ReadScript => &[1, 3, 5, 8, 12],
            Entry::Dispatch => &[1, 2],
        }
    }
}

/// One call: the entry, its numbers (0 where it has fewer), what is read and
/// what may be written. The table of the move and of the dispatcher and the record
/// of a watcher's start and event stand in `lent`; the check, a plan's length and
/// the watcher's question lend nothing.
#[derive(Clone, PartialEq, Eq, Debug)]
pub struct Call {
    pub entry: Entry,
    pub numbers: [u16; 3],
    pub read: Vec<u8>,
    pub lent: Vec<u8>,
}

impl Call {
    pub fn fresh(threads: u16, out: Vec<u8>) -> Call {
        Call {
            entry: Entry::Fresh,
            numbers: [threads, 0, 0],
            read: vec![],
            lent: out,
        }
    }
    pub fn make_move(table: Vec<u8>, thread: u16, mov: u16, target: u16) -> Call {
        Call {
            entry: Entry::Move,
            numbers: [thread, mov, target],
            read: vec![],
            lent: table,
        }
    }
    pub fn nodes(table: Vec<u8>, out: Vec<u8>) -> Call {
        Call {
            entry: Entry::Nodes,
            numbers: [0; 3],
            read: table,
            lent: out,
        }
    }
    pub fn open_moves(table: Vec<u8>, thread: u16, out: Vec<u8>) -> Call {
        Call {
            entry: Entry::OpenMoves,
            numbers: [thread, 0, 0],
            read: table,
            lent: out,
        }
    }
    pub fn check(threads: u16, history: Vec<u8>) -> Call {
        Call {
            entry: Entry::Check,
            numbers: [threads, 0, 0],
            read: history,
            lent: vec![],
        }
    }
    pub fn plan(threads: u16, history: Vec<u8>, out: Vec<u8>) -> Call {
        Call {
            entry: Entry::Plan,
            numbers: [threads, 0, 0],
            read: history,
            lent: out,
        }
    }
    pub fn plan_length(threads: u16, history: Vec<u8>) -> Call {
        Call {
            entry: Entry::PlanLength,
            numbers: [threads, 0, 0],
            read: history,
            lent: vec![],
        }
    }
    pub fn run(script: Vec<u8>, out: Vec<u8>) -> Call {
        Call {
            entry: Entry::Run,
            numbers: [0; 3],
            read: script,
            lent: out,
        }
    }
    pub fn watch_start(threads: u16, record: &Record) -> Call {
        Call {
            entry: Entry::WatchStart,
            numbers: [threads, 0, 0],
            read: vec![],
            lent: record.to_vec(),
        }
    }
    pub fn watch_event(record: &Record, thread: u16, event: u16) -> Call {
        Call {
            entry: Entry::WatchEvent,
            numbers: [thread, event, 0],
            read: vec![],
            lent: record.to_vec(),
        }
    }
    pub fn watch_inside(record: &Record) -> Call {
        Call {
            entry: Entry::WatchInside,
            numbers: [0; 3],
            read: record.to_vec(),
            lent: vec![],
        }
    }
    pub fn write_script(threads: u16, triples: Vec<u8>, out: Vec<u8>) -> Call {
        Call {
            entry: Entry::WriteScript,
            numbers: [threads, 0, 0],
            read: triples,
            lent: out,
        }
    }
    pub fn read_script(script: Vec<u8>, out: Vec<u8>) -> Call {
        Call {
            entry: Entry::ReadScript,
            numbers: [0; 3],
            read: script,
            lent: out,
        }
    }

    pub fn dispatch(table: Vec<u8>) -> Call {
        Call {
            entry: Entry::Dispatch,
            numbers: [0; 3],
            read: vec![],
            lent: table,
        }
    }

    /// The call in the words of the vectors' file, its bytes in hexadecimal.
    pub fn words(&self) -> String {
        let [first, second, third] = self.numbers;
        let (read, lent) = (hex(&self.read), hex(&self.lent));
        let name = self.entry.name();
        match self.entry {
            Entry::Fresh | Entry::WatchStart => format!("{name} {first} {lent}"),
            Entry::Move => format!("{name} {lent} {first} {second} {third}"),
            Entry::Nodes | Entry::Run | Entry::ReadScript => format!("{name} {read} {lent}"),
            Entry::OpenMoves => format!("{name} {read} {first} {lent}"),
            Entry::Check | Entry::PlanLength => format!("{name} {first} {read}"),
            Entry::Plan | Entry::WriteScript => format!("{name} {first} {read} {lent}"),
            Entry::WatchEvent => format!("{name} {lent} {first} {second}"),
            Entry::WatchInside => format!("{name} {read}"),
            Entry::Dispatch => format!("{name} {lent}"),
        }
    }
}

pub fn hex(bytes: &[u8]) -> String {
    if bytes.is_empty() {
        return "-".to_string();
    }
    bytes.iter().map(|byte| format!("{byte:02x}")).collect()
}

/// Bytes put before and after each slice handed over. Their number is odd, so
/// that slices start at odd addresses.
const GUARD: usize = 33;
const GUARD_BYTE: u8 = 0xa5;

/// A slice with guard bytes on both sides; its memory is used again.
#[derive(Default)]
struct Lent {
    bytes: Vec<u8>,
}

impl Lent {
    fn fill(&mut self, content: &[u8]) -> &mut [u8] {
        self.bytes.clear();
        self.bytes.resize(GUARD, GUARD_BYTE);
        self.bytes.extend_from_slice(content);
        self.bytes.resize(content.len() + 2 * GUARD, GUARD_BYTE);
        &mut self.bytes[GUARD..GUARD + content.len()]
    }

    fn content(&self) -> &[u8] {
        &self.bytes[GUARD..self.bytes.len() - GUARD]
    }

    fn guards_kept(&self) -> bool {
        let (front, rest) = self.bytes.split_at(GUARD);
        let back = &rest[rest.len() - GUARD..];
        front.iter().chain(back).all(|&byte| byte == GUARD_BYTE)
    }
}

/// A watcher's record, which is what a call of the watcher reads or lends.
fn record(bytes: &mut [u8]) -> &mut Record {
    bytes.try_into().expect("a watcher's record")
}

/// Makes calls of a part, each slice between guard bytes.
pub struct Caller<'a> {
    pub part: &'a dyn Part,
    read: Lent,
    lent: Lent,
}

impl<'a> Caller<'a> {
    pub fn new(part: &'a dyn Part) -> Caller<'a> {
        Caller {
            part,
            read: Lent::default(),
            lent: Lent::default(),
        }
    }

    /// The answer. What was written stands in `lent` until the next call.
    pub fn call(&mut self, call: &Call) -> u64 {
        let read = self.read.fill(&call.read);
        let lent = self.lent.fill(&call.lent);
        let numbers = call.numbers;
        match call.entry {
            Entry::Fresh => self.part.fresh(numbers[0], lent),
            Entry::Move => self
                .part
                .make_move(lent, numbers[0], numbers[1], numbers[2]),
            Entry::Nodes => self.part.nodes(read, lent),
            Entry::OpenMoves => self.part.open_moves(read, numbers[0], lent),
            Entry::Check => self.part.check(numbers[0], read),
            Entry::Plan => self.part.plan(numbers[0], read, lent),
            Entry::PlanLength => self.part.plan_length(numbers[0], read),
            Entry::Run => self.part.run(read, lent),
            Entry::WatchStart => self.part.watch_start(numbers[0], record(lent)),
            Entry::WatchEvent => self.part.watch_event(record(lent), numbers[0], numbers[1]),
            Entry::WatchInside => self.part.watch_inside(record(read)),
            Entry::WriteScript => self.part.write_script(numbers[0], read, lent),
            Entry::ReadScript => self.part.read_script(read, lent),
            Entry::Dispatch => self.part.dispatch(lent),
        }
    }

    /// The lent slice after the last call.
    pub fn lent(&self) -> &[u8] {
        self.lent.content()
    }

    /// Whether the last call left alone what it was not lent.
    pub fn kept_the_rest(&self, call: &Call) -> bool {
        self.read.content() == call.read && self.read.guards_kept() && self.lent.guards_kept()
    }
}
