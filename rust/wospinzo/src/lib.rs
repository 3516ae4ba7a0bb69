//! A readers-writer lock kept in a table of bytes, one step a call.
//!
//! The lock serves N threads, 1 to 200, which may be the tasks of a cooperative
//! executive. It is one table of [`table_size`] bytes that the caller owns.
//! [`fresh`] fills it, and from then on each step of a thread through the lock
//! is one call of [`make_move`]. Nothing waits inside a call: a thread that
//! can't go on yet is told so, or takes a step back, and is given its next
//! move later.
//!
//! ```
//! use wospinzo::{fresh, make_move, table_size, Event, Move, Outcome, Refusal};
//!
//! # fn main() -> Result<(), Refusal> {
//! const THREADS: u16 = 2;
//! let mut table = [0; table_size(THREADS)];
//! fresh(THREADS, &mut table)?;
//!
//! // Thread 0 reads.
//! make_move(&mut table, 0, Move::CallShared)?;
//! make_move(&mut table, 0, Move::Go)?;
//! make_move(&mut table, 0, Move::Go)?;
//! let entered = make_move(&mut table, 0, Move::Go)?;
//! assert_eq!(entered, Outcome::Shown(Event::EnterSharedReturn));
//!
//! // Thread 1 wants to write. It takes the mutex and sets thread 0's flag,
//! // finds it busy, and takes the flag back.
//! make_move(&mut table, 1, Move::CallExclusive)?;
//! make_move(&mut table, 1, Move::Go)?;
//! make_move(&mut table, 1, Move::Set(0))?;
//! make_move(&mut table, 1, Move::Go)?;
//! make_move(&mut table, 1, Move::Go)?;
//!
//! // Thread 0 is done reading.
//! for _ in 0..3 {
//!     make_move(&mut table, 0, Move::Go)?;
//! }
//!
//! // Now thread 1 sets every flag, its own too, and is in.
//! for thread in 0..THREADS {
//!     make_move(&mut table, 1, Move::Set(thread))?;
//!     make_move(&mut table, 1, Move::Go)?;
//! }
//! let entered = make_move(&mut table, 1, Move::Go)?;
//! assert_eq!(entered, Outcome::Shown(Event::EnterExclusiveReturn));
//!
//! // A move that a thread doesn't have changes nothing.
//! let before = table;
//! assert_eq!(make_move(&mut table, 1, Move::Relent), Err(Refusal::NotInPhase));
//! assert_eq!(table, before);
//! # Ok(())
//! # }
//! ```
//!
//! # A reader that waits for a writer
//!
//! A reader that finds its forbidden flag set backs off to
//! [`Phase::TryAgain`]. There [`Move::Go`] starts again, and [`Move::Hold`]
//! takes the mutex first. While another thread has the mutex, hold is refused
//! as [`Refusal::MutexHeld`]: the host asks again later, and makes go when its
//! time is over. A thread that stays in [`Phase::HoldMutex`] keeps every writer
//! out: make go there at once.
//!
//! ```
//! use wospinzo::{make_move, phase, Move, Phase, Refusal};
//!
//! # fn main() -> Result<(), Refusal> {
//! // Thread 0 was turned away by thread 1, which has yet to let the mutex go.
//! let mut table = [2, 1, 255, 4, 0, 0, 16, 0, 0];
//! assert_eq!(make_move(&mut table, 0, Move::Hold), Err(Refusal::MutexHeld));
//!
//! make_move(&mut table, 1, Move::Go)?;
//! make_move(&mut table, 0, Move::Hold)?;
//! make_move(&mut table, 0, Move::Go)?;
//! assert_eq!(phase(&table, 0), Some(Phase::RaiseBusy));
//! # Ok(())
//! # }
//! ```
//!
//! # After a retry
//!
//! A move that gets its thread no further is a retry, and [`move_answer`] says
//! so. Every list of moves without calls and without retries ends after at most
//! [`max_progress`] moves (a theorem, `crates/progress/proofs/Limit.antt`), so
//! that a thread which makes nothing but retries for long is kept waiting by
//! another one. An executive runs other work then.
//!
//! # A dispatcher
//!
//! A host without an executive of its own calls [`dispatch`]: each turn makes one
//! move, for the lowest-numbered thread that has one, which is no call, no retry
//! and no leaving. Where no thread has such a move it is [`Turn::Waiting`], after
//! at most [`most_turns`] turns. The host makes the calls and the leavings, and
//! the go or hold of a reader that was turned away.
//!
//! ```
//! use wospinzo::{dispatch, fresh, make_move, most_turns, table_size, Move, Refusal, Turn};
//! use wospinzo::{phase, Phase};
//!
//! /// Makes moves until the dispatcher is waiting. Gives how many.
//! fn settle(table: &mut [u8]) -> Result<usize, Refusal> {
//!     let mut turns = 0;
//!     while dispatch(table)? != Turn::Waiting {
//!         turns += 1;
//!     }
//!     Ok(turns)
//! }
//!
//! # fn main() -> Result<(), Refusal> {
//! const THREADS: u16 = 2;
//! let mut table = [0; table_size(THREADS)];
//! fresh(THREADS, &mut table)?;
//!
//! // Thread 0 calls, and the dispatcher takes it to Shared.
//! make_move(&mut table, 0, Move::CallShared)?;
//! assert_eq!(settle(&mut table)?, 3);
//! assert_eq!(phase(&table, 0), Some(Phase::InShared));
//!
//! // Thread 1 wants to write, and has to wait until thread 0 leaves.
//! make_move(&mut table, 1, Move::CallExclusive)?;
//! settle(&mut table)?;
//! assert_eq!(phase(&table, 1), Some(Phase::ReadBusy));
//! make_move(&mut table, 0, Move::Go)?;
//! assert!(settle(&mut table)? <= most_turns(THREADS));
//! assert_eq!(phase(&table, 1), Some(Phase::InExclusive));
//! # Ok(())
//! # }
//! ```
//!
//! # A watcher
//!
//! A [`Watcher`] judges each event as it happens, as [`check`] would judge the
//! history so far, without the history being kept. It is a record of
//! [`WATCHER_SIZE`] bytes that the caller owns, apart from the table. What it
//! refuses leaves it as it was, and the watch goes on from there.
//!
//! ```
//! use wospinzo::{fresh, make_move, table_size, Move, Outcome, Refusal, Watcher};
//!
//! # fn main() -> Result<(), Refusal> {
//! let mut table = [0; table_size(1)];
//! fresh(1, &mut table)?;
//! let mut watcher = Watcher::new(1)?;
//! for mov in [Move::CallShared, Move::Go, Move::Go, Move::Go] {
//!     if let Outcome::Shown(event) = make_move(&mut table, 0, mov)? {
//!         watcher.event(0, event)?;
//!     }
//! }
//! assert_eq!(watcher.anybody_inside(), Ok(true));
//! # Ok(())
//! # }
//! ```
//!
//! # Functions
//!
//! | function | what it does | refusals |
//! |---|---|---|
//! | [`fresh`] | writes a fresh table | 1, 12 |
//! | [`make_move`], [`move_answer`] | makes one move; the second also says whether it was a retry | 1 to 7 |
//! | [`dispatch`] | makes one move of its own choice | 1, 2 |
//! | [`nodes`] | where every thread is | 1, 2, 12 |
//! | [`open_moves`] | the moves that a thread has now | 1, 2, 3, 12 |
//! | [`check`] | judges a history of events | 1, 8 to 11 |
//! | [`plan_length`] | how many moves the plan will have | 1, 8 to 11 |
//! | [`plan`] | moves that show a given history | 1, 8 to 12 |
//! | [`run`], [`run_counts`] | runs a script; the second also counts the retries | 8, 12 |
//! | [`write_script`] | writes moves as a script | 1, 3 to 5, 8, 12 |
//! | [`read_script`] | reads a script's moves | 1, 3, 5, 8, 12 |
//! | [`Watcher::new`] | starts a watch | 1 |
//! | [`Watcher::event`], [`Watcher::event_code`] | judges one event | 1, 13, 9 to 11 |
//! | [`Watcher::anybody_inside`] | whether a section has somebody in it | 1, 13 |
//!
//! A refused request leaves every lent byte as it was. An accepted one fills
//! exactly its output from the front and leaves the bytes after it.
//!
//! # The table
//!
//! Byte 0 is N, byte 1 the mutex (0 or 1), byte 2 the target of the thread that
//! holds the mutex, 255 for none. Then come three bytes a thread: its phase (0
//! to 18, see [`Phase`]), its busy flag and its forbidden flag. Nobody but
//! [`fresh`], [`make_move`] and [`dispatch`] may write it; over a restart the
//! caller may put back the bytes that the last call left.
//!
//! Every function of the table above that takes a table tests it first. One of
//! the right size is turned down as [`Refusal::Unsound`] exactly if no list of
//! moves leaves it from a fresh table (a theorem,
//! `crates/completeness/proofs/Completeness.antt`). [`nodes`] tests a table that
//! was kept over a restart, and changes nothing. An earlier copy passes, and so
//! does a table that was damaged into another sound one: `docs/MANUAL.md`,
//! section 7.
//!
//! ```
//! use wospinzo::{nodes, Refusal};
//!
//! let mut out = [0; 2];
//! // No moves leave this: the thread that backs off last does so while the other
//! // one, a writer, has set its flag.
//! assert_eq!(nodes(&[2, 0, 255, 3, 1, 0, 4, 0, 0], &mut out), Err(Refusal::Unsound));
//! // Here thread 1 has left since.
//! assert_eq!(nodes(&[2, 0, 255, 3, 1, 0, 0, 0, 0], &mut out), Ok(2));
//! ```
//!
//! # Linking
//!
//! The functions are in the archive `libwospinzo.a`. The build looks for it in
//! the folder that the environment variable `WOSPINZO_LIB_DIR` names, else in
//! `target/staticlib` of the repository. The features `history` ([`check`],
//! [`plan_length`], [`plan`]) and `script` ([`run`], [`run_counts`],
//! [`write_script`], [`read_script`]) are on by default.
//!
//! No function panics, as long as the archive is the one described here.

#![no_std]
#![warn(missing_docs)]

mod codes;
mod dispatcher;
pub mod raw;
#[cfg(feature = "script")]
mod script;
mod watcher;

pub use codes::{Event, Move, MoveAnswer, Node, Outcome, Phase, Refusal, Rejected};
pub use dispatcher::{dispatch, Turn};
#[cfg(feature = "script")]
pub use script::{read_script, run, run_counts, write_script, RunCounts, ScriptRead};
pub use watcher::Watcher;

/// The version of this crate and of the header: 65,536 times the major, 256
/// times the minor, and the patch number. [`version`] is that of the archive.
pub const VERSION: u32 = 65_536 + 7 * 256 + 1;
/// The largest number of threads.
pub const MAX_THREADS: u16 = 200;
/// The bytes of the largest table.
pub const MAX_TABLE_SIZE: usize = table_size(MAX_THREADS);
/// The bytes of a [`Watcher`].
pub const WATCHER_SIZE: usize = 203;
/// The target byte of a table that has no target.
pub const NO_TARGET: u8 = 255;
/// The longest history, in bytes.
pub const MAX_HISTORY: usize = 60_000;
/// The longest script, in bytes.
pub const MAX_SCRIPT: usize = 30_000;
/// The moves of the longest plan.
pub const MAX_PLAN_MOVES: usize = 4_575_100;
/// The bytes of the longest plan.
pub const MAX_PLAN_SIZE: usize = plan_size(MAX_PLAN_MOVES);
/// Bytes in which the output of every run fits.
pub const RUN_ROOM: usize = 65_536;
/// Bytes in which the moves of every script fit.
pub const READ_ROOM: usize = 9_996;
/// Bytes of stack in which the entry behind any function but [`run`] and
/// [`read_script`] fits, measured on x86-64.
pub const STACK: usize = 1024;
/// Bytes of stack in which the entry behind [`run`] fits, measured on x86-64.
pub const RUN_STACK: usize = 8192;
/// Bytes of stack in which the entry behind [`read_script`] fits, measured on
/// x86-64.
pub const READ_STACK: usize = 12_288;

/// The bytes of a table for so many threads.
pub const fn table_size(threads: u16) -> usize {
    3 + 3 * threads as usize
}

/// Bytes in which a thread's open moves always fit, for so many threads.
pub const fn open_moves_room(threads: u16) -> usize {
    4 * threads as usize
}

/// The most moves that so many threads can make one after the other without a
/// call and without a retry, which some tables come to.
pub const fn max_progress(threads: u16) -> usize {
    threads as usize * (3 * threads as usize + 5)
}

/// The most turns of [`dispatch`] that make a move, one after the other and for
/// so many threads, which some tables come to. With the host making no moves
/// between, it is waiting after so many turns at most, from any sound table.
pub const fn most_turns(threads: u16) -> usize {
    (6 * threads as usize).saturating_sub(2)
}

/// The bytes of a plan of so many moves.
pub const fn plan_size(moves: usize) -> usize {
    3 * moves
}

/// The version of the archive, as [`VERSION`].
///
/// ```
/// assert_eq!(wospinzo::version(), wospinzo::VERSION);
/// ```
pub fn version() -> u32 {
    // SAFETY: it takes nothing and answers a constant.
    unsafe { raw::wospinzo_version() }
}

/// The number of threads of a table, of which nothing else is tested.
pub fn threads(table: &[u8]) -> Option<u16> {
    table.first().map(|&byte| byte.into())
}

/// Whether the mutex of a table is held, of which nothing else is tested.
pub fn mutex_held(table: &[u8]) -> Option<bool> {
    table.get(1).map(|&byte| byte != 0)
}

/// The target of a table's writer, none where it has none. Nothing is tested.
pub fn target(table: &[u8]) -> Option<u16> {
    table
        .get(2)
        .filter(|&&byte| byte != NO_TARGET)
        .map(|&byte| byte.into())
}

/// Byte `at` of a thread's three.
fn byte_of(table: &[u8], thread: u16, at: usize) -> Option<u8> {
    table.get(table_size(thread) + at).copied()
}

/// The phase of a thread of a table, of which nothing else is tested.
///
/// ```
/// use wospinzo::{phase, Phase};
///
/// let table = [2, 1, 255, 6, 1, 0, 10, 0, 0];
/// assert_eq!(phase(&table, 1), Some(Phase::SetFlag));
/// assert_eq!(phase(&table, 2), None);
/// ```
pub fn phase(table: &[u8], thread: u16) -> Option<Phase> {
    byte_of(table, thread, 0).and_then(Phase::from_number)
}

/// Whether a thread's busy flag is set. Nothing else of the table is tested.
pub fn busy(table: &[u8], thread: u16) -> Option<bool> {
    byte_of(table, thread, 1).map(|byte| byte != 0)
}

/// Whether a thread's forbidden flag is set. Nothing else of the table is
/// tested.
pub fn forbidden(table: &[u8], thread: u16) -> Option<bool> {
    byte_of(table, thread, 2).map(|byte| byte != 0)
}

/// The number answered, or the refusal with its place.
fn counted(answer: u64) -> Result<usize, Rejected> {
    let value = raw::value(answer) as usize;
    if raw::refusal(answer) == 0 {
        return Ok(value);
    }
    match Refusal::from_number(raw::refusal(answer)) {
        Some(refusal) => Err(Rejected {
            refusal,
            place: value,
        }),
        None => panic!("the archive gave an unknown refusal"),
    }
}

/// The same for an entry whose refusals all have place 0.
fn placeless(answer: u64) -> Result<usize, Refusal> {
    counted(answer).map_err(|rejected| rejected.refusal)
}

/// What a move shows, by the code that was answered: 0 for nothing.
fn outcome(code: u8) -> Outcome {
    match (code, Event::from_code(code)) {
        (0, _) => Outcome::Quiet,
        (_, Some(event)) => Outcome::Shown(event),
        (_, None) => panic!("the archive gave an unknown event"),
    }
}

/// Writes the fresh table for so many threads: all free, the mutex 0, no
/// target. Answers the number of bytes written, [`table_size`].
///
/// # Errors
///
/// [`Refusal::BadSize`], [`Refusal::NoRoom`].
///
/// ```
/// let mut table = [9; 7];
/// assert_eq!(wospinzo::fresh(1, &mut table), Ok(6));
/// assert_eq!(table, [1, 0, 255, 0, 0, 0, 9]);
/// assert_eq!(wospinzo::fresh(2, &mut table), Err(wospinzo::Refusal::NoRoom));
/// ```
pub fn fresh(threads: u16, out: &mut [u8]) -> Result<usize, Refusal> {
    // SAFETY: pointer and length are those of one slice that is lent here.
    placeless(unsafe { raw::wospinzo_fresh(threads, out.as_mut_ptr(), out.len()) })
}

/// Tests the table and the request, then makes one move of one thread. The
/// table is sound after every accepted move.
///
/// # Errors
///
/// [`Refusal::BadSize`] to [`Refusal::MutexHeld`], in the order of their
/// numbers. The table is then unchanged.
///
/// ```
/// use wospinzo::{make_move, Event, Move, Outcome};
///
/// let mut table = [1, 0, 255, 0, 0, 0];
/// let outcome = make_move(&mut table, 0, Move::CallExclusive);
/// assert_eq!(outcome, Ok(Outcome::Shown(Event::EnterExclusiveCall)));
/// assert_eq!(table, [1, 0, 255, 9, 0, 0]);
/// ```
pub fn make_move(table: &mut [u8], thread: u16, mov: Move) -> Result<Outcome, Refusal> {
    move_answer(table, thread, mov).map(|answer| answer.outcome)
}

/// Makes one move as [`make_move`] does, and also says whether it was a retry:
/// an executive may run other work after one.
///
/// # Errors
///
/// Those of [`make_move`].
///
/// ```
/// use wospinzo::{move_answer, Move, MoveAnswer, Outcome};
///
/// // Thread 0 was turned away by thread 1, which has yet to let the mutex go.
/// let mut table = [2, 1, 255, 4, 0, 0, 16, 0, 0];
/// let quiet = |retry| Ok(MoveAnswer { outcome: Outcome::Quiet, retry });
/// assert_eq!(move_answer(&mut table, 0, Move::Go), quiet(true));
/// assert_eq!(move_answer(&mut table, 0, Move::Go), quiet(false));
/// ```
pub fn move_answer(table: &mut [u8], thread: u16, mov: Move) -> Result<MoveAnswer, Refusal> {
    let (number, target) = mov.numbers();
    // SAFETY: pointer and length are those of one slice that is lent here.
    let answer =
        unsafe { raw::wospinzo_move(table.as_mut_ptr(), table.len(), thread, number, target) };
    let code = placeless(answer)?;
    Ok(MoveAnswer {
        outcome: outcome(code as u8),
        retry: raw::retries(answer) != 0,
    })
}

/// Writes the code of each thread's node, one byte a thread; see
/// [`Node::from_code`]. Answers the number of bytes written, that of threads.
///
/// # Errors
///
/// [`Refusal::BadSize`], [`Refusal::Unsound`], [`Refusal::NoRoom`].
///
/// ```
/// use wospinzo::{nodes, Node};
///
/// let mut out = [0; 2];
/// assert_eq!(nodes(&[2, 1, 255, 6, 1, 0, 10, 0, 0], &mut out), Ok(2));
/// assert_eq!(out.map(Node::from_code), [Some(Node::Shared), Some(Node::Saf)]);
/// ```
pub fn nodes(table: &[u8], out: &mut [u8]) -> Result<usize, Refusal> {
    // SAFETY: each pointer and length are those of one slice; one is only
    // read, the other is lent, so that they do not overlap.
    placeless(unsafe {
        raw::wospinzo_nodes(table.as_ptr(), table.len(), out.as_mut_ptr(), out.len())
    })
}

/// Writes a thread's open moves as byte pairs, move then target, by move and
/// then by target: exactly those that [`make_move`] would accept now. Answers
/// the number of bytes written; [`open_moves_room`] always suffices.
///
/// # Errors
///
/// [`Refusal::BadSize`], [`Refusal::Unsound`], [`Refusal::NoThread`],
/// [`Refusal::NoRoom`].
///
/// ```
/// use wospinzo::{open_moves, open_moves_room, Move};
///
/// let table = [2, 1, 255, 6, 1, 0, 10, 0, 0];
/// let mut out = [0; open_moves_room(2)];
/// let size = open_moves(&table, 1, &mut out)?;
/// let mut moves = out[..size]
///     .chunks_exact(2)
///     .map(|pair| Move::from_numbers(pair[0].into(), pair[1].into()));
/// assert_eq!(moves.next(), Some(Some(Move::Set(0))));
/// assert_eq!(moves.next(), Some(Some(Move::Set(1))));
/// assert_eq!(moves.next(), None);
/// # Ok::<(), wospinzo::Refusal>(())
/// ```
pub fn open_moves(table: &[u8], thread: u16, out: &mut [u8]) -> Result<usize, Refusal> {
    // SAFETY: as in `nodes`.
    placeless(unsafe {
        raw::wospinzo_open_moves(
            table.as_ptr(),
            table.len(),
            thread,
            out.as_mut_ptr(),
            out.len(),
        )
    })
}

/// Judges a history, byte pairs of thread and event code, against a plain
/// readers-writer lock. Answers the number of events.
///
/// Each thread goes round events 1, 2, 3, 4 or 5, 6, 7, 8. Event 2 needs nobody
/// in exclusive, event 6 nobody in either section.
///
/// # Errors
///
/// [`Refusal::BadSize`], [`Refusal::BadForm`], and for the first bad pair, with
/// its index, [`Refusal::UnknownPair`], [`Refusal::NotNext`] or
/// [`Refusal::Occupied`].
///
/// ```
/// use wospinzo::{check, Refusal, Rejected};
///
/// assert_eq!(check(2, &[0, 1, 0, 2, 1, 5, 0, 3, 1, 6]), Ok(5));
/// let rejected = Rejected { refusal: Refusal::Occupied, place: 3 };
/// assert_eq!(check(2, &[0, 1, 0, 2, 1, 5, 1, 6]), Err(rejected));
/// ```
#[cfg(feature = "history")]
pub fn check(threads: u16, history: &[u8]) -> Result<usize, Rejected> {
    // SAFETY: pointer and length are those of one slice that is only read.
    counted(unsafe { raw::wospinzo_check(threads, history.as_ptr(), history.len()) })
}

/// Counts the moves of the plan for a history without making the plan, so that
/// memory for it can be reserved: [`plan`] answers the same number and fills
/// [`plan_size`] bytes. It is at most [`MAX_PLAN_MOVES`].
///
/// A full round of shared counts 7 moves and one of exclusive 3N + 6, whatever
/// stands between its events. A round that isn't finished counts 1, 4 or 6
/// after its event 1, 2 or 3, and 1, 2N + 3 or 3N + 5 after its event 5, 6 or 7.
///
/// # Errors
///
/// Those of [`check`], with the same place.
///
/// ```
/// use wospinzo::{plan, plan_length, plan_size, Refusal, Rejected};
///
/// // Thread 0 is in exclusive, thread 1 has called shared.
/// let history = [0, 5, 1, 1, 0, 6];
/// let moves = plan_length(2, &history)?;
/// assert_eq!(moves, 8);
/// let mut out = vec![0; plan_size(moves)];
/// assert_eq!(plan(2, &history, &mut out), Ok(moves));
///
/// let rejected = Rejected { refusal: Refusal::UnknownPair, place: 1 };
/// assert_eq!(plan_length(1, &history), Err(rejected));
/// # Ok::<(), Rejected>(())
/// ```
#[cfg(feature = "history")]
pub fn plan_length(threads: u16, history: &[u8]) -> Result<usize, Rejected> {
    // SAFETY: as in `check`.
    counted(unsafe { raw::wospinzo_plan_length(threads, history.as_ptr(), history.len()) })
}

/// Writes a plan for a history: byte triples, thread, move and target, which
/// from a fresh table [`make_move`] accepts one by one, showing exactly that
/// history. Answers the number of moves, that of [`plan_length`] and a third of
/// the bytes written.
///
/// Events 1, 4, 5 and 8 take one move, 2 takes three, 3 two, 6 takes 2N + 2
/// and 7 takes N + 2.
///
/// # Errors
///
/// Those of [`check`], then [`Refusal::NoRoom`].
///
/// ```
/// let mut out = [0; 15];
/// assert_eq!(wospinzo::plan(1, &[0, 5, 0, 6], &mut out), Ok(5));
/// assert_eq!(out, [0, 2, 0, 0, 0, 0, 0, 3, 0, 0, 0, 0, 0, 0, 0]);
/// ```
#[cfg(feature = "history")]
pub fn plan(threads: u16, history: &[u8], out: &mut [u8]) -> Result<usize, Rejected> {
    // SAFETY: as in `nodes`.
    counted(unsafe {
        raw::wospinzo_plan(
            threads,
            history.as_ptr(),
            history.len(),
            out.as_mut_ptr(),
            out.len(),
        )
    })
}
