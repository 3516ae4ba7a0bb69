//! Scripts: their run, and the moves that they spell.

use crate::{counted, placeless, raw, Refusal, Rejected};

/// Runs a script on a fresh table of its own and writes what it prints: a line
/// for each event, then `(steps K)`, or `(refused R L)` at the first line L
/// that is turned down. Answers the number of bytes written;
/// [`RUN_ROOM`](crate::RUN_ROOM) always suffices.
///
/// # Errors
///
/// [`Refusal::BadForm`] for a script longer than
/// [`MAX_SCRIPT`](crate::MAX_SCRIPT), [`Refusal::NoRoom`].
///
/// ```
/// let script = b"(threads 1)\n(note an example)\n(0 (call shared))\n(0 (go))\n";
/// let mut out = [0; 100];
/// let size = wospinzo::run(script, &mut out)?;
/// assert_eq!(&out[..size], b"(event 0 (enter shared call))\n(steps 2)\n");
/// # Ok::<(), wospinzo::Refusal>(())
/// ```
pub fn run(script: &[u8], out: &mut [u8]) -> Result<usize, Refusal> {
    run_counts(script, out).map(|counts| counts.bytes)
}

/// What a run answers: how many bytes it wrote, and how many of its moves were
/// retries, which isn't printed.
#[derive(Clone, Copy, Debug, PartialEq, Eq, Hash)]
pub struct RunCounts {
    /// The number of bytes written.
    pub bytes: usize,
    /// How many of the moves made were retries.
    pub retries: usize,
}

/// Runs a script as [`run`] does, and also says how many of its moves were
/// retries.
///
/// # Errors
///
/// Those of [`run`].
///
/// ```
/// use wospinzo::{run_counts, RunCounts};
///
/// // The writer sets its flag, takes it back and sets it again.
/// let script = b"(threads 1)\n(0 (call exclusive))\n(0 (go))\n\
///     (0 (set 0))\n(0 (relent))\n(0 (go))\n(0 (set 0))\n";
/// let mut out = [0; 100];
/// assert_eq!(run_counts(script, &mut out), Ok(RunCounts { bytes: 43, retries: 1 }));
/// # Ok::<(), wospinzo::Refusal>(())
/// ```
pub fn run_counts(script: &[u8], out: &mut [u8]) -> Result<RunCounts, Refusal> {
    // SAFETY: each pointer and length are those of one slice; one is only
    // read, the other is lent, so that they do not overlap.
    let answer =
        unsafe { raw::wospinzo_run(script.as_ptr(), script.len(), out.as_mut_ptr(), out.len()) };
    placeless(answer).map(|bytes| RunCounts {
        bytes,
        retries: raw::retries(answer) as usize,
    })
}

/// Writes moves as a script: the line `(threads N)`, then one line for each
/// move, without notes. The moves are byte triples, thread, move and target, as
/// [`plan`](crate::plan) writes them. Answers the number of bytes written;
/// [`MAX_SCRIPT`](crate::MAX_SCRIPT) always suffices.
///
/// A move that a run would turn down as [`Refusal::NotInPhase`] or
/// [`Refusal::MutexHeld`] is written too.
///
/// # Errors
///
/// In this order: [`Refusal::BadSize`]; [`Refusal::BadForm`] for a length that
/// isn't three times a whole number; for the first bad triple, with its index
/// (2^55 - 1 stands for every larger one), [`Refusal::NoThread`],
/// [`Refusal::NoMove`] or [`Refusal::BadTarget`];
/// [`Refusal::BadForm`] for a script that would be longer than
/// [`MAX_SCRIPT`](crate::MAX_SCRIPT); [`Refusal::NoRoom`].
///
/// ```
/// use wospinzo::{plan, run, write_script, Refusal, Rejected};
///
/// let mut triples = [0; 12];
/// let moves = plan(2, &[1, 1, 1, 2], &mut triples)?;
/// let mut script = [0; 100];
/// let size = write_script(2, &triples[..3 * moves], &mut script)?;
/// let lines = b"(threads 2)\n(1 (call shared))\n(1 (go))\n(1 (go))\n(1 (go))\n";
/// assert_eq!(&script[..size], lines);
///
/// let mut out = [0; 100];
/// let size = run(&script[..size], &mut out)?;
/// let events = b"(event 1 (enter shared call))\n(event 1 (enter shared return))\n(steps 4)\n";
/// assert_eq!(&out[..size], events);
///
/// // The second triple has a thread that isn't below 2.
/// let rejected = Rejected { refusal: Refusal::NoThread, place: 1 };
/// assert_eq!(write_script(2, &[1, 0, 0, 2, 0, 0], &mut script), Err(rejected));
/// # Ok::<(), Box<dyn std::error::Error>>(())
/// ```
pub fn write_script(threads: u16, triples: &[u8], out: &mut [u8]) -> Result<usize, Rejected> {
    // SAFETY: as in `run`.
    counted(unsafe {
        raw::wospinzo_write_script(
            threads,
            triples.as_ptr(),
            triples.len(),
            out.as_mut_ptr(),
            out.len(),
        )
    })
}

/// What [`read_script`] answers.
#[derive(Clone, Copy, Debug, PartialEq, Eq, Hash)]
pub struct ScriptRead {
    /// The script's number of threads.
    pub threads: u16,
    /// The number of bytes written, three for each move.
    pub bytes: usize,
}

/// Writes the moves of a script as byte triples, thread, move and target, and
/// passes over its notes. Answers the script's number of threads and the number
/// of bytes written; [`READ_ROOM`](crate::READ_ROOM) always suffices.
///
/// It turns down exactly what a run would for form and numbers. A move that a
/// run would turn down as [`Refusal::NotInPhase`] or [`Refusal::MutexHeld`] is
/// read too.
///
/// # Errors
///
/// [`Refusal::BadForm`] with place 0 for a script longer than
/// [`MAX_SCRIPT`](crate::MAX_SCRIPT). For the first bad line, with its number
/// from 1: [`Refusal::BadForm`], [`Refusal::BadSize`], [`Refusal::NoThread`] or
/// [`Refusal::BadTarget`]. Then [`Refusal::NoRoom`] with place 0.
///
/// ```
/// use wospinzo::{read_script, write_script, Refusal, Rejected, ScriptRead};
///
/// let script = b"(threads 2)\n(note a writer)\n(1 (call exclusive))\n(1 (set 0))\n";
/// let mut triples = [0; 6];
/// let read = read_script(script, &mut triples)?;
/// assert_eq!(read, ScriptRead { threads: 2, bytes: 6 });
/// assert_eq!(triples, [1, 2, 0, 1, 3, 0]);
///
/// // Written again, it is the script without its note.
/// let mut out = [0; 100];
/// let size = write_script(read.threads, &triples[..read.bytes], &mut out)?;
/// assert_eq!(&out[..size], b"(threads 2)\n(1 (call exclusive))\n(1 (set 0))\n");
///
/// let rejected = Rejected { refusal: Refusal::BadTarget, place: 2 };
/// assert_eq!(read_script(b"(threads 2)\n(1 (set 2))\n", &mut out), Err(rejected));
/// # Ok::<(), Rejected>(())
/// ```
pub fn read_script(script: &[u8], out: &mut [u8]) -> Result<ScriptRead, Rejected> {
    // SAFETY: as in `run`.
    let value = counted(unsafe {
        raw::wospinzo_read_script(script.as_ptr(), script.len(), out.as_mut_ptr(), out.len())
    })?;
    Ok(ScriptRead {
        threads: (value & 255) as u16,
        bytes: value >> 8,
    })
}
