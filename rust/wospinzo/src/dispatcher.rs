//! The dispatcher: one move a turn, of its own choice.

use crate::{outcome, placeless, raw, Move, Outcome, Refusal};

/// What a turn of the dispatcher answers.
#[derive(Clone, Copy, Debug, PartialEq, Eq, Hash)]
pub enum Turn {
    /// It made a move.
    Moved {
        /// The thread that made it.
        thread: u16,
        /// The move, with its target: [`Move::Go`], [`Move::Set`] or
        /// [`Move::Clear`].
        mov: Move,
        /// What the move itself answers.
        outcome: Outcome,
    },
    /// No thread has a move for it, and the table is as it was.
    Waiting,
}

/// Tests the table, then makes one move: for the lowest-numbered thread that has
/// one, a move that is no call, no retry and no leaving. The table is sound after
/// it.
///
/// - [`Move::Go`] in every phase but [`Phase::Free`], [`Phase::TryAgain`],
///   [`Phase::InShared`], [`Phase::InExclusive`], and the two that take set and
///   clear; in [`Phase::TakeMutex`] while the mutex is 0, in [`Phase::ReadBusy`]
///   while the target's busy flag is 0.
/// - [`Move::Set`] in [`Phase::SetFlag`], of the lowest thread whose forbidden
///   flag is 0.
/// - [`Move::Clear`] in [`Phase::ClearFlags`], of the lowest thread whose
///   forbidden flag is 1.
///
/// The host makes all other moves by [`make_move`](crate::make_move), between
/// turns: calls, leavings, and go or hold in [`Phase::TryAgain`]. While it makes
/// none, [`Turn::Waiting`] comes after at most
/// [`most_turns`](crate::most_turns) turns. In a table that is waiting, a writer
/// in [`Phase::ReadBusy`] has a target in [`Phase::InShared`], a thread in
/// [`Phase::TakeMutex`] finds the mutex taken, and every other thread is in
/// [`Phase::Free`], [`Phase::TryAgain`], [`Phase::InShared`] or
/// [`Phase::InExclusive`].
///
/// # Errors
///
/// [`Refusal::BadSize`], [`Refusal::Unsound`]. The table is then unchanged.
///
/// ```
/// use wospinzo::{dispatch, Move, Outcome, Turn};
///
/// // Thread 0 reads, and thread 1 has the mutex.
/// let mut table = [2, 1, 255, 6, 1, 0, 10, 0, 0];
/// let set = Turn::Moved { thread: 1, mov: Move::Set(0), outcome: Outcome::Quiet };
/// assert_eq!(dispatch(&mut table), Ok(set));
/// // Before thread 0 leaves, no thread has a move.
/// assert_eq!(dispatch(&mut table), Ok(Turn::Waiting));
/// assert_eq!(table, [2, 1, 0, 6, 1, 1, 11, 0, 0]);
/// ```
///
/// [`Phase::Free`]: crate::Phase::Free
/// [`Phase::TryAgain`]: crate::Phase::TryAgain
/// [`Phase::InShared`]: crate::Phase::InShared
/// [`Phase::InExclusive`]: crate::Phase::InExclusive
/// [`Phase::TakeMutex`]: crate::Phase::TakeMutex
/// [`Phase::ReadBusy`]: crate::Phase::ReadBusy
/// [`Phase::SetFlag`]: crate::Phase::SetFlag
/// [`Phase::ClearFlags`]: crate::Phase::ClearFlags
pub fn dispatch(table: &mut [u8]) -> Result<Turn, Refusal> {
    // SAFETY: pointer and length are those of one slice that is lent here.
    let answer = unsafe { raw::wospinzo_dispatch(table.as_mut_ptr(), table.len()) };
    let value = placeless(answer)?;
    if value == 0 {
        return Ok(Turn::Waiting);
    }
    let [event, thread, mov, target] = (value as u32).to_le_bytes();
    match Move::from_numbers(mov.into(), target.into()) {
        Some(mov) => Ok(Turn::Moved {
            thread: thread.into(),
            mov,
            outcome: outcome(event & 127),
        }),
        None => panic!("the archive gave an unknown move"),
    }
}
