//! The entries as the archive exports them.
//!
//! A slice is a pointer, which is never null, and the number of bytes there.
//! The slices of one call must not overlap. A watcher is lent by a pointer to
//! it, which is never null. An answer is taken apart by [`refusal`], [`value`]
//! and [`retries`].

use crate::Watcher;

extern "C" {
    /// See [`version`](crate::version).
    pub fn wospinzo_version() -> u32;
    /// See [`fresh`](crate::fresh).
    pub fn wospinzo_fresh(threads: u16, out: *mut u8, out_len: usize) -> u64;
    /// See [`move_answer`](crate::move_answer). The value answered is the
    /// event's code, 0 for a quiet move; [`retries`] is 1 for a retry.
    pub fn wospinzo_move(
        table: *mut u8,
        table_len: usize,
        thread: u16,
        mov: u16,
        target: u16,
    ) -> u64;
    /// See [`dispatch`](crate::dispatch). The value answered is 0 for waiting,
    /// else 128 and the event's code, 0 for a quiet move, with 256 times the
    /// thread, 65,536 times the move and 16,777,216 times the target.
    pub fn wospinzo_dispatch(table: *mut u8, table_len: usize) -> u64;
    /// See [`nodes`](crate::nodes).
    pub fn wospinzo_nodes(table: *const u8, table_len: usize, out: *mut u8, out_len: usize) -> u64;
    /// See [`open_moves`](crate::open_moves).
    pub fn wospinzo_open_moves(
        table: *const u8,
        table_len: usize,
        thread: u16,
        out: *mut u8,
        out_len: usize,
    ) -> u64;
    /// See [`check`](crate::check).
    #[cfg(feature = "history")]
    pub fn wospinzo_check(threads: u16, history: *const u8, history_len: usize) -> u64;
    /// See [`plan_length`](crate::plan_length).
    #[cfg(feature = "history")]
    pub fn wospinzo_plan_length(threads: u16, history: *const u8, history_len: usize) -> u64;
    /// See [`plan`](crate::plan).
    #[cfg(feature = "history")]
    pub fn wospinzo_plan(
        threads: u16,
        history: *const u8,
        history_len: usize,
        out: *mut u8,
        out_len: usize,
    ) -> u64;
    /// See [`run_counts`](crate::run_counts). The value answered is the number
    /// of bytes written; [`retries`] says how many moves were retries.
    #[cfg(feature = "script")]
    pub fn wospinzo_run(script: *const u8, script_len: usize, out: *mut u8, out_len: usize) -> u64;
    /// See [`write_script`](crate::write_script).
    #[cfg(feature = "script")]
    pub fn wospinzo_write_script(
        threads: u16,
        triples: *const u8,
        triples_len: usize,
        out: *mut u8,
        out_len: usize,
    ) -> u64;
    /// See [`read_script`](crate::read_script). The value answered is the
    /// number of threads, and 256 times the number of bytes written.
    #[cfg(feature = "script")]
    pub fn wospinzo_read_script(
        script: *const u8,
        script_len: usize,
        out: *mut u8,
        out_len: usize,
    ) -> u64;
    /// See [`Watcher::new`]. The value answered is 0.
    pub fn wospinzo_watch_start(threads: u16, watcher: *mut Watcher) -> u64;
    /// See [`Watcher::event_code`]. The value answered is 0.
    pub fn wospinzo_watch_event(watcher: *mut Watcher, thread: u16, event: u16) -> u64;
    /// See [`Watcher::anybody_inside`]. The value answered is 1 for yes, 0 for
    /// no.
    pub fn wospinzo_watch_inside(watcher: *const Watcher) -> u64;
}

/// The number of an answer's refusal, 0 where the request was accepted.
pub const fn refusal(answer: u64) -> u8 {
    answer as u8
}

/// The value of an accepted request, or the place of a refusal.
pub const fn value(answer: u64) -> u64 {
    if refusal(answer) == 0 {
        return answer >> 8 & 0xffff_ffff;
    }
    answer >> 8
}

/// How many retries an accepted request made: of a move 1 or 0, of a run how
/// many of its moves, 0 of every other entry and of a refusal.
pub const fn retries(answer: u64) -> u64 {
    if refusal(answer) == 0 {
        return answer >> 40;
    }
    0
}
