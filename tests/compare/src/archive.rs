//! The part as the archive exports it. A slice is a pointer, then a length; a
//! watcher's record is a pointer to its bytes.

#[cfg(feature = "watch")]
use crate::model::Record;
use crate::part::Part;

extern "C" {
    fn wospinzo_fresh(threads: u16, out: *mut u8, out_len: usize) -> u64;
    fn wospinzo_move(table: *mut u8, table_len: usize, thread: u16, mov: u16, target: u16) -> u64;
    fn wospinzo_nodes(table: *const u8, table_len: usize, out: *mut u8, out_len: usize) -> u64;
    fn wospinzo_open_moves(
        table: *const u8,
        table_len: usize,
        thread: u16,
        out: *mut u8,
        out_len: usize,
    ) -> u64;
    #[cfg(feature = "dispatch")]
    fn wospinzo_dispatch(table: *mut u8, table_len: usize) -> u64;
    #[cfg(feature = "history")]
    fn wospinzo_check(threads: u16, history: *const u8, history_len: usize) -> u64;
    #[cfg(feature = "history")]
    fn wospinzo_plan(
        threads: u16,
        history: *const u8,
        history_len: usize,
        out: *mut u8,
        out_len: usize,
    ) -> u64;
    #[cfg(feature = "history")]
    fn wospinzo_plan_length(threads: u16, history: *const u8, history_len: usize) -> u64;
    #[cfg(feature = "script")]
    fn wospinzo_run(script: *const u8, script_len: usize, out: *mut u8, out_len: usize) -> u64;
    #[cfg(feature = "watch")]
    fn wospinzo_watch_start(threads: u16, watcher: *mut Record) -> u64;
    #[cfg(feature = "watch")]
    fn wospinzo_watch_event(watcher: *mut Record, thread: u16, event: u16) -> u64;
    #[cfg(feature = "watch")]
    fn wospinzo_watch_inside(watcher: *const Record) -> u64;
    #[cfg(feature = "writing")]
    fn wospinzo_write_script(
        threads: u16,
        triples: *const u8,
        triples_len: usize,
        out: *mut u8,
        out_len: usize,
    ) -> u64;
    #[cfg(feature = "writing")]
    fn wospinzo_read_script(
        script: *const u8,
        script_len: usize,
        out: *mut u8,
        out_len: usize,
    ) -> u64;
}

pub struct Archive;

impl Part for Archive {
    fn fresh(&self, threads: u16, out: &mut [u8]) -> u64 {
        unsafe { wospinzo_fresh(threads, out.as_mut_ptr(), out.len()) }
    }
    fn make_move(&self, table: &mut [u8], thread: u16, mov: u16, target: u16) -> u64 {
        unsafe { wospinzo_move(table.as_mut_ptr(), table.len(), thread, mov, target) }
    }
    fn nodes(&self, table: &[u8], out: &mut [u8]) -> u64 {
        unsafe { wospinzo_nodes(table.as_ptr(), table.len(), out.as_mut_ptr(), out.len()) }
    }
    fn open_moves(&self, table: &[u8], thread: u16, out: &mut [u8]) -> u64 {
        unsafe {
            wospinzo_open_moves(
                table.as_ptr(),
                table.len(),
                thread,
                out.as_mut_ptr(),
                out.len(),
            )
        }
    }
    #[cfg(feature = "dispatch")]
    fn dispatch(&self, table: &mut [u8]) -> u64 {
        unsafe { wospinzo_dispatch(table.as_mut_ptr(), table.len()) }
    }
    #[cfg(feature = "history")]
    fn check(&self, threads: u16, history: &[u8]) -> u64 {
        unsafe { wospinzo_check(threads, history.as_ptr(), history.len()) }
    }
    #[cfg(feature = "history")]
    fn plan(&self, threads: u16, history: &[u8], out: &mut [u8]) -> u64 {
        unsafe {
            wospinzo_plan(
                threads,
                history.as_ptr(),
                history.len(),
                out.as_mut_ptr(),
                out.len(),
            )
        }
    }
    #[cfg(feature = "history")]
    fn plan_length(&self, threads: u16, history: &[u8]) -> u64 {
        unsafe { wospinzo_plan_length(threads, history.as_ptr(), history.len()) }
    }
    #[cfg(feature = "script")]
    fn run(&self, script: &[u8], out: &mut [u8]) -> u64 {
        unsafe { wospinzo_run(script.as_ptr(), script.len(), out.as_mut_ptr(), out.len()) }
    }
    #[cfg(feature = "watch")]
    fn watch_start(&self, threads: u16, record: &mut Record) -> u64 {
        unsafe { wospinzo_watch_start(threads, record) }
    }
    #[cfg(feature = "watch")]
    fn watch_event(&self, record: &mut Record, thread: u16, event: u16) -> u64 {
        unsafe { wospinzo_watch_event(record, thread, event) }
    }
    #[cfg(feature = "watch")]
    fn watch_inside(&self, record: &Record) -> u64 {
        unsafe { wospinzo_watch_inside(record) }
    }
    #[cfg(feature = "writing")]
    fn write_script(&self, threads: u16, triples: &[u8], out: &mut [u8]) -> u64 {
        unsafe {
            wospinzo_write_script(
                threads,
                triples.as_ptr(),
                triples.len(),
                out.as_mut_ptr(),
                out.len(),
            )
        }
    }
    #[cfg(feature = "writing")]
    fn read_script(&self, script: &[u8], out: &mut [u8]) -> u64 {
        unsafe { wospinzo_read_script(script.as_ptr(), script.len(), out.as_mut_ptr(), out.len()) }
    }
}
