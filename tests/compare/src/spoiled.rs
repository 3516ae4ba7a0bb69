//! Tables with one bad byte of one thread: each thread of each number of
//! threads.

use crate::comparison::Comparison;
use crate::model::{GO, MAX_THREADS};
use crate::part::{refused, Call};
use crate::random::Random;
use crate::tables;

/// Bad bytes for a thread's phase, busy and forbidden byte, some of which a cut
/// to a few bits brings back into range.
fn bad_bytes([phase, busy, forbidden]: [u8; 3]) -> [(usize, u8); 11] {
    [
        (0, 19),
        (0, 31),
        (0, phase + 32),
        (0, phase + 128),
        (0, 255),
        (1, 1 - busy),
        (1, busy + 2),
        (1, 255),
        (2, forbidden + 2),
        (2, forbidden + 128),
        (2, 255),
    ]
}

/// Every entry that takes a table turns it down by 2 and keeps it.
fn turned_down(c: &mut Comparison, table: &[u8], thread: usize) {
    let (threads, thread) = (usize::from(table[0]), thread as u16);
    for call in [
        Call::nodes(table.to_vec(), vec![7; threads]),
        Call::open_moves(table.to_vec(), thread, vec![7; 4]),
        Call::make_move(table.to_vec(), thread, GO, 0),
        Call::dispatch(table.to_vec()),
    ] {
        c.expect("one bad byte", &call, refused(2, 0), &call.lent);
    }
}

/// The fresh table of each number of threads and a random sound one, with a bad
/// byte of each thread in turn.
pub fn each_thread(c: &mut Comparison, seed: u64) {
    let mut r = Random::new(seed);
    let mut count = 0;
    for threads in 1..=MAX_THREADS {
        for sound in [tables::fresh(threads), tables::sound(&mut r, threads)] {
            for thread in 0..threads {
                let at = 3 + 3 * thread;
                let bytes = [sound[at], sound[at + 1], sound[at + 2]];
                for (of, byte) in bad_bytes(bytes) {
                    let mut table = sound.clone();
                    table[at + of] = byte;
                    turned_down(c, &table, thread);
                    count += 1;
                }
            }
        }
        if c.stopped() {
            return;
        }
    }
    c.say(&format!("  {count} tables, all refused by 2"));
}
