//! Examples of 02 §8: the move that the dispatcher makes in a table, where it is
//! waiting, and what it turns down.

use crate::comparison::Comparison;
use crate::model::{table_size, CLEAR, GO, MAX_THREADS, SET};
use crate::part::{refused, turned, Call, WAITING};
use crate::tables;

/// A table of two threads in which the dispatcher makes a move: its thread, move
/// and target, the event that it shows, 0 for none, and the table after it.
type Example = ([u8; 9], [u16; 3], u64, [u8; 9]);

/// Examples of turns, of waiting and of refusals.
pub fn examples(c: &mut Comparison) {
    for examples in [READERS, WRITERS, LOWEST] {
        for (table, request, event, after) in examples {
            let call = Call::dispatch(table.to_vec());
            c.expect("a turn", &call, turned(*request, *event), after);
        }
    }
    for table in WAITS {
        let call = Call::dispatch(table.to_vec());
        c.expect("waiting", &call, WAITING, &call.lent);
    }
    most_threads(c);
    first_of_two(c);
    unsound(c);
    wrong_sizes(c);
}

/// A reader's moves, each beside a thread that has none.
const READERS: &[Example] = &[
    (
        [2, 0, 255, 1, 0, 0, 0, 0, 0],
        [0, GO, 0],
        0,
        [2, 0, 255, 2, 1, 0, 0, 0, 0],
    ),
    (
        [2, 0, 255, 2, 1, 0, 4, 0, 0],
        [0, GO, 0],
        0,
        [2, 0, 255, 5, 1, 0, 4, 0, 0],
    ),
    (
        [2, 1, 255, 2, 1, 1, 14, 0, 1],
        [0, GO, 0],
        0,
        [2, 1, 255, 3, 1, 1, 14, 0, 1],
    ),
    (
        [2, 1, 255, 3, 1, 1, 14, 0, 1],
        [0, GO, 0],
        0,
        [2, 1, 255, 4, 0, 1, 14, 0, 1],
    ),
    (
        [2, 0, 255, 5, 1, 0, 6, 1, 0],
        [0, GO, 0],
        2,
        [2, 0, 255, 6, 1, 0, 6, 1, 0],
    ),
    (
        [2, 0, 255, 7, 1, 0, 0, 0, 0],
        [0, GO, 0],
        0,
        [2, 0, 255, 8, 0, 0, 0, 0, 0],
    ),
    (
        [2, 0, 255, 8, 0, 0, 0, 0, 0],
        [0, GO, 0],
        4,
        [2, 0, 255, 0, 0, 0, 0, 0, 0],
    ),
    (
        [2, 1, 255, 18, 0, 0, 9, 0, 0],
        [0, GO, 0],
        0,
        [2, 0, 255, 1, 0, 0, 9, 0, 0],
    ),
    (
        [2, 1, 255, 0, 0, 0, 18, 0, 0],
        [1, GO, 0],
        0,
        [2, 0, 255, 0, 0, 0, 1, 0, 0],
    ),
];

/// A writer's moves, with the targets of set and clear.
const WRITERS: &[Example] = &[
    (
        [2, 0, 255, 9, 0, 0, 0, 0, 0],
        [0, GO, 0],
        0,
        [2, 1, 255, 10, 0, 0, 0, 0, 0],
    ),
    (
        [2, 1, 255, 10, 0, 0, 6, 1, 0],
        [0, SET, 0],
        0,
        [2, 1, 0, 11, 0, 1, 6, 1, 0],
    ),
    (
        [2, 1, 255, 10, 0, 1, 6, 1, 0],
        [0, SET, 1],
        0,
        [2, 1, 1, 11, 0, 1, 6, 1, 1],
    ),
    (
        [2, 1, 255, 10, 0, 0, 0, 0, 1],
        [0, SET, 0],
        0,
        [2, 1, 0, 11, 0, 1, 0, 0, 1],
    ),
    (
        [2, 1, 255, 0, 0, 1, 10, 0, 0],
        [1, SET, 1],
        0,
        [2, 1, 1, 0, 0, 1, 11, 0, 1],
    ),
    (
        [2, 1, 0, 11, 0, 1, 6, 1, 0],
        [0, GO, 0],
        0,
        [2, 1, 255, 10, 0, 1, 6, 1, 0],
    ),
    (
        [2, 1, 1, 11, 0, 1, 4, 0, 1],
        [0, GO, 0],
        0,
        [2, 1, 255, 13, 0, 1, 4, 0, 1],
    ),
    (
        [2, 1, 1, 12, 0, 0, 6, 1, 1],
        [0, GO, 0],
        0,
        [2, 1, 255, 10, 0, 0, 6, 1, 0],
    ),
    (
        [2, 1, 255, 13, 0, 1, 9, 0, 1],
        [0, GO, 0],
        6,
        [2, 1, 255, 14, 0, 1, 9, 0, 1],
    ),
    (
        [2, 1, 255, 15, 0, 1, 6, 1, 1],
        [0, CLEAR, 0],
        0,
        [2, 1, 255, 15, 0, 0, 6, 1, 1],
    ),
    (
        [2, 1, 255, 15, 0, 0, 6, 1, 1],
        [0, CLEAR, 1],
        0,
        [2, 1, 255, 16, 0, 0, 6, 1, 0],
    ),
    (
        [2, 1, 255, 15, 0, 1, 6, 1, 0],
        [0, CLEAR, 0],
        0,
        [2, 1, 255, 16, 0, 0, 6, 1, 0],
    ),
    (
        [2, 1, 255, 16, 0, 0, 9, 0, 0],
        [0, GO, 0],
        0,
        [2, 0, 255, 17, 0, 0, 9, 0, 0],
    ),
    (
        [2, 0, 255, 17, 0, 0, 4, 0, 0],
        [0, GO, 0],
        8,
        [2, 0, 255, 0, 0, 0, 4, 0, 0],
    ),
];

/// Tables in which thread 0 has no move for the dispatcher and thread 1 has one;
/// then some in which both have one. In the first six thread 0 could call, leave,
/// try again, take the mutex or relent.
const LOWEST: &[Example] = &[
    (
        [2, 0, 255, 0, 0, 0, 1, 0, 0],
        [1, GO, 0],
        0,
        [2, 0, 255, 0, 0, 0, 2, 1, 0],
    ),
    (
        [2, 0, 255, 6, 1, 0, 5, 1, 0],
        [1, GO, 0],
        2,
        [2, 0, 255, 6, 1, 0, 6, 1, 0],
    ),
    (
        [2, 1, 255, 14, 0, 1, 2, 1, 1],
        [1, GO, 0],
        0,
        [2, 1, 255, 14, 0, 1, 3, 1, 1],
    ),
    (
        [2, 0, 255, 4, 0, 0, 17, 0, 0],
        [1, GO, 0],
        8,
        [2, 0, 255, 4, 0, 0, 0, 0, 0],
    ),
    (
        [2, 0, 255, 4, 0, 0, 9, 0, 0],
        [1, GO, 0],
        0,
        [2, 1, 255, 4, 0, 0, 10, 0, 0],
    ),
    (
        [2, 1, 1, 11, 0, 0, 2, 1, 1],
        [1, GO, 0],
        0,
        [2, 1, 1, 11, 0, 0, 3, 1, 1],
    ),
    (
        [2, 1, 1, 11, 0, 0, 5, 1, 1],
        [1, GO, 0],
        2,
        [2, 1, 1, 11, 0, 0, 6, 1, 1],
    ),
    (
        [2, 1, 1, 11, 0, 1, 7, 1, 1],
        [1, GO, 0],
        0,
        [2, 1, 1, 11, 0, 1, 8, 0, 1],
    ),
    (
        [2, 1, 255, 9, 0, 0, 16, 0, 0],
        [1, GO, 0],
        0,
        [2, 0, 255, 9, 0, 0, 17, 0, 0],
    ),
    (
        [2, 1, 255, 9, 0, 1, 15, 0, 1],
        [1, CLEAR, 0],
        0,
        [2, 1, 255, 9, 0, 0, 15, 0, 1],
    ),
    (
        [2, 0, 255, 1, 0, 0, 1, 0, 0],
        [0, GO, 0],
        0,
        [2, 0, 255, 2, 1, 0, 1, 0, 0],
    ),
    (
        [2, 0, 255, 9, 0, 0, 1, 0, 0],
        [0, GO, 0],
        0,
        [2, 1, 255, 10, 0, 0, 1, 0, 0],
    ),
    (
        [2, 0, 255, 9, 0, 0, 9, 0, 0],
        [0, GO, 0],
        0,
        [2, 1, 255, 10, 0, 0, 9, 0, 0],
    ),
    (
        [2, 1, 255, 8, 0, 1, 13, 0, 1],
        [0, GO, 0],
        4,
        [2, 1, 255, 0, 0, 1, 13, 0, 1],
    ),
    (
        [2, 1, 0, 3, 1, 1, 11, 0, 0],
        [0, GO, 0],
        0,
        [2, 1, 0, 4, 0, 1, 11, 0, 0],
    ),
];

/// Tables in which it is waiting.
const WAITS: [[u8; 9]; 10] = [
    [2, 0, 255, 0, 0, 0, 0, 0, 0],
    [2, 0, 255, 0, 0, 0, 4, 0, 0],
    [2, 0, 255, 6, 1, 0, 6, 1, 0],
    [2, 0, 255, 4, 0, 0, 6, 1, 0],
    [2, 1, 255, 14, 0, 1, 0, 0, 1],
    [2, 1, 255, 14, 0, 1, 4, 0, 1],
    [2, 1, 255, 9, 0, 1, 14, 0, 1],
    [2, 1, 1, 11, 0, 0, 6, 1, 1],
    [2, 1, 1, 11, 0, 1, 6, 1, 1],
    [2, 1, 0, 6, 1, 1, 11, 0, 1],
];

/// A table for 200 threads with a writer in this phase, and with forbidden 1 from
/// one thread up to another.
fn writer_of_200(writer: usize, phase: u8, flags: std::ops::Range<usize>) -> Vec<u8> {
    let mut table = tables::fresh(MAX_THREADS);
    tables::put(&mut table, writer, phase);
    table[1] = 1;
    flags.for_each(|thread| table[5 + 3 * thread] = 1);
    table
}

/// The first, the last and other threads of 200 move; each of them is a target.
fn most_threads(c: &mut Comparison) {
    for thread in 0..MAX_THREADS {
        let mut table = tables::fresh(MAX_THREADS);
        tables::put(&mut table, thread, 8);
        let call = Call::dispatch(table);
        let answer = turned([thread as u16, GO, 0], 4);
        c.expect("a turn of 200", &call, answer, &tables::fresh(MAX_THREADS));
    }
    for target in 0..MAX_THREADS {
        for writer in [0, 77, 199] {
            let set = writer_of_200(writer, 10, 0..target);
            let clear = writer_of_200(writer, 15, target..MAX_THREADS);
            for (table, mov) in [(set, SET), (clear, CLEAR)] {
                let request = [writer as u16, mov, target as u16];
                let call = Call::dispatch(table);
                let after = made(c, &call.lent, request);
                c.expect("a target of 200", &call, turned(request, 0), &after);
            }
        }
    }
}

/// The table that a request leaves.
fn made(c: &mut Comparison, table: &[u8], [thread, mov, target]: [u16; 3]) -> Vec<u8> {
    c.compare(&Call::make_move(table.to_vec(), thread, mov, target));
    c.lent().to_vec()
}

/// Two of 200 threads have a move, and the lower one makes it.
fn first_of_two(c: &mut Comparison) {
    for first in 0..MAX_THREADS - 1 {
        for second in [first + 1, MAX_THREADS - 1] {
            let mut table = tables::fresh(MAX_THREADS);
            tables::put(&mut table, first, 1);
            tables::put(&mut table, second, 17);
            let call = Call::dispatch(table);
            let request = [first as u16, GO, 0];
            let after = made(c, &call.lent, request);
            c.expect("the lower one", &call, turned(request, 0), &after);
        }
    }
}

/// Tables that break one rule of soundness each. A thread in 1 would move.
fn unsound(c: &mut Comparison) {
    for table in [
        [2, 0, 255, 1, 0, 0, 19, 0, 0],
        [2, 0, 255, 1, 1, 0, 0, 0, 0],
        [2, 0, 255, 1, 0, 2, 0, 0, 0],
        [2, 0, 255, 1, 0, 1, 0, 0, 0],
        [2, 1, 255, 1, 0, 0, 0, 0, 0],
        [2, 0, 255, 1, 0, 0, 10, 0, 0],
        [2, 0, 0, 1, 0, 0, 0, 0, 0],
        [2, 1, 255, 16, 0, 0, 18, 0, 0],
        [2, 1, 255, 10, 0, 1, 0, 0, 1],
        [2, 1, 255, 10, 0, 0, 6, 1, 1],
        [2, 1, 2, 11, 0, 1, 0, 0, 0],
        [2, 1, 1, 11, 0, 1, 0, 0, 0],
        [2, 1, 255, 13, 0, 0, 1, 0, 1],
        [2, 1, 255, 14, 0, 1, 6, 1, 1],
        [2, 1, 255, 15, 0, 0, 1, 0, 0],
        [2, 1, 255, 16, 0, 1, 1, 0, 0],
        [2, 1, 255, 18, 0, 0, 1, 0, 1],
        [2, 0, 255, 3, 1, 0, 4, 0, 0],
        [2, 1, 255, 18, 0, 0, 3, 1, 0],
    ] {
        let call = Call::dispatch(table.to_vec());
        c.expect("unsound", &call, refused(2, 0), &call.lent);
    }
}

/// Lists of bytes that are no table of their first byte's size, sound or not, for
/// each number of threads.
fn wrong_sizes(c: &mut Comparison) {
    let mut lists = vec![vec![], vec![0], vec![1], vec![0, 0, 255], vec![0; 6]];
    lists.push(vec![201; table_size(201)]);
    for threads in 1..=MAX_THREADS {
        let mut table = tables::fresh(threads);
        tables::put(&mut table, 0, 1);
        for size in [0, 1, 2, 3].map(|cut| table.len() - 1 - cut) {
            lists.push(table[..size].to_vec());
        }
        for more in 1..=3 {
            lists.push([&table[..], &vec![0; more]].concat());
        }
        for other in [0, threads - 1, threads + 1, 201, 255] {
            let mut list = table.clone();
            list[0] = other as u8;
            lists.push(list);
        }
    }
    for list in lists {
        let call = Call::dispatch(list);
        c.expect("wrong size", &call, refused(1, 0), &call.lent);
    }
}
