//! The rule of 02 §6, that not every thread is in phases 3, 4 and 18: tables
//! that break it and no other rule, and tables that keep it by one thread.

use crate::comparison::Comparison;
use crate::model::{CALL_SHARED, GO, HOLD, LAST_MOVE, MAX_THREADS, SET};
use crate::part::{done, number_of, refused, value_of, Call};
use crate::random::Random;
use crate::tables::{self, BACKING_OFF};

/// For up to so many threads each table or thread is tried, and not some.
const FEW: usize = 8;
/// Random tables of a kind, for each number of threads.
const ROUNDS: usize = 4;
/// Random sound tables for each number of threads.
const SOUND: usize = 100;

/// Tables of one and two threads that the rule bars, and some that it does not.
pub fn examples(c: &mut Comparison) {
    let barred: [&[u8]; 11] = [
        &[1, 0, 255, 3, 1, 0],
        &[1, 0, 255, 4, 0, 0],
        &[1, 1, 255, 18, 0, 0],
        &[2, 0, 255, 3, 1, 0, 3, 1, 0],
        &[2, 0, 255, 3, 1, 0, 4, 0, 0],
        &[2, 0, 255, 4, 0, 0, 3, 1, 0],
        &[2, 0, 255, 4, 0, 0, 4, 0, 0],
        &[2, 1, 255, 18, 0, 0, 3, 1, 0],
        &[2, 1, 255, 18, 0, 0, 4, 0, 0],
        &[2, 1, 255, 3, 1, 0, 18, 0, 0],
        &[2, 1, 255, 4, 0, 0, 18, 0, 0],
    ];
    for table in barred {
        turned_down(c, table);
    }
    // table, its nodes
    let sound: [(&[u8], &[u8]); 8] = [
        (&[1, 0, 255, 2, 1, 0], &[1]),
        (&[1, 0, 255, 5, 1, 0], &[2]),
        (&[2, 0, 255, 3, 1, 0, 0, 0, 0], &[1, 0]),
        (&[2, 0, 255, 1, 0, 0, 4, 0, 0], &[1, 1]),
        (&[2, 1, 255, 18, 0, 0, 2, 1, 0], &[1, 1]),
        (&[2, 0, 255, 17, 0, 0, 3, 1, 0], &[10, 1]),
        (&[2, 1, 255, 4, 0, 0, 16, 0, 0], &[1, 10]),
        (&[2, 1, 255, 3, 1, 1, 14, 0, 1], &[1, 8]),
    ];
    for (table, nodes) in sound {
        let call = Call::nodes(table.to_vec(), vec![7; nodes.len()]);
        c.expect("sound", &call, done(nodes.len() as u64), nodes);
    }
}

/// Every entry that takes a table turns it down by 2 and keeps what it was
/// lent, also where thread, move, target or room are bad.
fn turned_down(c: &mut Comparison, table: &[u8]) {
    let threads = u16::from(table[0]);
    let table = || table.to_vec();
    let mut calls = vec![Call::dispatch(table())];
    for room in [0, usize::from(threads)] {
        calls.push(Call::nodes(table(), vec![7; room]));
    }
    for thread in [0, threads - 1, threads] {
        for room in [0, 4] {
            calls.push(Call::open_moves(table(), thread, vec![7; room]));
        }
        for (mov, target) in [
            (GO, 0),
            (HOLD, 0),
            (CALL_SHARED, 0),
            (SET, 0),
            (LAST_MOVE + 1, 0),
            (GO, 1),
            (SET, threads),
        ] {
            calls.push(Call::make_move(table(), thread, mov, target));
        }
    }
    for call in calls {
        c.expect("all in 3, 4, 18", &call, refused(2, 0), &call.lent);
    }
}

/// Tables that are sound but for the rule: all of up to eight threads, and for
/// each number of threads random ones with nobody, the first thread, one in the
/// middle and the last in 18.
pub fn barred(c: &mut Comparison, seed: u64) {
    let mut count = 0;
    for threads in 1..=FEW {
        let all = all_barred(threads);
        let right = (1 << threads) + threads * (1 << (threads - 1));
        c.claim(all.len() == right, || {
            format!("{threads} threads: {} tables", all.len())
        });
        all.iter().for_each(|table| turned_down(c, table));
        count += all.len();
    }
    let mut r = Random::new(seed);
    for threads in 1..=MAX_THREADS {
        for in_18 in [None, Some(0), Some(threads / 2), Some(threads - 1)] {
            for _ in 0..ROUNDS {
                turned_down(c, &tables::backing_off(&mut r, threads, in_18));
                count += 1;
            }
        }
        if c.stopped() {
            return;
        }
    }
    c.say(&format!("  {count} tables, all refused by 2"));
}

/// Every table of so many threads with all in 3 and 4, or one of them in 18.
fn all_barred(threads: usize) -> Vec<Vec<u8>> {
    let mut all = Vec::new();
    for in_4 in 0..1 << threads {
        let mut table = tables::fresh(threads);
        for thread in 0..threads {
            tables::put(&mut table, thread, 3 + (in_4 >> thread & 1) as u8);
        }
        // The thread in 18 is taken from those in 4, to have each table once.
        for thread in (0..threads).filter(|thread| in_4 >> thread & 1 == 1) {
            let mut held = table.clone();
            tables::put(&mut held, thread, 18);
            held[1] = 1;
            all.push(held);
        }
        all.push(table);
    }
    all
}

/// Sound tables with all threads but one in 3, 4 and 18, for each number of
/// threads and each phase of that one, which is the first, one in the middle and
/// the last, of up to eight threads each: the moves of this thread, of the first
/// and of the last. Then random sound tables.
pub fn kept_by_one(c: &mut Comparison, seed: u64) {
    let mut r = Random::new(seed);
    let (mut count, mut moves) = (0, 0);
    for threads in 1..=MAX_THREADS {
        for one in places(threads) {
            for phase in (0..18).filter(|phase| !BACKING_OFF.contains(phase)) {
                for held in [false, true] {
                    let table = tables::but_one(&mut r, threads, one, phase, held);
                    sound(c, &table);
                    moves += moves_of(c, &table, &[one, 0, threads - 1]);
                    count += 1;
                }
            }
        }
        for _ in 0..SOUND {
            sound(c, &tables::sound(&mut r, threads));
        }
        if c.stopped() {
            return;
        }
    }
    let random = SOUND * MAX_THREADS;
    c.say(&format!(
        "  {count} tables and {random} random ones, all sound; {moves} moves, all accepted and sound after it"
    ));
}

/// The threads that are looked at.
fn places(threads: usize) -> Vec<usize> {
    if threads <= FEW {
        (0..threads).collect()
    } else {
        vec![0, threads / 2, threads - 1]
    }
}

/// Claims that a table is sound.
fn sound(c: &mut Comparison, table: &[u8]) {
    let threads = usize::from(table[0]);
    let call = Call::nodes(table.to_vec(), vec![7; threads]);
    let answer = c.compare(&call);
    c.claim(answer == done(threads as u64), || {
        format!("not sound: {}", call.words())
    });
}

/// Makes each open move of these threads. It is accepted and leaves a sound
/// table. Gives how many there are.
fn moves_of(c: &mut Comparison, table: &[u8], threads: &[usize]) -> usize {
    let mut moves = 0;
    for &thread in threads {
        let room = vec![7; 4 * MAX_THREADS];
        let answer = c.compare(&Call::open_moves(table.to_vec(), thread as u16, room));
        let open = c.lent()[..value_of(answer) as usize].to_vec();
        for pair in open.chunks_exact(2) {
            let [mov, target] = [pair[0], pair[1]].map(u16::from);
            let call = Call::make_move(table.to_vec(), thread as u16, mov, target);
            let answer = c.compare(&call);
            c.claim(number_of(answer) == 0, || {
                format!("an open move is refused: {}", call.words())
            });
            let after = c.lent().to_vec();
            sound(c, &after);
            moves += 1;
        }
    }
    moves
}
