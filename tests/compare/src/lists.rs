//! Lists of moves to test with, as triples of thread, move and target: random
//! ones that can be spelled, damaged ones, and some of a given spelled length.

use crate::model::{self, LAST_MOVE};
use crate::random::Random;
use crate::scripts;

/// A random move that can be spelled; a run may refuse it.
pub fn triple(r: &mut Random, threads: usize) -> [u8; 3] {
    let mov = r.below(usize::from(LAST_MOVE) + 1) as u16;
    let target = if model::takes_target(mov) {
        r.below(threads)
    } else {
        0
    };
    [r.below(threads) as u8, mov as u8, target as u8]
}

/// A random list of so many moves that can be spelled.
pub fn list(r: &mut Random, threads: usize, moves: usize) -> Vec<u8> {
    (0..moves).flat_map(|_| triple(r, threads)).collect()
}

/// A triple that gets this refusal, 3, 4 or 5. It may be bad in a way that is
/// tested later too.
pub fn bad_triple(r: &mut Random, threads: usize, refusal: u8) -> [u8; 3] {
    let past = [threads as u8, 200, 255];
    let [mut thread, mut mov, mut target] = triple(r, threads);
    match refusal {
        3 => {
            thread = r.pick(&past);
            if r.chance(1, 2) {
                (mov, target) = (r.byte(), r.byte());
            }
        }
        4 => {
            mov = r.pick(&[LAST_MOVE as u8 + 1, 8, 128, 255]);
            target = r.pick(&[0, target, threads as u8, 255]);
        }
        5 if model::takes_target(mov.into()) => target = r.pick(&past),
        5 => target = r.pick(&[1, threads as u8, 255]),
        other => panic!("no refusal {other} of a triple"),
    }
    [thread, mov, target]
}

/// Moves of thread 0 whose lines have so many bytes together. There are some for
/// 20 and more; where there are none, the list is empty.
fn of_rest(rest: usize) -> Vec<u8> {
    let lines = (0..=LAST_MOVE as u8).map(|mov| ([0, mov, 0], scripts::line(&[0, mov, 0]).len()));
    for (triple, size) in lines {
        if size == rest {
            return triple.to_vec();
        }
        let others = if size < rest {
            of_rest(rest - size)
        } else {
            vec![]
        };
        if !others.is_empty() {
            return [&triple[..], &others].concat();
        }
    }
    vec![]
}

/// A random list whose script has exactly `size` bytes, at least 100.
pub fn of_size(r: &mut Random, threads: usize, size: usize) -> Vec<u8> {
    let mut rest = size - scripts::spelled(threads, &[]).len();
    let mut list = Vec::new();
    while rest > 60 {
        let triple = triple(r, threads);
        rest -= scripts::line(&triple).len();
        list.extend(triple);
    }
    list.extend(of_rest(rest));
    list
}

/// A list with a fault or two, which may yet be spelled.
pub fn damaged(r: &mut Random, threads: usize, list: &[u8]) -> Vec<u8> {
    let mut list = list.to_vec();
    let moves = list.len() / 3;
    if moves == 0 {
        return r.bytes(4);
    }
    let at = 3 * r.below(moves);
    match r.below(8) {
        0..=3 => {
            let refusal = r.pick(&[3, 4, 5]);
            list[at..at + 3].copy_from_slice(&bad_triple(r, threads, refusal));
        }
        4 => list[at + 2] = r.below(threads + 1) as u8,
        5 => list.truncate(at + 1 + r.below(2)),
        6 => list.extend(r.bytes(2)),
        _ => list.extend(r.bytes(6)),
    }
    list
}
