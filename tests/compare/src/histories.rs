//! Histories to test with: random permitted ones, and damaged ones.

use crate::random::Random;

/// A random history by the plain lock's rules, of a few threads; where
/// `careless`, an event's need is now and then passed over.
pub fn history(r: &mut Random, threads: usize, pairs: usize, careless: bool) -> Vec<u8> {
    let active = 1 + r.below(threads.min(6));
    of_active(r, threads, active, pairs, careless)
}

/// The same, with events of so many of the threads.
pub fn of_active(
    r: &mut Random,
    threads: usize,
    active: usize,
    pairs: usize,
    careless: bool,
) -> Vec<u8> {
    let first = r.below(threads);
    let mut last = vec![0u8; active];
    let mut history = Vec::with_capacity(2 * pairs);
    while history.len() < 2 * pairs {
        let who = r.below(active);
        let event = match last[who] {
            0 | 4 | 8 => r.pick(&[1, 5]),
            event => event + 1,
        };
        let exclusive = last.contains(&6);
        let shared = last.contains(&2);
        let occupied = (event == 2 && exclusive) || (event == 6 && (exclusive || shared));
        if occupied && !(careless && r.chance(1, 20)) {
            continue;
        }
        last[who] = event;
        history.extend([((first + who) % threads) as u8, event]);
    }
    history
}

/// A history with a fault or two, which may yet be permitted.
pub fn damaged(r: &mut Random, threads: usize, history: &[u8]) -> Vec<u8> {
    let mut history = history.to_vec();
    let pairs = history.len() / 2;
    if pairs == 0 {
        return r.bytes(3);
    }
    let at = 2 * r.below(pairs);
    match r.below(9) {
        0 => history[at] = r.pick(&[0, threads as u8 - 1, threads as u8, 200, 255]),
        1 => history[at + 1] = r.below(11) as u8,
        2 => history[at + 1] = r.byte(),
        3 => history.truncate(2 * at + 1),
        4 => drop(history.drain(at..at + 2)),
        5 => history.extend_from_within(at..at + 2),
        6 => history.extend([r.below(threads) as u8, 1 + r.below(8) as u8]),
        7 => history.push(0),
        _ => (history[at], history[at + 1]) = (history[at + 1], history[at]),
    }
    history
}

/// The number of moves in the plan of a history, 0 for an unknown event.
pub fn plan_moves(threads: usize, history: &[u8]) -> usize {
    let moves = |event: u8| match event {
        1 | 4 | 5 | 8 => 1,
        2 => 3,
        3 => 2,
        6 => 2 * threads + 2,
        7 => threads + 2,
        _ => 0,
    };
    history
        .chunks(2)
        .map(|pair| pair.get(1).map_or(0, |&event| moves(event)))
        .sum()
}
