//! Tables to test with: random sound ones, damaged ones, all with bytes in
//! range and all that moves reach for a few threads. The sound ones and those
//! reached are the same.

use std::collections::HashSet;

use crate::model::{self, HOLDER_PHASES, LAST_MOVE, LAST_PHASE, MAX_THREADS, NO_TARGET};
use crate::part::{number_of, Call, Caller, Part};
use crate::random::Random;

/// A number of threads in range, small ones more often.
pub fn threads(r: &mut Random) -> usize {
    match r.below(10) {
        0..=3 => 1 + r.below(4),
        4..=6 => 1 + r.below(20),
        7..=8 => 1 + r.below(MAX_THREADS),
        _ => r.pick(&[1, 2, 199, 200]),
    }
}

/// A number that is mostly below `bound`, else past it, also by multiples of
/// 256 that a cut to eight bits would bring back into range.
pub fn near(r: &mut Random, bound: usize) -> u16 {
    let number = match r.below(16) {
        0 => bound,
        1 => bound + 1,
        2 => r.pick(&[0, 1, 200, 201, 254, 255, 256, 257, 32768, 65280, 65535]),
        3 => r.below(bound) + 256 * (1 + r.below(255)),
        _ => r.below(bound),
    };
    number as u16
}

/// A move's number, mostly one that there is.
pub fn mov(r: &mut Random) -> u16 {
    near(r, usize::from(LAST_MOVE) + 1)
}

pub fn fresh(threads: usize) -> Vec<u8> {
    let mut table = vec![0; model::table_size(threads)];
    model::fresh(threads as u16, &mut table);
    table
}

/// The phase bytes of a table of any size.
pub fn phases_mut(table: &mut [u8]) -> impl Iterator<Item = &mut u8> {
    table.iter_mut().skip(3).step_by(3)
}

/// The phases in which not every thread may be.
pub const BACKING_OFF: [u8; 3] = [3, 4, 18];
/// The phases that are neither of these nor the holder's.
const ELSEWHERE: [u8; 9] = [0, 1, 2, 5, 6, 7, 8, 9, 17];

/// Whether a table has threads and every one is in 3, 4 and 18.
pub fn all_back_off(table: &[u8]) -> bool {
    let mut phases = table.iter().skip(3).step_by(3);
    table.len() > 3 && phases.all(|phase| BACKING_OFF.contains(phase))
}

/// Puts a thread in a phase, with the busy byte of that phase.
pub fn put(table: &mut [u8], thread: usize, phase: u8) {
    let busy = u8::from(matches!(phase, 2 | 3 | 5 | 6 | 7));
    table[3 + 3 * thread..5 + 3 * thread].copy_from_slice(&[phase, busy]);
}

/// Which threads have forbidden 1: from none to all, in a row or at random.
fn flags(r: &mut Random, threads: usize) -> Vec<u8> {
    let mut flags = vec![0; threads];
    match r.below(4) {
        0 => {
            let upto = r.below(threads + 1);
            flags[..upto].fill(1);
        }
        1 => {
            flags.fill(1);
            flags[r.below(threads)] = 0;
        }
        2 => flags
            .iter_mut()
            .for_each(|flag| *flag = u8::from(r.chance(1, 2))),
        _ => flags[r.below(threads)] = 1,
    }
    flags
}

/// A table with all threads in 0 whose mutex, target and flags are sound beside
/// a holder in this phase, 0 for none.
fn beside(r: &mut Random, threads: usize, holder: u8) -> Vec<u8> {
    let target = r.below(threads);
    let mut flags = flags(r, threads);
    match holder {
        10 => flags[target] = 0,
        11 | 12 | 15 => flags[target] = 1,
        13 | 14 => flags.fill(1),
        _ => flags.fill(0),
    }
    let mut table = fresh(threads);
    table[1] = u8::from(holder > 0);
    if holder == 11 || holder == 12 {
        table[2] = target as u8;
    }
    for (thread, flag) in flags.into_iter().enumerate() {
        table[5 + 3 * thread] = flag;
    }
    table
}

/// A random sound table.
pub fn sound(r: &mut Random, threads: usize) -> Vec<u8> {
    let holder = if r.chance(1, 4) {
        0
    } else {
        r.pick(&HOLDER_PHASES)
    };
    let at = r.below(threads);
    let mut table = beside(r, threads, holder);
    let phases: &[u8] = r.pick(&[
        &[0, 1, 2, 3, 4, 5, 6, 7, 8, 9, 17][..],
        &[0, 0, 0, 0, 0, 0, 6, 9],
        &[5, 6, 7],
        &[3, 4],
        &[0],
    ]);
    for thread in 0..threads {
        let forbidden = table[5 + 3 * thread] == 1;
        let barred = match holder {
            10 => forbidden,
            11 | 12 => forbidden && thread != usize::from(table[2]),
            13 | 14 => true,
            _ => false,
        };
        let mut phase = r.pick(phases);
        if barred && (5..=7).contains(&phase) {
            phase -= 4;
        }
        if holder > 0 && thread == at {
            phase = holder;
        }
        put(&mut table, thread, phase);
    }
    if all_back_off(&table) {
        one_elsewhere(r, &mut table);
    }
    table
}

/// Puts one thread elsewhere, in a table with all threads in 3, 4 and 18. There
/// every forbidden is 0. A thread that was in 18 lets the mutex go.
fn one_elsewhere(r: &mut Random, table: &mut [u8]) {
    let threads = usize::from(table[0]);
    let thread = r.below(threads);
    if table[3 + 3 * thread] == 18 {
        table[1] = 0;
    }
    put(table, thread, r.pick(&ELSEWHERE));
}

/// A table with all threads in 3 and 4, but one in 18 where it is named. It is
/// sound but for the rule that not every thread is in these phases.
pub fn backing_off(r: &mut Random, threads: usize, in_18: Option<usize>) -> Vec<u8> {
    let mut table = fresh(threads);
    for thread in 0..threads {
        put(&mut table, thread, r.pick(&[3, 4]));
    }
    if let Some(holder) = in_18 {
        put(&mut table, holder, 18);
        table[1] = 1;
    }
    table
}

/// A sound table with one thread in a phase that isn't 3, 4 or 18 and all others
/// in 3 and 4, but another one in 18 where `held` says so and nobody else has
/// the mutex.
pub fn but_one(r: &mut Random, threads: usize, one: usize, phase: u8, held: bool) -> Vec<u8> {
    let holder = if model::is_holder(phase) { phase } else { 0 };
    let mut table = beside(r, threads, holder);
    for thread in 0..threads {
        put(&mut table, thread, r.pick(&[3, 4]));
    }
    put(&mut table, one, phase);
    if held && holder == 0 && threads > 1 {
        put(&mut table, (one + 1 + r.below(threads - 1)) % threads, 18);
        table[1] = 1;
    }
    table
}

/// A table with a fault or two, which may yet be sound.
pub fn damaged(r: &mut Random, table: &[u8]) -> Vec<u8> {
    let mut table = table.to_vec();
    let threads = (table.len() - 3) / 3;
    let at = 3 + 3 * r.below(threads);
    match r.below(15) {
        0 => table[0] = near(r, 201) as u8,
        1 => table[1] = r.pick(&[0, 1, 2, 255]),
        2 => table[2] = r.pick(&[0, threads as u8 - 1, threads as u8, 200, 254, 255]),
        3 => table[at] = r.below(usize::from(LAST_PHASE) + 3) as u8,
        4 => table[at + 1] = r.below(3) as u8,
        5 => table[at + 2] = r.below(3) as u8,
        6 => table[at] = r.pick(&HOLDER_PHASES),
        7 => {
            table[at] = r.pick(&[2, 3, 5, 6, 7]);
            table[at + 1] = 1;
        }
        8 => (table[at], table[at + 1]) = (LAST_PHASE + 1, 0),
        9 => {
            let i = r.below(table.len());
            table[i] = r.byte();
        }
        10 => table.truncate(r.below(table.len())),
        11 => table.extend([0, 0, 0, 0].iter().take(1 + r.below(4))),
        12 => table = r.bytes(threads),
        13 => others_back_off(r, &mut table),
        _ => table[3 + 3 * threads - 1] ^= 1,
    }
    table
}

/// Puts all threads of a sound table in 3 and 4, but the holder and, one time of
/// two, any one.
fn others_back_off(r: &mut Random, table: &mut [u8]) {
    let threads = usize::from(table[0]);
    let one = r.below(2 * threads);
    for thread in (0..threads).filter(|&thread| thread != one) {
        if !model::is_holder(table[3 + 3 * thread]) {
            put(table, thread, r.pick(&[3, 4]));
        }
    }
}

/// A table for a random call: sound three times of four.
pub fn any(r: &mut Random) -> Vec<u8> {
    let threads = threads(r);
    let table = sound(r, threads);
    if r.chance(1, 4) {
        damaged(r, &table)
    } else {
        table
    }
}

/// Every table of so many threads whose bytes are in range, or past it by at
/// most `past`.
pub fn every(threads: usize, past: u8, mut see: impl FnMut(&[u8])) {
    let mut cells = Vec::new();
    for phase in 0..=LAST_PHASE + past {
        for busy in 0..=1 + past {
            for forbidden in 0..=1 + past {
                cells.push([phase, busy, forbidden]);
            }
        }
    }
    let mut table = fresh(threads);
    for mutex in 0..=1 + past {
        for target in (0..threads as u8 + past).chain(NO_TARGET - past..=NO_TARGET) {
            (table[1], table[2]) = (mutex, target);
            fill(&mut table, 3, &cells, &mut see);
        }
    }
}

/// Puts each cell in each place of a table from `at` on.
fn fill(table: &mut [u8], at: usize, cells: &[[u8; 3]], see: &mut impl FnMut(&[u8])) {
    if at == table.len() {
        return see(table);
    }
    for cell in cells {
        table[at..at + 3].copy_from_slice(cell);
        fill(table, at + 3, cells, see);
    }
}

/// Every list of bytes that differs from a table in one byte.
pub fn with_one_byte(table: &[u8], mut see: impl FnMut(&[u8])) {
    let mut other = table.to_vec();
    for (at, &was) in table.iter().enumerate() {
        for byte in (0..=255).filter(|&byte| byte != was) {
            other[at] = byte;
            see(&other);
        }
        other[at] = was;
    }
}

/// All requests for so many threads, each number also one past its range.
fn requests(threads: u16) -> Vec<[u16; 3]> {
    let mut requests = Vec::new();
    for thread in 0..=threads {
        for mov in 0..=LAST_MOVE + 1 {
            for target in 0..=threads {
                requests.push([thread, mov, target]);
            }
        }
    }
    requests
}

/// Every table that a part's accepted moves reach from its fresh one, which
/// comes first. All requests are tried on each; `see` gets every request, its
/// answer, and the caller with what was left. Past `most` tables the search
/// ends.
pub fn reached(
    part: &dyn Part,
    threads: usize,
    most: usize,
    mut see: impl FnMut(&Call, u64, &Caller),
) -> Vec<Vec<u8>> {
    let mut caller = Caller::new(part);
    let room = vec![0x5a; model::table_size(threads)];
    caller.call(&Call::fresh(threads as u16, room));
    let mut tables = vec![caller.lent().to_vec()];
    let mut met = HashSet::from([tables[0].clone()]);
    let requests = requests(threads as u16);
    let mut next = 0;
    while next < tables.len() && tables.len() <= most {
        let mut request = Call::make_move(tables[next].clone(), 0, 0, 0);
        for &numbers in &requests {
            request.numbers = numbers;
            let answer = caller.call(&request);
            see(&request, answer, &caller);
            if number_of(answer) == 0 && !met.contains(caller.lent()) {
                met.insert(caller.lent().to_vec());
                tables.push(caller.lent().to_vec());
            }
        }
        next += 1;
    }
    tables
}
