//! A table that was kept over a restart: which ones pass, how many changes of one
//! bit do, and what a call that was cut off leaves.

use std::collections::HashSet;

use wospinzo::{
    dispatch, forbidden, fresh, make_move, nodes, open_moves, open_moves_room, phase, table_size,
    target, Move, Phase, Refusal, MAX_THREADS, NO_TARGET,
};

/// Whether the table passes. One that does not is turned down by every function
/// that is lent a table, and left as it is.
fn passes(table: &[u8]) -> bool {
    let threads = table[0].into();
    let mut out = vec![0; open_moves_room(threads)];
    let answer = nodes(table, &mut out);
    if answer == Ok(threads.into()) {
        return true;
    }
    assert_eq!(answer, Err(Refusal::Unsound), "{table:?}");
    assert_eq!(open_moves(table, 0, &mut out), Err(Refusal::Unsound));
    let mut same = table.to_vec();
    assert_eq!(make_move(&mut same, 0, Move::Go), Err(Refusal::Unsound));
    assert_eq!(dispatch(&mut same), Err(Refusal::Unsound));
    assert_eq!(same, table);
    false
}

/// The accepted moves of a table's threads, each with the table that it leaves.
fn next(table: &[u8]) -> Vec<(u16, Move, Vec<u8>)> {
    let mut left = Vec::new();
    let threads = table[0].into();
    for thread in 0..threads {
        let mut out = vec![0; open_moves_room(threads)];
        let size = open_moves(table, thread, &mut out).unwrap();
        for pair in out[..size].chunks_exact(2) {
            let mov = Move::from_numbers(pair[0].into(), pair[1].into()).unwrap();
            let mut after = table.to_vec();
            make_move(&mut after, thread, mov).unwrap();
            left.push((thread, mov, after));
        }
    }
    left
}

/// The tables that moves leave from a fresh one.
fn reached(threads: u16) -> HashSet<Vec<u8>> {
    let mut first = vec![0; table_size(threads)];
    fresh(threads, &mut first).unwrap();
    let mut found = HashSet::from([first.clone()]);
    let mut todo = vec![first];
    while let Some(table) = todo.pop() {
        for (_, _, after) in next(&table) {
            if found.insert(after.clone()) {
                todo.push(after);
            }
        }
    }
    found
}

/// Every table of so many threads whose phases are at most `phases` and whose
/// flags and mutex are at most `flags`.
fn every_table(threads: u16, phases: u8, flags: u8) -> impl Iterator<Item = Vec<u8>> {
    let targets = (0..=threads as u8).chain([NO_TARGET]);
    let heads = targets.flat_map(move |target| (0..=flags).map(move |mutex| [mutex, target]));
    let values = [phases, flags, flags].map(|most| u32::from(most) + 1);
    let rows = values.iter().product::<u32>();
    heads.flat_map(move |[mutex, target]| {
        (0..rows.pow(threads.into())).map(move |mut number| {
            let mut table = vec![threads as u8, mutex, target];
            for value in values.repeat(threads.into()) {
                table.push((number % value) as u8);
                number /= value;
            }
            table
        })
    })
}

#[test]
fn a_table_passes_exactly_if_moves_leave_it() {
    for (threads, phases, flags, count) in [(1, 20, 2, 16), (2, 19, 2, 479), (3, 18, 1, 14_118)] {
        let reached = reached(threads);
        assert_eq!(reached.len(), count);
        for table in every_table(threads, phases, flags) {
            assert_eq!(passes(&table), reached.contains(&table), "{table:?}");
        }
    }
}

/// Every thread in 3, 4 or 18, the rest to match; then one thread elsewhere.
#[test]
fn not_every_thread_has_backed_off() {
    for threads in 1..=MAX_THREADS {
        let n = usize::from(threads);
        for kind in 0..4 {
            let mut table = vec![threads as u8, 0, NO_TARGET];
            for thread in 0..n {
                table.extend(match kind {
                    0 => [3, 1, 0],
                    1 => [4, 0, 0],
                    _ => [3 + (thread % 2) as u8, 1 - (thread % 2) as u8, 0],
                });
            }
            let holder = n / 2;
            if kind == 3 {
                table[1] = 1;
                table[table_size(holder as u16)..][..3].copy_from_slice(&[18, 0, 0]);
            }
            assert!(!passes(&table), "{table:?}");
            let other = (holder + 1) % n;
            if n > 1 {
                table[table_size(other as u16)..][..3].fill(0);
                assert!(passes(&table), "{table:?}");
            }
        }
    }
}

/// Changes of one bit in every table that passes, and how many of them pass.
#[test]
fn a_bit_that_was_changed() {
    for (threads, changes, unnoticed) in [(1, 768, 20), (2, 34_488, 1_640), (3, 1_355_328, 86_544)]
    {
        let mut counts = (0, 0);
        for mut table in reached(threads) {
            for at in 0..table.len() {
                for bit in 0..8 {
                    table[at] ^= 1 << bit;
                    counts.0 += 1;
                    counts.1 += usize::from(nodes(&table, &mut [0; 3]).is_ok());
                    table[at] ^= 1 << bit;
                }
            }
        }
        assert_eq!(counts, (changes, unnoticed));
    }
}

/// A move of which some bytes were written and others not: the table is turned
/// down, or a writer that sets a flag or takes one back is in 10 with the flag
/// set, and without a target.
#[test]
fn a_call_that_was_cut_off() {
    for threads in 1..=3 {
        for table in reached(threads) {
            for (thread, mov, after) in next(&table) {
                let changed: Vec<usize> = (0..table.len())
                    .filter(|&at| table[at] != after[at])
                    .collect();
                for written in 1..(1 << changed.len()) - 1 {
                    let mut cut = table.clone();
                    for (bit, &at) in changed.iter().enumerate() {
                        if written >> bit & 1 == 1 {
                            cut[at] = after[at];
                        }
                    }
                    if passes(&cut) {
                        let set = match (phase(&table, thread), mov) {
                            (Some(Phase::SetFlag), Move::Set(set)) => set,
                            (Some(Phase::TakeBack), Move::Go) => target(&table).unwrap(),
                            _ => panic!("{table:?} {thread} {mov:?}"),
                        };
                        assert_eq!(phase(&cut, thread), Some(Phase::SetFlag));
                        assert_eq!(target(&cut), None);
                        assert_eq!(forbidden(&cut, set), Some(true));
                    }
                }
            }
        }
    }
}
