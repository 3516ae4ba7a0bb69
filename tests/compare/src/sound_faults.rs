//! The test of soundness with a fault: the table that it takes a table for.

use crate::faults::Fault;
use crate::model::{table_size, READER_HOLDS};
use crate::part::Entry;
use crate::tables::{all_back_off, phases_mut, put, BACKING_OFF};

/// Whether a thread is in a phase of which this holds.
fn some(table: &[u8], holds: impl Fn(u8) -> bool) -> bool {
    table.iter().skip(3).step_by(3).any(|&phase| holds(phase))
}

/// Whether a table with all threads in 3, 4 and 18 passes with the fault.
fn passes(fault: Fault, entry: Entry, table: &[u8]) -> bool {
    match fault {
        Fault::RuleDropped => true,
        Fault::MoveWithoutRule => entry == Entry::Move,
        Fault::NodesWithoutRule => entry == Entry::Nodes,
        Fault::OpenMovesWithoutRule => entry == Entry::OpenMoves,
        Fault::DispatchWithoutRule => entry == Entry::Dispatch,
        Fault::RuleWithout3 => some(table, |phase| phase == 3),
        Fault::RuleWithout4 => some(table, |phase| phase == 4),
        Fault::RuleWithout18 => some(table, |phase| phase == 18),
        Fault::RuleUpTo127 => table[0] > 127,
        _ => false,
    }
}

/// Whether the fault bars a table, with some thread elsewhere too.
fn bars(fault: Fault, table: &[u8]) -> bool {
    let size = table.len();
    match fault {
        Fault::RuleOfSome => some(table, |phase| BACKING_OFF.contains(&phase)),
        Fault::RuleWithoutFirst => size > table_size(1) && all_back_off(&table[3..]),
        Fault::RuleWithoutLast => size > table_size(1) && all_back_off(&table[..size - 3]),
        Fault::RuleOf64 => size > table_size(64) && all_back_off(&table[..table_size(64)]),
        _ => false,
    }
}

/// A table with all threads in 3, 4 and 18 as one that keeps the rule: one
/// thread is in 2 for 3 or in 1 for 4, where node and busy are the same. A
/// single thread in 18 lets the mutex go.
pub fn passing(table: &[u8]) -> Vec<u8> {
    let mut passing = table.to_vec();
    let reader = phases_mut(&mut passing).position(|phase| *phase != READER_HOLDS);
    match reader {
        Some(thread) => put(&mut passing, thread, 5 - table[3 + 3 * thread]),
        None => {
            put(&mut passing, 0, 1);
            passing[1] = 0;
        }
    }
    passing
}

/// Cuts the busy and forbidden byte of a thread to one bit.
fn cut(table: &mut [u8], thread_at: usize) {
    for flag in table[thread_at..].iter_mut().take(3).skip(1) {
        *flag &= 1;
    }
}

/// The table that an entry's test of soundness takes this one for.
pub fn judged(fault: Fault, entry: Entry, table: &[u8]) -> Vec<u8> {
    let mut judged = table.to_vec();
    match fault {
        Fault::MutexOfTwo if table.get(1) == Some(&2) => judged[1] = 1,
        Fault::FlagsCut => (3..table.len())
            .step_by(3)
            .for_each(|at| cut(&mut judged, at)),
        Fault::FlagsOfLastCut if table.len() >= table_size(100) => {
            cut(&mut judged, table.len() - 3)
        }
        Fault::BusyOf199Mended if table.len() == table_size(200) => {
            put(&mut judged, 199, table[600])
        }
        Fault::PhaseCut => phases_mut(&mut judged).for_each(|phase| *phase &= 31),
        Fault::ForbiddenBesideHold if some(table, |phase| phase == READER_HOLDS) => {
            let flags = judged.iter_mut().skip(5).step_by(3);
            flags.for_each(|flag| *flag &= !1);
        }
        Fault::HoldWithoutHolder => phases_mut(&mut judged)
            .filter(|phase| **phase == READER_HOLDS)
            .for_each(|phase| *phase = 4),
        _ if bars(fault, table) => judged[1] = 2,
        _ if all_back_off(table) && passes(fault, entry, table) => judged = passing(table),
        _ => (),
    }
    judged
}
