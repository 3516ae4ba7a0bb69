//! The dispatcher with a fault: another move than the one that is due, another
//! answer or another table.

use crate::faults::Fault;
use crate::model::{is_holder, takes_target};
use crate::model::{CALL_EXCLUSIVE, CALL_SHARED, CLEAR, GO, HOLD, RELENT, SET};
use crate::part::{done, number_of, refused, turned, value_of, Entry, Model, Part, WAITING};
use crate::sound_faults::judged;
use crate::tables;

fn phase_of(table: &[u8], thread: usize) -> u8 {
    table[3 + 3 * thread]
}

/// The threads with this forbidden.
fn with(table: &[u8], forbidden: u8) -> impl DoubleEndedIterator<Item = usize> + '_ {
    let threads = usize::from(table[0]);
    (0..threads).filter(move |&thread| table[5 + 3 * thread] == forbidden)
}

/// The move and target that are due for a thread of a sound table.
fn due(table: &[u8], thread: usize) -> Option<(u16, usize)> {
    let busy = |target: u8| table[4 + 3 * usize::from(target)] == 1;
    match phase_of(table, thread) {
        0 | 4 | 6 | 14 => None,
        9 if table[1] == 1 => None,
        11 if busy(table[2]) => None,
        10 => with(table, 0).next().map(|target| (SET, target)),
        15 => with(table, 1).next().map(|target| (CLEAR, target)),
        _ => Some((GO, 0)),
    }
}

/// Another target of set or clear than the lowest.
fn other_target(fault: Fault, table: &[u8], thread: usize, mov: u16) -> Option<usize> {
    let flag = u8::from(mov == CLEAR);
    match fault {
        Fault::DispatchBehindWriter => with(table, flag).find(|&target| target > thread),
        Fault::DispatchTargetCounted => Some(with(table, 1 - flag).count()),
        _ => None,
    }
}

/// The move and target that the fault has for a thread.
fn chosen(fault: Fault, table: &[u8], thread: usize) -> Option<(u16, usize)> {
    let due = due(table, thread);
    match (fault, phase_of(table, thread)) {
        (Fault::DispatchCallsShared, 0) => Some((CALL_SHARED, 0)),
        (Fault::DispatchCallsExclusive, 0) => Some((CALL_EXCLUSIVE, 0)),
        (Fault::DispatchLeavesShared, 6) => Some((GO, 0)),
        (Fault::DispatchLeavesExclusive, 14) => Some((GO, 0)),
        (Fault::DispatchGoesIn4, 4) => Some((GO, 0)),
        (Fault::DispatchHolds, 4) if table[1] == 0 => Some((HOLD, 0)),
        (Fault::DispatchRelents, 11) => due.or(Some((RELENT, 0))),
        (Fault::DispatchReadsBusy1, 11) => Some((GO, 0)),
        (Fault::DispatchSetsAgain, 10) => Some((SET, 0)),
        (Fault::DispatchSetsIn15, 15) => with(table, 0).next().map_or(due, |t| Some((SET, t))),
        (Fault::DispatchClearsAgain, 15) => Some((CLEAR, 0)),
        (Fault::DispatchGoesIn9, 9) => Some((GO, 0)),
        (Fault::DispatchBusyOf0, 11) => (table[4] == 0).then_some((GO, 0)),
        (Fault::DispatchSkips(skipped), phase) if skipped == phase => None,
        (Fault::DispatchHighestIn10, 10) => with(table, 0).next_back().map(|t| (SET, t)),
        (Fault::DispatchOwnFirst, 10) if table[5 + 3 * thread] == 0 => Some((SET, thread)),
        (Fault::DispatchHighestIn15, 15) => with(table, 1).next_back().map(|t| (CLEAR, t)),
        _ => due,
    }
}

/// The same as a request.
fn request_of(fault: Fault, table: &[u8], thread: usize) -> Option<[u16; 3]> {
    let (mov, mut target) = chosen(fault, table, thread)?;
    if takes_target(mov) {
        target = other_target(fault, table, thread, mov).unwrap_or(target);
    }
    Some([thread as u16, mov, target as u16])
}

/// The thread that the fault takes of those that have a move.
fn mover(fault: Fault, table: &[u8], movers: &[usize]) -> Option<usize> {
    let last = usize::from(table[0]) - 1;
    let first = |takes: &dyn Fn(usize) -> bool| movers.iter().copied().find(|&t| takes(t));
    let lowest = movers.first().copied();
    let stuck = (0..last).find(|&t| phase_of(table, t) == 11 && due(table, t).is_none());
    match fault {
        Fault::DispatchWaits => None,
        Fault::DispatchWithoutLast if last > 0 => first(&|t| t < last),
        Fault::DispatchOf128 => first(&|t| t < 128),
        Fault::DispatchStopsAt11 => first(&|t| stuck.is_none_or(|stuck| t < stuck)),
        Fault::DispatchHighest => movers.last().copied(),
        Fault::DispatchSecond => movers.get(1).copied().or(lowest),
        Fault::DispatchHolderFirst => first(&|t| is_holder(phase_of(table, t))).or(lowest),
        Fault::Dispatch9Last => first(&|t| phase_of(table, t) != 9).or(lowest),
        _ => lowest,
    }
}

/// The answer where a move was made.
fn answered(fault: Fault, before: &[u8], request: [u16; 3], event: u64) -> u64 {
    let [thread, mov, target] = request;
    let old_target = before[2] % 255;
    match fault {
        Fault::DispatchThread0 => turned([0, mov, target], event),
        Fault::DispatchNextThread => turned([thread + 1, mov, target], event),
        Fault::DispatchThreadOf7 => turned([thread & 127, mov, target], event),
        Fault::DispatchMove0 => turned([thread, GO, target], event),
        Fault::DispatchClearAsSet if mov == CLEAR => turned([thread, SET, target], event),
        Fault::DispatchTarget0 => turned([thread, mov, 0], event),
        Fault::DispatchOldTarget if mov == GO => turned([thread, mov, old_target.into()], event),
        Fault::DispatchNoEvent => turned(request, 0),
        Fault::DispatchEventOfQuiet if event == 0 => turned(request, 1),
        Fault::DispatchEnterForLeave if event == 4 || event == 8 => turned(request, event - 2),
        Fault::DispatchUnmarked => done(value_of(turned(request, event)) - 128),
        _ => turned(request, event),
    }
}

/// Changes the table that a thread's move left.
fn write(fault: Fault, table: &mut [u8], before: &[u8], thread: usize) {
    let phases = [before, table].map(|table| phase_of(table, thread));
    match (fault, phases) {
        (Fault::DispatchWritesNothing, _) => table.copy_from_slice(before),
        (Fault::DispatchMovesTwice, _) => {
            Model.dispatch(table);
        }
        (Fault::DispatchBackTo10, [11, 13]) => table[3 + 3 * thread] = 10,
        (Fault::DispatchStaysIn15, [15, 16]) => table[3 + 3 * thread] = 15,
        (Fault::DispatchKeepsMutex, [16 | 18, _]) => table[1] = 1,
        _ => (),
    }
}

/// What the fault makes of a sound table in which it is waiting.
fn waiting(fault: Fault, table: &mut [u8]) -> u64 {
    match fault {
        Fault::DispatchWaitingWrites => table[2] = 0,
        Fault::DispatchWaitingTriesAgain => tables::phases_mut(table)
            .filter(|phase| **phase == 4)
            .for_each(|phase| *phase = 1),
        Fault::DispatchWaitingMarked => return done(128),
        Fault::DispatchWaitingRefused => return refused(6, 0),
        _ => (),
    }
    WAITING
}

/// What the fault makes of a table that is refused by this number.
fn turned_down(fault: Fault, table: &mut [u8], number: u8) -> u64 {
    match (fault, number) {
        (Fault::DispatchRefusedWaits, _) => return WAITING,
        (Fault::DispatchUnsoundAs1, 2) => return refused(1, 0),
        (Fault::DispatchSizeAs2, 1) => return refused(2, 0),
        (Fault::DispatchRefusedPlace, _) => return refused(number.into(), 1),
        (Fault::DispatchRefusedWrites, _) => table.iter_mut().skip(3).for_each(|byte| *byte = 0),
        _ => (),
    }
    refused(number.into(), 0)
}

/// Makes the fault's move of a sound table, or is waiting.
fn move_in(fault: Fault, table: &mut [u8]) -> u64 {
    let before = table.to_vec();
    let threads = 0..usize::from(table[0]);
    let movers = threads
        .filter(|&thread| chosen(fault, table, thread).is_some())
        .collect::<Vec<_>>();
    let moved = mover(fault, table, &movers);
    let Some(request) = moved.and_then(|thread| request_of(fault, table, thread)) else {
        return waiting(fault, table);
    };
    let [thread, mov, target] = request;
    let answer = Model.make_move(table, thread, mov, target);
    if number_of(answer) != 0 {
        return answer;
    }
    write(fault, table, &before, thread.into());
    answered(fault, &before, request, value_of(answer))
}

/// One turn of the dispatcher with a fault.
pub fn turn(fault: Fault, table: &mut [u8]) -> u64 {
    let judged = judged(fault, Entry::Dispatch, table);
    let number = number_of(Model.dispatch(&mut judged.clone()));
    if number != 0 {
        return turned_down(fault, table, number);
    }
    // A table that passes for another is not changed.
    if judged != table {
        return Model.dispatch(&mut judged.clone());
    }
    move_in(fault, table)
}
