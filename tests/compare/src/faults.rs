//! The model with one fault, to see that the comparison finds it.

use std::cell::Cell;

use crate::dispatch_faults;
use crate::length_faults;
use crate::model::{
    Record, EXCLUSIVE_TOTAL, GO, HOLD, MAX_THREADS, PLACES, READER_HOLDS, SET, SHARED_TOTAL,
};
use crate::part::{done, number_of, refused, value_of};
use crate::part::{Entry, Model, Part, ENTRIES};
use crate::retry_faults::Retrying;
use crate::script_faults;
use crate::scripts;
use crate::sound_faults::{judged, passing};
use crate::tables::all_back_off;
use crate::watchers::count_again;

#[derive(Clone, Copy, PartialEq, Eq, Debug)]
pub enum Fault {
    /// Numbers of 16 bits are cut to 8.
    ThreadsCut,
    ThreadCut,
    MoveCut,
    TargetCut,
    /// A refused output is written as far as it goes.
    FreshWritesShort,
    NodesWriteShort,
    /// The bytes after the output are cleared.
    NodesClearTail,
    PlanClearsTail,
    RunClearsTail,
    /// A mutex byte of 2 passes for 1.
    MutexOfTwo,
    /// A phase byte is cut to 5 bits.
    PhaseCut,
    /// The busy and forbidden bytes are cut to one bit: of every thread, or of
    /// the last one of a hundred threads or more.
    FlagsCut,
    FlagsOfLastCut,
    /// Thread 199's busy byte passes for that of its phase.
    BusyOf199Mended,
    /// The writer spares its own flag.
    SparesOwnFlag,
    /// The writer's own flag isn't open to be set.
    OwnFlagShut,
    /// A refused move writes the table.
    WritesRefused,
    /// An accepted move writes no table.
    WritesNothing,
    /// Refusal 7 is given as 6.
    MutexHeldAsPhase,
    /// The place of a refused pair is that of its byte.
    PlaceOfByte,
    /// A history of one byte too many is permitted.
    OddHistory,
    /// The plan answers bytes and not moves.
    PlanCountsBytes,
    /// The plan's last move is another.
    PlanLastMove,
    /// The run refuses a script that fills its bound.
    ScriptBound,
    /// The run's last byte is another.
    RunLastByte,
    /// Hold is accepted while the mutex is 1.
    HoldOfHeldMutex,
    /// Hold raises busy.
    HoldRaisesBusy,
    /// Hold leaves the mutex 0.
    HoldWithoutMutex,
    /// Hold's target isn't tested.
    HoldTargetUntested,
    /// Go in 18 keeps the mutex 1.
    MutexKept,
    /// A forbidden of 1 is sound beside 18.
    ForbiddenBesideHold,
    /// A thread in 18 isn't counted as the holder.
    HoldWithoutHolder,
    /// `(T (hold K))` is read as `(T (hold))`.
    HoldWithTarget,
    /// All threads may be in 3, 4 and 18: for every entry, or for one alone.
    RuleDropped,
    MoveWithoutRule,
    NodesWithoutRule,
    OpenMovesWithoutRule,
    /// All threads may be in 3, 4 and 18 where one is in this phase.
    RuleWithout3,
    RuleWithout4,
    RuleWithout18,
    /// No thread may be in 3, 4 and 18.
    RuleOfSome,
    /// The first of several threads isn't looked at for this rule, or the last,
    /// or all from 64 on.
    RuleWithoutFirst,
    RuleWithoutLast,
    RuleOf64,
    /// From 128 threads on all may be in 3, 4 and 18.
    RuleUpTo127,
    /// The move tests this rule after all else.
    RuleTestedLast,
    /// The move clears a table with all threads in 3, 4 and 18.
    BarredCleared,
    /// The watcher's numbers of 16 bits are cut to 8.
    WatchThreadsCut,
    WatchThreadCut,
    WatchEventCut,
    /// The watcher writes the record in spite of a bad N.
    BadStartWrites,
    /// The watcher's start leaves the place of the last thread.
    StartKeepsPlace,
    /// The watcher accepts every event.
    WatchAcceptsAll,
    /// The watcher turns every event down.
    WatchTurnsAllDown,
    /// A bad event changes the thread's place.
    WatchWritesRefused,
    /// After a bad event nothing is watched until the next start.
    WatchStops,
    /// Event 3 leaves the total of shared.
    SharedTotalKept,
    /// Event 7 leaves the total of exclusive.
    ExclusiveTotalKept,
    /// The entries from N upward aren't tested.
    EntriesUntested,
    /// The totals aren't tested.
    TotalsUntested,
    /// Two threads may be in exclusive.
    TwoInExclusive,
    /// One thread may be in exclusive while another is in shared.
    SharedBesideExclusive,
    /// Place 4 passes.
    PlaceOfFour,
    /// The question looks at one total.
    InsideOfShared,
    InsideOfExclusive,
    /// Refusal 9 is tested before 13.
    UnknownFirst,
    /// Refusal 13 is tested before 1.
    InconsistentFirst,
    /// Writing cuts N to 8 bits.
    WriteThreadsCut,
    /// The last triple isn't written.
    WriteSkipsTriple,
    /// A thread is written with a zero before it.
    WriteLeadingZero,
    /// A note is written.
    WriteNote,
    /// Two moves have the same words.
    WriteHoldAsRelent,
    /// A move that a run would refuse by 6 or 7 isn't written.
    WriteRefusesMoves,
    /// A triple's move is tested before its thread.
    WriteMoveFirst,
    /// A triple's target is tested before its move.
    WriteTargetFirst,
    /// The place of a bad triple is that of the next.
    WriteNextPlace,
    /// The place of a bad triple is cut to 16 bits.
    WritePlaceCut,
    /// A list's length is tested after its triples.
    WriteLengthLast,
    /// A script too long is refused before a bad triple.
    WriteTooLongFirst,
    /// The longest script that is written has 29,999 bytes.
    WriteBoundLess,
    /// The longest script that is written has 30,001 bytes.
    WriteBoundMore,
    /// Writing answers moves and not bytes.
    WriteCountsMoves,
    /// The bytes after the script are cleared.
    WriteClearsTail,
    /// A refused output is written.
    WriteWritesRefused,
    /// Reading stops after the first line.
    ReadFirstLine,
    /// A move that a run would refuse by 6 or 7 isn't read.
    ReadRefusesMoves,
    /// A line that can not be read is skipped.
    ReadSkipsLines,
    /// Lines are counted from 0.
    ReadLineFromZero,
    /// Notes aren't counted as lines.
    ReadNotesUncounted,
    /// The N read isn't the script's.
    ReadOtherThreads,
    /// Refusals 3 and 5 are exchanged.
    ReadThreeAndFive,
    /// A line's target is tested before its thread.
    ReadTargetFirst,
    /// Reading answers moves and not bytes.
    ReadCountsMoves,
    /// A note is read as the move go.
    ReadNotesAsGo,
    /// The last line needs no line feed.
    ReadNoLineFeed,
    /// A second threads line passes.
    ReadThreadsAgain,
    /// The longest script that is read has 29,999 bytes.
    ReadBoundLess,
    /// The longest script that is read has 30,001 bytes.
    ReadBoundMore,
    /// The place of an empty script is 0.
    ReadEmptyAtZero,
    /// The place of a script too long is 1.
    ReadLongAtOne,
    /// A short output is refused before a bad line.
    ReadRoomFirst,
    /// The bytes after the triples are cleared.
    ReadClearsTail,
    /// A refused output is written by reading.
    ReadWritesRefused,
    /// A plan's length cuts N to 8 bits.
    LengthThreadsCut,
    /// The events of a round that isn't finished aren't counted.
    LengthOfFinished,
    /// A history with a bad pair has length 0.
    LengthZeroForBad,
    /// A history with a bad pair is counted up to that pair.
    LengthBeforeBad,
    /// A plan's length answers events and not moves.
    LengthCountsEvents,
    /// A plan's length answers bytes and not moves.
    LengthCountsBytes,
    /// A full exclusive round has 3N + 5 moves.
    LengthExclusiveLess,
    /// A full shared round has 4 moves.
    LengthSharedOfFour,
    /// A round that ends behind another thread's event has a move less.
    LengthMixedLess,
    /// The moves are counted in 16 bits.
    LengthWraps,
    /// The 2N moves that set the flags are counted in 8 bits.
    LengthProductCut,
    /// The place of a bad pair is 0.
    LengthPlaceZero,
    /// The place of a bad pair is that of its byte.
    LengthPlaceOfByte,
    /// A bad pair is refused before an odd length.
    LengthPairFirst,
    /// A bad length is refused before a bad N.
    LengthFormFirst,
    /// The longest history whose plan has a length has 59,998 bytes.
    LengthBoundLess,
    /// The longest history whose plan has a length has 60,002 bytes.
    LengthBoundMore,
    /// No move says that it was a retry.
    RetryNeverSaid,
    /// Every quiet move says so.
    RetryAlwaysSaid,
    /// One kind of retry isn't said.
    GoIn4NoRetry,
    HoldNoRetry,
    RelentNoRetry,
    Busy1NoRetry,
    SetIn10NoRetry,
    SetIn15NoRetry,
    ClearIn15NoRetry,
    /// In 15 set is a retry as in 10, on forbidden 1.
    SetIn15AsIn10,
    /// A move that is none says that it was a retry: go in 11 that reads busy 0,
    /// set in 10 on forbidden 0, clear in 15 on forbidden 1, go in 3, 12 and 18.
    Busy0Retry,
    NewFlagRetry,
    FlagClearedRetry,
    GoIn3Retry,
    GoIn12Retry,
    GoIn18Retry,
    /// A move that shows an event says that it was a retry.
    EventRetry,
    /// A refused move does.
    RefusedRetry,
    /// The answer of another entry has bit 40 set where it is accepted.
    OtherRetry(Entry),
    /// The run counts no retry, all its moves, or each thread's once.
    RunCountsNone,
    RunCountsMoves,
    RunCountsThreads,
    /// The run counts the line that stops it: any by 6 or 7, or hold by 7.
    RunCountsRefused,
    RunCountsRefusedHold,
    /// The run's last retry isn't counted, or only where it is the last move.
    RunWithoutLast,
    RunWithoutLastMove,
    /// A run that a line stops counts nothing.
    RunStoppedCountsNone,
    /// The run counts in 8 bits, or in 11.
    RunCountOf8,
    RunCountOf11,
    /// A run that is refused tells of its retries.
    RunRefusedCounts,
    /// The dispatcher makes a move that is the host's: a call, a leaving, or go or
    /// hold in 4.
    DispatchCallsShared,
    DispatchCallsExclusive,
    DispatchLeavesShared,
    DispatchLeavesExclusive,
    DispatchGoesIn4,
    DispatchHolds,
    /// It makes another retry: relents, reads busy 1, sets a flag that is set, sets
    /// one in 15, clears one that is clear.
    DispatchRelents,
    DispatchReadsBusy1,
    DispatchSetsAgain,
    DispatchSetsIn15,
    DispatchClearsAgain,
    /// It goes in 9 while the mutex is taken, and is refused.
    DispatchGoesIn9,
    /// In 11 it looks at thread 0's busy and not at the target's.
    DispatchBusyOf0,
    /// It is always waiting.
    DispatchWaits,
    /// It is waiting although a thread in this phase has a move, or takes another.
    DispatchSkips(u8),
    /// It does not look at the last of several threads, at those from 128 on, or at
    /// those behind one in 11 that waits.
    DispatchWithoutLast,
    DispatchOf128,
    DispatchStopsAt11,
    /// Of the threads that have a move it takes the highest, the second, or the one
    /// that has the mutex.
    DispatchHighest,
    DispatchSecond,
    DispatchHolderFirst,
    /// It takes a thread in 9 after all others.
    Dispatch9Last,
    /// In 10 the target is the highest thread with forbidden 0, or the writer
    /// itself first; in 15 the highest with forbidden 1.
    DispatchHighestIn10,
    DispatchOwnFirst,
    DispatchHighestIn15,
    /// The target is the lowest behind the writer, where there is one; or as many
    /// threads as there are with the other flag stand before it.
    DispatchBehindWriter,
    DispatchTargetCounted,
    /// A move is answered and the table stays, or two moves are made.
    DispatchWritesNothing,
    DispatchMovesTwice,
    /// The table after a move is another: go in 11 leads to 10 with every flag set
    /// too, the last clear stays in 15, go in 16 and 18 keeps the mutex.
    DispatchBackTo10,
    DispatchStaysIn15,
    DispatchKeepsMutex,
    /// The table is changed where it is waiting: the target, or a reader in 4.
    DispatchWaitingWrites,
    DispatchWaitingTriesAgain,
    /// The answer has another thread: 0, the next one, or one cut to 7 bits.
    DispatchThread0,
    DispatchNextThread,
    DispatchThreadOf7,
    /// The answer's move is always go, or clear is given as set.
    DispatchMove0,
    DispatchClearAsSet,
    /// The answer's target is always 0, or that of the table for go in 11 and 12.
    DispatchTarget0,
    DispatchOldTarget,
    /// The answer has no event, or one for a quiet move, or that of entering for
    /// one of leaving.
    DispatchNoEvent,
    DispatchEventOfQuiet,
    DispatchEnterForLeave,
    /// The answer lacks the 128, or waiting has it.
    DispatchUnmarked,
    DispatchWaitingMarked,
    /// Waiting is refused by 6.
    DispatchWaitingRefused,
    /// A refused table is answered as waiting, with another number or with a place.
    DispatchRefusedWaits,
    DispatchUnsoundAs1,
    DispatchSizeAs2,
    DispatchRefusedPlace,
    /// A refused table is changed.
    DispatchRefusedWrites,
    /// All threads may be in 3, 4 and 18 where the dispatcher is lent the table.
    DispatchWithoutRule,
}

/// The faults but those of the lists below.
pub const OTHERS: [Fault; 106] = [
    Fault::ThreadsCut,
    Fault::ThreadCut,
    Fault::MoveCut,
    Fault::TargetCut,
    Fault::FreshWritesShort,
    Fault::NodesWriteShort,
    Fault::NodesClearTail,
    Fault::PlanClearsTail,
    Fault::RunClearsTail,
    Fault::MutexOfTwo,
    Fault::PhaseCut,
    Fault::FlagsCut,
    Fault::FlagsOfLastCut,
    Fault::BusyOf199Mended,
    Fault::SparesOwnFlag,
    Fault::OwnFlagShut,
    Fault::WritesRefused,
    Fault::WritesNothing,
    Fault::MutexHeldAsPhase,
    Fault::PlaceOfByte,
    Fault::OddHistory,
    Fault::PlanCountsBytes,
    Fault::PlanLastMove,
    Fault::ScriptBound,
    Fault::RunLastByte,
    Fault::HoldOfHeldMutex,
    Fault::HoldRaisesBusy,
    Fault::HoldWithoutMutex,
    Fault::HoldTargetUntested,
    Fault::MutexKept,
    Fault::ForbiddenBesideHold,
    Fault::HoldWithoutHolder,
    Fault::HoldWithTarget,
    Fault::WatchThreadsCut,
    Fault::WatchThreadCut,
    Fault::WatchEventCut,
    Fault::BadStartWrites,
    Fault::StartKeepsPlace,
    Fault::WatchAcceptsAll,
    Fault::WatchTurnsAllDown,
    Fault::WatchWritesRefused,
    Fault::WatchStops,
    Fault::SharedTotalKept,
    Fault::ExclusiveTotalKept,
    Fault::EntriesUntested,
    Fault::TotalsUntested,
    Fault::TwoInExclusive,
    Fault::SharedBesideExclusive,
    Fault::PlaceOfFour,
    Fault::InsideOfShared,
    Fault::InsideOfExclusive,
    Fault::UnknownFirst,
    Fault::InconsistentFirst,
    Fault::WriteThreadsCut,
    Fault::WriteSkipsTriple,
    Fault::WriteLeadingZero,
    Fault::WriteNote,
    Fault::WriteHoldAsRelent,
    Fault::WriteRefusesMoves,
    Fault::WriteMoveFirst,
    Fault::WriteTargetFirst,
    Fault::WriteNextPlace,
    Fault::WritePlaceCut,
    Fault::WriteLengthLast,
    Fault::WriteTooLongFirst,
    Fault::WriteBoundLess,
    Fault::WriteBoundMore,
    Fault::WriteCountsMoves,
    Fault::WriteClearsTail,
    Fault::WriteWritesRefused,
    Fault::ReadFirstLine,
    Fault::ReadRefusesMoves,
    Fault::ReadSkipsLines,
    Fault::ReadLineFromZero,
    Fault::ReadNotesUncounted,
    Fault::ReadOtherThreads,
    Fault::ReadThreeAndFive,
    Fault::ReadTargetFirst,
    Fault::ReadCountsMoves,
    Fault::ReadNotesAsGo,
    Fault::ReadNoLineFeed,
    Fault::ReadThreadsAgain,
    Fault::ReadBoundLess,
    Fault::ReadBoundMore,
    Fault::ReadEmptyAtZero,
    Fault::ReadLongAtOne,
    Fault::ReadRoomFirst,
    Fault::ReadClearsTail,
    Fault::ReadWritesRefused,
    Fault::LengthThreadsCut,
    Fault::LengthOfFinished,
    Fault::LengthZeroForBad,
    Fault::LengthBeforeBad,
    Fault::LengthCountsEvents,
    Fault::LengthCountsBytes,
    Fault::LengthExclusiveLess,
    Fault::LengthSharedOfFour,
    Fault::LengthMixedLess,
    Fault::LengthWraps,
    Fault::LengthProductCut,
    Fault::LengthPlaceZero,
    Fault::LengthPlaceOfByte,
    Fault::LengthPairFirst,
    Fault::LengthFormFirst,
    Fault::LengthBoundLess,
    Fault::LengthBoundMore,
];

/// Faults of the rule that not every thread is in 3, 4 and 18.
pub const OF_RULE: [Fault; 14] = [
    Fault::RuleDropped,
    Fault::MoveWithoutRule,
    Fault::NodesWithoutRule,
    Fault::OpenMovesWithoutRule,
    Fault::RuleWithout3,
    Fault::RuleWithout4,
    Fault::RuleWithout18,
    Fault::RuleOfSome,
    Fault::RuleWithoutFirst,
    Fault::RuleWithoutLast,
    Fault::RuleOf64,
    Fault::RuleUpTo127,
    Fault::RuleTestedLast,
    Fault::BarredCleared,
];

/// Faults of the retry that a move says.
pub const OF_RETRY: [Fault; 18] = [
    Fault::RetryNeverSaid,
    Fault::RetryAlwaysSaid,
    Fault::GoIn4NoRetry,
    Fault::HoldNoRetry,
    Fault::RelentNoRetry,
    Fault::Busy1NoRetry,
    Fault::SetIn10NoRetry,
    Fault::SetIn15NoRetry,
    Fault::ClearIn15NoRetry,
    Fault::SetIn15AsIn10,
    Fault::Busy0Retry,
    Fault::NewFlagRetry,
    Fault::FlagClearedRetry,
    Fault::GoIn3Retry,
    Fault::GoIn12Retry,
    Fault::GoIn18Retry,
    Fault::EventRetry,
    Fault::RefusedRetry,
];

/// Faults of the retries that a run counts.
pub const OF_COUNT: [Fault; 11] = [
    Fault::RunCountsNone,
    Fault::RunCountsMoves,
    Fault::RunCountsThreads,
    Fault::RunCountsRefused,
    Fault::RunCountsRefusedHold,
    Fault::RunWithoutLast,
    Fault::RunWithoutLastMove,
    Fault::RunStoppedCountsNone,
    Fault::RunCountOf8,
    Fault::RunCountOf11,
    Fault::RunRefusedCounts,
];

/// Faults of the dispatcher's turns.
pub const OF_TURNS: [Fault; 59] = [
    Fault::DispatchCallsShared,
    Fault::DispatchCallsExclusive,
    Fault::DispatchLeavesShared,
    Fault::DispatchLeavesExclusive,
    Fault::DispatchGoesIn4,
    Fault::DispatchHolds,
    Fault::DispatchRelents,
    Fault::DispatchReadsBusy1,
    Fault::DispatchSetsAgain,
    Fault::DispatchSetsIn15,
    Fault::DispatchClearsAgain,
    Fault::DispatchGoesIn9,
    Fault::DispatchBusyOf0,
    Fault::DispatchWaits,
    Fault::DispatchSkips(1),
    Fault::DispatchSkips(2),
    Fault::DispatchSkips(3),
    Fault::DispatchSkips(5),
    Fault::DispatchSkips(7),
    Fault::DispatchSkips(8),
    Fault::DispatchSkips(9),
    Fault::DispatchSkips(10),
    Fault::DispatchSkips(11),
    Fault::DispatchSkips(12),
    Fault::DispatchSkips(13),
    Fault::DispatchSkips(15),
    Fault::DispatchSkips(16),
    Fault::DispatchSkips(17),
    Fault::DispatchSkips(18),
    Fault::DispatchWithoutLast,
    Fault::DispatchStopsAt11,
    Fault::DispatchHighest,
    Fault::DispatchSecond,
    Fault::DispatchHolderFirst,
    Fault::Dispatch9Last,
    Fault::DispatchHighestIn10,
    Fault::DispatchOwnFirst,
    Fault::DispatchHighestIn15,
    Fault::DispatchBehindWriter,
    Fault::DispatchTargetCounted,
    Fault::DispatchWritesNothing,
    Fault::DispatchMovesTwice,
    Fault::DispatchBackTo10,
    Fault::DispatchStaysIn15,
    Fault::DispatchKeepsMutex,
    Fault::DispatchWaitingWrites,
    Fault::DispatchWaitingTriesAgain,
    Fault::DispatchThread0,
    Fault::DispatchNextThread,
    Fault::DispatchMove0,
    Fault::DispatchClearAsSet,
    Fault::DispatchTarget0,
    Fault::DispatchOldTarget,
    Fault::DispatchNoEvent,
    Fault::DispatchEventOfQuiet,
    Fault::DispatchEnterForLeave,
    Fault::DispatchUnmarked,
    Fault::DispatchWaitingMarked,
    Fault::DispatchWaitingRefused,
];

/// Faults of its turns that show from 128 threads on.
pub const OF_MANY_TURNS: [Fault; 2] = [Fault::DispatchOf128, Fault::DispatchThreadOf7];

/// Faults of the tables that it turns down.
pub const OF_NO_TURN: [Fault; 6] = [
    Fault::DispatchRefusedWaits,
    Fault::DispatchUnsoundAs1,
    Fault::DispatchSizeAs2,
    Fault::DispatchRefusedPlace,
    Fault::DispatchRefusedWrites,
    Fault::DispatchWithoutRule,
];

/// Entries that make no retry, each with one in its answer.
fn of_other_entries() -> impl Iterator<Item = Fault> {
    let entries = ENTRIES.into_iter().filter(|entry| !entry.makes_retries());
    entries.map(Fault::OtherRetry)
}

/// All of them.
pub fn faults() -> impl Iterator<Item = Fault> {
    OTHERS
        .into_iter()
        .chain(OF_RULE)
        .chain(OF_RETRY)
        .chain(OF_COUNT)
        .chain(OF_TURNS)
        .chain(OF_MANY_TURNS)
        .chain(OF_NO_TURN)
        .chain(of_other_entries())
}

/// The model with a fault.
pub fn faulty(fault: Fault) -> Box<dyn Part> {
    let of_retries = matches!(fault, Fault::OtherRetry(_))
        || OF_RETRY.contains(&fault)
        || OF_COUNT.contains(&fault);
    if of_retries {
        Box::new(Retrying { fault })
    } else {
        Box::new(Faulty::new(fault))
    }
}

/// A line `(T (hold K))` without its target.
fn without_target(line: &[u8]) -> Option<Vec<u8>> {
    let text = std::str::from_utf8(line).ok()?;
    let (thread, target) = text.strip_suffix("))")?.split_once(" (hold ")?;
    target.parse::<u8>().ok()?;
    Some(format!("{thread} (hold))").into_bytes())
}

/// Puts one thread from a place to another. Gives how many were put there.
fn replace_one(places: &mut [u8], from: u8, to: u8) -> u8 {
    match places.iter_mut().find(|place| **place == from) {
        Some(place) => {
            *place = to;
            1
        }
        None => 0,
    }
}

struct Faulty {
    fault: Fault,
    /// Whether the watch has stopped.
    stopped: Cell<bool>,
}

impl Faulty {
    fn new(fault: Fault) -> Faulty {
        Faulty {
            fault,
            stopped: Cell::new(false),
        }
    }

    fn has(&self, fault: Fault) -> bool {
        self.fault == fault
    }

    fn cut(&self, fault: Fault, number: u16) -> u16 {
        if self.has(fault) {
            number & 255
        } else {
            number
        }
    }

    /// The record that the watcher's test takes this one for.
    fn judged_record(&self, record: &Record) -> Record {
        let mut judged = *record;
        let threads = usize::from(record[0]).min(MAX_THREADS);
        let [_, shared, exclusive, places @ ..] = &mut judged;
        match (self.fault, *shared, *exclusive) {
            (Fault::EntriesUntested, ..) => places[threads..].fill(0),
            (Fault::TotalsUntested, ..) => count_again(&mut judged),
            (Fault::TwoInExclusive, _, 2) => *exclusive -= replace_one(places, 6, 7),
            (Fault::SharedBesideExclusive, 1, 1) => *shared -= replace_one(places, 2, 3),
            (Fault::PlaceOfFour, ..) => places
                .iter_mut()
                .filter(|place| **place == 4)
                .for_each(|place| *place = 3),
            _ => (),
        }
        judged
    }

    /// Whether a record's bad N is passed over, since the rest is inconsistent.
    fn inconsistent_first(&self, record: &Record) -> bool {
        let mut rest = *record;
        rest[0] = MAX_THREADS as u8;
        self.has(Fault::InconsistentFirst) && number_of(Model.watch_inside(&rest)) == 13
    }

    /// Clears what follows an accepted output of `size` bytes.
    fn clear_tail(&self, fault: Fault, answer: u64, size: u64, out: &mut [u8]) {
        if self.has(fault) && number_of(answer) == 0 {
            out[size as usize..].fill(0);
        }
    }
}

impl Part for Faulty {
    fn fresh(&self, threads: u16, out: &mut [u8]) -> u64 {
        let answer = Model.fresh(self.cut(Fault::ThreadsCut, threads), out);
        if self.has(Fault::FreshWritesShort) && number_of(answer) == 12 {
            out.fill(0);
        }
        answer
    }

    fn make_move(&self, table: &mut [u8], thread: u16, mov: u16, target: u16) -> u64 {
        let before = table.to_vec();
        let thread = self.cut(Fault::ThreadCut, thread);
        let mov = self.cut(Fault::MoveCut, mov);
        let mut target = self.cut(Fault::TargetCut, target);
        if self.has(Fault::HoldTargetUntested) && mov == HOLD {
            target = 0;
        }
        table.copy_from_slice(&judged(self.fault, Entry::Move, &before));
        let answer = Model.make_move(table, thread, mov, target);
        let refusal = number_of(answer);
        if refusal != 0 {
            table.copy_from_slice(&before);
        }
        let accepted = |made: u16| refusal == 0 && mov == made;
        let at = 3 + 3 * usize::from(thread);
        match self.fault {
            Fault::WritesNothing => table.copy_from_slice(&before),
            Fault::WritesRefused if refusal > 2 => table[1] ^= 1,
            Fault::BarredCleared if refusal == 2 && all_back_off(&before) => table[3..].fill(0),
            Fault::RuleTestedLast if refusal == 2 && all_back_off(&before) => {
                let other = Model.make_move(&mut passing(&before), thread, mov, target);
                if number_of(other) != 0 {
                    return other;
                }
            }
            Fault::MutexHeldAsPhase if refusal == 7 => return refused(6, 0),
            Fault::SparesOwnFlag if accepted(SET) && thread == target => {
                table[at + 2] = before[at + 2];
            }
            Fault::HoldOfHeldMutex if refusal == 7 && mov == HOLD => {
                table[at] = READER_HOLDS;
                return done(0);
            }
            Fault::HoldRaisesBusy if accepted(HOLD) => table[at + 1] = 1,
            Fault::HoldWithoutMutex if accepted(HOLD) => table[1] = 0,
            Fault::MutexKept if accepted(GO) && before[at] == READER_HOLDS => table[1] = 1,
            _ => (),
        }
        answer
    }

    fn dispatch(&self, table: &mut [u8]) -> u64 {
        dispatch_faults::turn(self.fault, table)
    }

    fn nodes(&self, table: &[u8], out: &mut [u8]) -> u64 {
        let answer = Model.nodes(&judged(self.fault, Entry::Nodes, table), out);
        if self.has(Fault::NodesWriteShort) && number_of(answer) == 12 {
            out.fill(0);
        }
        self.clear_tail(Fault::NodesClearTail, answer, value_of(answer), out);
        answer
    }

    fn open_moves(&self, table: &[u8], thread: u16, out: &mut [u8]) -> u64 {
        let answer = Model.open_moves(&judged(self.fault, Entry::OpenMoves, table), thread, out);
        let own = [SET as u8, thread as u8];
        if self.has(Fault::OwnFlagShut) && number_of(answer) == 0 && out.starts_with(&own) {
            return done(value_of(answer) - 2);
        }
        answer
    }

    fn check(&self, threads: u16, history: &[u8]) -> u64 {
        let even = history.len() - history.len() % 2;
        let history = if self.has(Fault::OddHistory) {
            &history[..even]
        } else {
            history
        };
        let answer = Model.check(threads, history);
        if self.has(Fault::PlaceOfByte) && number_of(answer) != 0 {
            return refused(u64::from(number_of(answer)), 2 * value_of(answer));
        }
        answer
    }

    fn plan(&self, threads: u16, history: &[u8], out: &mut [u8]) -> u64 {
        let answer = Model.plan(threads, history, out);
        let size = 3 * value_of(answer);
        self.clear_tail(Fault::PlanClearsTail, answer, size, out);
        if number_of(answer) == 0 && size > 0 {
            if self.has(Fault::PlanLastMove) {
                out[size as usize - 1] ^= 1;
            }
            if self.has(Fault::PlanCountsBytes) {
                return done(size);
            }
        }
        answer
    }

    fn plan_length(&self, threads: u16, history: &[u8]) -> u64 {
        let threads = self.cut(Fault::LengthThreadsCut, threads);
        length_faults::length(self.fault, threads, history)
    }

    fn run(&self, script: &[u8], out: &mut [u8]) -> u64 {
        if self.has(Fault::ScriptBound) && script.len() == 30_000 {
            return refused(8, 0);
        }
        let answer = if self.has(Fault::HoldWithTarget) {
            Model.run(&scripts::map_lines(script, without_target), out)
        } else {
            Model.run(script, out)
        };
        self.clear_tail(Fault::RunClearsTail, answer, value_of(answer), out);
        if self.has(Fault::RunLastByte) && number_of(answer) == 0 {
            out[value_of(answer) as usize - 1] = b' ';
        }
        answer
    }

    fn watch_start(&self, threads: u16, record: &mut Record) -> u64 {
        let before = *record;
        let answer = Model.watch_start(self.cut(Fault::WatchThreadsCut, threads), record);
        self.stopped.set(false);
        match self.fault {
            Fault::BadStartWrites if number_of(answer) != 0 => record.fill(0),
            Fault::StartKeepsPlace if number_of(answer) == 0 => {
                let last = PLACES + usize::from(record[0]) - 1;
                record[last] = before[last];
            }
            _ => (),
        }
        answer
    }

    fn watch_event(&self, record: &mut Record, thread: u16, event: u16) -> u64 {
        let before = *record;
        if self.stopped.get() {
            return done(0);
        }
        let thread = self.cut(Fault::WatchThreadCut, thread);
        let event = self.cut(Fault::WatchEventCut, event);
        *record = self.judged_record(&before);
        let answer = Model.watch_event(record, thread, event);
        let refusal = number_of(answer);
        if refusal != 0 {
            *record = before;
        }
        let bad = (9..=11).contains(&refusal);
        let known = thread < u16::from(before[0]) && (1..=8).contains(&event);
        let accepted = |made: u16| refusal == 0 && event == made;
        match self.fault {
            Fault::WatchAcceptsAll => return done(0),
            Fault::WatchTurnsAllDown if refusal == 0 => {
                *record = before;
                return refused(10, 0);
            }
            Fault::WatchWritesRefused if bad && known => {
                record[PLACES + usize::from(thread)] = event as u8;
            }
            Fault::WatchStops => self.stopped.set(bad),
            Fault::SharedTotalKept if accepted(3) => record[SHARED_TOTAL] = before[SHARED_TOTAL],
            Fault::ExclusiveTotalKept if accepted(7) => {
                record[EXCLUSIVE_TOTAL] = before[EXCLUSIVE_TOTAL]
            }
            Fault::UnknownFirst if refusal == 13 && !known => return refused(9, 0),
            _ if refusal == 1 && self.inconsistent_first(&before) => return refused(13, 0),
            _ => (),
        }
        answer
    }

    fn watch_inside(&self, record: &Record) -> u64 {
        let answer = Model.watch_inside(&self.judged_record(record));
        match (self.fault, number_of(answer)) {
            (Fault::InsideOfShared, 0) => done(u64::from(record[SHARED_TOTAL] > 0)),
            (Fault::InsideOfExclusive, 0) => done(u64::from(record[EXCLUSIVE_TOTAL] > 0)),
            (_, 1) if self.inconsistent_first(record) => refused(13, 0),
            _ => answer,
        }
    }

    fn write_script(&self, threads: u16, triples: &[u8], out: &mut [u8]) -> u64 {
        let threads = self.cut(Fault::WriteThreadsCut, threads);
        script_faults::write(self.fault, threads, triples, out)
    }

    fn read_script(&self, script: &[u8], out: &mut [u8]) -> u64 {
        script_faults::read(self.fault, script, out)
    }
}
