//! Moves, events, nodes and refusals, with their numbers.

use core::error::Error;
use core::fmt;

/// A move of a thread. Which moves a thread has depends on its phase; see
/// [`open_moves`](crate::open_moves). A minor version may add a move.
#[derive(Clone, Copy, Debug, PartialEq, Eq, Hash)]
#[non_exhaustive]
pub enum Move {
    /// The thread's next step.
    Go,
    /// Asks for the shared section. Phase 0.
    CallShared,
    /// Asks for the exclusive section. Phase 0.
    CallExclusive,
    /// Sets a thread's forbidden flag. Phases 10 and 15.
    Set(u16),
    /// Clears a thread's forbidden flag. Phase 15.
    Clear(u16),
    /// Gives the target up before its busy flag is read. Phase 11.
    Relent,
    /// A reader takes the mutex before it starts again. Phase 4.
    Hold,
}

impl Move {
    /// The move's number and its target, 0 for a move without one.
    pub const fn numbers(self) -> (u16, u16) {
        match self {
            Move::Go => (0, 0),
            Move::CallShared => (1, 0),
            Move::CallExclusive => (2, 0),
            Move::Set(target) => (3, target),
            Move::Clear(target) => (4, target),
            Move::Relent => (5, 0),
            Move::Hold => (6, 0),
        }
    }

    /// The move of a number and a target, as plans and open moves give them.
    ///
    /// None for a number above 6, and for a target where the move takes none.
    pub const fn from_numbers(number: u16, target: u16) -> Option<Move> {
        match (number, target) {
            (0, 0) => Some(Move::Go),
            (1, 0) => Some(Move::CallShared),
            (2, 0) => Some(Move::CallExclusive),
            (3, target) => Some(Move::Set(target)),
            (4, target) => Some(Move::Clear(target)),
            (5, 0) => Some(Move::Relent),
            (6, 0) => Some(Move::Hold),
            _ => None,
        }
    }
}

/// An event that a move shows. Its code is `event as u8`.
#[derive(Clone, Copy, Debug, PartialEq, Eq, Hash, PartialOrd, Ord)]
#[repr(u8)]
pub enum Event {
    /// The thread has asked for the shared section.
    EnterSharedCall = 1,
    /// The thread is in the shared section.
    EnterSharedReturn = 2,
    /// The thread is no longer in the shared section.
    LeaveSharedCall = 3,
    /// The thread is free again.
    LeaveSharedReturn = 4,
    /// The thread has asked for the exclusive section.
    EnterExclusiveCall = 5,
    /// The thread is in the exclusive section.
    EnterExclusiveReturn = 6,
    /// The thread is no longer in the exclusive section.
    LeaveExclusiveCall = 7,
    /// The thread is free again.
    LeaveExclusiveReturn = 8,
}

impl Event {
    /// All events, in the order of their codes, 1 to 8.
    pub const ALL: [Event; 8] = [
        Event::EnterSharedCall,
        Event::EnterSharedReturn,
        Event::LeaveSharedCall,
        Event::LeaveSharedReturn,
        Event::EnterExclusiveCall,
        Event::EnterExclusiveReturn,
        Event::LeaveExclusiveCall,
        Event::LeaveExclusiveReturn,
    ];

    /// The event of a code, none outside 1 to 8.
    pub const fn from_code(code: u8) -> Option<Event> {
        match code {
            1..=8 => Some(Event::ALL[code as usize - 1]),
            _ => None,
        }
    }
}

/// The event's name, as [`run`](crate::run) prints it.
impl fmt::Display for Event {
    fn fmt(&self, f: &mut fmt::Formatter) -> fmt::Result {
        f.write_str(match self {
            Event::EnterSharedCall => "enter shared call",
            Event::EnterSharedReturn => "enter shared return",
            Event::LeaveSharedCall => "leave shared call",
            Event::LeaveSharedReturn => "leave shared return",
            Event::EnterExclusiveCall => "enter exclusive call",
            Event::EnterExclusiveReturn => "enter exclusive return",
            Event::LeaveExclusiveCall => "leave exclusive call",
            Event::LeaveExclusiveReturn => "leave exclusive return",
        })
    }
}

/// Where a thread is in the lock. Its code is `node as u8`.
#[derive(Clone, Copy, Debug, PartialEq, Eq, Hash, PartialOrd, Ord)]
#[repr(u8)]
pub enum Node {
    /// Phase 0: outside the lock.
    Free = 0,
    /// Phases 1 to 4 and 18: entering shared.
    Es = 1,
    /// Phase 5: let in to shared.
    Loe = 2,
    /// Phase 6: in the shared section.
    Shared = 3,
    /// Phases 7 and 8: leaving shared.
    Ls = 4,
    /// Phase 9: entering exclusive, before the mutex.
    Ee = 5,
    /// Phases 10 to 12: setting all forbidden flags.
    Saf = 6,
    /// Phase 13: let in to exclusive.
    Los = 7,
    /// Phase 14: in the exclusive section.
    Exclusive = 8,
    /// Phase 15: leaving exclusive, clearing the flags.
    Le = 9,
    /// Phases 16 and 17: out of exclusive.
    Oe = 10,
}

impl Node {
    /// All nodes, in the order of their codes, 0 to 10.
    pub const ALL: [Node; 11] = [
        Node::Free,
        Node::Es,
        Node::Loe,
        Node::Shared,
        Node::Ls,
        Node::Ee,
        Node::Saf,
        Node::Los,
        Node::Exclusive,
        Node::Le,
        Node::Oe,
    ];

    /// The node of a code, none above 10.
    pub const fn from_code(code: u8) -> Option<Node> {
        match code {
            0..=10 => Some(Node::ALL[code as usize]),
            _ => None,
        }
    }
}

/// What a thread does next in the lock, by its phase. Its number is
/// `phase as u8`. A minor version may add a phase.
#[derive(Clone, Copy, Debug, PartialEq, Eq, Hash, PartialOrd, Ord)]
#[repr(u8)]
#[non_exhaustive]
pub enum Phase {
    /// Nothing: it is outside the lock.
    Free = 0,
    /// A reader raises its busy flag.
    RaiseBusy = 1,
    /// It reads its forbidden flag.
    ReadForbidden = 2,
    /// It found 1 there, and lowers busy.
    BackOff = 3,
    /// It starts again (go), or takes the mutex first (hold).
    TryAgain = 4,
    /// It found 0 there: its return is shown.
    EnterShared = 5,
    /// It reads the settings, then leaves.
    InShared = 6,
    /// It lowers busy.
    LowerBusy = 7,
    /// Its return is shown.
    LeaveShared = 8,
    /// A writer takes the mutex.
    TakeMutex = 9,
    /// It sets a forbidden flag.
    SetFlag = 10,
    /// It reads that thread's busy flag.
    ReadBusy = 11,
    /// It found 1 there, and clears the flag.
    TakeBack = 12,
    /// Every flag is set: its return is shown.
    EnterExclusive = 13,
    /// It writes the settings, then leaves.
    InExclusive = 14,
    /// It clears the flags.
    ClearFlags = 15,
    /// It lets the mutex go.
    LetMutexGo = 16,
    /// Its return is shown.
    LeaveExclusive = 17,
    /// A reader gives the mutex back and starts again.
    HoldMutex = 18,
}

impl Phase {
    /// All phases, in the order of their numbers, 0 to 18.
    pub const ALL: [Phase; 19] = [
        Phase::Free,
        Phase::RaiseBusy,
        Phase::ReadForbidden,
        Phase::BackOff,
        Phase::TryAgain,
        Phase::EnterShared,
        Phase::InShared,
        Phase::LowerBusy,
        Phase::LeaveShared,
        Phase::TakeMutex,
        Phase::SetFlag,
        Phase::ReadBusy,
        Phase::TakeBack,
        Phase::EnterExclusive,
        Phase::InExclusive,
        Phase::ClearFlags,
        Phase::LetMutexGo,
        Phase::LeaveExclusive,
        Phase::HoldMutex,
    ];

    /// The phase of a number, none above 18.
    pub const fn from_number(number: u8) -> Option<Phase> {
        match number {
            0..=18 => Some(Phase::ALL[number as usize]),
            _ => None,
        }
    }
}

/// Why a request was turned down. Its number is `refusal as u8`. A request is
/// tested in the order of the numbers, but for [`Refusal::Inconsistent`], which
/// is tested after [`Refusal::BadSize`] and before [`Refusal::UnknownPair`], and
/// for a list of moves or a script that is written or read, whose order
/// `write_script` and `read_script` give. A minor version may add a refusal.
#[derive(Clone, Copy, Debug, PartialEq, Eq, Hash, PartialOrd, Ord)]
#[repr(u8)]
#[non_exhaustive]
pub enum Refusal {
    /// The number of threads is 0 or above 200, or the table isn't
    /// [`table_size`](crate::table_size) bytes.
    BadSize = 1,
    /// The table isn't sound: no list of moves leaves it from a fresh table.
    /// Every other table of the right size is left by some.
    Unsound = 2,
    /// The thread number isn't below the number of threads.
    NoThread = 3,
    /// There is no such move. [`Move`] has only moves that there are; a list of
    /// triples may have others.
    NoMove = 4,
    /// The target isn't a thread.
    BadTarget = 5,
    /// The thread's phase has no such move.
    NotInPhase = 6,
    /// The thread would take the mutex, and another holds it: try again later.
    MutexHeld = 7,
    /// The history has an odd length or is too long; the script is too long, or
    /// a line that is read has a bad form; the list of moves isn't whole triples,
    /// or spells a script that is too long.
    BadForm = 8,
    /// A pair's event isn't 1 to 8, or its thread isn't below the number of
    /// threads.
    UnknownPair = 9,
    /// The event isn't its thread's next.
    NotNext = 10,
    /// The event needs an empty section that isn't empty.
    Occupied = 11,
    /// The output is shorter than what would be written.
    NoRoom = 12,
    /// The record of a [`Watcher`](crate::Watcher) isn't consistent: no watch
    /// leads to it.
    Inconsistent = 13,
}

impl Refusal {
    /// All refusals, in the order of their numbers, 1 to 13.
    pub const ALL: [Refusal; 13] = [
        Refusal::BadSize,
        Refusal::Unsound,
        Refusal::NoThread,
        Refusal::NoMove,
        Refusal::BadTarget,
        Refusal::NotInPhase,
        Refusal::MutexHeld,
        Refusal::BadForm,
        Refusal::UnknownPair,
        Refusal::NotNext,
        Refusal::Occupied,
        Refusal::NoRoom,
        Refusal::Inconsistent,
    ];

    /// The refusal of a number, none outside 1 to 13.
    pub const fn from_number(number: u8) -> Option<Refusal> {
        match number {
            1..=13 => Some(Refusal::ALL[number as usize - 1]),
            _ => None,
        }
    }
}

impl fmt::Display for Refusal {
    fn fmt(&self, f: &mut fmt::Formatter) -> fmt::Result {
        f.write_str(match self {
            Refusal::BadSize => "bad number of threads or table size",
            Refusal::Unsound => "unsound table",
            Refusal::NoThread => "no such thread",
            Refusal::NoMove => "no such move",
            Refusal::BadTarget => "bad target",
            Refusal::NotInPhase => "the thread's phase has no such move",
            Refusal::MutexHeld => "mutex held",
            Refusal::BadForm => "bad form or length",
            Refusal::UnknownPair => "unknown event or thread",
            Refusal::NotNext => "not the thread's next event",
            Refusal::Occupied => "section occupied",
            Refusal::NoRoom => "output too short",
            Refusal::Inconsistent => "inconsistent watcher",
        })
    }
}

impl Error for Refusal {}

/// A refused history, list of moves or script: why, and where.
#[derive(Clone, Copy, Debug, PartialEq, Eq, Hash)]
pub struct Rejected {
    /// Why it was turned down.
    pub refusal: Refusal,
    /// Of a history, the index of the first bad pair for
    /// [`Refusal::UnknownPair`], [`Refusal::NotNext`] and [`Refusal::Occupied`].
    /// Of a list of moves, the index of the first bad triple for
    /// [`Refusal::NoThread`], [`Refusal::NoMove`] and [`Refusal::BadTarget`]. Of
    /// a script, the first bad line, from 1, unless it is too long or the output
    /// too short. Else 0.
    pub place: usize,
}

impl fmt::Display for Rejected {
    fn fmt(&self, f: &mut fmt::Formatter) -> fmt::Result {
        write!(f, "{}, at place {}", self.refusal, self.place)
    }
}

impl Error for Rejected {}

/// What an accepted move answers.
#[derive(Clone, Copy, Debug, PartialEq, Eq, Hash)]
pub enum Outcome {
    /// The move shows an event.
    Shown(Event),
    /// The move shows nothing.
    Quiet,
}

/// What an accepted move answers, with whether it was a retry.
#[derive(Clone, Copy, Debug, PartialEq, Eq, Hash)]
pub struct MoveAnswer {
    /// The event that it shows, if it does.
    pub outcome: Outcome,
    /// Whether it was a retry, which shows nothing: go or hold in
    /// [`Phase::TryAgain`]; relent; go in [`Phase::ReadBusy`] that reads busy
    /// 1; set in [`Phase::SetFlag`] on a thread with forbidden 1; any set in
    /// [`Phase::ClearFlags`]; clear there on a thread with forbidden 0.
    pub retry: bool,
}
