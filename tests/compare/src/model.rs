//! Every entry of the part in plain Rust over slices: the table and its moves,
//! the dispatcher, the nodes, the open moves, histories, plans and their lengths,
//! scripts and the watcher. The entries that write and read a script stand in
//! `spelling.rs`.
//!
//! It shares no code with the part. It makes the same tests in the same order,
//! and judges a table or a watcher's record in one pass over its threads. Its
//! entries are not inlined: a benchmark then calls them as it calls the
//! archive's.

/// The largest number of threads.
pub const MAX_THREADS: usize = 200;
/// The target byte of a table without a target.
pub const NO_TARGET: u8 = 255;
/// The longest history, in bytes.
pub const MAX_HISTORY: usize = 60_000;
/// The longest script, in bytes.
pub const MAX_SCRIPT: usize = 30_000;
/// A room in which the output of every run fits, in bytes.
pub const RUN_ROOM: usize = 65_536;
/// The deepest bracket of a note's text; the note's own is not counted.
const MAX_DEPTH: usize = 16;

pub const GO: u16 = 0;
pub const CALL_SHARED: u16 = 1;
pub const CALL_EXCLUSIVE: u16 = 2;
pub const SET: u16 = 3;
pub const CLEAR: u16 = 4;
pub const RELENT: u16 = 5;
pub const HOLD: u16 = 6;
/// The move with the largest number.
pub const LAST_MOVE: u16 = HOLD;

/// The phase in which a reader holds the mutex.
pub const READER_HOLDS: u8 = 18;
/// The phase with the largest number.
pub const LAST_PHASE: u8 = READER_HOLDS;
/// The phases of the holder, the thread that has the mutex.
pub const HOLDER_PHASES: [u8; 8] = [10, 11, 12, 13, 14, 15, 16, READER_HOLDS];

/// Whether a thread in this phase is the holder.
pub const fn is_holder(phase: u8) -> bool {
    let mut i = 0;
    while i < HOLDER_PHASES.len() {
        if HOLDER_PHASES[i] == phase {
            return true;
        }
        i += 1;
    }
    false
}

/// Whether a reader in this phase backs off from another thread's writing.
pub const fn backs_off(phase: u8) -> bool {
    matches!(phase, 3 | 4 | READER_HOLDS)
}

/// Whether a move's target is a thread. Any other move's is 0.
pub const fn takes_target(mov: u16) -> bool {
    mov == SET || mov == CLEAR
}

/// The refusals, by their numbers, in checking order; but 13 is tested after 1
/// and before 9, and a list's length (8) before its triples (3, 4, 5).
#[derive(Clone, Copy, PartialEq, Eq, Debug)]
pub enum Refusal {
    BadSize = 1,
    Unsound = 2,
    NoThread = 3,
    NoMove = 4,
    BadTarget = 5,
    NotInPhase = 6,
    MutexHeld = 7,
    BadForm = 8,
    UnknownPair = 9,
    NotNext = 10,
    Occupied = 11,
    NoRoom = 12,
    Inconsistent = 13,
}

/// What a move answers. A shown event is given by its code. A retry shows none.
#[derive(Clone, Copy, PartialEq, Eq, Debug)]
pub enum Outcome {
    Shown(u8),
    Quiet,
    Retry,
    Refused(Refusal),
}

/// What every other entry answers: a number, or a refusal and its place.
#[derive(Clone, Copy, PartialEq, Eq, Debug)]
pub enum Answer {
    Done(usize),
    Refused(Refusal, usize),
}

fn refused(refusal: Refusal) -> Answer {
    Answer::Refused(refusal, 0)
}

/// The number of bytes of a table.
pub fn table_size(threads: usize) -> usize {
    3 + 3 * threads
}

/// Where a thread's phase stands; busy and forbidden follow it.
fn place_of(thread: usize) -> usize {
    3 + 3 * thread
}

// ---------------------------------------------------------------- the table

/// Writes the fresh table of `threads` threads.
#[inline(never)]
pub fn fresh(threads: u16, out: &mut [u8]) -> Answer {
    let threads = usize::from(threads);
    if threads == 0 || threads > MAX_THREADS {
        return refused(Refusal::BadSize);
    }
    let size = table_size(threads);
    if out.len() < size {
        return refused(Refusal::NoRoom);
    }
    start(threads, &mut out[..size]);
    Answer::Done(size)
}

/// Fills a slice of the table's size with the fresh table.
fn start(threads: usize, table: &mut [u8]) {
    table.fill(0);
    table[0] = threads as u8;
    table[2] = NO_TARGET;
}

// Fields of a tally: counts of up to 200 threads, 8 bits each, and in the bits
// above them a sum of phases.
const HOLDERS: u32 = 0; // threads in a holder's phase
const UNKNOWN: u32 = 8; // threads in no phase
const FORBIDDEN: u32 = 16; // threads with forbidden 1
const BARRED: u32 = 24; // threads with forbidden 1 that are in 5 to 7
const BACKING_OFF: u32 = 32; // threads in 3, 4 and 18
const PHASES: u32 = 40; // the sum of the holders' phases

fn count(tally: u64, field: u32) -> usize {
    (tally >> field & 0xff) as usize
}

/// What a thread adds to the tally, by its phase and its forbidden.
const ROWS: [[u64; 2]; 256] = {
    let mut rows = [[0; 2]; 256];
    let mut phase = 0;
    while phase < 256 {
        let mut row = 0;
        if is_holder(phase as u8) {
            row = 1 << HOLDERS | (phase as u64) << PHASES;
        }
        if backs_off(phase as u8) {
            row |= 1 << BACKING_OFF;
        }
        if phase > LAST_PHASE as usize {
            row = 1 << UNKNOWN;
        }
        let inside = phase >= 5 && phase <= 7;
        rows[phase] = [row, row | 1 << FORBIDDEN | (inside as u64) << BARRED];
        phase += 1;
    }
    rows
};

/// The busy byte of each phase.
const BUSY: [u8; 256] = {
    let mut busy = [0; 256];
    busy[2] = 1;
    busy[3] = 1;
    busy[5] = 1;
    busy[6] = 1;
    busy[7] = 1;
    busy
};

/// What the test of a table finds out for the move.
#[derive(Clone, Copy)]
struct Survey {
    threads: usize,
    /// How many threads have forbidden 1.
    forbidden: usize,
}

/// Refusals 1 and 2: the table's size, then its soundness.
fn survey(table: &[u8]) -> Result<Survey, Refusal> {
    let threads = match table.first() {
        Some(&n) => usize::from(n),
        None => return Err(Refusal::BadSize),
    };
    if threads == 0 || threads > MAX_THREADS || table.len() != table_size(threads) {
        return Err(Refusal::BadSize);
    }
    let mut tally = 0;
    let mut wrong = 0;
    for thread in table[3..].chunks_exact(3) {
        let (phase, busy, forbidden) = (thread[0], thread[1], thread[2]);
        tally += ROWS[usize::from(phase)][usize::from(forbidden & 1)];
        wrong |= (busy ^ BUSY[usize::from(phase)]) | (forbidden >> 1);
    }
    if wrong != 0 || !agrees(table, threads, tally) {
        return Err(Refusal::Unsound);
    }
    let forbidden = count(tally, FORBIDDEN);
    Ok(Survey { threads, forbidden })
}

/// The rules of soundness that speak of more than one thread.
fn agrees(table: &[u8], threads: usize, tally: u64) -> bool {
    let holders = count(tally, HOLDERS);
    if count(tally, UNKNOWN) != 0 || holders > 1 || usize::from(table[1]) != holders {
        return false;
    }
    // Not every thread is in 3, 4 and 18.
    if count(tally, BACKING_OFF) == threads {
        return false;
    }
    let holder = tally >> PHASES;
    let (forbidden, barred) = (count(tally, FORBIDDEN), count(tally, BARRED));
    let target = usize::from(table[2]);
    if holder == 11 || holder == 12 {
        if target >= threads {
            return false;
        }
        let at = place_of(target);
        let inside = usize::from(matches!(table[at], 5..=7));
        return table[at + 2] == 1 && barred == inside;
    }
    table[2] == NO_TARGET
        && match holder {
            10 => forbidden < threads && barred == 0,
            13 | 14 => forbidden == threads && barred == 0,
            15 => forbidden > 0,
            // none, 16 and 18
            _ => forbidden == 0,
        }
}

// ---------------------------------------------------------------- the moves

/// Tests a request and makes the move.
#[inline(never)]
pub fn make_move(table: &mut [u8], thread: u16, mov: u16, target: u16) -> Outcome {
    let Survey {
        threads,
        mut forbidden,
    } = match survey(table) {
        Ok(found) => found,
        Err(refusal) => return Outcome::Refused(refusal),
    };
    let (thread, target) = (usize::from(thread), usize::from(target));
    if thread >= threads {
        return Outcome::Refused(Refusal::NoThread);
    }
    if mov > LAST_MOVE {
        return Outcome::Refused(Refusal::NoMove);
    }
    if target >= targets(mov, threads) {
        return Outcome::Refused(Refusal::BadTarget);
    }
    apply(table, threads, &mut forbidden, thread, mov, target)
}

/// The number of targets that a move can have, from 0 upward.
pub(crate) fn targets(mov: u16, threads: usize) -> usize {
    if takes_target(mov) {
        threads
    } else {
        1
    }
}

/// Makes a move on a sound table for a thread, a move and a target in range.
/// `forbidden` is the number of threads with forbidden 1, before and after.
fn apply(
    table: &mut [u8],
    threads: usize,
    forbidden: &mut usize,
    thread: usize,
    mov: u16,
    target: usize,
) -> Outcome {
    let at = place_of(thread);
    let before = (table[at], *forbidden);
    match step(table, threads, forbidden, at, mov, target) {
        Outcome::Quiet if was_retry(before, (table[at], *forbidden)) => Outcome::Retry,
        outcome => outcome,
    }
}

/// Whether a quiet move was a retry, by the mover's phase and the number of
/// threads with forbidden 1, before it and after it. Phase 4 is left by retries
/// alone, and 12 is entered by retries alone. In 10 a new flag must be set, in
/// 15 a flag must be cleared.
fn was_retry((phase, flags): (u8, usize), (next, flags_after): (u8, usize)) -> bool {
    match phase {
        4 => true,
        10 => flags_after == flags,
        15 => flags_after >= flags,
        _ => next == 12,
    }
}

/// Makes a move of the thread whose phase stands at `at`.
fn step(
    table: &mut [u8],
    threads: usize,
    forbidden: &mut usize,
    at: usize,
    mov: u16,
    target: usize,
) -> Outcome {
    let flag = place_of(target) + 2;
    match (mov, table[at]) {
        (GO, _) => return go(table, threads, forbidden, at),
        (CALL_SHARED, 0) => return shown(table, at, 1, 1),
        (CALL_EXCLUSIVE, 0) => return shown(table, at, 9, 5),
        (SET, 10) => {
            *forbidden += usize::from(table[flag] == 0);
            table[flag] = 1;
            table[2] = target as u8;
            table[at] = 11;
        }
        (SET, 15) => {
            *forbidden += usize::from(table[flag] == 0);
            table[flag] = 1;
        }
        (CLEAR, 15) => {
            *forbidden -= usize::from(table[flag] == 1);
            table[flag] = 0;
            if *forbidden == 0 {
                table[at] = 16;
            }
        }
        (RELENT, 11) => table[at] = 12,
        (HOLD, 4) if table[1] == 1 => return Outcome::Refused(Refusal::MutexHeld),
        (HOLD, 4) => (table[at], table[1]) = (READER_HOLDS, 1),
        _ => return Outcome::Refused(Refusal::NotInPhase),
    }
    Outcome::Quiet
}

fn shown(table: &mut [u8], at: usize, phase: u8, event: u8) -> Outcome {
    table[at] = phase;
    Outcome::Shown(event)
}

/// The move go for the thread whose phase stands at `at`.
fn go(table: &mut [u8], threads: usize, forbidden: &mut usize, at: usize) -> Outcome {
    match table[at] {
        1 => (table[at], table[at + 1]) = (2, 1),
        2 => table[at] = if table[at + 2] == 0 { 5 } else { 3 },
        3 => (table[at], table[at + 1]) = (4, 0),
        4 => table[at] = 1,
        5 => return shown(table, at, 6, 2),
        6 => return shown(table, at, 7, 3),
        7 => (table[at], table[at + 1]) = (8, 0),
        8 => return shown(table, at, 0, 4),
        9 if table[1] == 1 => return Outcome::Refused(Refusal::MutexHeld),
        9 => (table[at], table[1]) = (10, 1),
        11 if table[place_of(usize::from(table[2])) + 1] == 1 => table[at] = 12,
        11 => {
            table[2] = NO_TARGET;
            table[at] = if *forbidden == threads { 13 } else { 10 };
        }
        12 => {
            table[place_of(usize::from(table[2])) + 2] = 0;
            table[2] = NO_TARGET;
            table[at] = 10;
            *forbidden -= 1;
        }
        13 => return shown(table, at, 14, 6),
        14 => return shown(table, at, 15, 7),
        16 => (table[at], table[1]) = (17, 0),
        17 => return shown(table, at, 0, 8),
        READER_HOLDS => (table[at], table[1]) = (1, 0),
        _ => return Outcome::Refused(Refusal::NotInPhase),
    }
    Outcome::Quiet
}

// ------------------------------------------------------------ the dispatcher

/// What the dispatcher answers: the thread, move and target of the move that it
/// made, and the event that this shows, 0 for none.
#[derive(Clone, Copy, PartialEq, Eq, Debug)]
pub enum Turn {
    Moved { request: [u16; 3], event: u8 },
    Waiting,
    Refused(Refusal),
}

/// A set of phases, a bit each.
const fn set_of(phases: &[u8]) -> u32 {
    let mut set = 0;
    let mut i = 0;
    while i < phases.len() {
        set |= 1 << phases[i];
        i += 1;
    }
    set
}

/// The phases in which a thread has a move that is no call, no retry and no
/// leaving, wherever the others are.
const ALWAYS_MOVES: u32 = set_of(&[1, 2, 3, 5, 7, 8, 10, 12, 13, 15, 16, 17, READER_HOLDS]);

/// The phases in which a thread of this sound table has such a move: 9 while
/// nobody has the mutex, 11 while the target isn't busy.
fn moving(table: &[u8]) -> u32 {
    let mut set = ALWAYS_MOVES;
    if table[1] == 0 {
        set |= set_of(&[9]);
    }
    if table[2] != NO_TARGET && table[place_of(usize::from(table[2])) + 1] == 0 {
        set |= set_of(&[11]);
    }
    set
}

/// The lowest thread with this forbidden, where there is one.
fn lowest_with(table: &[u8], forbidden: u8) -> usize {
    let mut flags = table[5..].iter().step_by(3);
    flags.position(|&flag| flag == forbidden).unwrap_or(0)
}

/// Makes one move that is no call, no retry and no leaving, for the lowest thread
/// that has one.
#[inline(never)]
pub fn dispatch(table: &mut [u8]) -> Turn {
    let Survey {
        threads,
        mut forbidden,
    } = match survey(table) {
        Ok(found) => found,
        Err(refusal) => return Turn::Refused(refusal),
    };
    let moving = moving(table);
    let mut phases = table[3..].iter().step_by(3);
    let Some(thread) = phases.position(|&phase| moving >> phase & 1 == 1) else {
        return Turn::Waiting;
    };
    let at = place_of(thread);
    let (mov, target) = match table[at] {
        10 => (SET, lowest_with(table, 0)),
        15 => (CLEAR, lowest_with(table, 1)),
        _ => (GO, 0),
    };
    let event = match step(table, threads, &mut forbidden, at, mov, target) {
        Outcome::Shown(event) => event,
        _ => 0,
    };
    Turn::Moved {
        request: [thread as u16, mov, target as u16],
        event,
    }
}

// ---------------------------------------------------- nodes and open moves

/// The node of each phase.
const NODES: [u8; LAST_PHASE as usize + 1] =
    [0, 1, 1, 1, 1, 2, 3, 4, 4, 5, 6, 6, 6, 7, 8, 9, 10, 10, 1];

/// Writes the node of every thread.
#[inline(never)]
pub fn nodes(table: &[u8], out: &mut [u8]) -> Answer {
    let threads = match survey(table) {
        Ok(found) => found.threads,
        Err(refusal) => return refused(refusal),
    };
    if out.len() < threads {
        return refused(Refusal::NoRoom);
    }
    for (node, thread) in out.iter_mut().zip(table[3..].chunks_exact(3)) {
        *node = NODES[usize::from(thread[0])];
    }
    Answer::Done(threads)
}

/// Writes a thread's open moves as pairs of move and target.
#[inline(never)]
pub fn open_moves(table: &[u8], thread: u16, out: &mut [u8]) -> Answer {
    let threads = match survey(table) {
        Ok(found) => found.threads,
        Err(refusal) => return refused(refusal),
    };
    let thread = usize::from(thread);
    if thread >= threads {
        return refused(Refusal::NoThread);
    }
    let moves: &[u16] = match table[place_of(thread)] {
        0 => &[CALL_SHARED, CALL_EXCLUSIVE],
        4 if table[1] == 0 => &[GO, HOLD],
        9 if table[1] == 1 => &[],
        10 => &[SET],
        11 => &[GO, RELENT],
        15 => &[SET, CLEAR],
        _ => &[GO],
    };
    let size = moves.iter().map(|&mov| 2 * targets(mov, threads)).sum();
    if out.len() < size {
        return refused(Refusal::NoRoom);
    }
    let mut rest = &mut out[..size];
    for &mov in moves {
        let (now, later) = rest.split_at_mut(2 * targets(mov, threads));
        for (target, pair) in now.chunks_exact_mut(2).enumerate() {
            pair[0] = mov as u8;
            pair[1] = target as u8;
        }
        rest = later;
    }
    Answer::Done(size)
}

// ------------------------------------------------------------ the plain lock

/// Each thread's last event, 0 before its first and after a 4 or 8, and how
/// many threads are in shared and in exclusive.
struct PlainLock {
    last: [u8; MAX_THREADS],
    shared: usize,
    exclusive: usize,
}

impl PlainLock {
    fn new() -> PlainLock {
        PlainLock {
            last: [0; MAX_THREADS],
            shared: 0,
            exclusive: 0,
        }
    }

    /// Takes one pair, or says why it is turned down.
    fn take(&mut self, threads: usize, thread: u8, event: u8) -> Result<(), Refusal> {
        let thread = usize::from(thread);
        if event == 0 || event > 8 || thread >= threads {
            return Err(Refusal::UnknownPair);
        }
        let last = self.last[thread];
        let next = event == last + 1 || (last == 0 && event == 5);
        if !next {
            return Err(Refusal::NotNext);
        }
        match event {
            2 if self.exclusive > 0 => return Err(Refusal::Occupied),
            2 => self.shared += 1,
            3 => self.shared -= 1,
            6 if self.exclusive + self.shared > 0 => return Err(Refusal::Occupied),
            6 => self.exclusive += 1,
            7 => self.exclusive -= 1,
            _ => (),
        }
        self.last[thread] = if event == 4 || event == 8 { 0 } else { event };
        Ok(())
    }
}

/// Refusals 1 and 8: N, then the history's length. Gives N.
fn inspect_history(threads: u16, history: &[u8]) -> Result<usize, Refusal> {
    let threads = usize::from(threads);
    if threads == 0 || threads > MAX_THREADS {
        return Err(Refusal::BadSize);
    }
    if history.len() % 2 == 1 || history.len() > MAX_HISTORY {
        return Err(Refusal::BadForm);
    }
    Ok(threads)
}

/// Judges a history by the plain lock's rules.
#[inline(never)]
pub fn check(threads: u16, history: &[u8]) -> Answer {
    let threads = match inspect_history(threads, history) {
        Ok(threads) => threads,
        Err(refusal) => return refused(refusal),
    };
    let mut lock = PlainLock::new();
    for (place, pair) in history.chunks_exact(2).enumerate() {
        if let Err(refusal) = lock.take(threads, pair[0], pair[1]) {
            return Answer::Refused(refusal, place);
        }
    }
    Answer::Done(history.len() / 2)
}

/// Judges a history as the check does, and answers the number of moves of its
/// plan: those of each full round that is finished, and for each thread that
/// stopped in the middle of one, those up to its last event.
#[inline(never)]
pub fn plan_length(threads: u16, history: &[u8]) -> Answer {
    let threads = match inspect_history(threads, history) {
        Ok(threads) => threads,
        Err(refusal) => return refused(refusal),
    };
    let mut lock = PlainLock::new();
    let (mut shared, mut exclusive) = (0, 0);
    for (place, pair) in history.chunks_exact(2).enumerate() {
        if let Err(refusal) = lock.take(threads, pair[0], pair[1]) {
            return Answer::Refused(refusal, place);
        }
        shared += usize::from(pair[1] == 4);
        exclusive += usize::from(pair[1] == 8);
    }
    let begun = lock.last[..threads].iter().map(|&event| match event {
        1 | 5 => 1,
        2 => 4,
        3 => 6,
        6 => 2 * threads + 3,
        7 => 3 * threads + 5,
        _ => 0,
    });
    Answer::Done(7 * shared + (3 * threads + 6) * exclusive + begun.sum::<usize>())
}

/// Writes the plan of a history as triples of thread, move and target.
#[inline(never)]
pub fn plan(threads: u16, history: &[u8], out: &mut [u8]) -> Answer {
    let checked = check(threads, history);
    let Answer::Done(_) = checked else {
        return checked;
    };
    let threads = usize::from(threads);
    let lengths = [0, 1, 3, 2, 1, 1, 2 * threads + 2, threads + 2, 1];
    let moves = history
        .chunks_exact(2)
        .map(|pair| lengths[usize::from(pair[1])])
        .sum::<usize>();
    if out.len() < 3 * moves {
        return refused(Refusal::NoRoom);
    }
    let mut rest = &mut out[..3 * moves];
    for pair in history.chunks_exact(2) {
        let (now, later) = rest.split_at_mut(3 * lengths[usize::from(pair[1])]);
        plan_event(pair[0], pair[1], now);
        rest = later;
    }
    Answer::Done(moves)
}

/// Fills `out`, which has the plan's length, with the plan of one event.
fn plan_event(thread: u8, event: u8, out: &mut [u8]) {
    let triple = |mov: u16, target: usize| [thread, mov as u8, target as u8];
    let last = out.len() - 3;
    match event {
        1 => out.copy_from_slice(&triple(CALL_SHARED, 0)),
        5 => out.copy_from_slice(&triple(CALL_EXCLUSIVE, 0)),
        _ => {
            out[..3].copy_from_slice(&triple(GO, 0));
            out[last..].copy_from_slice(&triple(GO, 0));
        }
    }
    if out.len() <= 6 {
        return;
    }
    let middle = &mut out[3..last];
    match event {
        6 => {
            for (target, pair) in middle.chunks_exact_mut(6).enumerate() {
                pair[..3].copy_from_slice(&triple(SET, target));
                pair[3..].copy_from_slice(&triple(GO, 0));
            }
        }
        7 => {
            for (target, one) in middle.chunks_exact_mut(3).enumerate() {
                one.copy_from_slice(&triple(CLEAR, target));
            }
        }
        _ => middle.copy_from_slice(&triple(GO, 0)),
    }
}

// ---------------------------------------------------------------- the script

/// A move of a script.
#[derive(Clone, Copy)]
pub(crate) struct Move {
    pub thread: usize,
    pub mov: u16,
    pub target: usize,
}

/// The form of a line after the first.
enum Form {
    Move(Move),
    Note,
}

/// Takes a number of one to three digits without leading zeros.
fn number(text: &[u8]) -> Option<(usize, &[u8])> {
    let digits = text.iter().take_while(|byte| byte.is_ascii_digit()).count();
    if digits == 0 || digits > 3 || (digits > 1 && text[0] == b'0') {
        return None;
    }
    let (front, rest) = text.split_at(digits);
    let value = front
        .iter()
        .fold(0, |sum, digit| 10 * sum + usize::from(digit - b'0'));
    Some((value, rest))
}

/// Reads `(threads N)`.
fn threads_line(line: &[u8]) -> Option<usize> {
    let (threads, rest) = number(line.strip_prefix(b"(threads ")?)?;
    (rest == b")").then_some(threads)
}

/// Reads a line that is a move or a note.
fn form(line: &[u8]) -> Option<Form> {
    if let Some(text) = line.strip_prefix(b"(note ") {
        return note_fits(text.strip_suffix(b")")?).then_some(Form::Note);
    }
    let (thread, rest) = number(line.strip_prefix(b"(")?)?;
    let words = rest.strip_prefix(b" (")?.strip_suffix(b"))")?;
    let (mov, target) = match words {
        b"go" => (GO, 0),
        b"call shared" => (CALL_SHARED, 0),
        b"call exclusive" => (CALL_EXCLUSIVE, 0),
        b"relent" => (RELENT, 0),
        b"hold" => (HOLD, 0),
        _ => with_target(words)?,
    };
    Some(Form::Move(Move {
        thread,
        mov,
        target,
    }))
}

/// Reads `set K` or `clear K`.
fn with_target(words: &[u8]) -> Option<(u16, usize)> {
    let (mov, digits) = match words.strip_prefix(b"set ") {
        Some(digits) => (SET, digits),
        None => (CLEAR, words.strip_prefix(b"clear ")?),
    };
    let (target, rest) = number(digits)?;
    rest.is_empty().then_some((mov, target))
}

/// Whether a note's text, without the note's own brackets, is in order.
fn note_fits(text: &[u8]) -> bool {
    let mut depth = 0;
    for &byte in text {
        match byte {
            b'(' if depth == MAX_DEPTH => return false,
            b'(' => depth += 1,
            b')' if depth == 0 => return false,
            b')' => depth -= 1,
            32..=126 => (),
            _ => return false,
        }
    }
    depth == 0
}

const EVENT_NAMES: [&[u8]; 8] = [
    b"enter shared call",
    b"enter shared return",
    b"leave shared call",
    b"leave shared return",
    b"enter exclusive call",
    b"enter exclusive return",
    b"leave exclusive call",
    b"leave exclusive return",
];

/// What a run has printed so far.
struct Printer {
    bytes: [u8; RUN_ROOM],
    len: usize,
}

impl Printer {
    fn text(&mut self, text: &[u8]) {
        self.bytes[self.len..self.len + text.len()].copy_from_slice(text);
        self.len += text.len();
    }

    fn number(&mut self, value: usize) {
        let mut digits = [0; 20];
        let mut first = digits.len();
        let mut rest = value;
        loop {
            first -= 1;
            digits[first] = b'0' + (rest % 10) as u8;
            rest /= 10;
            if rest == 0 {
                break;
            }
        }
        self.text(&digits[first..]);
    }

    fn event(&mut self, thread: usize, event: u8) {
        self.text(b"(event ");
        self.number(thread);
        self.text(b" (");
        self.text(EVENT_NAMES[usize::from(event) - 1]);
        self.text(b"))\n");
    }

    fn steps(&mut self, steps: usize) {
        self.text(b"(steps ");
        self.number(steps);
        self.text(b")\n");
    }

    fn refused(&mut self, refusal: Refusal, line: usize) {
        self.text(b"(refused ");
        self.number(refusal as usize);
        self.text(b" ");
        self.number(line);
        self.text(b")\n");
    }
}

/// What a run answers: how many bytes it wrote, and how many of its moves were
/// retries.
#[derive(Clone, Copy, PartialEq, Eq, Debug)]
pub struct Ran {
    pub bytes: usize,
    pub retries: usize,
}

/// Runs a script and writes what it prints.
#[inline(never)]
pub fn run(script: &[u8], out: &mut [u8]) -> Result<Ran, Refusal> {
    if script.len() > MAX_SCRIPT {
        return Err(Refusal::BadForm);
    }
    let mut printer = Printer {
        bytes: [0; RUN_ROOM],
        len: 0,
    };
    let retries = run_lines(script, &mut printer);
    let printed = &printer.bytes[..printer.len];
    if out.len() < printed.len() {
        return Err(Refusal::NoRoom);
    }
    out[..printed.len()].copy_from_slice(printed);
    let bytes = printed.len();
    Ok(Ran { bytes, retries })
}

/// Takes the first line off a script, without its line feed. A line that lacks
/// its line feed, or isn't there, is none.
fn split_line(script: &[u8]) -> Option<(&[u8], &[u8])> {
    let end = script.iter().position(|&byte| byte == b'\n')?;
    Some((&script[..end], &script[end + 1..]))
}

/// The lines of a script after the first, read one by one.
pub(crate) struct Lines<'a> {
    pub threads: usize,
    /// The line read last, from 1.
    pub place: usize,
    rest: &'a [u8],
}

impl<'a> Lines<'a> {
    /// Reads the first line.
    pub fn start(script: &'a [u8]) -> Result<Lines<'a>, Refusal> {
        let first = split_line(script).and_then(|(line, rest)| Some((threads_line(line)?, rest)));
        let Some((threads, rest)) = first else {
            return Err(Refusal::BadForm);
        };
        if threads == 0 || threads > MAX_THREADS {
            return Err(Refusal::BadSize);
        }
        Ok(Lines {
            threads,
            place: 1,
            rest,
        })
    }

    fn read(&self, line: &[u8]) -> Result<Option<Move>, Refusal> {
        match form(line) {
            None => Err(Refusal::BadForm),
            Some(Form::Note) => Ok(None),
            Some(Form::Move(made)) if made.thread >= self.threads => Err(Refusal::NoThread),
            Some(Form::Move(made)) if made.target >= self.threads => Err(Refusal::BadTarget),
            Some(Form::Move(made)) => Ok(Some(made)),
        }
    }
}

/// Each line gives its move, nothing for a note, or its refusal.
impl Iterator for Lines<'_> {
    type Item = Result<Option<Move>, Refusal>;

    fn next(&mut self) -> Option<Self::Item> {
        if self.rest.is_empty() {
            return None;
        }
        self.place += 1;
        let Some((line, later)) = split_line(self.rest) else {
            return Some(Err(Refusal::BadForm));
        };
        self.rest = later;
        Some(self.read(line))
    }
}

/// Runs the lines and prints. Gives how many of the moves made were retries.
fn run_lines(script: &[u8], printer: &mut Printer) -> usize {
    let mut lines = match Lines::start(script) {
        Ok(lines) => lines,
        Err(refusal) => {
            printer.refused(refusal, 1);
            return 0;
        }
    };
    let threads = lines.threads;
    let mut bytes = [0; 3 + 3 * MAX_THREADS];
    let table = &mut bytes[..table_size(threads)];
    start(threads, table);
    let (mut forbidden, mut steps, mut retries) = (0, 0, 0);
    while let Some(line) = lines.next() {
        let outcome = match line {
            Ok(None) => continue,
            Err(refusal) => Outcome::Refused(refusal),
            Ok(Some(made)) => {
                let Move {
                    thread,
                    mov,
                    target,
                } = made;
                let outcome = apply(table, threads, &mut forbidden, thread, mov, target);
                if let Outcome::Shown(event) = outcome {
                    printer.event(thread, event);
                }
                outcome
            }
        };
        if let Outcome::Refused(refusal) = outcome {
            printer.refused(refusal, lines.place);
            return retries;
        }
        steps += 1;
        retries += usize::from(outcome == Outcome::Retry);
    }
    printer.steps(steps);
    retries
}

// --------------------------------------------------------------- the watcher

/// The number of bytes of a watcher's record.
pub const RECORD_SIZE: usize = 3 + MAX_THREADS;
/// Where a record's totals stand: how many are in shared and in exclusive.
pub const SHARED_TOTAL: usize = 1;
pub const EXCLUSIVE_TOTAL: usize = 2;
/// Where the places start, one for each of 200 threads: a thread's last event,
/// 0 before its first and after a 4 or 8.
pub const PLACES: usize = 3;

/// A watcher's record: N, the totals and the places.
pub type Record = [u8; RECORD_SIZE];

/// Starts a watch of `threads` threads.
#[inline(never)]
pub fn watch_start(threads: u16, record: &mut Record) -> Result<(), Refusal> {
    if threads == 0 || usize::from(threads) > MAX_THREADS {
        return Err(Refusal::BadSize);
    }
    record.fill(0);
    record[0] = threads as u8;
    Ok(())
}

/// Refusals 1 and 13: the record's N, then whether it is consistent. Gives N.
fn inspect(record: &Record) -> Result<usize, Refusal> {
    let threads = usize::from(record[0]);
    if threads == 0 || threads > MAX_THREADS {
        return Err(Refusal::BadSize);
    }
    let (places, beyond) = record[PLACES..].split_at(threads);
    let (mut shared, mut exclusive, mut wrong) = (0, 0, 0);
    for &place in places {
        shared += u8::from(place == 2);
        exclusive += u8::from(place == 6);
        wrong |= u8::from(place == 4 || place > 7);
    }
    for &entry in beyond {
        wrong |= entry;
    }
    let excluded = exclusive == 0 || (exclusive == 1 && shared == 0);
    let counted = record[SHARED_TOTAL] == shared && record[EXCLUSIVE_TOTAL] == exclusive;
    if wrong != 0 || !excluded || !counted {
        return Err(Refusal::Inconsistent);
    }
    Ok(threads)
}

/// Judges one event and, where it is good, writes it to the record.
#[inline(never)]
pub fn watch_event(record: &mut Record, thread: u16, event: u16) -> Result<(), Refusal> {
    let threads = inspect(record)?;
    let thread = usize::from(thread);
    if !(1..=8).contains(&event) || thread >= threads {
        return Err(Refusal::UnknownPair);
    }
    let event = event as u8;
    let place = record[PLACES + thread];
    let next = event == place + 1 || (place == 0 && event == 5);
    if !next {
        return Err(Refusal::NotNext);
    }
    let [_, shared, exclusive, ..] = record;
    match event {
        2 if *exclusive > 0 => return Err(Refusal::Occupied),
        6 if *shared > 0 || *exclusive > 0 => return Err(Refusal::Occupied),
        2 => *shared += 1,
        3 => *shared -= 1,
        6 => *exclusive += 1,
        7 => *exclusive -= 1,
        _ => (),
    }
    record[PLACES + thread] = if event == 4 || event == 8 { 0 } else { event };
    Ok(())
}

/// Whether anybody is inside, in shared or in exclusive.
#[inline(never)]
pub fn watch_inside(record: &Record) -> Result<bool, Refusal> {
    inspect(record)?;
    Ok(record[SHARED_TOTAL] > 0 || record[EXCLUSIVE_TOTAL] > 0)
}
