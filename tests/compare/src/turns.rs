//! 02 §8: the dispatcher's turns from every sound table of one to three threads,
//! from the table that has most of them and from random ones, and with a host
//! that calls and leaves. The move that is due in a table is found by trying the
//! open moves of each thread.

use std::collections::HashMap;

use crate::comparison::Comparison;
use crate::graph::REACHED;
use crate::model::{self, Answer, CALL_EXCLUSIVE, CALL_SHARED};
use crate::model::{CLEAR, GO, HOLD, MAX_THREADS, RELENT, SET};
use crate::part::{hex, number_of, retries_of, turned, value_of, Call, Caller, WAITING};
use crate::random::Random;
use crate::sections;
use crate::tables;

/// For one to three threads, the turns of the longest run, and how many sound
/// tables are waiting.
const RUNS: [(usize, usize); 3] = [(4, 3), (10, 18), (16, 137)];
/// The phases of a table that is waiting.
const WAITING_PHASES: [u8; 6] = [0, 4, 6, 9, 11, 14];
/// Random tables for each number of threads.
const TABLES: usize = 5;
/// Numbers of threads of hosts, and how often a host looks at a thread.
const HOSTS: [usize; 7] = [1, 2, 3, 4, 8, 50, 200];
const LOOKS: usize = 2_000;

fn phase_of(table: &[u8], thread: u16) -> u8 {
    table[3 + 3 * usize::from(thread)]
}

/// Whether a move of this table is a retry, by the list of 02 §7.
fn is_retry(table: &[u8], [thread, mov, target]: [u16; 3]) -> bool {
    let forbidden = table[5 + 3 * usize::from(target)];
    match (mov, phase_of(table, thread)) {
        (GO | HOLD, 4) | (RELENT, _) | (SET, 15) => true,
        (GO, 11) => table[4 + 3 * usize::from(table[2])] == 1,
        (SET, 10) => forbidden == 1,
        (CLEAR, 15) => forbidden == 0,
        _ => false,
    }
}

/// Whether an open move is no call, no retry and no leaving.
fn is_due(table: &[u8], request: [u16; 3]) -> bool {
    let [thread, mov, _] = request;
    let call = mov == CALL_SHARED || mov == CALL_EXCLUSIVE;
    let leaving = mov == GO && matches!(phase_of(table, thread), 6 | 14);
    !call && !leaving && !is_retry(table, request)
}

/// A thread's open moves in a sound table, as requests.
fn open_moves(table: &[u8], thread: u16) -> Vec<[u16; 3]> {
    let mut room = [0; 4 * MAX_THREADS];
    let Answer::Done(size) = model::open_moves(table, thread, &mut room) else {
        return vec![];
    };
    let pairs = room[..size].chunks_exact(2);
    pairs
        .map(|pair| [thread, pair[0].into(), pair[1].into()])
        .collect()
}

/// The target of a thread's move by 02 §8, where the move takes one.
fn target_of(table: &[u8], thread: u16) -> Option<u16> {
    let wanted = match phase_of(table, thread) {
        10 => 0,
        15 => 1,
        _ => return None,
    };
    let mut flags = table[5..].iter().step_by(3);
    flags.position(|&flag| flag == wanted).map(|at| at as u16)
}

/// The request that is due in a sound table, none where it is waiting.
fn due(table: &[u8]) -> Option<[u16; 3]> {
    (0..table[0].into()).find_map(|thread| {
        let target = target_of(table, thread);
        open_moves(table, thread)
            .into_iter()
            .filter(|&request| is_due(table, request))
            .find(|request| target.is_none_or(|target| request[2] == target))
    })
}

/// What 02 §8 says of a sound table that is waiting, and of no other.
fn waits(table: &[u8]) -> bool {
    let threads = 0..u16::from(table[0]);
    threads.into_iter().all(|thread| {
        let phase = phase_of(table, thread);
        WAITING_PHASES.contains(&phase)
            && (phase != 11 || phase_of(table, table[2].into()) == 6)
            && (phase != 9 || table[1] == 1)
    })
}

/// The part, asked for turns and for the moves that they make.
struct Turns<'a> {
    caller: Caller<'a>,
}

impl<'a> Turns<'a> {
    fn new(c: &Comparison<'a>) -> Turns<'a> {
        Turns {
            caller: Caller::new(c.part()),
        }
    }

    /// What a turn answers that makes this move, by the part's own move, and the
    /// table after it. None where the move is refused or a retry.
    fn by_move(&mut self, table: &[u8], request: [u16; 3]) -> (Option<u64>, Vec<u8>) {
        let [thread, mov, target] = request;
        let call = Call::make_move(table.to_vec(), thread, mov, target);
        let answer = self.caller.call(&call);
        let made = number_of(answer) == 0 && retries_of(answer) == 0;
        let right = made.then(|| turned(request, value_of(answer)));
        (right, self.caller.lent().to_vec())
    }

    /// One turn in a sound table: that of the model; it makes the move that is due,
    /// with the answer of the part's own move and the table that this leaves, or is
    /// waiting. Gives the answer and the table after a move.
    fn turn(&mut self, c: &mut Comparison, table: &[u8]) -> Option<(u64, Vec<u8>)> {
        let call = Call::dispatch(table.to_vec());
        c.compare(&call);
        let (right, after) = match due(table) {
            Some(request) => self.by_move(table, request),
            None => (Some(WAITING), table.to_vec()),
        };
        let answer = self.caller.call(&call);
        c.claim(right == Some(answer) && self.caller.lent() == after, || {
            format!("answered {answer:#x} and not {right:#x?}: {}", call.words())
        });
        c.claim(waits(table) == (answer == WAITING), || {
            format!(
                "a thread that waits, or one that does not: {}",
                call.words()
            )
        });
        let moved = number_of(answer) == 0 && answer != WAITING;
        moved.then(|| (answer, self.caller.lent().to_vec()))
    }

    /// Turns until the dispatcher is waiting. Gives how many made a move; past the
    /// limit no more are made.
    fn run(&mut self, c: &mut Comparison, table: Vec<u8>) -> usize {
        let limit = most_turns(table[0].into());
        let (mut table, mut turns) = (table, 0);
        while let Some((_, after)) = self.turn(c, &table) {
            turns += 1;
            if turns > limit || c.stopped() {
                break;
            }
            table = after;
        }
        turns
    }
}

/// The limit on the turns of a run.
fn most_turns(threads: usize) -> usize {
    6 * threads - 2
}

/// The turns of every sound table of one to three threads: how long the longest
/// run is, and how many tables are waiting.
pub fn every_table(c: &mut Comparison) {
    for ((threads, count), (longest, waiting)) in REACHED.into_iter().zip(RUNS) {
        let tables = tables::reached(c.part(), threads, count, |_, _, _| ());
        if tables.len() != count {
            return c.claim(false, || format!("{threads} threads: not {count} tables"));
        }
        let next = nexts(c, &tables);
        if c.stopped() {
            return;
        }
        let idle = next.iter().filter(|next| next.is_none()).count();
        c.claim(idle == waiting, || {
            format!("{threads} threads: {idle} tables are waiting")
        });
        let found = (0..count).map(|from| run_length(&next, from)).max();
        c.claim(
            found == Some(longest) && longest == most_turns(threads),
            || format!("{threads} threads: {found:?} turns in a run"),
        );
        c.say(&format!(
            "  {threads} threads: {count} tables, {waiting} of them waiting; at most {longest} turns"
        ));
    }
}

/// For each table the one that its turn leaves, none where it is waiting.
fn nexts(c: &mut Comparison, tables: &[Vec<u8>]) -> Vec<Option<usize>> {
    let index = tables.iter().zip(0..).collect::<HashMap<_, _>>();
    let mut turns = Turns::new(c);
    let mut next = Vec::new();
    for table in tables {
        let after = turns.turn(c, table);
        let at = after.map(|(_, after)| index.get(&after).copied());
        c.claim(at != Some(None), || {
            format!("a turn leaves a table that isn't sound: {}", hex(table))
        });
        next.push(at.flatten());
        if c.stopped() {
            break;
        }
    }
    next
}

/// The turns of a run; past the number of tables it does not end.
fn run_length(next: &[Option<usize>], from: usize) -> usize {
    let (mut at, mut turns) = (from, 0);
    while let Some(to) = next[at] {
        (at, turns) = (to, turns + 1);
        if turns > next.len() {
            break;
        }
    }
    turns
}

/// The table from which the most turns are made: thread 0 in 15 with every
/// forbidden 1, thread 1 in 9, the others in 1. Of one thread it is 9 alone.
fn worst(threads: usize) -> Vec<u8> {
    let mut table = tables::fresh(threads);
    if threads == 1 {
        tables::put(&mut table, 0, 9);
        return table;
    }
    table[1] = 1;
    for thread in 0..threads {
        tables::put(&mut table, thread, [15, 9, 1][thread.min(2)]);
        table[5 + 3 * thread] = 1;
    }
    table
}

/// For each number of threads the limit is reached.
pub fn limit_reached(c: &mut Comparison) {
    let mut turns = Turns::new(c);
    let mut sum = 0;
    for threads in 1..=MAX_THREADS {
        let made = turns.run(c, worst(threads));
        c.claim(made == most_turns(threads), || {
            format!("{threads} threads: {made} turns from the worst table")
        });
        sum += made;
        if c.stopped() {
            return;
        }
    }
    c.say(&format!(
        "  {MAX_THREADS} numbers of threads, {sum} turns: 6N - 2 of each"
    ));
}

/// Runs from random sound tables, for each number of threads.
pub fn random_runs(c: &mut Comparison, seed: u64) {
    let mut r = Random::new(seed);
    let mut turns = Turns::new(c);
    let (mut sum, mut longest) = (0, 0);
    for threads in 1..=MAX_THREADS {
        for _ in 0..TABLES {
            let made = turns.run(c, tables::sound(&mut r, threads));
            c.claim(made <= most_turns(threads), || {
                format!("{threads} threads: more than {} turns", made - 1)
            });
            sum += made;
            longest = longest.max(made);
            if c.stopped() {
                return;
            }
        }
    }
    c.claim(longest > MAX_THREADS, || {
        format!("no run has more than {longest} turns")
    });
    c.say(&format!(
        "  {} runs, {sum} turns, at most {longest} in one",
        TABLES * MAX_THREADS
    ));
}

/// Hosts that make the moves which the dispatcher leaves to them: calls, leavings
/// and retries. What is shown is a permitted history.
pub fn hosts(c: &mut Comparison, seed: u64) {
    let (mut moves, mut turns, mut shown) = (0, 0, 0);
    let hosts = HOSTS.repeat(2);
    for (round, &threads) in hosts.iter().enumerate() {
        let mut r = Random::new(seed ^ round as u64);
        let mut host = Host::new(c, threads);
        for _ in 0..LOOKS {
            host.make_move(c, &mut r);
            host.take_turns(c, &mut r);
            if c.stopped() {
                return;
            }
        }
        moves += host.moves;
        turns += host.turns;
        shown += host.history.len() / 2;
        sections::permitted(c, threads, &host.history);
    }
    c.say(&format!(
        "  {} hosts, {moves} moves of theirs and {turns} turns, {shown} events shown, all permitted",
        hosts.len()
    ));
    c.claim(turns > moves, || format!("{turns} turns"));
}

/// A host with its table, and what was shown.
struct Host<'a> {
    part: Turns<'a>,
    table: Vec<u8>,
    history: Vec<u8>,
    moves: usize,
    turns: usize,
}

impl<'a> Host<'a> {
    fn new(c: &Comparison<'a>, threads: usize) -> Host<'a> {
        Host {
            part: Turns::new(c),
            table: tables::fresh(threads),
            history: Vec::new(),
            moves: 0,
            turns: 0,
        }
    }

    /// A move of the host's own for a random thread, where it has one.
    fn make_move(&mut self, c: &mut Comparison, r: &mut Random) {
        let thread = r.below(self.table[0].into()) as u16;
        let mut own = open_moves(&self.table, thread);
        own.retain(|&request| !is_due(&self.table, request));
        if own.is_empty() {
            return;
        }
        let [thread, mov, target] = r.pick(&own);
        let call = Call::make_move(self.table.clone(), thread, mov, target);
        let answer = c.compare(&call);
        self.moves += 1;
        self.take(c.lent().to_vec(), thread as u8, value_of(answer));
    }

    /// Some turns, until the dispatcher is waiting one time of two.
    fn take_turns(&mut self, c: &mut Comparison, r: &mut Random) {
        let turns = if r.chance(1, 2) {
            r.below(4)
        } else {
            usize::MAX
        };
        for _ in 0..turns {
            let Some((answer, after)) = self.part.turn(c, &self.table) else {
                return;
            };
            self.turns += 1;
            let value = value_of(answer);
            self.take(after, (value >> 8) as u8, value & 127);
            if c.stopped() {
                return;
            }
        }
    }

    /// Goes on with a table that a move left, which showed this event.
    fn take(&mut self, after: Vec<u8>, thread: u8, event: u64) {
        self.table = after;
        if event > 0 {
            self.history.extend([thread, event as u8]);
        }
    }
}
