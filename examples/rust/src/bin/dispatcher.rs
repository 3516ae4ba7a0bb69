//! Tasks that share a settings table under the lock, with the dispatcher for an
//! executive: it makes all moves but calls, leavings, and those of a reader that
//! was turned away.
//!
//! In each round the dispatcher makes moves until it is waiting, which it is after
//! a limited number of turns. Then every task does what is left to the host. One
//! that has rested calls. One in its section reads or writes a piece of the
//! settings, and leaves after the last. A reader that was turned away asks for the
//! mutex (hold), for some rounds at most, and then tries again without it (go).
//! Readers look for tearing: words of two versions in one read. A watcher judges
//! each event before its task acts on it.
//!
//! When the rounds are over no task calls any more, and the others finish, until
//! all are outside the lock. The program counts turns, reads, writes and torn
//! reads, of which there must be none.

use std::error::Error;
use std::process::ExitCode;

use wospinzo::{
    dispatch, fresh, make_move, most_turns, phase, table_size, Event, Move, Outcome, Phase,
    Refusal, Turn, Watcher,
};

const READERS: usize = 6;
const PANELS: usize = 2;
const TASKS: usize = READERS + PANELS;
const PIECES: usize = 4;
const WORDS: usize = 8;
/// Rounds with calls.
const ROUNDS: usize = 10_000;
/// Rounds after them, in which the tasks finish.
const LAST_ROUNDS: usize = 50;
/// The first rounds, which are printed.
const SHOWN: usize = 7;
/// Rounds for which a reader waits for the mutex, at most.
const HOLD_ROUNDS: usize = 3;
/// Rounds of a panel's rest after it wrote, at least.
const PANEL_REST: usize = 100;
/// The limit on the turns of a round.
const MOST_TURNS: usize = most_turns(TASKS as u16);

#[derive(Clone, Copy, Default)]
struct Task {
    /// Rounds to let pass before the next call.
    rest: usize,
    /// The next piece to read or write.
    piece: usize,
    /// The version being written, or first met in reading.
    version: u32,
    /// Whether the read met another version too.
    torn: bool,
    /// Rounds since its last move in which it was refused the mutex.
    waited: usize,
}

#[derive(Default)]
struct Counts {
    turns: usize,
    most_turns: usize,
    calls: usize,
    leavings: usize,
    reads: usize,
    writes: usize,
    waits: usize,
    holds: usize,
    timeouts: usize,
    torn: usize,
}

struct Host {
    table: [u8; table_size(TASKS as u16)],
    watcher: Watcher,
    tasks: [Task; TASKS],
    settings: [[u32; WORDS]; PIECES],
    counts: Counts,
}

fn is_panel(number: usize) -> bool {
    number >= READERS
}

impl Host {
    fn new() -> Result<Host, Refusal> {
        let mut table = [0; table_size(TASKS as u16)];
        fresh(TASKS as u16, &mut table)?;
        Ok(Host {
            table,
            watcher: Watcher::new(TASKS as u16)?,
            tasks: [Task::default(); TASKS],
            settings: [[0; WORDS]; PIECES],
            counts: Counts::default(),
        })
    }

    fn phase(&self, number: usize) -> Option<Phase> {
        phase(&self.table, number as u16)
    }

    /// How many tasks are in one of these phases.
    fn count(&self, phases: &[Phase]) -> usize {
        let in_them = |&number: &usize| self.phase(number).is_some_and(|p| phases.contains(&p));
        (0..TASKS).filter(in_them).count()
    }

    /// What an event means to the task that showed it, once the watcher has
    /// accepted it.
    fn heed(&mut self, number: usize, outcome: Outcome) -> Result<(), Refusal> {
        let Outcome::Shown(event) = outcome else {
            return Ok(());
        };
        self.watcher.event(number as u16, event)?;
        let (task, counts) = (&mut self.tasks[number], &mut self.counts);
        match event {
            Event::EnterSharedCall | Event::EnterExclusiveCall => counts.calls += 1,
            Event::EnterSharedReturn | Event::EnterExclusiveReturn => {
                task.piece = 0;
                task.torn = false;
            }
            Event::LeaveSharedCall => {
                counts.leavings += 1;
                counts.reads += 1;
                counts.torn += usize::from(task.torn);
            }
            Event::LeaveExclusiveCall => {
                counts.leavings += 1;
                counts.writes += 1;
            }
            Event::LeaveSharedReturn => task.rest = 5 + 3 * number,
            Event::LeaveExclusiveReturn => task.rest = PANEL_REST + 3 * number,
        }
        Ok(())
    }

    /// Lets the dispatcher make moves until it is waiting. Gives how many it made.
    fn dispatch(&mut self) -> Result<usize, Box<dyn Error>> {
        let mut turns = 0;
        while let Turn::Moved {
            thread, outcome, ..
        } = dispatch(&mut self.table)?
        {
            if turns == MOST_TURNS {
                return Err(format!("not waiting after {turns} turns").into());
            }
            self.heed(thread.into(), outcome)?;
            turns += 1;
        }
        self.counts.turns += turns;
        self.counts.most_turns = self.counts.most_turns.max(turns);
        Ok(turns)
    }

    /// Makes a move of the host's own. Says whether it was made: not where it was
    /// refused the mutex.
    fn make_move(&mut self, number: usize, mov: Move) -> Result<bool, Refusal> {
        match make_move(&mut self.table, number as u16, mov) {
            Err(Refusal::MutexHeld) => Ok(false),
            outcome => {
                self.heed(number, outcome?)?;
                Ok(true)
            }
        }
    }

    /// A reader that was turned away asks for the mutex, or has waited long
    /// enough.
    fn try_again(&mut self, number: usize) -> Result<(), Refusal> {
        if self.tasks[number].waited == HOLD_ROUNDS {
            self.make_move(number, Move::Go)?;
            self.tasks[number].waited = 0;
            self.counts.timeouts += 1;
        } else if self.make_move(number, Move::Hold)? {
            self.tasks[number].waited = 0;
            self.counts.holds += 1;
        } else {
            self.tasks[number].waited += 1;
            self.counts.waits += 1;
        }
        Ok(())
    }

    /// The task is in its section: it reads or writes a piece there, then leaves.
    /// A panel writes from the last piece to the first, so that a reader would
    /// meet both versions.
    fn work(&mut self, number: usize) -> Result<(), Refusal> {
        let task = &mut self.tasks[number];
        if task.piece == PIECES {
            self.make_move(number, Move::Go)?;
            return Ok(());
        }
        if task.piece == 0 {
            task.version = self.settings[0][0] + u32::from(is_panel(number));
        }
        if is_panel(number) {
            self.settings[PIECES - 1 - task.piece].fill(task.version);
        } else {
            let words = self.settings[task.piece];
            task.torn |= words.iter().any(|&word| word != task.version);
        }
        task.piece += 1;
        Ok(())
    }

    /// What is left to the host while the dispatcher is waiting. In
    /// `Phase::TakeMutex` and `Phase::ReadBusy` that is nothing: there a task
    /// waits for others.
    fn host(&mut self, number: usize, may_call: bool) -> Result<(), Refusal> {
        match self.phase(number) {
            Some(Phase::Free) if self.tasks[number].rest > 0 => self.tasks[number].rest -= 1,
            Some(Phase::Free) if may_call => {
                let call = match is_panel(number) {
                    true => Move::CallExclusive,
                    false => Move::CallShared,
                };
                self.make_move(number, call)?;
            }
            Some(Phase::TryAgain) => self.try_again(number)?,
            Some(Phase::InShared | Phase::InExclusive) => self.work(number)?,
            _ => (),
        }
        Ok(())
    }

    fn run_rounds(&mut self, number: usize, may_call: bool) -> Result<(), Box<dyn Error>> {
        for round in 1..=number {
            let turns = self.dispatch()?;
            if may_call && round <= SHOWN {
                let inside = self.count(&[Phase::InShared, Phase::InExclusive]);
                println!("round {round}: {turns} turns, then waiting; inside {inside}");
            }
            for number in 0..TASKS {
                self.host(number, may_call)?;
            }
        }
        Ok(())
    }

    /// Whether all tasks are outside the lock and have left as often as they
    /// called.
    fn ended(&self) -> Result<bool, Refusal> {
        let outside = self.count(&[Phase::Free]) == TASKS && !self.watcher.anybody_inside()?;
        Ok(outside && self.counts.calls == self.counts.leavings)
    }
}

/// The counts, and whether all tasks have finished.
fn run() -> Result<(Counts, bool), Box<dyn Error>> {
    let mut host = Host::new()?;
    host.run_rounds(ROUNDS, true)?;
    host.run_rounds(LAST_ROUNDS, false)?;
    let ended = host.ended()?;
    Ok((host.counts, ended))
}

fn main() -> ExitCode {
    let (counts, ended) = match run() {
        Ok(run) => run,
        Err(error) => {
            println!("{error}");
            return ExitCode::from(2);
        }
    };
    let Counts {
        turns,
        most_turns,
        calls,
        leavings,
        reads,
        writes,
        waits,
        holds,
        timeouts,
        torn,
    } = counts;
    println!(
        "dispatcher: {TASKS} tasks, {ROUNDS} rounds: {turns} turns, \
         {most_turns} of {MOST_TURNS} in a round, {calls} calls, {leavings} leavings, \
         {reads} reads, {writes} writes, {waits} waits for the mutex, {holds} holds, \
         {timeouts} timeouts, {torn} torn reads"
    );
    let worked = reads > 0 && writes > 0 && waits > 0 && holds > 0 && timeouts > 0;
    ExitCode::from(u8::from(!(torn == 0 && worked && ended)))
}
