//! A cooperative executive whose tasks share a settings table under the lock.
//!
//! Each turn gives every task up to three moves. After a retry the next task runs
//! at once: it is the others' moves that let this one get further. Readers read
//! the settings piece by piece, a piece a turn, and look for tearing: words of two
//! versions in one read. Panel tasks rewrite the settings now and then, a piece a
//! turn too. A reader that is turned away waits for the mutex, for some turns at
//! most, before it tries again; it gives the mutex back in the turn in which it
//! took it. A watcher judges each event before its task acts on it.
//!
//! Twice a warm restart comes between the turns. The table that was kept over it
//! is tested before a task moves. The first passes, and the tasks go on; the
//! second came back damaged and is refused, and all starts afresh.
//!
//! When the turns are over, the tasks that are in a section leave it. The program
//! counts reads, writes and torn reads, of which there must be none.

use std::error::Error;
use std::mem::take;
use std::process::ExitCode;

use wospinzo::{
    forbidden, fresh, move_answer, nodes, phase, table_size, Event, Move, Node, Outcome, Phase,
    Refusal, Watcher, NO_TARGET,
};

const READERS: usize = 6;
const PANELS: usize = 2;
const TASKS: usize = READERS + PANELS;
/// Turns before each restart. The first restart comes while a panel writes.
const LEG: usize = 10_600;
const TURNS: usize = 3 * LEG;
const PIECES: usize = 4;
const WORDS: usize = 8;
/// Turns for which a reader waits for the mutex, at most.
const HOLD_TURNS: usize = 16;
/// Turns of a panel's rest after it wrote, at least.
const PANEL_REST: usize = 100;
/// A task's moves in a turn, at most.
const MOVES: usize = 3;

type Table = [u8; table_size(TASKS as u16)];

#[derive(Clone, Copy, Default)]
struct Task {
    /// Turns to let pass before the next call.
    rest: usize,
    /// Whether the task is in its section.
    inside: bool,
    /// The next piece to read or write there.
    piece: usize,
    /// The version being written, or first met in reading.
    version: u32,
    /// Whether the read met another version too.
    torn: bool,
    /// Turns since its last move in which it was refused the mutex.
    waited: usize,
}

#[derive(Default)]
struct Counts {
    reads: usize,
    writes: usize,
    waits: usize,
    holds: usize,
    timeouts: usize,
    retries: usize,
    torn: usize,
    restarts_kept: usize,
    restarts_afresh: usize,
}

/// What is kept over a warm restart: the lock, its watcher, and where each task
/// is in its work, since a task must go on from the phase that the table says.
struct Kept {
    table: Table,
    watcher: Watcher,
    tasks: [Task; TASKS],
}

impl Kept {
    /// The table comes back with every task in 3 or 4, and all else to match.
    /// No list of moves leaves it: the task that backs off last does so while
    /// another one, a writer, has set its flag.
    fn damage(&mut self) {
        self.table[1] = 0;
        self.table[2] = NO_TARGET;
        for number in 0..TASKS {
            let bytes = match number % 2 {
                0 => [Phase::BackOff as u8, 1, 0],
                _ => [Phase::TryAgain as u8, 0, 0],
            };
            self.table[table_size(number as u16)..][..3].copy_from_slice(&bytes);
        }
    }
}

struct Executive {
    table: Table,
    watcher: Watcher,
    tasks: [Task; TASKS],
    settings: [[u32; WORDS]; PIECES],
    counts: Counts,
}

fn is_panel(number: usize) -> bool {
    number >= READERS
}

impl Executive {
    /// A start with nothing kept: a fresh table, a new watch, every task at its
    /// beginning, and the settings loaded anew, since a panel may have been cut
    /// off while it wrote.
    fn new() -> Result<Executive, Refusal> {
        let mut table = [0; table_size(TASKS as u16)];
        fresh(TASKS as u16, &mut table)?;
        Ok(Executive {
            table,
            watcher: Watcher::new(TASKS as u16)?,
            tasks: [Task::default(); TASKS],
            settings: [[0; WORDS]; PIECES],
            counts: Counts::default(),
        })
    }

    /// The first task whose forbidden flag is set, or is not.
    fn first_with(&self, set: bool) -> u16 {
        let mut tasks = 0..TASKS as u16;
        tasks
            .find(|&task| forbidden(&self.table, task) == Some(set))
            .unwrap_or(0)
    }

    fn phase(&self, number: usize) -> Option<Phase> {
        phase(&self.table, number as u16)
    }

    /// The task's next move, by its phase.
    fn next_move(&self, number: usize) -> Move {
        match self.phase(number) {
            Some(Phase::Free) if is_panel(number) => Move::CallExclusive,
            Some(Phase::Free) => Move::CallShared,
            Some(Phase::TryAgain) if self.tasks[number].waited < HOLD_TURNS => Move::Hold,
            Some(Phase::SetFlag) => Move::Set(self.first_with(false)),
            Some(Phase::ClearFlags) => Move::Clear(self.first_with(true)),
            _ => Move::Go,
        }
    }

    /// Reads or writes the task's next piece of the settings. A panel writes
    /// from the last piece to the first, so that a reader would meet both
    /// versions.
    fn work(&mut self, number: usize) {
        let task = &mut self.tasks[number];
        if task.piece == 0 {
            task.version = self.settings[0][0] + u32::from(is_panel(number));
        }
        if is_panel(number) {
            self.settings[PIECES - 1 - task.piece].fill(task.version);
        } else {
            let words = self.settings[task.piece];
            task.torn |= words.iter().any(|&word| word != task.version);
        }
        task.piece += 1;
    }

    /// What an event means to the task that showed it.
    fn heed(&mut self, number: usize, event: Event) {
        let task = &mut self.tasks[number];
        match event {
            Event::EnterSharedReturn | Event::EnterExclusiveReturn => {
                task.inside = true;
                task.piece = 0;
                task.torn = false;
            }
            Event::LeaveSharedCall => {
                task.inside = false;
                self.counts.reads += 1;
                self.counts.torn += usize::from(task.torn);
            }
            Event::LeaveExclusiveCall => {
                task.inside = false;
                self.counts.writes += 1;
            }
            Event::LeaveSharedReturn => task.rest = 5 + 3 * number,
            Event::LeaveExclusiveReturn => task.rest = PANEL_REST + 3 * number,
            Event::EnterSharedCall | Event::EnterExclusiveCall => (),
        }
    }

    /// Makes the task's next move, and heeds the answer. Says whether the task may
    /// make another one in this turn: not after a retry, an event or a refusal.
    fn step(&mut self, number: usize) -> Result<bool, Refusal> {
        let before = self.phase(number);
        let next = self.next_move(number);
        let answer = match move_answer(&mut self.table, number as u16, next) {
            Err(Refusal::MutexHeld) => {
                self.tasks[number].waited += 1;
                self.counts.waits += 1;
                return Ok(false);
            }
            answer => answer?,
        };
        self.tasks[number].waited = 0;
        match (before, next) {
            (_, Move::Hold) => self.counts.holds += 1,
            (Some(Phase::TryAgain), _) => self.counts.timeouts += 1,
            _ => (),
        }
        self.counts.retries += usize::from(answer.retry);
        if let Outcome::Shown(event) = answer.outcome {
            self.watcher.event(number as u16, event)?;
            self.heed(number, event);
            return Ok(false);
        }
        Ok(!answer.retry)
    }

    fn turn(&mut self, number: usize) -> Result<(), Refusal> {
        let task = &mut self.tasks[number];
        if task.rest > 0 {
            task.rest -= 1;
            return Ok(());
        }
        if task.inside && task.piece < PIECES {
            self.work(number);
            return Ok(());
        }
        for _ in 0..MOVES {
            if !self.step(number)? {
                break;
            }
        }
        // A reader gives the mutex back at once: while it has it, no panel gets in.
        if self.phase(number) == Some(Phase::HoldMutex) {
            self.step(number)?;
        }
        Ok(())
    }

    /// The tasks that are in a section finish there and leave it; the others
    /// get no turn. Then nobody may be inside.
    fn finish(&mut self) -> Result<(), Box<dyn Error>> {
        for _ in 0..=PIECES {
            for number in 0..TASKS {
                if self.tasks[number].inside {
                    self.turn(number)?;
                }
            }
        }
        match self.watcher.anybody_inside()? {
            true => Err("the watcher has somebody inside at the end".into()),
            false => Ok(()),
        }
    }

    fn keep(&self) -> Kept {
        Kept {
            table: self.table,
            watcher: self.watcher.clone(),
            tasks: self.tasks,
        }
    }

    /// A warm restart: of the lock and the tasks, only what was kept is there. Its
    /// table is tested, which changes nothing; the tasks go on if it passes.
    fn restart(&mut self, kept: Kept) -> Result<(), Refusal> {
        let mut codes = [0; TASKS];
        match nodes(&kept.table, &mut codes) {
            Ok(_) => {
                self.table = kept.table;
                self.watcher = kept.watcher;
                self.tasks = kept.tasks;
                self.counts.restarts_kept += 1;
                let sections = [Node::Shared as u8, Node::Exclusive as u8];
                let inside = codes.iter().filter(|code| sections.contains(code)).count();
                println!(
                    "restart: the kept table passes, the tasks go on, {inside} of them inside"
                );
            }
            Err(refusal) => {
                let counts = take(&mut self.counts);
                *self = Executive {
                    counts,
                    ..Executive::new()?
                };
                self.counts.restarts_afresh += 1;
                let number = refusal as u8;
                println!("restart: the kept table is refused by {number}, a fresh one is made");
            }
        }
        Ok(())
    }

    fn run_turns(&mut self, count: usize) -> Result<(), Refusal> {
        for _ in 0..count {
            for number in 0..TASKS {
                self.turn(number)?;
            }
        }
        Ok(())
    }
}

fn run() -> Result<Counts, Box<dyn Error>> {
    let mut executive = Executive::new()?;
    executive.run_turns(LEG)?;
    executive.restart(executive.keep())?;
    executive.run_turns(LEG)?;
    let mut kept = executive.keep();
    kept.damage();
    executive.restart(kept)?;
    executive.run_turns(LEG)?;
    executive.finish()?;
    Ok(executive.counts)
}

fn main() -> ExitCode {
    let Counts {
        reads,
        writes,
        waits,
        holds,
        timeouts,
        retries,
        torn,
        restarts_kept,
        restarts_afresh,
    } = match run() {
        Ok(counts) => counts,
        Err(error) => {
            println!("{error}");
            return ExitCode::from(2);
        }
    };
    println!(
        "{TASKS} tasks, {TURNS} turns: {reads} reads, {writes} writes, \
         {waits} waits for the mutex, {holds} holds, {timeouts} timeouts, {retries} retries, \
         {torn} torn reads"
    );
    let retried = timeouts > 0 && retries > holds + timeouts;
    let worked = reads > 0 && writes > 0 && holds > 0 && retried;
    let good = torn == 0 && worked && restarts_kept == 1 && restarts_afresh == 1;
    ExitCode::from(u8::from(!good))
}
