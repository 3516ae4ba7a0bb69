//! Compares the archive with the model and both with the test vectors.
//!
//!     compare             the archive against the model
//!     compare --model     the model against itself: tests this program
//!     compare --faults    the model against itself with a fault in one: each
//!                         fault must be found, some by a section alone
//!
//! It says how many calls were compared, and ends with the line `N passed, M
//! failed`, which counts sections (or searches for a fault), and with a status
//! other than 0 where something failed.

use std::env;
use std::path::Path;
use std::process::ExitCode;

use compare::comparison::Comparison;
use compare::faults::{faults, faulty, Fault, OF_COUNT, OF_RETRY, OF_RULE};
use compare::faults::{OF_MANY_TURNS, OF_NO_TURN, OF_TURNS};
use compare::part::{Entry, Model, Part, ENTRIES};
use compare::{arrows, dispatcher, examples, lengths, progress, retries, sections, spoiled};
use compare::{turns, unreached, vectors, written};

const SEED: u64 = 0x5eed_0f10_c4ed_2026;

/// The entries that the archive has, by the features.
fn archive_entries() -> Vec<Entry> {
    let mut entries = ENTRIES.to_vec();
    if !cfg!(feature = "history") {
        entries.retain(|entry| !entry.is_of_history());
    }
    if !cfg!(feature = "script") {
        entries.retain(|&entry| entry != Entry::Run);
    }
    if !cfg!(feature = "watch") {
        entries.retain(|entry| !entry.is_of_watcher());
    }
    if !cfg!(feature = "writing") {
        entries.retain(|entry| !entry.is_of_writing());
    }
    if !cfg!(feature = "dispatch") {
        entries.retain(|&entry| entry != Entry::Dispatch);
    }
    entries
}

/// A part of the comparison: its name, the entry without which it is left out, and what it does.
struct Section {
    name: &'static str,
    needs: Option<Entry>,
    run: fn(&mut Comparison, &[vectors::Vector]),
}

const SECTIONS: [Section; 40] = [
    Section {
        name: "vectors",
        needs: None,
        run: |c, vectors| sections::vectors(c, vectors),
    },
    Section {
        name: "marked examples of the scope paper",
        needs: None,
        run: |c, _| examples::marked(c),
    },
    Section {
        name: "examples of a plan's length",
        needs: Some(Entry::PlanLength),
        run: |c, _| lengths::examples(c),
    },
    Section {
        name: "other examples and bounds of the scope paper",
        needs: None,
        run: |c, _| examples::others(c),
    },
    Section {
        name: "examples of hold",
        needs: None,
        run: |c, _| examples::hold(c),
    },
    Section {
        name: "examples of retries",
        needs: Some(Entry::Run),
        run: |c, _| retries::examples(c),
    },
    Section {
        name: "examples of the dispatcher",
        needs: Some(Entry::Dispatch),
        run: |c, _| dispatcher::examples(c),
    },
    Section {
        name: "examples of tables that no moves leave",
        needs: None,
        run: |c, _| unreached::examples(c),
    },
    Section {
        name: "examples of the watcher",
        needs: Some(Entry::WatchEvent),
        run: |c, _| examples::watcher(c),
    },
    Section {
        name: "examples of writing and reading a script",
        needs: Some(Entry::WriteScript),
        run: |c, _| written::examples(c),
    },
    Section {
        name: "the vectors' histories and the lengths of their plans",
        needs: Some(Entry::PlanLength),
        run: |c, vectors| lengths::vectors_measured(c, vectors),
    },
    Section {
        name: "the vectors' scripts read and written again",
        needs: Some(Entry::WriteScript),
        run: |c, vectors| written::vectors_again(c, vectors),
    },
    Section {
        name: "lists of moves written and read back",
        needs: Some(Entry::WriteScript),
        run: |c, _| written::lists_again(c, SEED),
    },
    Section {
        name: "lists with a bad triple, scripts with a bad line",
        needs: Some(Entry::WriteScript),
        run: |c, _| written::bad_places(c, SEED),
    },
    Section {
        name: "the longest lists and scripts, written and read",
        needs: Some(Entry::WriteScript),
        run: |c, _| written::longest(c, SEED),
    },
    Section {
        name: "all tables that moves reach, all requests",
        needs: None,
        run: |c, _| sections::reached_tables(c),
    },
    Section {
        name: "all tables of one to three threads, sound or not",
        needs: None,
        run: |c, _| sections::small_tables(c),
    },
    Section {
        name: "all short histories",
        needs: Some(Entry::Check),
        run: |c, _| sections::small_histories(c),
    },
    Section {
        name: "lengths of the plans of all short permitted histories, each with any pair more",
        needs: Some(Entry::PlanLength),
        run: |c, _| lengths::short(c),
    },
    Section {
        name: "all small records of a watcher of one and two threads, consistent or not",
        needs: Some(Entry::WatchEvent),
        run: |c, _| sections::small_records(c),
    },
    Section {
        name: "scripts with each byte edited",
        needs: Some(Entry::Run),
        run: |c, _| sections::edited_scripts(c),
    },
    Section {
        name: "walks",
        needs: None,
        run: |c, _| sections::walks(c, SEED),
    },
    Section {
        name: "whole watches",
        needs: Some(Entry::WatchEvent),
        run: |c, _| sections::watches(c, SEED),
    },
    Section {
        name: "plans made by the move",
        needs: None,
        run: |c, _| sections::plans(c, SEED),
    },
    Section {
        name: "plans written as scripts and run",
        needs: Some(Entry::WriteScript),
        run: |c, _| written::plans_run(c, SEED),
    },
    Section {
        name: "lengths of the plans of histories cut anywhere, and with a full round less",
        needs: Some(Entry::PlanLength),
        run: |c, _| lengths::long(c, SEED),
    },
    Section {
        name: "lengths of the plans of histories with a bad pair, and of random ones",
        needs: Some(Entry::PlanLength),
        run: |c, _| lengths::bad_pairs(c, SEED),
    },
    Section {
        name: "lengths of the longest plans",
        needs: Some(Entry::PlanLength),
        run: |c, _| lengths::longest(c),
    },
    Section {
        name: "random scripts run and read",
        needs: Some(Entry::ReadScript),
        run: |c, _| written::against_run(c, SEED),
    },
    Section {
        name: "random cases",
        needs: None,
        run: |c, _| sections::random_cases(c, SEED),
    },
    Section {
        name: "tables that the part's own moves reach, counted: the sound ones",
        needs: None,
        run: |c, _| sections::reached_by_part(c),
    },
    Section {
        name: "moves without calls and retries from every sound table: how many there can be",
        needs: None,
        run: |c, _| progress::limit(c),
    },
    Section {
        name: "turns of the dispatcher from every sound table: the move that is due, or waiting",
        needs: Some(Entry::Dispatch),
        run: |c, _| turns::every_table(c),
    },
    Section {
        name: "as many turns as there can be, for each number of threads",
        needs: Some(Entry::Dispatch),
        run: |c, _| turns::limit_reached(c),
    },
    Section {
        name: "turns from random tables, for each number of threads",
        needs: Some(Entry::Dispatch),
        run: |c, _| turns::random_runs(c, SEED),
    },
    Section {
        name: "hosts that call and leave, with the dispatcher for the rest",
        needs: Some(Entry::Dispatch),
        run: |c, _| turns::hosts(c, SEED),
    },
    Section {
        name: "arrows of Figure 1 from every sound table: taken where their condition holds",
        needs: None,
        run: |c, _| arrows::figure_1(c),
    },
    Section {
        name: "tables with all threads in phases 3, 4 and 18",
        needs: None,
        run: |c, _| unreached::barred(c, SEED),
    },
    Section {
        name: "sound tables, with all threads but one in phases 3, 4 and 18 and others",
        needs: None,
        run: |c, _| unreached::kept_by_one(c, SEED),
    },
    Section {
        name: "tables with a bad byte of each thread",
        needs: None,
        run: |c, _| spoiled::each_thread(c, SEED),
    },
];

/// Runs every section. One passes where something was compared and nothing
/// differs. Gives how many passed and how many failed.
fn compare_all(c: &mut Comparison, vectors: &[vectors::Vector]) -> (u64, u64) {
    let (mut passed, mut failed) = (0, 0);
    for section in &SECTIONS {
        if section.needs.is_some_and(|entry| !c.has(entry)) {
            continue;
        }
        c.say(&format!("{}:", section.name));
        let before = (c.passed, c.failed);
        if !c.stopped() {
            (section.run)(c, vectors);
        }
        if c.passed > before.0 && c.failed == before.1 {
            passed += 1;
        } else {
            failed += 1;
            c.say(&format!("FAILED: {}", section.name));
        }
    }
    (passed, failed)
}

/// A section, and faults that it must find by itself, whatever others find.
type Alone = (&'static str, fn(&mut Comparison), &'static [Fault]);

const ALONE: [Alone; 21] = [
    (
        "the tables reached and the sound ones",
        sections::reached_by_part,
        &[
            Fault::RuleDropped,
            Fault::NodesWithoutRule,
            Fault::RuleWithout3,
            Fault::RuleWithout4,
            Fault::RuleWithout18,
            Fault::RuleOfSome,
            Fault::RuleWithoutFirst,
            Fault::RuleWithoutLast,
            Fault::MutexOfTwo,
            Fault::PhaseCut,
            Fault::ForbiddenBesideHold,
            Fault::HoldWithoutHolder,
        ],
    ),
    (
        "all threads in 3, 4 and 18",
        |c| unreached::barred(c, SEED),
        &[
            Fault::RuleDropped,
            Fault::MoveWithoutRule,
            Fault::NodesWithoutRule,
            Fault::OpenMovesWithoutRule,
            Fault::RuleWithout3,
            Fault::RuleWithout4,
            Fault::RuleWithout18,
            Fault::RuleUpTo127,
            Fault::RuleTestedLast,
            Fault::BarredCleared,
            Fault::DispatchWithoutRule,
        ],
    ),
    (
        "all threads but one in 3, 4 and 18",
        |c| unreached::kept_by_one(c, SEED),
        &[
            Fault::RuleOfSome,
            Fault::RuleWithoutFirst,
            Fault::RuleWithoutLast,
            Fault::RuleOf64,
        ],
    ),
    (
        "a bad byte of each thread",
        |c| spoiled::each_thread(c, SEED),
        &[
            Fault::PhaseCut,
            Fault::FlagsCut,
            Fault::FlagsOfLastCut,
            Fault::BusyOf199Mended,
            Fault::DispatchRefusedWaits,
            Fault::DispatchUnsoundAs1,
            Fault::DispatchRefusedPlace,
            Fault::DispatchRefusedWrites,
        ],
    ),
    (
        "random cases",
        |c| sections::random_cases(c, SEED),
        &OF_RULE,
    ),
    (
        "random cases",
        |c| sections::random_cases(c, SEED),
        &OF_RETRY,
    ),
    (
        "random scripts",
        |c| written::against_run(c, SEED),
        &[
            Fault::RunCountsNone,
            Fault::RunCountsMoves,
            Fault::RunCountsThreads,
            Fault::RunCountsRefused,
            Fault::RunCountsRefusedHold,
            Fault::RunWithoutLast,
            Fault::RunWithoutLastMove,
            Fault::RunStoppedCountsNone,
        ],
    ),
    ("examples of retries", retries::examples, &OF_RETRY),
    ("examples of retries", retries::examples, &OF_COUNT),
    (
        "moves without calls and retries",
        progress::limit,
        &[
            Fault::RetryNeverSaid,
            Fault::RetryAlwaysSaid,
            Fault::GoIn4NoRetry,
            Fault::HoldNoRetry,
            Fault::RelentNoRetry,
            Fault::Busy1NoRetry,
            Fault::SetIn10NoRetry,
            Fault::SetIn15NoRetry,
            Fault::ClearIn15NoRetry,
            Fault::SetIn15AsIn10,
            Fault::Busy0Retry,
            Fault::NewFlagRetry,
            Fault::FlagClearedRetry,
            Fault::EventRetry,
        ],
    ),
    ("examples of turns", dispatcher::examples, &OF_TURNS),
    ("examples of turns", dispatcher::examples, &OF_MANY_TURNS),
    ("examples of turns", dispatcher::examples, &OF_NO_TURN),
    (
        "turns from every sound table",
        turns::every_table,
        &OF_TURNS,
    ),
    (
        "turns from random tables",
        |c| turns::random_runs(c, SEED),
        &OF_TURNS,
    ),
    (
        "turns from random tables",
        |c| turns::random_runs(c, SEED),
        &OF_MANY_TURNS,
    ),
    ("hosts", |c| turns::hosts(c, SEED), &OF_TURNS),
    (
        "as many turns as there can be",
        turns::limit_reached,
        &[
            Fault::DispatchWaits,
            Fault::DispatchOf128,
            Fault::DispatchHighest,
            Fault::DispatchHighestIn15,
            Fault::DispatchThreadOf7,
        ],
    ),
    ("random turns", random_turns, &OF_TURNS),
    ("random turns", random_turns, &OF_MANY_TURNS),
    ("random turns", random_turns, &OF_NO_TURN),
];

/// Random cases of the dispatcher.
fn random_turns(c: &mut Comparison) {
    sections::random_cases_of(c, Entry::Dispatch, SEED);
}

/// Whether a comparison finds a fault.
fn finds(fault: Fault, compare: impl FnOnce(&mut Comparison)) -> bool {
    let part = faulty(fault);
    let mut c = Comparison::silent(&*part, &ENTRIES);
    compare(&mut c);
    c.failed > 0
}

/// Seeks the faults that a section must find by itself. Gives how many it found
/// and missed.
fn find_alone() -> (u64, u64) {
    let (mut found, mut missed) = (0, 0);
    for (name, section, faults) in ALONE {
        for &fault in faults {
            if finds(fault, section) {
                found += 1;
            } else {
                missed += 1;
                println!("MISSED, {name}: {fault:?}");
            }
        }
    }
    println!("{found} times a fault found by one section alone");
    (found, missed)
}

/// Each fault must be found.
fn find_faults(vectors: &[vectors::Vector]) -> (u64, u64) {
    let (mut found, mut missed) = find_alone();
    for fault in faults() {
        // The vectors alone would find some: what is tested is the rest.
        for (vectors, with) in [(vectors, "with"), (&[][..], "without")] {
            let is_found = finds(fault, |c| {
                compare_all(c, vectors);
            });
            if is_found {
                found += 1;
            } else {
                missed += 1;
                println!("MISSED, {with} the vectors: {fault:?}");
            }
        }
    }
    println!(
        "{} faults, each sought with and without the vectors",
        faults().count()
    );
    (found, missed)
}

#[cfg(feature = "archive")]
fn linked() -> Option<&'static dyn Part> {
    Some(&compare::archive::Archive)
}

#[cfg(not(feature = "archive"))]
fn linked() -> Option<&'static dyn Part> {
    None
}

fn run() -> Result<(u64, u64), String> {
    let dir = Path::new(env!("CARGO_MANIFEST_DIR")).join("../vectors");
    let vectors = vectors::read(&dir)?;
    let (part, entries): (&dyn Part, _) = match env::args().nth(1).as_deref() {
        None => (
            linked().ok_or("built without the archive")?,
            archive_entries(),
        ),
        Some("--model") => (&Model, ENTRIES.to_vec()),
        Some("--faults") => return Ok(find_faults(&vectors)),
        Some(other) => return Err(format!("unknown argument {other}")),
    };
    let mut c = Comparison::new(part, &entries);
    let sections = compare_all(&mut c, &vectors);
    println!("{} calls compared, {} differ", c.passed, c.failed);
    Ok(sections)
}

fn main() -> ExitCode {
    let (passed, failed) = run().unwrap_or_else(|error| {
        println!("{error}");
        (0, 1)
    });
    println!("{passed} passed, {failed} failed");
    if failed == 0 && passed > 0 {
        ExitCode::SUCCESS
    } else {
        ExitCode::FAILURE
    }
}
