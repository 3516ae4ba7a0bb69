//! Which moves are retries, how many a run counts, and how many moves can be made
//! without one.

use wospinzo::{
    fresh, make_move, max_progress, move_answer, phase, plan, plan_size, run, run_counts,
    table_size, Event, Move, MoveAnswer, Outcome, Phase, Refusal, RunCounts, MAX_THREADS,
};

/// Moves of thread 0 that show nothing, and whether each is a retry: every kind,
/// each with its neighbours.
const QUIET: [([u8; 9], Move, bool); 20] = [
    ([2, 0, 255, 4, 0, 0, 9, 0, 0], Move::Go, true),
    ([2, 1, 255, 4, 0, 0, 10, 0, 0], Move::Go, true),
    ([2, 0, 255, 4, 0, 0, 9, 0, 0], Move::Hold, true),
    ([2, 1, 255, 18, 0, 0, 9, 0, 0], Move::Go, false),
    ([2, 0, 255, 3, 1, 0, 9, 0, 0], Move::Go, false),
    ([2, 0, 255, 1, 0, 0, 9, 0, 0], Move::Go, false),
    ([2, 1, 1, 11, 0, 0, 2, 1, 1], Move::Relent, true),
    ([2, 1, 1, 11, 0, 0, 1, 0, 1], Move::Relent, true),
    ([2, 1, 1, 12, 0, 0, 1, 0, 1], Move::Go, false),
    ([2, 1, 1, 11, 0, 0, 2, 1, 1], Move::Go, true),
    ([2, 1, 1, 11, 0, 0, 1, 0, 1], Move::Go, false),
    ([2, 1, 0, 11, 0, 1, 1, 0, 1], Move::Go, false),
    ([2, 1, 255, 10, 0, 0, 0, 0, 1], Move::Set(1), true),
    ([2, 1, 255, 10, 0, 0, 0, 0, 1], Move::Set(0), false),
    ([2, 1, 255, 15, 0, 0, 6, 1, 1], Move::Set(0), true),
    ([2, 1, 255, 15, 0, 0, 6, 1, 1], Move::Set(1), true),
    ([2, 1, 255, 15, 0, 0, 6, 1, 1], Move::Clear(0), true),
    ([2, 1, 255, 15, 0, 0, 6, 1, 1], Move::Clear(1), false),
    ([2, 1, 255, 15, 0, 1, 6, 1, 1], Move::Clear(1), false),
    ([2, 0, 255, 9, 0, 0, 4, 0, 0], Move::Go, false),
];

/// What a move answers, and the table after it. `make_move` makes the same.
fn moved(table: &[u8], mov: Move) -> (Result<MoveAnswer, Refusal>, Vec<u8>) {
    let [mut one, mut other] = [table, table].map(<[u8]>::to_vec);
    let answer = move_answer(&mut one, 0, mov);
    let outcome = make_move(&mut other, 0, mov);
    assert_eq!(outcome, answer.map(|answer| answer.outcome));
    assert_eq!(one, other);
    (answer, one)
}

#[test]
fn each_kind_of_retry_and_its_neighbours() {
    for (table, mov, retry) in QUIET {
        let outcome = Outcome::Quiet;
        let (answer, _) = moved(&table, mov);
        assert_eq!(
            answer,
            Ok(MoveAnswer { outcome, retry }),
            "{table:?} {mov:?}"
        );
    }
}

#[test]
fn an_event_is_no_retry() {
    for (table, mov, event) in [
        (
            [1, 0, 255, 0, 0, 0],
            Move::CallShared,
            Event::EnterSharedCall,
        ),
        ([1, 0, 255, 5, 1, 0], Move::Go, Event::EnterSharedReturn),
        ([1, 0, 255, 6, 1, 0], Move::Go, Event::LeaveSharedCall),
        ([1, 0, 255, 8, 0, 0], Move::Go, Event::LeaveSharedReturn),
        (
            [1, 0, 255, 0, 0, 0],
            Move::CallExclusive,
            Event::EnterExclusiveCall,
        ),
        ([1, 1, 255, 13, 0, 1], Move::Go, Event::EnterExclusiveReturn),
        ([1, 1, 255, 14, 0, 1], Move::Go, Event::LeaveExclusiveCall),
        ([1, 0, 255, 17, 0, 0], Move::Go, Event::LeaveExclusiveReturn),
    ] {
        let (outcome, retry) = (Outcome::Shown(event), false);
        assert_eq!(moved(&table, mov).0, Ok(MoveAnswer { outcome, retry }));
    }
}

#[test]
fn a_refused_move_says_why_and_changes_nothing() {
    for (table, mov, refusal) in [
        (
            [2, 1, 255, 4, 0, 0, 10, 0, 0],
            Move::Hold,
            Refusal::MutexHeld,
        ),
        (
            [2, 0, 255, 4, 0, 0, 9, 0, 0],
            Move::Relent,
            Refusal::NotInPhase,
        ),
        (
            [2, 1, 255, 10, 0, 0, 0, 0, 1],
            Move::Set(2),
            Refusal::BadTarget,
        ),
        ([2, 0, 255, 4, 0, 0, 4, 0, 0], Move::Go, Refusal::Unsound),
    ] {
        assert_eq!(moved(&table, mov), (Err(refusal), table.to_vec()));
    }
}

/// Lines of a script for one thread, and whether each is a retry.
const LINES: [(&str, bool); 16] = [
    ("(0 (call exclusive))", false),
    ("(0 (go))", false),
    ("(0 (set 0))", false),
    ("(0 (relent))", true),
    ("(note (0 (relent)))", false),
    ("(0 (go))", false),
    ("(0 (set 0))", false),
    ("(0 (go))", false),
    ("(0 (go))", false),
    ("(0 (go))", false),
    ("(0 (set 0))", true),
    ("(0 (set 0))", true),
    ("(0 (clear 0))", false),
    ("(0 (go))", false),
    ("(0 (go))", false),
    ("(0 (call shared))", false),
];

/// The retries of a run. `run` writes the same.
fn retries_of(script: &str) -> usize {
    let [mut one, mut other] = [[0; 1000]; 2];
    let RunCounts { bytes, retries } = run_counts(script.as_bytes(), &mut one).unwrap();
    assert_eq!(run(script.as_bytes(), &mut other), Ok(bytes));
    assert_eq!(one, other);
    assert!(one[..bytes].ends_with(b")\n") && one[bytes..].iter().all(|&byte| byte == 0));
    retries
}

#[test]
fn a_run_counts_its_retries() {
    let (mut script, mut retries) = ("(threads 1)\n".to_string(), 0);
    for (line, retry) in LINES {
        script += &format!("{line}\n");
        retries += usize::from(retry);
        assert_eq!(retries_of(&script), retries, "{script}");
        // A line that is turned down ends the run, and is not counted.
        let stopped = format!("{script}(0 (hold))\n(0 (set 0))\n");
        assert_eq!(retries_of(&stopped), retries, "{stopped}");
    }
    assert_eq!(retries, 3);
    let (script, mut short) = (script.as_bytes(), [0; 20]);
    assert_eq!(run_counts(script, &mut short), Err(Refusal::NoRoom));
    assert_eq!(run(script, &mut short), Err(Refusal::NoRoom));
    let long = [b' '; wospinzo::MAX_SCRIPT + 1];
    assert_eq!(run_counts(&long, &mut []), Err(Refusal::BadForm));
}

/// With every thread in 9, each in turn enters exclusive and leaves it: as many
/// moves as can be made without a call and without a retry.
#[test]
fn as_many_moves_without_a_retry_as_there_can_be() {
    for threads in [1, 2, 3, 4, 50, MAX_THREADS] {
        let mut table = vec![0; table_size(threads)];
        fresh(threads, &mut table).unwrap();
        for thread in 0..threads {
            make_move(&mut table, thread, Move::CallExclusive).unwrap();
            assert_eq!(phase(&table, thread), Some(Phase::TakeMutex));
        }
        let mut moves = 0;
        for thread in 0..threads {
            let round = [5, 6, 7, 8].map(|event| [thread as u8, event]).concat();
            let mut triples = vec![0; plan_size(max_progress(threads) + 1)];
            let planned = plan(threads, &round, &mut triples).unwrap();
            // The first move is the call, which was made.
            for triple in triples[3..plan_size(planned)].chunks_exact(3) {
                let mov = Move::from_numbers(triple[1].into(), triple[2].into()).unwrap();
                let answer = move_answer(&mut table, thread, mov).unwrap();
                assert!(!answer.retry, "{threads} threads, {thread} {mov:?}");
                moves += 1;
            }
        }
        assert_eq!(moves, max_progress(threads));
        assert!((0..threads).all(|thread| phase(&table, thread) == Some(Phase::Free)));
    }
    assert_eq!([1, 2, 3, 200].map(max_progress), [8, 22, 42, 121_000]);
}
