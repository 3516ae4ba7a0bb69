//! The dispatcher: which move it makes and for which thread, what it leaves to
//! the host, and after how many turns it is waiting.

use wospinzo::{
    busy, dispatch, forbidden, fresh, make_move, most_turns, move_answer, mutex_held, phase,
    table_size, target, Event, Move, MoveAnswer, Outcome, Phase, Refusal, Turn, MAX_THREADS,
    NO_TARGET,
};

fn fresh_table(threads: u16) -> Vec<u8> {
    let mut table = vec![0; table_size(threads)];
    fresh(threads, &mut table).unwrap();
    table
}

fn put(table: &mut [u8], thread: u16, bytes: [u8; 3]) {
    table[table_size(thread)..][..3].copy_from_slice(&bytes);
}

/// One turn. A move that it makes is one that `move_answer` accepts, with the same
/// answer and the same table after it, and is no retry. Waiting and refusals leave
/// the table.
fn turn(table: &mut [u8]) -> Result<Turn, Refusal> {
    let mut other = table.to_vec();
    let turn = dispatch(table);
    if let Ok(Turn::Moved {
        thread,
        mov,
        outcome,
    }) = turn
    {
        let retry = false;
        let answer = move_answer(&mut other, thread, mov);
        assert_eq!(answer, Ok(MoveAnswer { outcome, retry }), "{turn:?}");
    }
    assert_eq!(table, other, "{turn:?}");
    turn
}

fn moved(thread: u16, mov: Move, outcome: Outcome) -> Result<Turn, Refusal> {
    Ok(Turn::Moved {
        thread,
        mov,
        outcome,
    })
}

/// Turns until it is waiting. Gives how many made a move.
fn settle(table: &mut [u8]) -> usize {
    let mut turns = 0;
    while turn(table).unwrap() != Turn::Waiting {
        turns += 1;
        assert!(turns <= most_turns(table[0].into()), "{table:?}");
    }
    assert_waits(table);
    turns
}

/// What holds of a table that is waiting.
fn assert_waits(table: &[u8]) {
    for thread in 0..table[0].into() {
        match phase(table, thread).unwrap() {
            Phase::Free | Phase::TryAgain | Phase::InShared | Phase::InExclusive => (),
            Phase::TakeMutex => assert_eq!(mutex_held(table), Some(true)),
            Phase::ReadBusy => {
                let target = target(table).unwrap();
                assert_eq!(phase(table, target), Some(Phase::InShared));
                assert_eq!(busy(table, target), Some(true));
            }
            other => panic!("thread {thread} waits in {other:?}"),
        }
    }
}

#[test]
fn a_writer_from_its_call_to_its_return() {
    let mut table = fresh_table(3);
    make_move(&mut table, 1, Move::CallExclusive).unwrap();
    let quiet = |mov| (mov, Outcome::Quiet);
    for (mov, outcome) in [
        quiet(Move::Go),
        quiet(Move::Set(0)),
        quiet(Move::Go),
        quiet(Move::Set(1)),
        quiet(Move::Go),
        quiet(Move::Set(2)),
        quiet(Move::Go),
        (Move::Go, Outcome::Shown(Event::EnterExclusiveReturn)),
    ] {
        assert_eq!(turn(&mut table), moved(1, mov, outcome));
    }
    assert_eq!(table, [3, 1, 255, 0, 0, 1, 14, 0, 1, 0, 0, 1]);
    assert_eq!(turn(&mut table), Ok(Turn::Waiting));

    // Leaving is the host's own move, and the dispatcher does the rest.
    make_move(&mut table, 1, Move::Go).unwrap();
    for (mov, outcome) in [
        quiet(Move::Clear(0)),
        quiet(Move::Clear(1)),
        quiet(Move::Clear(2)),
        quiet(Move::Go),
        (Move::Go, Outcome::Shown(Event::LeaveExclusiveReturn)),
    ] {
        assert_eq!(turn(&mut table), moved(1, mov, outcome));
    }
    assert_eq!(turn(&mut table), Ok(Turn::Waiting));
    assert_eq!(table, fresh_table(3));
}

#[test]
fn a_reader_from_its_call_to_its_return() {
    let mut table = fresh_table(1);
    make_move(&mut table, 0, Move::CallShared).unwrap();
    let entered = Outcome::Shown(Event::EnterSharedReturn);
    for outcome in [Outcome::Quiet, Outcome::Quiet, entered] {
        assert_eq!(turn(&mut table), moved(0, Move::Go, outcome));
    }
    assert_eq!(turn(&mut table), Ok(Turn::Waiting));
    assert_eq!(table, [1, 0, 255, 6, 1, 0]);
    make_move(&mut table, 0, Move::Go).unwrap();
    let left = Outcome::Shown(Event::LeaveSharedReturn);
    for outcome in [Outcome::Quiet, left] {
        assert_eq!(turn(&mut table), moved(0, Move::Go, outcome));
    }
    assert_eq!(turn(&mut table), Ok(Turn::Waiting));
    assert_eq!(table, fresh_table(1));
}

/// A writer that finds a reader inside waits in 11 until the host has the reader
/// leave.
#[test]
fn a_writer_waits_for_a_reader() {
    let mut table = fresh_table(2);
    make_move(&mut table, 1, Move::CallShared).unwrap();
    settle(&mut table);
    make_move(&mut table, 0, Move::CallExclusive).unwrap();
    assert_eq!(settle(&mut table), 4);
    assert_eq!(table, [2, 1, 1, 11, 0, 1, 6, 1, 1]);
    make_move(&mut table, 1, Move::Go).unwrap();
    settle(&mut table);
    assert_eq!(phase(&table, 0), Some(Phase::InExclusive));
    assert_eq!(phase(&table, 1), Some(Phase::Free));
}

/// A reader that was turned away stays in 4. It is the host that has it try again,
/// or take the mutex first; from 18 on the dispatcher goes on.
#[test]
fn a_reader_that_was_turned_away_is_the_hosts() {
    let mut table = [2, 1, 255, 1, 0, 1, 14, 0, 1];
    assert_eq!(settle(&mut table), 3);
    assert_eq!(table, [2, 1, 255, 4, 0, 1, 14, 0, 1]);
    make_move(&mut table, 0, Move::Go).unwrap();
    assert_eq!(settle(&mut table), 3);
    assert_eq!(phase(&table, 0), Some(Phase::TryAgain));
    make_move(&mut table, 1, Move::Go).unwrap();
    settle(&mut table);
    assert_eq!(table, [2, 0, 255, 4, 0, 0, 0, 0, 0]);
    make_move(&mut table, 0, Move::Hold).unwrap();
    assert_eq!(turn(&mut table), moved(0, Move::Go, Outcome::Quiet));
    assert_eq!(table, [2, 0, 255, 1, 0, 0, 0, 0, 0]);
    assert_eq!(settle(&mut table), 3);
    assert_eq!(phase(&table, 0), Some(Phase::InShared));
}

/// Tables of two threads in which neither has a move for the dispatcher.
const WAITING: [[u8; 9]; 7] = [
    [2, 0, 255, 0, 0, 0, 0, 0, 0],
    [2, 0, 255, 4, 0, 0, 0, 0, 0],
    [2, 0, 255, 6, 1, 0, 4, 0, 0],
    [2, 1, 255, 4, 0, 1, 14, 0, 1],
    [2, 1, 255, 9, 0, 1, 14, 0, 1],
    [2, 1, 0, 6, 1, 1, 11, 0, 0],
    [2, 1, 0, 6, 1, 1, 11, 0, 1],
];

#[test]
fn waiting_leaves_the_table() {
    for table in WAITING {
        let mut after = table;
        assert_eq!(dispatch(&mut after), Ok(Turn::Waiting));
        assert_eq!(after, table);
        assert_waits(&table);
    }
}

#[test]
fn a_table_that_is_refused_is_left_as_it_was() {
    let [no_threads, too_many, short, long] = [
        vec![0, 0, 255],
        vec![201; table_size(201)],
        vec![2, 0, 255, 1, 0, 0],
        vec![1, 0, 255, 1, 0, 0, 0],
    ];
    for table in [vec![], no_threads, too_many, short, long] {
        let mut after = table.clone();
        assert_eq!(turn(&mut after), Err(Refusal::BadSize), "{table:?}");
        assert_eq!(after, table);
    }
    for table in [
        [2, 1, 255, 1, 0, 0, 0, 0, 0],
        [2, 0, 0, 1, 0, 0, 0, 0, 0],
        [2, 0, 255, 1, 1, 0, 0, 0, 0],
        [2, 0, 255, 1, 0, 1, 0, 0, 0],
        [2, 0, 255, 1, 0, 0, 19, 0, 0],
        [2, 1, 255, 1, 0, 0, 11, 0, 0],
        [2, 0, 255, 3, 1, 0, 4, 0, 0],
        [2, 1, 255, 18, 0, 0, 4, 0, 0],
    ] {
        let mut after = table;
        assert_eq!(turn(&mut after), Err(Refusal::Unsound), "{table:?}");
        assert_eq!(after, table);
    }
}

/// Of the threads from `first` on, all in 1, the first one moves: those before it
/// are in 0, 4 and 6.
#[test]
fn the_lowest_thread_moves() {
    for threads in [1, 2, 3, 50, MAX_THREADS] {
        for first in 0..threads {
            let mut table = fresh_table(threads);
            for thread in 0..threads {
                let idle = [[0, 0, 0], [4, 0, 0], [6, 1, 0]][usize::from(thread % 3)];
                put(
                    &mut table,
                    thread,
                    if thread < first { idle } else { [1, 0, 0] },
                );
            }
            assert_eq!(turn(&mut table), moved(first, Move::Go, Outcome::Quiet));
        }
    }
}

/// In 10 the lowest thread whose flag is 0 is the target, in 15 the lowest whose
/// flag is 1, wherever the writer stands.
#[test]
fn the_lowest_target_is_taken() {
    let threads = 5;
    for flags in 0..1 << threads {
        for writer in 0..threads {
            let set = |thread: u16| flags >> thread & 1 == 1;
            let lowest = |wanted| (0..threads).find(|&thread| set(thread) == wanted);
            let in_10 = lowest(false).map(|target| (10, Move::Set(target)));
            let in_15 = lowest(true).map(|target| (15, Move::Clear(target)));
            for (number, mov) in in_10.into_iter().chain(in_15) {
                let mut table = fresh_table(threads);
                table[1] = 1;
                for thread in 0..threads {
                    put(&mut table, thread, [0, 0, set(thread).into()]);
                }
                put(&mut table, writer, [number, 0, set(writer).into()]);
                assert_eq!(turn(&mut table), moved(writer, mov, Outcome::Quiet));
            }
        }
    }
}

/// The table from which the most turns are made: thread 0 in 15 with every flag
/// set, thread 1 in 9, the others in 1. Of one thread it is 9 alone.
fn worst(threads: u16) -> Vec<u8> {
    let mut table = fresh_table(threads);
    if threads == 1 {
        put(&mut table, 0, [9, 0, 0]);
        return table;
    }
    table[1] = 1;
    for thread in 0..threads {
        let number = [15, 9, 1][usize::from(thread.min(2))];
        put(&mut table, thread, [number, 0, 1]);
    }
    table
}

#[test]
fn as_many_turns_as_there_can_be() {
    for threads in [1, 2, 3, 4, 8, 50, MAX_THREADS] {
        let mut table = worst(threads);
        assert_eq!(settle(&mut table), most_turns(threads));
        let writer = u16::from(threads > 1);
        assert_eq!(phase(&table, writer), Some(Phase::InExclusive));
        assert!((0..threads).all(|thread| forbidden(&table, thread) == Some(true)));
        assert_eq!(table[2], NO_TARGET);
    }
    assert_eq!([0, 1, 2, 3, 200].map(most_turns), [0, 4, 10, 16, 1198]);
}
