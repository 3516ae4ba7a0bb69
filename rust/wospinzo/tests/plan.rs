//! How long a plan will be: the plan's own count and its bytes, the check's
//! refusals, and the numbers that the documents name.

use wospinzo::{
    check, plan, plan_length, plan_size, Refusal, Rejected, MAX_HISTORY, MAX_PLAN_MOVES,
    MAX_PLAN_SIZE, MAX_THREADS,
};

/// A byte that no triple has.
const FILL: u8 = 0xFF;

/// The count, which is also the plan's: its bytes are just enough for the plan,
/// which fills them, and one byte less is too few. A history that the check
/// turns down gets the same from the count and from the plan.
fn length(threads: u16, history: &[u8]) -> Result<usize, Rejected> {
    let length = plan_length(threads, history);
    match check(threads, history) {
        Ok(events) => {
            let moves = length.unwrap();
            let size = plan_size(moves);
            let mut out = vec![FILL; size + 1];
            assert_eq!(plan(threads, history, &mut out[..size]), Ok(moves));
            assert!(!out[..size].contains(&FILL));
            if size > 0 {
                out.fill(FILL);
                let short = plan(threads, history, &mut out[..size - 1]);
                assert_eq!(short, rejected(Refusal::NoRoom, 0));
                assert!(out.iter().all(|&byte| byte == FILL));
            }
            let n = usize::from(threads);
            assert!(4 * moves <= (3 * n + 6) * events + (3 * n + 2) * n);
        }
        refused => {
            assert_eq!(length, refused, "{threads} threads, {history:?}");
            assert_eq!(plan(threads, history, &mut []), refused);
        }
    }
    length
}

fn rejected<T>(refusal: Refusal, place: usize) -> Result<T, Rejected> {
    Err(Rejected { refusal, place })
}

/// The events of a thread from one to another.
fn events(thread: u8, from: u8, to: u8) -> Vec<u8> {
    (from..=to).flat_map(|event| [thread, event]).collect()
}

#[test]
fn rounds_count_for_the_events_that_they_have_had() {
    for threads in 1..=MAX_THREADS {
        let n = usize::from(threads);
        let last = (threads - 1) as u8;
        let shared = [1, 4, 6, 7];
        let exclusive = [1, 2 * n + 3, 3 * n + 5, 3 * n + 6];
        for (first, moves) in [(1, shared), (5, exclusive)] {
            for (to, moves) in (first..).zip(moves) {
                assert_eq!(length(threads, &events(last, first, to)), Ok(moves));
            }
        }
        assert_eq!(length(threads, &[]), Ok(0));
    }
}

#[test]
fn what_stands_between_does_not_count() {
    let apart = [events(0, 5, 8), events(1, 1, 4), events(2, 5, 7)].concat();
    let between = [
        1, 1, 0, 5, 2, 5, 1, 2, 1, 3, 0, 6, 0, 7, 2, 6, 1, 4, 2, 7, 0, 8,
    ];
    let moves = 15 + 7 + 14;
    assert_eq!(length(3, &apart), Ok(moves));
    assert_eq!(length(3, &between), Ok(moves));
}

/// Every permitted history of up to six events, with each pair behind it, also of
/// threads and events that there are not.
#[test]
fn short_histories() {
    let count = |threads: u16| {
        let mut permitted = vec![vec![]];
        for _ in 0..6 {
            let mut longer = Vec::new();
            for history in &permitted {
                for thread in 0..=threads as u8 {
                    let next = (0..=9).map(|event| [&history[..], &[thread, event]].concat());
                    longer.extend(next.filter(|history| length(threads, history).is_ok()));
                }
            }
            permitted = longer;
        }
        permitted.len()
    };
    assert_eq!([1, 2, 3].map(count), [4, 232, 3078]);
}

#[test]
fn refusals_are_the_checks() {
    let round = events(0, 1, 4);
    assert_eq!(length(0, &round[..1]), rejected(Refusal::BadSize, 0));
    assert_eq!(length(201, &round), rejected(Refusal::BadSize, 0));
    assert_eq!(length(u16::MAX, &round), rejected(Refusal::BadSize, 0));
    assert_eq!(length(1, &round[..7]), rejected(Refusal::BadForm, 0));
    assert_eq!(length(1, &[0, 1, 1, 0]), rejected(Refusal::UnknownPair, 1));
    assert_eq!(length(1, &[0, 1, 0, 9]), rejected(Refusal::UnknownPair, 1));
    assert_eq!(length(1, &[0, 2, 0, 9]), rejected(Refusal::NotNext, 0));
    let occupied = [0, 1, 0, 2, 1, 5, 1, 6];
    assert_eq!(length(2, &occupied), rejected(Refusal::Occupied, 3));
    let mut longest = round.repeat(MAX_HISTORY / 8);
    assert_eq!(length(1, &longest), Ok(7 * MAX_HISTORY / 8));
    longest[MAX_HISTORY - 1] = 1;
    let last = MAX_HISTORY / 2 - 1;
    assert_eq!(length(1, &longest), rejected(Refusal::NotNext, last));
    longest.extend([0, 1]);
    assert_eq!(length(1, &longest), rejected(Refusal::BadForm, 0));
}

/// Rounds of exclusive, then every thread up to its event 7.
#[test]
fn the_longest_plan() {
    for threads in [1, 2, 50, MAX_THREADS] {
        let mut ends = Vec::new();
        for thread in 0..threads as u8 {
            ends.extend(events(thread, 5, 7));
        }
        let mut history = events(0, 5, 8).repeat((MAX_HISTORY - ends.len()) / 8);
        history.extend(ends);
        let n = usize::from(threads);
        let bound = (3 * n + 6) * (history.len() / 2) + (3 * n + 2) * n;
        assert_eq!(length(threads, &history).map(|moves| 4 * moves), Ok(bound));
        if threads == MAX_THREADS {
            assert_eq!(history.len(), MAX_HISTORY);
            assert_eq!(length(threads, &history), Ok(MAX_PLAN_MOVES));
            assert_eq!(plan_size(MAX_PLAN_MOVES), MAX_PLAN_SIZE);
        }
    }
}
