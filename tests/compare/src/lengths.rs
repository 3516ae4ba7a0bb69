//! The lengths of plans: examples, and what is compared, one function a section.

use crate::cases;
use crate::comparison::Comparison;
use crate::histories;
use crate::model::MAX_HISTORY;
use crate::part::{done, number_of, refused, value_of, Call, Entry, Model, Part};
use crate::random::Random;
use crate::vectors::Vector;

/// What outputs hold before a call.
const FILL: u8 = 0x5a;
/// Numbers of threads, the events of the longest of all their short histories,
/// and how many of these are permitted, the empty one left out.
const SHORT: [(usize, usize, usize); 3] = [(1, 12, 56), (2, 9, 4374), (3, 7, 14_394)];
/// Numbers of threads of long histories and of bad ones.
const THREADS: [usize; 5] = [1, 2, 50, 199, 200];
/// Pairs of a history that is cut after each of them.
const CUT_PAIRS: usize = 400;
/// Random histories.
const RANDOM: usize = 20_000;
/// The most moves of a plan that is made for one of many histories.
const PLANNED: usize = 10_000;
/// The moves of the longest plan.
const MOST_MOVES: u64 = 4_575_100;

// -------------------------------------------------------------- common claims

/// The question and its answer, for a claim that fails.
fn asked(threads: u16, history: &[u8], answer: u64) -> String {
    let words = Call::plan_length(threads, history.to_vec()).words();
    let cut = words.chars().take(2000).collect::<String>();
    format!("{cut} answered {answer}")
}

/// Asks for the length of a history's plan and holds the answer to the check,
/// whose refusals it gives.
fn ask(c: &mut Comparison, threads: u16, history: &[u8]) -> u64 {
    let answer = c.compare(&Call::plan_length(threads, history.to_vec()));
    let checked = c.compare(&Call::check(threads, history.to_vec()));
    let right = match number_of(checked) {
        0 => number_of(answer) == 0,
        _ => answer == checked,
    };
    c.claim(right, || {
        format!("check {checked}: {}", asked(threads, history, answer))
    });
    answer
}

/// The same, and the plan is made: it answers the same, an output of just so
/// many moves is long enough, and one that is a byte shorter isn't and stays.
pub fn measure(c: &mut Comparison, threads: u16, history: &[u8]) -> u64 {
    let answer = ask(c, threads, history);
    let room = match number_of(answer) {
        0 => 3 * value_of(answer) as usize,
        _ => 0,
    };
    let mut call = Call::plan(threads, history.to_vec(), vec![FILL; room]);
    let planned = c.compare(&call);
    c.claim(planned == answer, || {
        format!("plan {planned}: {}", asked(threads, history, answer))
    });
    if call.lent.pop().is_some() {
        let short = c.compare(&call);
        let kept = c.lent() == call.lent;
        c.claim(short == refused(12, 0) && kept, || {
            let asked = asked(threads, history, answer);
            format!("plan {short} in {} bytes: {asked}", room - 1)
        });
    }
    answer
}

/// Makes the plan only where it is short.
fn measure_short(c: &mut Comparison, threads: u16, history: &[u8]) -> u64 {
    if histories::plan_moves(threads.into(), history) <= PLANNED {
        measure(c, threads, history)
    } else {
        ask(c, threads, history)
    }
}

// ------------------------------------------------------------------ examples

/// A round in shared and one in exclusive, each with nothing between.
const SHARED: [u8; 8] = [0, 1, 0, 2, 0, 3, 0, 4];
const EXCLUSIVE: [u8; 8] = [0, 5, 0, 6, 0, 7, 0, 8];
/// A round in each, the events of the one between those of the other.
const BOTH: [u8; 16] = [1, 5, 0, 1, 1, 6, 1, 7, 0, 2, 1, 8, 0, 3, 0, 4];

/// Histories for two threads that are turned down: the refusal and its place.
const BAD: [(&[u8], u64, u64); 14] = [
    (&[0], 8, 0),
    (&[0, 1, 0], 8, 0),
    // 8 before 9, 10 and 11
    (&[2, 1, 0], 8, 0),
    (&[0, 2, 0], 8, 0),
    (&[0, 5, 0, 6, 1, 1, 1, 2, 0], 8, 0),
    (&[2, 1], 9, 0),
    (&[0, 1, 0, 0], 9, 1),
    (&[0, 1, 0, 9], 9, 1),
    (&[0, 2], 10, 0),
    (&[0, 1, 0, 2, 0, 3, 0, 1], 10, 3),
    (&[0, 1, 0, 2, 1, 5, 1, 6], 11, 3),
    (&[1, 5, 1, 6, 0, 1, 0, 2], 11, 3),
    // each pair before the next
    (&[0, 1, 1, 2, 0, 9], 10, 1),
    (&[0, 5, 0, 6, 1, 5, 1, 6, 2, 1], 11, 3),
];

/// Examples of 02 §4, and every refusal.
pub fn examples(c: &mut Comparison) {
    let length = |c: &mut Comparison, threads: u16, history: &[u8], answer: u64| {
        let call = Call::plan_length(threads, history.to_vec());
        c.expect("the length of a plan", &call, answer, &[]);
        measure(c, threads, history);
    };
    for n in [1, 2, 50, 127, 128, 199, 200] {
        let full = 3 * u64::from(n) + 6;
        length(c, n, &[], done(0));
        for (events, moves) in [(1, 1), (2, 4), (3, 6), (4, 7)] {
            length(c, n, &SHARED[..2 * events], done(moves));
        }
        for (events, moves) in [
            (1, 1),
            (2, full - u64::from(n) - 3),
            (3, full - 1),
            (4, full),
        ] {
            length(c, n, &EXCLUSIVE[..2 * events], done(moves));
        }
        // more than 16 bits count, for N of 199 and 200
        length(c, n, &EXCLUSIVE.repeat(110), done(110 * full));
    }
    for (pairs, moves) in [
        (1, 1),
        (2, 2),
        (3, 8),
        (4, 12),
        (5, 15),
        (6, 16),
        (7, 18),
        (8, 19),
    ] {
        length(c, 2, &BOTH[..2 * pairs], done(moves));
    }
    for n in [0, 201, 255, 256, 257, 456, 65535] {
        for history in [&[][..], &[0], &[0, 1], &[255, 9]] {
            length(c, n, history, refused(1, 0));
        }
    }
    for (history, number, place) in BAD {
        length(c, 2, history, refused(number, place));
    }
}

/// The histories of the vectors: what a vector says of the check or the plan
/// says what the length is, or how it is refused, or that it is more than fits.
pub fn vectors_measured(c: &mut Comparison, vectors: &[Vector]) {
    let (mut accepted, mut turned_down) = (0, 0);
    for vector in vectors {
        let call = &vector.call;
        if call.entry != Entry::Check && call.entry != Entry::Plan {
            continue;
        }
        let answer = measure(c, call.numbers[0], &call.read);
        let right = match (call.entry, number_of(vector.answer)) {
            (Entry::Check, 0) => number_of(answer) == 0,
            (Entry::Plan, 12) => {
                number_of(answer) == 0 && 3 * value_of(answer) as usize > call.lent.len()
            }
            _ => answer == vector.answer,
        };
        c.claim(right, || format!("{}: length {answer}", vector.name));
        match number_of(answer) {
            0 => accepted += 1,
            _ => turned_down += 1,
        }
        if c.stopped() {
            return;
        }
    }
    // Planted faults are sought without vectors too.
    if !vectors.is_empty() {
        c.claim(accepted > 0 && turned_down > 0, || {
            format!("{accepted} histories measured, {turned_down} turned down")
        });
        c.say(&format!(
            "  {accepted} histories measured, {turned_down} turned down"
        ));
    }
}

// ------------------------------------------------------------ short histories

/// Every permitted history of one to three threads up to some number of events,
/// and each with any pair more, events and threads one past the range too.
pub fn short(c: &mut Comparison) {
    for (threads, events, count) in SHORT {
        let before = c.passed;
        let permitted = continued(c, threads, &mut vec![], events);
        if c.stopped() {
            return;
        }
        c.claim(permitted == count, || {
            format!("{threads} threads: {permitted} permitted histories")
        });
        c.say(&format!(
            "  {threads} threads, up to {events} events: {permitted} permitted histories, {} calls",
            c.passed - before
        ));
    }
}

/// A permitted history with any pair more, and so on where that is permitted,
/// up to so many pairs more. Gives how many are permitted.
fn continued(c: &mut Comparison, threads: usize, history: &mut Vec<u8>, more: usize) -> usize {
    let mut permitted = 0;
    if more == 0 || c.stopped() {
        return permitted;
    }
    let pairs = history.len() / 2;
    for thread in 0..=threads as u8 {
        for event in 0..=9 {
            history.extend([thread, event]);
            let answer = measure(c, threads as u16, history);
            let right = match number_of(answer) {
                0 => value_of(answer) as usize == histories::plan_moves(threads, history),
                _ => value_of(answer) as usize == pairs,
            };
            c.claim(right, || asked(threads as u16, history, answer));
            if number_of(answer) == 0 {
                permitted += 1 + continued(c, threads, history, more - 1);
            }
            history.truncate(2 * pairs);
        }
    }
    permitted
}

// ------------------------------------------------------------- long histories

/// Random permitted histories of a few threads and of all of them: cut after
/// each pair, and with a full round less.
pub fn long(c: &mut Comparison, seed: u64) {
    let before = c.passed;
    let mut r = Random::new(seed);
    let mut mixed = [0; 2];
    for threads in THREADS {
        for active in [1, 6, threads] {
            let active = active.min(threads);
            let history = histories::of_active(&mut r, threads, active, CUT_PAIRS, false);
            cut(c, threads, &history, (0..=CUT_PAIRS).collect());
            without_rounds(c, threads, &history, &mut mixed);
            let pairs = MAX_HISTORY / 2;
            let history = histories::of_active(&mut r, threads, active, pairs, false);
            let places = (0..10).map(|_| r.below(pairs + 1)).collect();
            cut(c, threads, &history, places);
            measure(c, threads as u16, &history);
            if c.stopped() {
                return;
            }
        }
    }
    c.claim(!mixed.contains(&0), || {
        format!("{mixed:?} rounds are mixed with other events")
    });
    c.say(&format!(
        "  {} calls, {} shared and {} exclusive rounds with other threads' events between",
        c.passed - before,
        mixed[0],
        mixed[1]
    ));
}

/// The starts of a permitted history, of so many pairs each.
fn cut(c: &mut Comparison, threads: usize, history: &[u8], pairs: Vec<usize>) {
    for pairs in pairs {
        let start = &history[..2 * pairs];
        let answer = measure_short(c, threads as u16, start);
        let moves = histories::plan_moves(threads, start);
        c.claim(answer == done(moves as u64), || {
            format!("{moves} moves: {}", asked(threads as u16, start, answer))
        });
    }
}

/// The places of the pairs of each finished round in a permitted history.
fn finished(history: &[u8]) -> Vec<[usize; 4]> {
    let mut rounds = Vec::new();
    let mut begun = vec![Vec::new(); 256];
    for (place, pair) in history.chunks_exact(2).enumerate() {
        let places = &mut begun[usize::from(pair[0])];
        places.push(place);
        if let [first, second, third, last] = places[..] {
            rounds.push([first, second, third, last]);
            places.clear();
        }
    }
    rounds
}

/// A permitted history without one of its full rounds, for each of them: it is
/// permitted, and its plan is shorter by 7 moves or 3N + 6. `mixed` counts the
/// rounds in shared and in exclusive with other threads' events between.
fn without_rounds(c: &mut Comparison, threads: usize, history: &[u8], mixed: &mut [usize; 2]) {
    let whole = c.compare(&Call::plan_length(threads as u16, history.to_vec()));
    for round in finished(history) {
        let [first, .., last] = round;
        let event = history[2 * first + 1];
        let moves = match event {
            1 => 7,
            _ => 3 * threads as u64 + 6,
        };
        let rest = history
            .chunks_exact(2)
            .enumerate()
            .filter(|(place, _)| !round.contains(place))
            .flat_map(|(_, pair)| pair)
            .copied()
            .collect::<Vec<_>>();
        let answer = ask(c, threads as u16, &rest);
        c.claim(answer + done(moves) == whole, || {
            let asked = asked(threads as u16, &rest, answer);
            format!("{whole} with a round of {moves} moves more: {asked}")
        });
        let between = last - first > 3;
        mixed[usize::from(event == 5)] += usize::from(between);
    }
}

// ------------------------------------------------------------------ bad pairs

/// Histories with a bad pair of each kind at a random place, and random ones.
pub fn bad_pairs(c: &mut Comparison, seed: u64) {
    let before = c.passed;
    let mut r = Random::new(seed);
    for threads in THREADS {
        for number in [9, 10, 11].repeat(60) {
            // One thread is never kept out.
            if number < 11 || threads > 1 {
                bad_pair(c, &mut r, threads, number);
            }
        }
        if c.stopped() {
            return;
        }
    }
    c.reset_seen();
    for _ in 0..RANDOM {
        let Call { numbers, read, .. } = cases::any(&mut r, Entry::PlanLength);
        measure_short(c, numbers[0], &read);
        if c.stopped() {
            return;
        }
    }
    c.all_seen(Entry::PlanLength);
    c.say(&format!("  {} calls", c.passed - before));
}

/// A permitted history and one pair more, at a random place, that gets this
/// refusal. Gives that place too.
fn bad_history(r: &mut Random, threads: usize, number: u64) -> (Vec<u8>, usize) {
    loop {
        // For two threads, 11 is given at some places alone.
        let place = 1 + r.below(90);
        let mut history = histories::history(r, threads, place, false);
        let known = history[2 * r.below(place)];
        let thread = r.pick(&[known, known, threads as u8, 255]);
        history.extend([thread, r.below(10) as u8]);
        if Model.check(threads as u16, &history) == refused(number, place as u64) {
            return (history, place);
        }
    }
}

/// A history whose first bad pair gets this refusal; what follows may be bad
/// too. With one byte more, its length is refused.
fn bad_pair(c: &mut Comparison, r: &mut Random, threads: usize, number: u64) {
    let (mut history, place) = bad_history(r, threads, number);
    let after = 2 * r.below(4);
    history.extend(r.bytes(after));
    turned_down(c, threads, &history, refused(number, place as u64));
    history.push(0);
    turned_down(c, threads, &history, refused(8, 0));
}

fn turned_down(c: &mut Comparison, threads: usize, history: &[u8], refusal: u64) {
    let answer = measure(c, threads as u16, history);
    c.claim(answer == refusal, || asked(threads as u16, history, answer));
}

// --------------------------------------------------------------- longest plans

/// The history of the longest plan: full rounds in exclusive, and then each of
/// 200 threads leaves exclusive and stops before its round is finished.
fn longest_history() -> Vec<u8> {
    let rounds = (0..200).cycle().take((MAX_HISTORY - 200 * 6) / 8);
    let full = rounds.flat_map(|t| [t, 5, t, 6, t, 7, t, 8]);
    full.chain((0..200).flat_map(|t| [t, 5, t, 6, t, 7]))
        .collect()
}

/// The longest plan, and histories of 60,000 bytes and near it.
pub fn longest(c: &mut Comparison) {
    let before = c.passed;
    let history = longest_history();
    let answer = measure(c, 200, &history);
    c.claim(
        history.len() == MAX_HISTORY && answer == done(MOST_MOVES),
        || format!("length {answer} of a history of {} bytes", history.len()),
    );
    let more = [&history[..], &[0, 8, 1]].concat();
    for (threads, size, answer) in [
        (200, MAX_HISTORY - 2, done(MOST_MOVES - 202)),
        (200, MAX_HISTORY - 1, refused(8, 0)),
        (200, MAX_HISTORY + 1, refused(8, 0)),
        (200, MAX_HISTORY + 2, refused(8, 0)),
        (200, MAX_HISTORY + 3, refused(8, 0)),
        (199, MAX_HISTORY, refused(9, 4 * 199)),
        (201, MAX_HISTORY, refused(1, 0)),
        (201, MAX_HISTORY + 2, refused(1, 0)),
        (200 + 256, MAX_HISTORY, refused(1, 0)),
        (65535, MAX_HISTORY, refused(1, 0)),
    ] {
        let call = Call::plan_length(threads, more[..size].to_vec());
        c.expect("a long history", &call, answer, &[]);
    }
    c.say(&format!("  {} calls", c.passed - before));
}
