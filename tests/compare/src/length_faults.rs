//! The length of a plan with a fault: what the model answers, changed.

use crate::faults::Fault;
use crate::histories::plan_moves;
use crate::model::MAX_HISTORY;
use crate::part::{done, number_of, refused, value_of, Model, Part};

/// How many pairs of a history have this event.
fn count(history: &[u8], event: u8) -> u64 {
    let events = history.iter().skip(1).step_by(2);
    events.filter(|&&e| e == event).count() as u64
}

/// How many rounds end right behind another thread's event.
fn mixed(history: &[u8]) -> u64 {
    let pairs = history.chunks_exact(2);
    let ends = pairs.clone().zip(pairs.skip(1));
    ends.filter(|(before, pair)| pair[1] % 4 == 0 && before[0] != pair[0])
        .count() as u64
}

/// The moves that event 6 loses where its 2N are counted in 8 bits.
fn lost_sets(threads: u16) -> u64 {
    2 * u64::from(threads) / 256 * 256
}

/// What a fault makes of the model's length.
fn other_length(fault: Fault, threads: u16, history: &[u8], moves: u64) -> u64 {
    let n = u64::from(threads);
    match fault {
        Fault::LengthOfFinished => done(7 * count(history, 4) + (3 * n + 6) * count(history, 8)),
        Fault::LengthCountsEvents => done(history.len() as u64 / 2),
        Fault::LengthCountsBytes => done(3 * moves),
        Fault::LengthExclusiveLess => done(moves - count(history, 8)),
        Fault::LengthSharedOfFour => done(moves - 2 * count(history, 2) - count(history, 3)),
        Fault::LengthMixedLess => done(moves - mixed(history)),
        Fault::LengthWraps => done(moves & 0xffff),
        Fault::LengthProductCut => done(moves - lost_sets(threads) * count(history, 6)),
        Fault::LengthBoundLess if history.len() == MAX_HISTORY => refused(8, 0),
        _ => done(moves),
    }
}

/// What a fault makes of the model's refusal.
fn other_refusal(fault: Fault, threads: u16, history: &[u8], answer: u64) -> u64 {
    let (number, place) = (number_of(answer), value_of(answer));
    let odd = history.len() % 2 == 1;
    match (fault, number) {
        (Fault::LengthZeroForBad, 9..=11) => done(0),
        (Fault::LengthBeforeBad, 9..=11) => {
            Model.plan_length(threads, &history[..2 * place as usize])
        }
        (Fault::LengthPlaceZero, 9..=11) => refused(number.into(), 0),
        (Fault::LengthPlaceOfByte, 9..=11) => refused(number.into(), 2 * place),
        (Fault::LengthPairFirst, 8) if odd && history.len() < MAX_HISTORY => {
            match Model.plan_length(threads, &history[..history.len() - 1]) {
                other if number_of(other) == 0 => answer,
                other => other,
            }
        }
        (Fault::LengthFormFirst, 1) if odd || history.len() > MAX_HISTORY => refused(8, 0),
        (Fault::LengthBoundMore, 8) if history.len() == MAX_HISTORY + 2 => {
            done(plan_moves(threads.into(), history) as u64)
        }
        _ => answer,
    }
}

/// Answers the length of a plan with the fault.
pub fn length(fault: Fault, threads: u16, history: &[u8]) -> u64 {
    let answer = Model.plan_length(threads, history);
    match number_of(answer) {
        0 => other_length(fault, threads, history, value_of(answer)),
        _ => other_refusal(fault, threads, history, answer),
    }
}
