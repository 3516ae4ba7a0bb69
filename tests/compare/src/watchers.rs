//! Watchers' records to test with: consistent ones, damaged ones, and all small
//! ones; and events for them.

use crate::histories;
use crate::model::{Record, EXCLUSIVE_TOTAL, MAX_THREADS, PLACES, RECORD_SIZE, SHARED_TOTAL};
use crate::random::Random;
use crate::tables;

/// The record with these numbers and places, 0 in every other place.
pub fn record(threads: u8, shared: u8, exclusive: u8, places: &[u8]) -> Record {
    let mut record = [0; RECORD_SIZE];
    record[..PLACES].copy_from_slice(&[threads, shared, exclusive]);
    record[PLACES..PLACES + places.len()].copy_from_slice(places);
    record
}

/// Makes the totals those of the places below N.
pub fn count_again(record: &mut Record) {
    let threads = usize::from(record[0]).min(MAX_THREADS);
    let places = &record[PLACES..PLACES + threads];
    let at = |place| places.iter().filter(|&&p| p == place).count() as u8;
    (record[SHARED_TOTAL], record[EXCLUSIVE_TOTAL]) = (at(2), at(6));
}

/// The record of so many threads at these places, with the right totals.
fn counted(threads: u8, places: &[u8]) -> Record {
    let mut record = record(threads, 0, 0, places);
    count_again(&mut record);
    record
}

/// A record's N, in range as a rule.
fn threads(r: &mut Random) -> u8 {
    match r.below(8) {
        0 => r.byte(),
        1 => r.pick(&[0, 1, 2, 8, 50, 199, 200, 201, 255]),
        _ => tables::threads(r) as u8,
    }
}

/// Places of a random history.
fn after_history(r: &mut Random, threads: usize) -> Vec<u8> {
    let pairs = r.below(60);
    let mut places = vec![0; threads];
    for pair in histories::history(r, threads, pairs, false).chunks_exact(2) {
        places[usize::from(pair[0])] = if pair[1] % 4 == 0 { 0 } else { pair[1] };
    }
    places
}

/// Random places that the plain lock can show.
fn shown(r: &mut Random, threads: usize) -> Vec<u8> {
    let writer = r.chance(1, 3);
    let choices: &[u8] = match r.below(4) {
        _ if writer => &[0, 1, 3, 5, 7],
        0 => &[2],
        1 => &[0, 0, 0, 0, 0, 0, 2, 5],
        _ => &[0, 1, 2, 3, 5, 7],
    };
    let mut places = (0..threads).map(|_| r.pick(choices)).collect::<Vec<_>>();
    if writer {
        places[r.below(threads)] = 6;
    }
    places
}

/// A random record, consistent if its N is in range.
pub fn consistent(r: &mut Random, threads: u8) -> Record {
    let count = usize::from(threads).clamp(1, MAX_THREADS);
    let mut places = if r.chance(1, 2) {
        after_history(r, count)
    } else {
        shown(r, count)
    };
    places.truncate(usize::from(threads));
    counted(threads, &places)
}

/// A record with one byte changed, and its totals with it or not. It may yet be
/// consistent.
pub fn damaged(r: &mut Random, record: &Record) -> Record {
    let mut record = *record;
    let threads = usize::from(record[0]).clamp(1, MAX_THREADS);
    match r.below(8) {
        0 => record[0] = tables::near(r, MAX_THREADS + 1) as u8,
        1 => record[0] = record[0].wrapping_add(r.pick(&[1, 255])),
        2 => {
            let total = r.pick(&[SHARED_TOTAL, EXCLUSIVE_TOTAL]);
            record[total] = record[total].wrapping_add(r.pick(&[1, 2, 254, 255]));
        }
        3 => record[r.pick(&[SHARED_TOTAL, EXCLUSIVE_TOTAL])] = r.byte(),
        4 => record[PLACES + r.below(threads)] = r.below(10) as u8,
        5 => record[PLACES + r.below(threads)] = r.pick(&[2, 4, 6, 8]),
        6 => {
            let beyond = r.pick(&[threads, threads + 1, MAX_THREADS - 1]);
            record[PLACES + beyond.min(MAX_THREADS - 1)] = r.pick(&[1, 2, 6, 255]);
        }
        _ => record[r.below(RECORD_SIZE)] = r.byte(),
    }
    if r.chance(1, 2) {
        count_again(&mut record);
    }
    record
}

/// A record for a random call: three times of four as it was made.
pub fn any(r: &mut Random) -> Record {
    let threads = threads(r);
    let record = consistent(r, threads);
    if r.chance(1, 4) {
        damaged(r, &record)
    } else {
        record
    }
}

/// A thread, mostly one of the first few, and an event, mostly its next, met or
/// not.
pub fn event(r: &mut Random, record: &Record) -> [u16; 2] {
    let threads = usize::from(record[0]).clamp(1, MAX_THREADS);
    let thread = if r.chance(2, 3) {
        r.below(threads.min(6)) as u16
    } else {
        tables::near(r, threads)
    };
    let place = record.get(PLACES + usize::from(thread)).copied();
    let event = match place {
        _ if r.chance(1, 6) => tables::near(r, 9),
        None | Some(0) => r.pick(&[1, 5]),
        Some(place) => u16::from(place) + 1,
    };
    [thread, event]
}

/// Every record of so many threads with these places, totals and tails: places
/// of a round and some past it, small totals, and at most one entry from N
/// upward that isn't 0.
pub fn small(threads: usize) -> Vec<Record> {
    const IN_PLACE: [u8; 11] = [0, 1, 2, 3, 4, 5, 6, 7, 8, 9, 255];
    const TOTALS: [u8; 5] = [0, 1, 2, 3, 255];
    let last = MAX_THREADS - 1;
    let tails = [
        (last, 0),
        (threads, 1),
        (threads + 1, 2),
        (last, 6),
        (last, 255),
    ];
    let mut records = Vec::new();
    for index in 0..usize::pow(IN_PLACE.len(), threads as u32) {
        let place = |thread| IN_PLACE[index / usize::pow(IN_PLACE.len(), thread) % IN_PLACE.len()];
        let places = (0..threads as u32).map(place).collect::<Vec<_>>();
        for shared in TOTALS {
            for exclusive in TOTALS {
                for (entry, byte) in tails {
                    let mut record = record(threads as u8, shared, exclusive, &places);
                    record[PLACES + entry] = byte;
                    records.push(record);
                }
            }
        }
    }
    records
}
