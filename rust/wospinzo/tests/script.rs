//! Scripts written and read: each refusal with its place, the largest sizes,
//! and each way back.

use wospinzo::{read_script, write_script, Refusal, Rejected, ScriptRead, MAX_SCRIPT, READ_ROOM};

const FILL: u8 = 0xA5;

/// What was written, and nothing behind it; a refusal writes nothing.
fn written(threads: u16, triples: &[u8], room: usize) -> Result<Vec<u8>, Rejected> {
    let mut out = vec![FILL; room];
    let answer = write_script(threads, triples, &mut out);
    let size = answer.unwrap_or(0);
    assert!(out[size..].iter().all(|&byte| byte == FILL));
    out.truncate(size);
    answer.map(|_| out)
}

/// The number of threads and the triples; a refusal writes nothing.
fn read(script: &[u8], room: usize) -> Result<(u16, Vec<u8>), Rejected> {
    let mut out = vec![FILL; room];
    let answer = read_script(script, &mut out);
    let size = answer.map_or(0, |read| read.bytes);
    assert!(out[size..].iter().all(|&byte| byte == FILL));
    out.truncate(size);
    answer.map(|ScriptRead { threads, .. }| (threads, out))
}

fn rejected<T>(refusal: Refusal, place: usize) -> Result<T, Rejected> {
    Err(Rejected { refusal, place })
}

/// Every move of a thread, set and clear with a target.
fn every_move(thread: u8, target: u8) -> Vec<u8> {
    let takes = |mov| mov == 3 || mov == 4;
    let triple = |mov| [thread, mov, if takes(mov) { target } else { 0 }];
    (0..=6).flat_map(triple).collect()
}

#[test]
fn lists_are_refused_in_order() {
    let bad = [0, 0, 0, 2, 7, 1];
    assert_eq!(written(0, &bad[..5], 0), rejected(Refusal::BadSize, 0));
    assert_eq!(written(201, &bad, 0), rejected(Refusal::BadSize, 0));
    assert_eq!(written(2, &bad[..5], 0), rejected(Refusal::BadForm, 0));
    assert_eq!(written(2, &bad, 0), rejected(Refusal::NoThread, 1));
    assert_eq!(written(3, &bad, 0), rejected(Refusal::NoMove, 1));
    assert_eq!(
        written(2, &[1, 0, 1, 2, 0, 0], 0),
        rejected(Refusal::BadTarget, 0)
    );
    assert_eq!(written(2, &[1, 3, 2], 0), rejected(Refusal::BadTarget, 0));
    assert_eq!(written(2, &[1, 4, 1], 25), rejected(Refusal::NoRoom, 0));
    assert_eq!(written(2, &[], 12).unwrap(), b"(threads 2)\n");
}

#[test]
fn scripts_are_refused_at_their_first_bad_line() {
    let cases: [(&[u8], Refusal, usize); 9] = [
        (b"", Refusal::BadForm, 1),
        (b"(threads 1)", Refusal::BadForm, 1),
        (b"(threads 0)\n(", Refusal::BadSize, 1),
        (b"(threads 201)\n", Refusal::BadSize, 1),
        (b"(threads 2)\n(note )\n(2 (set 2))\n", Refusal::NoThread, 3),
        (
            b"(threads 2)\n(1 (clear 2))\n(2 (go))\n",
            Refusal::BadTarget,
            2,
        ),
        (b"(threads 2)\n(1 (go))\n(1 (stop))\n", Refusal::BadForm, 3),
        (b"(threads 2)\n(1 (go))\n(01 (go))\n", Refusal::BadForm, 3),
        (b"(threads 2)\n(1 (go))\n", Refusal::NoRoom, 0),
    ];
    for (script, refusal, place) in cases {
        assert_eq!(read(script, 2), rejected(refusal, place), "{script:?}");
    }
}

#[test]
fn the_largest_sizes() {
    let mut go = vec![0; READ_ROOM + 3];
    let script = written(1, &go[..READ_ROOM], MAX_SCRIPT).unwrap();
    assert_eq!(script.len(), MAX_SCRIPT);
    assert_eq!(read(&script, READ_ROOM), Ok((1, go[..READ_ROOM].to_vec())));
    assert_eq!(read(&script, READ_ROOM - 1), rejected(Refusal::NoRoom, 0));
    assert_eq!(
        written(1, &go[..READ_ROOM], MAX_SCRIPT - 1),
        rejected(Refusal::NoRoom, 0)
    );
    assert_eq!(written(1, &go, MAX_SCRIPT), rejected(Refusal::BadForm, 0));
    go[READ_ROOM] = 1;
    let last = READ_ROOM / 3;
    assert_eq!(
        written(1, &go, MAX_SCRIPT),
        rejected(Refusal::NoThread, last)
    );
    assert_eq!(
        read(&[script, vec![b'\n']].concat(), READ_ROOM),
        rejected(Refusal::BadForm, 0)
    );
}

#[test]
fn what_was_written_reads_back() {
    for threads in 1..=200 {
        let last = (threads - 1) as u8;
        let triples = [every_move(0, last), every_move(last, 0)].concat();
        let script = written(threads, &triples, 300).unwrap();
        assert_eq!(read(&script, triples.len()), Ok((threads, triples)));
    }
}

#[test]
fn what_was_read_is_written_without_notes() {
    let noted = b"(threads 3)\n(note a (b) c)\n(2 (set 0))\n(note )\n(0 (hold))\n";
    let (threads, triples) = read(noted, 6).unwrap();
    assert_eq!((threads, &triples[..]), (3, &[2, 3, 0, 0, 6, 0][..]));
    let plain = written(threads, &triples, 100).unwrap();
    assert_eq!(plain, b"(threads 3)\n(2 (set 0))\n(0 (hold))\n");
}
