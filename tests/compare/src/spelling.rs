//! The entries of the model that write a script from a list of moves and read
//! the moves of a script. Reading takes its lines as the model's run does.

use crate::model::{takes_target, targets, Answer, Lines, Refusal, LAST_MOVE};
use crate::model::{CALL_EXCLUSIVE, CALL_SHARED, CLEAR, GO, HOLD, RELENT, SET};
use crate::model::{MAX_SCRIPT, MAX_THREADS};

/// A room in which the triples of every script fit, in bytes. A move takes nine
/// bytes of a script or more, and three of a list.
pub const LIST_ROOM: usize = MAX_SCRIPT / 3;
/// A script up to this size is read in a smaller room, which is cleared sooner.
const SHORT_SCRIPT: usize = 600;

/// The bytes of each move's line without its numbers.
const SIZES: [usize; LAST_MOVE as usize + 1] = [8, 17, 20, 10, 12, 12, 10];

/// The digits of a number of up to three.
fn digits(number: usize) -> usize {
    1 + usize::from(number >= 10) + usize::from(number >= 100)
}

/// The bytes of the line of a triple, or why it can not be spelled.
fn line_size(threads: usize, triple: &[u8]) -> Result<usize, Refusal> {
    let (thread, mov, target) = (triple[0].into(), u16::from(triple[1]), triple[2].into());
    if thread >= threads {
        return Err(Refusal::NoThread);
    }
    if mov > LAST_MOVE {
        return Err(Refusal::NoMove);
    }
    if target >= targets(mov, threads) {
        return Err(Refusal::BadTarget);
    }
    let numbers = digits(thread) + usize::from(takes_target(mov)) * digits(target);
    Ok(SIZES[usize::from(mov)] + numbers)
}

/// What is written, from the front of a slice that it fits in.
struct Pen<'a> {
    out: &'a mut [u8],
    at: usize,
}

impl Pen<'_> {
    fn text<const SIZE: usize>(&mut self, text: &[u8; SIZE]) {
        self.out[self.at..self.at + SIZE].copy_from_slice(text);
        self.at += SIZE;
    }

    fn number(&mut self, number: u8) {
        let [hundreds, tens, ones] =
            [number / 100, number / 10 % 10, number % 10].map(|digit| b'0' + digit);
        match digits(number.into()) {
            1 => self.text(&[ones]),
            2 => self.text(&[tens, ones]),
            _ => self.text(&[hundreds, tens, ones]),
        }
    }

    /// The line of a triple that can be spelled.
    fn line(&mut self, triple: &[u8]) {
        self.text(b"(");
        self.number(triple[0]);
        match u16::from(triple[1]) {
            GO => self.text(b" (go))\n"),
            CALL_SHARED => self.text(b" (call shared))\n"),
            CALL_EXCLUSIVE => self.text(b" (call exclusive))\n"),
            SET => self.target(b" (set ", triple[2]),
            CLEAR => self.target(b" (clear ", triple[2]),
            RELENT => self.text(b" (relent))\n"),
            HOLD => self.text(b" (hold))\n"),
            other => unreachable!("no move {other}"),
        }
    }

    fn target<const SIZE: usize>(&mut self, words: &[u8; SIZE], target: u8) {
        self.text(words);
        self.number(target);
        self.text(b"))\n");
    }
}

/// Writes the script of a list of triples: thread, move and target.
#[inline(never)]
pub fn write_script(threads: u16, triples: &[u8], out: &mut [u8]) -> Answer {
    let threads = usize::from(threads);
    if threads == 0 || threads > MAX_THREADS {
        return Answer::Refused(Refusal::BadSize, 0);
    }
    if !triples.len().is_multiple_of(3) {
        return Answer::Refused(Refusal::BadForm, 0);
    }
    let mut size = b"(threads )\n".len() + digits(threads);
    for (place, triple) in triples.chunks_exact(3).enumerate() {
        match line_size(threads, triple) {
            Ok(line) => size += line,
            Err(refusal) => return Answer::Refused(refusal, place),
        }
    }
    if size > MAX_SCRIPT {
        return Answer::Refused(Refusal::BadForm, 0);
    }
    if out.len() < size {
        return Answer::Refused(Refusal::NoRoom, 0);
    }
    let out = &mut out[..size];
    let mut pen = Pen { out, at: 0 };
    pen.text(b"(threads ");
    pen.number(threads as u8);
    pen.text(b")\n");
    for triple in triples.chunks_exact(3) {
        pen.line(triple);
    }
    Answer::Done(size)
}

/// What an accepted script is read as: its N, and how many bytes were written.
#[derive(Clone, Copy, PartialEq, Eq, Debug)]
pub struct Reading {
    pub threads: usize,
    pub bytes: usize,
}

/// Writes the triples of a script's moves. A refusal has its line as place.
#[inline(never)]
pub fn read_script(script: &[u8], out: &mut [u8]) -> Result<Reading, (Refusal, usize)> {
    if script.len() > MAX_SCRIPT {
        return Err((Refusal::BadForm, 0));
    }
    if script.len() > SHORT_SCRIPT {
        read_in(&mut [0; LIST_ROOM], script, out)
    } else {
        read_in(&mut [0; SHORT_SCRIPT / 3], script, out)
    }
}

/// Reads a script into a room in which its triples fit, and then writes them.
fn read_in(room: &mut [u8], script: &[u8], out: &mut [u8]) -> Result<Reading, (Refusal, usize)> {
    let mut lines = Lines::start(script).map_err(|refusal| (refusal, 1))?;
    let mut bytes = 0;
    while let Some(line) = lines.next() {
        if let Some(made) = line.map_err(|refusal| (refusal, lines.place))? {
            let triple = [made.thread as u8, made.mov as u8, made.target as u8];
            room[bytes..bytes + 3].copy_from_slice(&triple);
            bytes += 3;
        }
    }
    if out.len() < bytes {
        return Err((Refusal::NoRoom, 0));
    }
    out[..bytes].copy_from_slice(&room[..bytes]);
    let threads = lines.threads;
    Ok(Reading { threads, bytes })
}
