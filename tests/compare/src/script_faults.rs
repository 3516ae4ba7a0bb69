//! Writing and reading a script with a fault: what the model answers, changed.

use crate::faults::Fault;
use crate::model::{LAST_MOVE, MAX_SCRIPT, RUN_ROOM};
use crate::part::{done, done_reading, number_of, refused, value_of, Model, Part};
use crate::scripts::{map_lines, spelled, without_first};
use crate::spelling::LIST_ROOM;
use crate::written::stop;

/// Refusal 8 with place 0.
const TOO_LONG: u64 = 8;

/// Puts what is written into the output.
fn put(bytes: &[u8], answer: u64, out: &mut [u8]) -> u64 {
    if out.len() < bytes.len() {
        return refused(12, 0);
    }
    out[..bytes.len()].copy_from_slice(bytes);
    answer
}

/// The refusal's number and the line where the run of a script stops by 6 or 7.
fn run_stops(script: &[u8]) -> Option<[u64; 2]> {
    let mut out = vec![0; RUN_ROOM];
    let answer = Model.run(script, &mut out);
    stop(&out[..value_of(answer) as usize]).filter(|&[number, _]| number == 6 || number == 7)
}

// -------------------------------------------------------------------- writing

/// The model's script of a list, or its refusal.
fn script_of(threads: u16, list: &[u8]) -> Result<Vec<u8>, u64> {
    let mut script = vec![0; MAX_SCRIPT];
    let answer = Model.write_script(threads, list, &mut script);
    if number_of(answer) != 0 {
        return Err(answer);
    }
    script.truncate(value_of(answer) as usize);
    Ok(script)
}

/// A line whose thread has a zero before it.
fn with_zero(line: &[u8]) -> Option<Vec<u8>> {
    let rest = line.strip_prefix(b"(")?;
    rest.first()?
        .is_ascii_digit()
        .then(|| [b"(0", rest].concat())
}

/// The line of hold as that of relent.
fn hold_as_relent(line: &[u8]) -> Option<Vec<u8>> {
    let thread = line.strip_suffix(b" (hold))")?;
    Some([thread, b" (relent))"].concat())
}

/// The script that a fault makes of the model's.
fn other_script(fault: Fault, threads: u16, list: &[u8], script: Vec<u8>) -> Result<Vec<u8>, u64> {
    match fault {
        Fault::WriteSkipsTriple => script_of(threads, &list[..list.len().saturating_sub(3)]),
        Fault::WriteLeadingZero => Ok(map_lines(&script, with_zero)),
        Fault::WriteHoldAsRelent => Ok(map_lines(&script, hold_as_relent)),
        Fault::WriteNote => Ok([&script[..], b"(note )\n"].concat()),
        Fault::WriteBoundLess if script.len() == MAX_SCRIPT => Err(TOO_LONG),
        Fault::WriteRefusesMoves => match run_stops(&script) {
            Some([number, line]) => Err(refused(number, line - 2)),
            None => Ok(script),
        },
        _ => Ok(script),
    }
}

/// What a fault makes of the model's refusal.
fn other_refusal(fault: Fault, threads: u16, list: &[u8], answer: u64) -> Result<Vec<u8>, u64> {
    let (number, place) = (number_of(answer), value_of(answer));
    let whole = list.len().is_multiple_of(3);
    let triple = list.chunks_exact(3).nth(place as usize);
    let of_triple = (3..=5).contains(&number);
    match (fault, triple) {
        (Fault::WriteMoveFirst, Some(t)) if number == 3 && t[1] > LAST_MOVE as u8 => {
            Err(refused(4, place))
        }
        (Fault::WriteTargetFirst, Some(t)) if number == 4 && t[2] != 0 => Err(refused(5, place)),
        (Fault::WriteNextPlace, _) if of_triple => Err(refused(number.into(), place + 1)),
        (Fault::WritePlaceCut, _) => Err(refused(number.into(), place & 0xffff)),
        (Fault::WriteLengthLast, _) if number == 8 && !whole => {
            script_of(threads, &list[..list.len() - list.len() % 3]).and(Err(answer))
        }
        (Fault::WriteTooLongFirst, _) if of_triple && 3 * list.len() > MAX_SCRIPT => Err(TOO_LONG),
        (Fault::WriteBoundMore, _) if number == 8 && whole => {
            let script = spelled(threads.into(), list);
            if script.len() > MAX_SCRIPT + 1 {
                return Err(answer);
            }
            Ok(script)
        }
        _ => Err(answer),
    }
}

/// Writes a list with the fault.
pub fn write(fault: Fault, threads: u16, list: &[u8], out: &mut [u8]) -> u64 {
    let made = match script_of(threads, list) {
        Ok(script) => other_script(fault, threads, list, script),
        Err(answer) => other_refusal(fault, threads, list, answer),
    };
    let (answer, size) = match made {
        Ok(script) => (put(&script, done(script.len() as u64), out), script.len()),
        Err(answer) => (answer, 0),
    };
    let accepted = number_of(answer) == 0;
    match fault {
        Fault::WriteCountsMoves if accepted => return done(list.len() as u64 / 3),
        Fault::WriteClearsTail if accepted => out[size..].fill(0),
        Fault::WriteWritesRefused if !accepted => out.fill(b'('),
        _ => (),
    }
    answer
}

// -------------------------------------------------------------------- reading

/// The N and the list of a script, as the model reads them, or its refusal.
fn list_of(script: &[u8]) -> Result<(u64, Vec<u8>), u64> {
    let mut list = vec![0; LIST_ROOM];
    let answer = Model.read_script(script, &mut list);
    if number_of(answer) != 0 {
        return Err(answer);
    }
    list.truncate(value_of(answer) as usize / 256);
    Ok((value_of(answer) % 256, list))
}

/// A script's first line, and the rest.
fn split_first(script: &[u8]) -> (&[u8], &[u8]) {
    let end = script.iter().position(|&byte| byte == b'\n');
    script.split_at(end.map_or(script.len(), |end| end + 1))
}

/// A script without one of its lines, counted from 1.
fn without_line(script: &[u8], line: u64) -> Vec<u8> {
    script
        .split_inclusive(|&byte| byte == b'\n')
        .zip(1..)
        .filter(|&(_, at)| at != line)
        .flat_map(|(text, _)| text)
        .copied()
        .collect()
}

/// Reads a script and skips the lines after the first that can not be read.
fn list_of_rest(script: &[u8]) -> Result<(u64, Vec<u8>), u64> {
    let mut script = script.to_vec();
    loop {
        match list_of(&script) {
            Err(answer) if value_of(answer) > 1 => {
                script = without_line(&script, value_of(answer));
            }
            other => return other,
        }
    }
}

/// The refusal of a script in whose lines the target is tested first.
fn target_first(script: &[u8], answer: u64) -> u64 {
    let mut lines = script.split(|&byte| byte == b'\n');
    let line = lines.nth(value_of(answer) as usize - 1).unwrap_or_default();
    let thread_end = line.iter().position(|&byte| byte == b' ');
    let words = &line[thread_end.unwrap_or(line.len())..];
    let (first, _) = split_first(script);
    match list_of(&[first, b"(0", words, b"\n"].concat()) {
        Err(other) if number_of(other) == 5 => refused(5, value_of(answer)),
        _ => answer,
    }
}

/// A script of one byte too many, read in two parts.
fn list_of_long(script: &[u8]) -> Result<(u64, Vec<u8>), u64> {
    let (first, rest) = split_first(script);
    let (second, rest) = split_first(rest);
    let (threads, mut list) = list_of(&[first, second].concat())?;
    list.extend(list_of(&[first, rest].concat())?.1);
    Ok((threads, list))
}

/// How many of a script's lines before this one are notes.
fn notes_before(script: &[u8], line: u64) -> u64 {
    let lines = script.split(|&byte| byte == b'\n');
    let notes = lines
        .take(line as usize - 1)
        .filter(|line| line.starts_with(b"(note "));
    notes.count() as u64
}

/// A note as the move go.
fn note_as_go(line: &[u8]) -> Option<Vec<u8>> {
    line.starts_with(b"(note ").then(|| b"(0 (go))".to_vec())
}

/// A threads line as a note.
fn threads_as_note(line: &[u8]) -> Option<Vec<u8>> {
    line.starts_with(b"(threads ").then(|| b"(note )".to_vec())
}

/// What a fault makes of the model's reading.
fn other_list(
    fault: Fault,
    script: &[u8],
    (threads, list): (u64, Vec<u8>),
) -> Result<(u64, Vec<u8>), u64> {
    match fault {
        Fault::ReadFirstLine => Ok((threads, vec![])),
        Fault::ReadOtherThreads => Ok((threads + 1, list)),
        Fault::ReadNotesAsGo => list_of(&map_lines(script, note_as_go)),
        Fault::ReadBoundLess if script.len() == MAX_SCRIPT => Err(TOO_LONG),
        Fault::ReadRefusesMoves => match run_stops(script) {
            Some([number, line]) => Err(refused(number, line)),
            None => Ok((threads, list)),
        },
        _ => Ok((threads, list)),
    }
}

/// What a fault makes of the model's refusal.
fn other_turned_down(fault: Fault, script: &[u8], answer: u64) -> Result<(u64, Vec<u8>), u64> {
    let (number, line) = (number_of(answer), value_of(answer));
    match (fault, number) {
        (Fault::ReadFirstLine, _) if line > 1 => list_of(split_first(script).0),
        (Fault::ReadSkipsLines, _) if line > 1 => list_of_rest(script),
        (Fault::ReadLineFromZero, _) if line > 0 => Err(refused(number.into(), line - 1)),
        (Fault::ReadNotesUncounted, _) if line > 1 => {
            Err(refused(number.into(), line - notes_before(script, line)))
        }
        (Fault::ReadThreeAndFive, 3) => Err(refused(5, line)),
        (Fault::ReadThreeAndFive, 5) => Err(refused(3, line)),
        (Fault::ReadTargetFirst, 3) => Err(target_first(script, answer)),
        (Fault::ReadNoLineFeed, 8) if script.last().is_some_and(|&byte| byte != b'\n') => {
            list_of(&[script, b"\n"].concat())
        }
        (Fault::ReadThreadsAgain, 8) if line > 1 => {
            let (first, _) = split_first(script);
            let rest = map_lines(&without_first(script), threads_as_note);
            list_of(&[first, &rest].concat())
        }
        (Fault::ReadBoundMore, 8) if script.len() == MAX_SCRIPT + 1 => list_of_long(script),
        (Fault::ReadEmptyAtZero, _) if script.is_empty() => Err(refused(8, 0)),
        (Fault::ReadLongAtOne, 8) if line == 0 => Err(refused(8, 1)),
        _ => Err(answer),
    }
}

/// Reads a script with the fault.
pub fn read(fault: Fault, script: &[u8], out: &mut [u8]) -> u64 {
    let made = match list_of(script) {
        Ok(reading) => other_list(fault, script, reading),
        Err(answer) => other_turned_down(fault, script, answer),
    };
    let (answer, size) = match made {
        Ok((threads, list)) => {
            let counted = match fault {
                Fault::ReadCountsMoves => list.len() / 3,
                _ => list.len(),
            };
            let answer = done_reading(threads, counted as u64);
            (put(&list, answer, out), list.len())
        }
        Err(answer) => (answer, 0),
    };
    match (fault, number_of(answer)) {
        (Fault::ReadClearsTail, 0) => out[size..].fill(0),
        (Fault::ReadRoomFirst, 3 | 5) if out.is_empty() => return refused(12, 0),
        (Fault::ReadWritesRefused, number) if number != 0 => out.fill(0),
        _ => (),
    }
    answer
}
