//! The test vectors: `calls.txt`, one call and its answer a line, and pairs of
//! a script and what the program prints for it in `scripts`.

use std::fs;
use std::path::Path;

use crate::model::{HOLD, LAST_MOVE, LAST_PHASE, READER_HOLDS, RUN_ROOM};
use crate::part::{done, number_of, refused, Call, Entry, ENTRIES};
use crate::scripts::map_lines;
use crate::tables::{all_back_off, phases_mut};

/// The entries that the vectors call. They were made before 02 §2: there are
/// none of the watcher, none that write or read a script, and none of a plan's
/// length or of the dispatcher.
pub fn entries() -> impl Iterator<Item = Entry> {
    ENTRIES
        .into_iter()
        .filter(|entry| !entry.is_of_watcher() && !entry.is_of_writing())
        .filter(|entry| !matches!(entry, Entry::PlanLength | Entry::Dispatch))
}

/// A call with its answer and the lent bytes after it.
#[derive(Clone)]
pub struct Vector {
    pub name: String,
    pub call: Call,
    pub answer: u64,
    pub after: Vec<u8>,
}

fn bytes(word: &str) -> Option<Vec<u8>> {
    if word == "-" {
        return Some(vec![]);
    }
    if word.len() % 2 == 1 || !word.is_ascii() {
        return None;
    }
    (0..word.len() / 2)
        .map(|i| u8::from_str_radix(&word[2 * i..2 * i + 2], 16).ok())
        .collect()
}

fn call(words: &[&str]) -> Option<Call> {
    let entry = entries().find(|entry| entry.name() == words[0])?;
    let number = |word: &str| word.parse().ok();
    Some(match (entry, &words[1..]) {
        (Entry::Fresh, [n, out]) => Call::fresh(number(n)?, bytes(out)?),
        (Entry::Move, [table, thread, mov, target]) => Call::make_move(
            bytes(table)?,
            number(thread)?,
            number(mov)?,
            number(target)?,
        ),
        (Entry::Nodes, [table, out]) => Call::nodes(bytes(table)?, bytes(out)?),
        (Entry::OpenMoves, [table, thread, out]) => {
            Call::open_moves(bytes(table)?, number(thread)?, bytes(out)?)
        }
        (Entry::Check, [n, history]) => Call::check(number(n)?, bytes(history)?),
        (Entry::Plan, [n, history, out]) => Call::plan(number(n)?, bytes(history)?, bytes(out)?),
        (Entry::Run, [script, out]) => Call::run(bytes(script)?, bytes(out)?),
        _ => return None,
    })
}

fn answer(words: &[&str]) -> Option<(u64, Vec<u8>)> {
    let number = |word: &str| word.parse().ok();
    match words {
        ["quiet", after] => Some((done(0), bytes(after)?)),
        ["shown" | "ok", value, after] => Some((done(number(value)?), bytes(after)?)),
        ["refused", r, place, after] => Some((refused(number(r)?, number(place)?), bytes(after)?)),
        _ => None,
    }
}

fn vector(name: String, line: &str) -> Option<Vector> {
    let words = line.split(' ').collect::<Vec<_>>();
    let arrow = words.iter().position(|&word| word == "->")?;
    let call = call(&words[..arrow])?;
    let (answer, after) = answer(&words[arrow + 1..])?;
    Some(Vector {
        name,
        call,
        answer,
        after,
    })
}

/// The vectors of `calls.txt`.
fn calls(dir: &Path) -> Result<Vec<Vector>, String> {
    let path = dir.join("calls.txt");
    let text = fs::read_to_string(&path).map_err(|e| format!("{}: {e}", path.display()))?;
    let mut vectors = Vec::new();
    for (i, line) in text.lines().enumerate() {
        let name = format!("calls.txt, line {}", i + 1);
        vectors.push(vector(name.clone(), line).ok_or(format!("{name} isn't a call"))?);
    }
    Ok(vectors)
}

/// The vectors of `scripts`. The program prints `(refused 8 0)` for a script
/// that the run refuses, and else the run's output.
fn scripts(dir: &Path) -> Result<Vec<Vector>, String> {
    let dir = dir.join("scripts");
    let entries = fs::read_dir(&dir).map_err(|e| format!("{}: {e}", dir.display()))?;
    let mut paths = entries
        .map(|entry| entry.map(|entry| entry.path()))
        .collect::<Result<Vec<_>, _>>()
        .map_err(|e| format!("{}: {e}", dir.display()))?;
    paths.retain(|path| path.extension().is_some_and(|e| e == "in"));
    paths.sort();
    let read = |path: &Path| fs::read(path).map_err(|e| format!("{}: {e}", path.display()));
    let mut vectors = Vec::new();
    for path in paths {
        let name = format!(
            "scripts/{}",
            path.file_name().unwrap_or_default().to_string_lossy()
        );
        let printed = read(&path.with_extension("out"))?;
        let call = Call::run(read(&path)?, vec![0x5a; RUN_ROOM]);
        let mut after = call.lent.clone();
        let answer = if printed == b"(refused 8 0)\n" {
            refused(8, 0)
        } else {
            after[..printed.len()].copy_from_slice(&printed);
            done(printed.len() as u64)
        };
        vectors.push(Vector {
            name,
            call,
            answer,
            after,
        });
    }
    Ok(vectors)
}

/// The rule for the vectors, which were made before 02 §1: that request gives
/// a move of 6, a phase byte of 18 and a line `(T (hold))` a meaning, which they
/// did not have when the answers were found.
///
/// Given is the vector with a number, byte or word in its place that has no
/// meaning now: its answer must still be right. For a vector without any of
/// them, none.
pub fn before_hold(vector: &Vector) -> Option<Vector> {
    let mut old = vector.clone();
    match old.call.entry {
        Entry::Move => {
            if old.call.numbers[1] == HOLD {
                old.call.numbers[1] = LAST_MOVE + 1;
            }
            replace_phase(&mut old.call.lent);
            replace_phase(&mut old.after);
        }
        Entry::Nodes | Entry::OpenMoves => replace_phase(&mut old.call.read),
        Entry::Run => old.call.read = map_lines(&old.call.read, replace_hold),
        _ => (),
    }
    (old.call != vector.call).then_some(old)
}

/// Puts a byte that is no phase in place of each phase 18 of a table.
fn replace_phase(table: &mut [u8]) {
    phases_mut(table)
        .filter(|phase| **phase == READER_HOLDS)
        .for_each(|phase| *phase = LAST_PHASE + 1);
}

/// The line `(T (hold))` with a word that is no move in place of hold.
fn replace_hold(line: &[u8]) -> Option<Vec<u8>> {
    let thread = line.strip_prefix(b"(")?.strip_suffix(b" (hold))")?;
    let is_number = !thread.is_empty() && thread.iter().all(u8::is_ascii_digit);
    is_number.then(|| [b"(", thread, b" (held))"].concat())
}

/// The rule for the vectors, which were made before 02 §6: that request makes a
/// table unsound in which every thread is in 3, 4 and 18.
///
/// Given is the vector of such a table with refusal 2 for its answer and every
/// lent byte kept. For one that was refused by 1 or 2 already, and for all
/// others, none.
pub fn before_rule(vector: &Vector) -> Option<Vector> {
    let table = match vector.call.entry {
        Entry::Move => &vector.call.lent,
        Entry::Nodes | Entry::OpenMoves => &vector.call.read,
        _ => return None,
    };
    let passed = !matches!(number_of(vector.answer), 1 | 2);
    (passed && all_back_off(table)).then(|| Vector {
        answer: refused(2, 0),
        after: vector.call.lent.clone(),
        ..vector.clone()
    })
}

/// All vectors. That there are none of a kind is an error.
pub fn read(dir: &Path) -> Result<Vec<Vector>, String> {
    let mut vectors = calls(dir)?;
    for entry in entries() {
        if !vectors.iter().any(|vector| vector.call.entry == entry) {
            return Err(format!("calls.txt has no call of {}", entry.name()));
        }
    }
    let pairs = scripts(dir)?;
    if pairs.is_empty() {
        return Err("there are no scripts".to_string());
    }
    vectors.extend(pairs);
    Ok(vectors)
}
