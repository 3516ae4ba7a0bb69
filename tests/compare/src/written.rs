//! Scripts written from lists of moves, and read: examples, and what is
//! compared, one function a section.

use crate::comparison::Comparison;
use crate::histories;
use crate::lengths;
use crate::lists;
use crate::model::{MAX_SCRIPT, RUN_ROOM};
use crate::part::{done, done_reading, number_of, refused, value_of, Call, Entry};
use crate::random::Random;
use crate::scripts;
use crate::vectors::{before_hold, Vector};

/// What outputs hold before a call.
const FILL: u8 = 0x5a;
/// Numbers of threads of lists, scripts and plans.
const THREADS: [usize; 7] = [1, 2, 3, 10, 50, 101, 200];
/// Moves of a long list: more than a script can have or 16 bits count.
const MANY_MOVES: usize = 66_667;
/// Scripts that are run and read.
const SCRIPTS: usize = 40_000;

// -------------------------------------------------------------- common claims

fn write(threads: usize, list: &[u8], room: usize) -> Call {
    Call::write_script(threads as u16, list.to_vec(), vec![FILL; room])
}

fn read(script: &[u8], room: usize) -> Call {
    Call::read_script(script.to_vec(), vec![FILL; room])
}

/// A room in which the triples of a script fit.
fn list_room(script: &[u8]) -> usize {
    script.len() / 3 + 1
}

/// Holds a call that writes these bytes to them, in outputs of that length and
/// near it.
fn rooms(c: &mut Comparison, name: &str, mut call: Call, answer: u64, written: &[u8]) {
    let size = written.len();
    for room in [0, size.saturating_sub(1), size, size + 1, size + 40] {
        call.lent = vec![FILL; room];
        let mut after = call.lent.clone();
        if room < size {
            c.expect(name, &call, refused(12, 0), &after);
        } else {
            after[..size].copy_from_slice(written);
            c.expect(name, &call, answer, &after);
        }
    }
}

/// The list is written as its script.
fn written(c: &mut Comparison, name: &str, threads: usize, list: &[u8], script: &[u8]) {
    let answer = done(script.len() as u64);
    rooms(c, name, write(threads, list, 0), answer, script);
}

/// The script is read as these threads and this list.
fn read_as(c: &mut Comparison, name: &str, script: &[u8], threads: usize, list: &[u8]) {
    let answer = done_reading(threads as u64, list.len() as u64);
    rooms(c, name, read(script, 0), answer, list);
}

/// A call is refused, whether its output is long enough or not.
fn turned_down(c: &mut Comparison, name: &str, mut call: Call, number: u64, place: usize) {
    for room in [0, 100, MAX_SCRIPT + 100] {
        call.lent = vec![FILL; room];
        let after = call.lent.clone();
        c.expect(name, &call, refused(number, place as u64), &after);
    }
}

// ------------------------------------------------------------------ examples

/// N, a list of moves, and its script.
type Spelling = (usize, &'static [[u8; 3]], &'static str);

const SPELLINGS: [Spelling; 4] = [
    (7, &[], "(threads 7)\n"),
    (
        1,
        &[[0, 1, 0], [0, 0, 0], [0, 0, 0], [0, 0, 0]],
        "(threads 1)\n(0 (call shared))\n(0 (go))\n(0 (go))\n(0 (go))\n",
    ),
    (
        200,
        &[
            [0, 0, 0],
            [9, 1, 0],
            [10, 2, 0],
            [99, 3, 0],
            [100, 4, 9],
            [199, 5, 0],
            [109, 6, 0],
            [5, 3, 10],
            [50, 4, 99],
            [55, 3, 100],
            [101, 4, 199],
            [20, 3, 199],
        ],
        "(threads 200)\n(0 (go))\n(9 (call shared))\n(10 (call exclusive))\n(99 (set 0))\n\
        (100 (clear 9))\n(199 (relent))\n(109 (hold))\n(5 (set 10))\n(50 (clear 99))\n\
        (55 (set 100))\n(101 (clear 199))\n(20 (set 199))\n",
    ),
    // A run refuses the first of these moves by 6.
    (
        10,
        &[[3, 6, 0], [3, 6, 0], [9, 5, 0], [0, 4, 0], [0, 3, 9]],
        "(threads 10)\n(3 (hold))\n(3 (hold))\n(9 (relent))\n(0 (clear 0))\n(0 (set 9))\n",
    ),
];

/// Lists for two threads that are turned down: the refusal and its place.
const BAD_LISTS: [(&[u8], u64, usize); 29] = [
    (&[0], 8, 0),
    (&[0, 0], 8, 0),
    (&[0, 0, 0, 0], 8, 0),
    // 8 before 3, 4 and 5
    (&[2, 0, 0, 0], 8, 0),
    (&[0, 7, 0, 0, 0], 8, 0),
    (&[0, 0, 0, 0, 0, 1, 0], 8, 0),
    (&[2, 0, 0], 3, 0),
    (&[255, 0, 0], 3, 0),
    (&[0, 0, 0, 1, 1, 0, 2, 6, 0], 3, 2),
    // 3 before 4 and 5
    (&[2, 7, 0], 3, 0),
    (&[2, 0, 1], 3, 0),
    (&[2, 3, 2], 3, 0),
    (&[2, 7, 1], 3, 0),
    (&[0, 7, 0], 4, 0),
    (&[0, 255, 0], 4, 0),
    (&[0, 0, 0, 1, 7, 0], 4, 1),
    // 4 before 5
    (&[0, 7, 1], 4, 0),
    (&[1, 128, 255], 4, 0),
    (&[0, 3, 2], 5, 0),
    (&[0, 4, 255], 5, 0),
    (&[0, 0, 1], 5, 0),
    (&[0, 1, 1], 5, 0),
    (&[0, 2, 1], 5, 0),
    (&[0, 5, 1], 5, 0),
    (&[1, 6, 1], 5, 0),
    (&[0, 3, 1, 0, 4, 1, 1, 4, 2], 5, 2),
    // each triple before the next
    (&[0, 0, 1, 2, 0, 0], 5, 0),
    (&[0, 7, 0, 2, 0, 0], 4, 0),
    (&[0, 3, 2, 0, 7, 0], 5, 0),
];

/// Scripts that are turned down: the refusal and its line.
const BAD_SCRIPTS: [(&str, u64, usize); 22] = [
    ("", 8, 1),
    ("\n", 8, 1),
    ("(threads 1)", 8, 1),
    ("(0 (go))\n", 8, 1),
    ("(note a)\n(threads 1)\n", 8, 1),
    ("(threads 0)\n", 1, 1),
    ("(threads 201)\n", 1, 1),
    ("(threads 0)\n(0 (go))", 1, 1),
    ("(threads 1000)\n", 8, 1),
    ("(threads 2)\n(2 (go))\n", 3, 2),
    ("(threads 2)\n(1 (set 2))\n", 5, 2),
    ("(threads 2)\n(2 (set 2))\n", 3, 2),
    ("(threads 2)\n(2 (set 1000))\n", 8, 2),
    ("(threads 2)\n(2 (go))", 8, 2),
    ("(threads 2)\n(threads 2)\n", 8, 2),
    ("(threads 2)\n\n(0 (go))\n", 8, 2),
    ("(threads 2)\n(note a)\n(note )\n(2 (go))\n", 3, 4),
    ("(threads 2)\n(note a)\n(1 (set 2))\n(2 (go))\n", 5, 3),
    ("(threads 2)\n(2 (hold))\n(1 (set 2))\n(1 (go)\n", 3, 2),
    ("(threads 2)\n(1 (go))\n(1 (go)\n(2 (go))\n", 8, 3),
    // A run stops before, by 6 or by 7.
    ("(threads 2)\n(0 (go))\n(0 (set 5))\n", 5, 3),
    (
        "(threads 2)\n(0 (call exclusive))\n(0 (go))\n(1 (call exclusive))\n(1 (go))\n(2 (go))\n",
        3,
        6,
    ),
];

/// A script with a note whose text has brackets of this depth, and a move.
fn with_note(depth: usize) -> Vec<u8> {
    let (open, close) = ("(".repeat(depth), ")".repeat(depth));
    format!("(threads 1)\n(note {open}{close})\n(0 (go))\n").into_bytes()
}

/// Examples of writing and reading.
pub fn examples(c: &mut Comparison) {
    for (threads, list, script) in SPELLINGS {
        let (list, script) = (list.concat(), script.as_bytes());
        written(c, "a list written", threads, &list, script);
        read_as(c, "a script read", script, threads, &list);
    }
    read_as(
        c,
        "a script with notes",
        b"(threads 3)\n(note )\n(note (0 (go)))\n(2 (set 1))\n(note a)\n(0 (go))\n(note b)\n",
        3,
        &[2, 3, 1, 0, 0, 0],
    );
    read_as(c, "depth of a note", &with_note(16), 1, &[0, 0, 0]);
    turned_down(c, "depth of a note", read(&with_note(17), 0), 8, 2);
    for threads in [0, 201, 255, 256, 257, 456, 65535] {
        for list in [&[][..], &[0], &[0, 0, 0], &[255, 7, 1]] {
            turned_down(c, "a bad N", write(threads, list, 0), 1, 0);
        }
    }
    for (list, number, place) in BAD_LISTS {
        turned_down(c, "a bad list", write(2, list, 0), number, place);
    }
    for (script, number, line) in BAD_SCRIPTS {
        let call = read(script.as_bytes(), 0);
        turned_down(c, "a bad script", call, number, line);
    }
}

// ------------------------------------------------------------ scripts that run

/// The refusal and the line that a run printed last, none for a line of steps.
pub fn stop(output: &[u8]) -> Option<[u64; 2]> {
    let text = std::str::from_utf8(output).ok()?;
    let words = text.lines().last()?.strip_prefix("(refused ")?;
    let (number, line) = words.strip_suffix(')')?.split_once(' ')?;
    Some([number.parse().ok()?, line.parse().ok()?])
}

/// Whether a script may be read so, by where its run stopped. A run that
/// stopped by 6 or 7 says nothing of the lines after.
fn agrees(stop: Option<[u64; 2]>, reading: u64) -> bool {
    match stop {
        None => number_of(reading) == 0,
        Some([6 | 7, line]) => number_of(reading) == 0 || value_of(reading) > line,
        Some([number, line]) => reading == refused(number, line),
    }
}

/// Runs a script and reads it: reading turns down just what the run does for
/// form and numbers. Gives where the run stopped and what reading answered.
pub fn run_and_read(c: &mut Comparison, script: &[u8]) -> (Option<[u64; 2]>, u64) {
    let room = (5 * script.len() + 64).min(RUN_ROOM);
    let ran = c.compare(&Call::run(script.to_vec(), vec![FILL; room]));
    let stopped = match number_of(ran) {
        0 => stop(&c.lent()[..value_of(ran) as usize]),
        number => Some([number.into(), value_of(ran)]),
    };
    let reading = c.compare(&read(script, list_room(script)));
    c.claim(agrees(stopped, reading), || {
        let text = String::from_utf8_lossy(script);
        format!("run stopped at {stopped:?}, reading answered {reading}: {text}")
    });
    (stopped, reading)
}

/// The list that a script was read as.
fn list_read(c: &Comparison, reading: u64) -> Vec<u8> {
    let bytes = value_of(reading) / 256;
    c.lent()[..bytes as usize].to_vec()
}

/// The scripts of the vectors. Where the vector says that the run stopped for
/// form or numbers, reading stops there. Every script that can be read is
/// written again. A vector that the rule of `before_hold` names says so of the
/// form that the rule gives it; as it stands, it is read too.
pub fn vectors_again(c: &mut Comparison, vectors: &[Vector]) {
    let (mut again, mut turned_down) = (0, 0);
    for vector in vectors.iter().filter(|v| v.call.entry == Entry::Run) {
        let old = before_hold(vector);
        let held = old.as_ref().unwrap_or(vector);
        let reading = vector_again(c, held);
        if number_of(reading) == 0 {
            again += 1;
        } else {
            turned_down += 1;
        }
        if number_of(held.answer) == 0 {
            let printed = &held.after[..value_of(held.answer) as usize];
            c.claim(agrees(stop(printed), reading), || {
                format!("{}: reading answered {reading}", held.name)
            });
        }
        if old.is_some() {
            vector_again(c, vector);
        }
        if c.stopped() {
            return;
        }
    }
    // Planted faults are sought without vectors too.
    if !vectors.is_empty() {
        c.claim(again > 0 && turned_down > 0, || {
            format!("{again} scripts read, {turned_down} turned down")
        });
        c.say(&format!(
            "  {again} scripts read and written again, {turned_down} turned down"
        ));
    }
}

/// Runs and reads the script of a vector, and writes it again if it can be read.
fn vector_again(c: &mut Comparison, vector: &Vector) -> u64 {
    let script = &vector.call.read;
    let (_, reading) = run_and_read(c, script);
    if number_of(reading) == 0 {
        written_again(c, &vector.name, script);
    }
    reading
}

/// A script that can be read is, written again, its source without the notes.
fn written_again(c: &mut Comparison, name: &str, script: &[u8]) {
    let reading = c.compare(&read(script, list_room(script)));
    let list = list_read(c, reading);
    let threads = value_of(reading) % 256;
    let source = scripts::without_notes(script);
    written(c, name, threads as usize, &list, &source);
}

/// Random scripts, in order and damaged, run and read. Every way in which the
/// run and reading can agree is met.
pub fn against_run(c: &mut Comparison, seed: u64) {
    let mut r = Random::new(seed);
    // by the run's refusal: how often reading accepts, and how often it refuses
    let mut counts = [[0; 2]; 9];
    for _ in 0..SCRIPTS {
        let script = script_to_run(&mut r);
        let (stopped, reading) = run_and_read(c, &script);
        let number = stopped.map_or(0, |[number, _]| number);
        counts[number as usize][usize::from(number_of(reading) != 0)] += 1;
        if c.stopped() {
            return;
        }
    }
    let [ends, bad_n, _, thread, _, target, phase, mutex, form] = counts;
    let both = [phase, mutex].concat();
    let turned_down = [bad_n, thread, target, form].map(|count| count[1]);
    c.claim(ends[0] > 0 && !both.contains(&0), || {
        format!("scripts that end {ends:?}, that stop by 6 and 7 {both:?}")
    });
    c.claim(!turned_down.contains(&0), || {
        format!("stopped by 1, 3, 5, 8: {turned_down:?}")
    });
    c.say(&format!(
        "  {SCRIPTS} scripts: {} run to the end, {turned_down:?} stop by 1, 3, 5, 8; {} stop by 6 or 7, of which {} are read",
        ends[0],
        both.iter().sum::<u32>(),
        phase[0] + mutex[0],
    ));
}

/// A random script, mostly one of which a run takes a few lines.
fn script_to_run(r: &mut Random) -> Vec<u8> {
    let lines = 1 + r.below(40);
    let script = scripts::script(r, lines);
    match r.below(4) {
        0 => script,
        1 => {
            let threads = 1 + r.below(4);
            let bad = scripts::bad_lines(threads);
            let at = r.below(bad.len());
            [&script[..], &bad[at].0, b"\n"].concat()
        }
        _ => scripts::damaged(r, &script),
    }
}

// --------------------------------------------------------- lists and bad lines

/// Random lists: each is written as it is spelled here, and read back, with
/// notes among its lines too. A list that differs in one move has another script.
pub fn lists_again(c: &mut Comparison, seed: u64) {
    let mut moves = 0;
    for (round, threads) in THREADS.repeat(40).into_iter().enumerate() {
        let mut r = Random::new(seed ^ round as u64);
        let count = r.below(200);
        let list = lists::list(&mut r, threads, count);
        let script = scripts::spelled(threads, &list);
        written(c, "a random list", threads, &list, &script);
        read_as(c, "its script", &script, threads, &list);
        let noted = scripts::with_notes(&mut r, threads, &list);
        read_as(c, "its script with notes", &noted, threads, &list);
        written_again(c, "a script with notes", &noted);
        other_script(c, &mut r, threads, list, &script);
        moves += count;
        if c.stopped() {
            return;
        }
    }
    c.say(&format!(
        "  280 lists of {moves} moves, written and read back"
    ));
}

/// A list with another move at one place, or one move more, has another script.
fn other_script(
    c: &mut Comparison,
    r: &mut Random,
    threads: usize,
    mut list: Vec<u8>,
    script: &[u8],
) {
    let at = 3 * r.below(list.len() / 3 + 1);
    let triple = lists::triple(r, threads);
    if list[at..].starts_with(&triple) {
        return;
    }
    list.splice(at..(at + 3).min(list.len()), triple);
    let answer = c.compare(&write(threads, &list, MAX_SCRIPT));
    let other = &c.lent()[..value_of(answer) as usize];
    let differs = number_of(answer) == 0 && other != script;
    c.claim(differs, || format!("the same script for {list:?}"));
}

/// Lists with a bad triple and scripts with a bad line, of each kind, at a
/// random place. What follows it may be bad too.
pub fn bad_places(c: &mut Comparison, seed: u64) {
    let mut r = Random::new(seed);
    let before = c.passed;
    for threads in THREADS {
        for refusal in [3, 4, 5].repeat(60) {
            bad_list(c, &mut r, threads, refusal);
        }
        for (line, refusal) in scripts::bad_lines(threads) {
            for _ in 0..4 {
                bad_script(c, &mut r, threads, &line, refusal);
            }
        }
        for (line, refusal) in scripts::bad_first_lines() {
            let list = lists::list(&mut r, threads, 5);
            let lines = scripts::without_first(&scripts::spelled(threads, &list));
            let script = [line, b"\n", &lines].concat();
            turned_down(c, "a bad first line", read(&script, 0), refusal, 1);
        }
        if c.stopped() {
            return;
        }
    }
    c.say(&format!("  {} calls", c.passed - before));
}

fn bad_list(c: &mut Comparison, r: &mut Random, threads: usize, refusal: u8) {
    let place = r.below(80);
    let mut list = lists::list(r, threads, place);
    list.extend(lists::bad_triple(r, threads, refusal));
    let after = r.below(3);
    list.extend(lists::list(r, threads, after));
    if r.chance(1, 2) {
        let next = r.pick(&[3, 4, 5]);
        list.extend(lists::bad_triple(r, threads, next));
    }
    let call = write(threads, &list, 0);
    turned_down(c, "a bad triple", call, refusal.into(), place);
}

fn bad_script(c: &mut Comparison, r: &mut Random, threads: usize, line: &[u8], refusal: u64) {
    let moves = r.below(20);
    let list = lists::list(r, threads, moves);
    let mut script = scripts::with_notes(r, threads, &list);
    let place = 1 + scripts::count_lines(&script);
    script.extend([line, b"\n"].concat());
    if r.chance(1, 2) {
        let bad = scripts::bad_lines(threads);
        let next = &bad[r.below(bad.len())].0;
        script.extend([b"(0 (go))\n", &next[..], b"\n"].concat());
    } else if !line.is_empty() && r.chance(1, 2) {
        // 8, whatever else the line is
        script.truncate(script.len() - 1);
        return turned_down(c, "no line feed", read(&script, 0), 8, place);
    }
    turned_down(c, "a bad line", read(&script, 0), refusal, place);
}

// ------------------------------------------------------------------ worst lengths

/// Lists and scripts near the longest that are taken, and far past it.
pub fn longest(c: &mut Comparison, seed: u64) {
    let mut r = Random::new(seed);
    let before = c.passed;
    for threads in [1, 9, 10, 200] {
        for size in MAX_SCRIPT - 1..=MAX_SCRIPT + 30 {
            let list = lists::of_size(&mut r, threads, size);
            of_length(c, threads, &list, size);
        }
        long_lists(c, &mut r, threads);
        if c.stopped() {
            return;
        }
    }
    // the most moves that a script can have
    of_length(c, 1, &[0; 3 * 3332], MAX_SCRIPT);
    long_scripts(c, &mut r);
    c.say(&format!("  {} calls", c.passed - before));
}

/// A list that spells to so many bytes, and its script.
fn of_length(c: &mut Comparison, threads: usize, list: &[u8], size: usize) {
    let script = scripts::spelled(threads, list);
    c.claim(script.len() == size, || {
        format!("{} bytes and not {size}", script.len())
    });
    if size <= MAX_SCRIPT {
        written(c, "a long list", threads, list, &script);
        read_as(c, "a long script", &script, threads, list);
    } else {
        turned_down(c, "a list too long", write(threads, list, 0), 8, 0);
        turned_down(c, "a script too long", read(&script, 0), 8, 0);
    }
}

/// Lists far too long. A bad triple, were it the last, comes before that.
fn long_lists(c: &mut Comparison, r: &mut Random, threads: usize) {
    let mut list = lists::list(r, threads, MANY_MOVES);
    turned_down(c, "a long list", write(threads, &list, 0), 8, 0);
    for (place, refusal) in [
        (MANY_MOVES - 1, 3),
        (MANY_MOVES - 1, 4),
        (MANY_MOVES - 1, 5),
        (65_536, 4),
        (3333, 5),
    ] {
        let triple = lists::bad_triple(r, threads, refusal);
        list[3 * place..3 * place + 3].copy_from_slice(&triple);
        let call = write(threads, &list, 0);
        turned_down(c, "a long list", call, refusal.into(), place);
    }
    list.pop();
    turned_down(c, "a long list", write(threads, &list, 0), 8, 0);
}

/// Scripts of notes and moves of the longest length and one byte more, and with
/// a fault in the last line, or in the first of one too long.
fn long_scripts(c: &mut Comparison, r: &mut Random) {
    let script = scripts::script_of_size(r, MAX_SCRIPT);
    written_again(c, "a long script with notes", &script);
    let lines = scripts::count_lines(&script);
    let cut = &script[..MAX_SCRIPT - 1];
    turned_down(c, "a long script cut", read(cut, 0), 8, lines);
    let bad = [cut, b"\x7f"].concat();
    turned_down(c, "a long script, its end bad", read(&bad, 0), 8, lines);
    let bad = [&script[1..], b"(\n"].concat();
    turned_down(c, "too long, its start bad", read(&bad, 0), 8, 0);
    let mut note = b"(threads 200)\n(note ".to_vec();
    note.resize(MAX_SCRIPT - 2, b'.');
    note.extend(b")\n");
    read_as(c, "one long note", &note, 200, &[]);
    let feeds = vec![b'\n'; MAX_SCRIPT];
    turned_down(c, "line feeds", read(&feeds, 0), 8, 1);
}

// -------------------------------------------------------------- plans that run

/// What a run prints for an event.
fn event_line(thread: u8, event: u8) -> String {
    let section = if event <= 4 { "shared" } else { "exclusive" };
    let side = if (event - 1) % 4 < 2 {
        "enter"
    } else {
        "leave"
    };
    let half = if event % 2 == 1 { "call" } else { "return" };
    format!("(event {thread} ({side} {section} {half}))\n")
}

/// Plans of random permitted histories, written as scripts and run: the output
/// is the events' lines and the number of moves.
pub fn plans_run(c: &mut Comparison, seed: u64) {
    let (mut ran, mut moves, mut too_long) = (0, 0, 0);
    for (round, threads) in THREADS.repeat(20).into_iter().enumerate() {
        let mut r = Random::new(seed ^ round as u64);
        let pairs = r.below(if threads > 100 { 24 } else { 80 });
        let history = histories::history(&mut r, threads, pairs, false);
        let room = 3 * histories::plan_moves(threads, &history);
        c.compare(&Call::plan(
            threads as u16,
            history.clone(),
            vec![FILL; room],
        ));
        let plan = c.lent().to_vec();
        let length = lengths::measure(c, threads as u16, &history);
        c.claim(length == done(plan.len() as u64 / 3), || {
            format!("a plan of {} bytes, its length {length}", plan.len())
        });
        let script = scripts::spelled(threads, &plan);
        if script.len() > MAX_SCRIPT {
            too_long += 1;
            turned_down(c, "a long plan", write(threads, &plan, 0), 8, 0);
        } else {
            ran += 1;
            moves += plan.len() / 3;
            plan_run(c, threads, &plan, &script, &history);
        }
        if c.stopped() {
            return;
        }
    }
    c.claim(ran > 100 && too_long > 0, || {
        format!("{ran} plans run, {too_long} too long")
    });
    c.say(&format!(
        "  {ran} plans, {moves} moves, run as scripts, showing the histories planned; {too_long} too long"
    ));
}

fn plan_run(c: &mut Comparison, threads: usize, plan: &[u8], script: &[u8], history: &[u8]) {
    written(c, "a plan written", threads, plan, script);
    read_as(c, "a plan's script", script, threads, plan);
    c.compare(&write(threads, plan, script.len()));
    let script = c.lent().to_vec();
    let mut printed = history
        .chunks(2)
        .map(|pair| event_line(pair[0], pair[1]))
        .collect::<String>();
    printed += &format!("(steps {})\n", plan.len() / 3);
    let call = Call::run(script, vec![FILL; printed.len()]);
    let answer = done(printed.len() as u64);
    c.expect("a plan's script run", &call, answer, printed.as_bytes());
}
