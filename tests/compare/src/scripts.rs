//! Scripts to test with: random ones that run, and damaged ones.

use crate::model::{self, LAST_MOVE};
use crate::random::Random;
use crate::tables;

/// The words of each move.
const MOVES: [&str; LAST_MOVE as usize + 1] = [
    "go",
    "call shared",
    "call exclusive",
    "set",
    "clear",
    "relent",
    "hold",
];

fn push_move(script: &mut Vec<u8>, thread: usize, mov: u16, target: u16) {
    let words = MOVES[usize::from(mov)];
    let line = if model::takes_target(mov) {
        format!("({thread} ({words} {target}))\n")
    } else {
        format!("({thread} ({words}))\n")
    };
    script.extend(line.bytes());
}

/// The line of a triple.
pub fn line(triple: &[u8]) -> Vec<u8> {
    let mut line = Vec::new();
    push_move(
        &mut line,
        triple[0].into(),
        triple[1].into(),
        triple[2].into(),
    );
    line
}

/// The script of a list of triples that can be spelled.
pub fn spelled(threads: usize, list: &[u8]) -> Vec<u8> {
    let mut script = format!("(threads {threads})\n").into_bytes();
    script.extend(list.chunks(3).flat_map(line));
    script
}

/// A script without its notes.
pub fn without_notes(script: &[u8]) -> Vec<u8> {
    script
        .split_inclusive(|&byte| byte == b'\n')
        .filter(|line| !line.starts_with(b"(note "))
        .flatten()
        .copied()
        .collect()
}

/// A note whose brackets balance; where `deep`, it may pass the depth allowed.
fn push_note(r: &mut Random, script: &mut Vec<u8>, deep: bool) {
    script.extend(b"(note ");
    if deep {
        let depth = 14 + r.below(4);
        script.extend(b"(".repeat(depth));
        script.extend(b")".repeat(depth));
    }
    let mut open = 0;
    for _ in 0..r.below(20) {
        match r.below(6) {
            0 if open < 14 => {
                script.push(b'(');
                open += 1;
            }
            1 if open > 0 => {
                script.push(b')');
                open -= 1;
            }
            _ => script.push(r.pick(b" !'*,-.09AZaz[]^{}~")),
        }
    }
    script.extend(b")".repeat(open));
    script.extend(b")\n");
}

/// One line: a note, or an open move of a thread. Where `wild`, now and then
/// another move, another thread or a deep note.
fn push_line(r: &mut Random, script: &mut Vec<u8>, table: &mut [u8], wild: bool) {
    let threads = usize::from(table[0]);
    if r.chance(1, 12) {
        let deep = wild && r.chance(1, 6);
        return push_note(r, script, deep);
    }
    let mut thread = r.below(threads.min(4));
    let mut open = [0; 4 * model::MAX_THREADS];
    let answer = model::open_moves(table, thread as u16, &mut open);
    let (mov, target) = match answer {
        model::Answer::Done(size) if size > 0 && !(wild && r.chance(1, 40)) => {
            let at = 2 * r.below(size / 2);
            (u16::from(open[at]), u16::from(open[at + 1]))
        }
        _ if !wild => return,
        _ => {
            let mov = r.below(MOVES.len()) as u16;
            let target = if model::takes_target(mov) {
                r.below(threads + 1) as u16
            } else {
                0
            };
            (mov, target)
        }
    };
    if wild && r.chance(1, 200) {
        thread = threads + r.below(2);
    }
    model::make_move(table, thread as u16, mov, target);
    push_move(script, thread, mov, target);
}

/// A random script of up to `lines` lines that breaks no form but a note's.
pub fn script(r: &mut Random, lines: usize) -> Vec<u8> {
    let threads = if r.chance(3, 4) {
        1 + r.below(3)
    } else {
        tables::threads(r)
    };
    let mut script = format!("(threads {threads})\n").into_bytes();
    let mut table = tables::fresh(threads);
    let wild = r.chance(3, 4);
    for _ in 0..lines {
        push_line(r, &mut script, &mut table, wild);
    }
    script
}

/// The script of a list of triples that can be spelled, with notes among them.
pub fn with_notes(r: &mut Random, threads: usize, list: &[u8]) -> Vec<u8> {
    let mut script = spelled(threads, &[]);
    for triple in list.chunks(3) {
        for _ in 0..r.pick(&[0, 0, 0, 1, 2]) {
            push_note(r, &mut script, false);
        }
        script.extend(line(triple));
    }
    if r.chance(1, 3) {
        let text = r.pick(&[
            "(0 (go))",
            "(threads 2)",
            "(((((((((((((((())))))))))))))))",
            "",
        ]);
        script.extend(format!("(note {text})\n").bytes());
    }
    script
}

/// A script that runs to its end and has exactly `size` bytes, at least 200,
/// its last line a note.
pub fn script_of_size(r: &mut Random, size: usize) -> Vec<u8> {
    let mut script = b"(threads 3)\n".to_vec();
    let mut table = tables::fresh(3);
    while script.len() + 100 < size {
        push_line(r, &mut script, &mut table, false);
    }
    script.extend(b"(note ");
    script.resize(size - 2, b'.');
    script.extend(b")\n");
    script
}

/// A script in which other lines stand where `edited` gives them. Lines are
/// handed over without their line feed.
pub fn map_lines(script: &[u8], edited: impl Fn(&[u8]) -> Option<Vec<u8>>) -> Vec<u8> {
    script
        .split(|&byte| byte == b'\n')
        .map(|line| edited(line).unwrap_or(line.to_vec()))
        .collect::<Vec<_>>()
        .join(&b'\n')
}

pub fn count_lines(script: &[u8]) -> usize {
    script.iter().filter(|&&byte| byte == b'\n').count()
}

/// A script without its first line.
pub fn without_first(script: &[u8]) -> Vec<u8> {
    let end = script.iter().position(|&byte| byte == b'\n').unwrap();
    script[end + 1..].to_vec()
}

/// Lines that are no form of a line after the first.
const NO_FORMS: [&str; 56] = [
    "",
    " ",
    "(",
    "()",
    "(0)",
    "(0 )",
    "(0 ())",
    "(go)",
    "( (go))",
    "0 (go)",
    "(0 go)",
    "(0 (go)",
    "(0 (go)))",
    "(0 (go)) ",
    " (0 (go))",
    "(0  (go))",
    "(0(go))",
    "(0 (go ))",
    "(0 ( go))",
    "(0 (Go))",
    "(0 (goes))",
    "(0 (g))",
    "(0 (go))\r",
    "(0 (go))\0",
    "(0\t(go))",
    "(00 (go))",
    "(01 (go))",
    "(000 (go))",
    "(1000 (go))",
    "(-1 (go))",
    "(0x0 (go))",
    "(0 (go 0))",
    "(0 (call))",
    "(0 (call both))",
    "(0 (call  shared))",
    "(0 (callshared))",
    "(0 (call shared exclusive))",
    "(0 (set))",
    "(0 (set ))",
    "(0 (set  0))",
    "(0 (set 00))",
    "(0 (set 1000))",
    "(0 (set 0 0))",
    "(0 (clear))",
    "(0 (clear 01))",
    "(0 (relent 0))",
    "(0 (hold 0))",
    "(note)",
    "(note",
    "(note(a))",
    "(note a",
    "(note ))",
    "(note ()",
    "(note )(",
    "(note \u{1f})",
    "(note \u{7f})",
];

/// Lines that are turned down for so many threads, each with its refusal.
pub fn bad_lines(threads: usize) -> Vec<(Vec<u8>, u64)> {
    let text = |number: u64, line: String| (line.into_bytes(), number);
    let mut lines = NO_FORMS.map(|line| text(8, line.to_string())).to_vec();
    for depth in [17, 18, 300] {
        let (open, close) = ("(".repeat(depth), ")".repeat(depth));
        lines.push(text(8, format!("(note {open}{close})")));
    }
    lines.push((b"(note \x80)".to_vec(), 8));
    lines.push((b"(note \xff)".to_vec(), 8));
    // The form comes before the numbers.
    lines.push(text(8, format!("(threads {threads})")));
    lines.push(text(8, format!("({threads} (gone))")));
    lines.push(text(8, format!("({threads} (set {threads})")));
    for past in [threads, 200, 256, 512, 999] {
        let last = threads - 1;
        lines.push(text(3, format!("({past} (go))")));
        lines.push(text(3, format!("({past} (call exclusive))")));
        lines.push(text(3, format!("({past} (set {last}))")));
        // 3 before 5
        lines.push(text(3, format!("({past} (clear {past}))")));
        lines.push(text(5, format!("({last} (set {past}))")));
        lines.push(text(5, format!("(0 (clear {past}))")));
    }
    lines
}

/// First lines that are turned down, each with its refusal.
pub fn bad_first_lines() -> impl Iterator<Item = (&'static [u8], u64)> {
    const NO_FORMS: [&str; 21] = [
        "",
        "(threads)",
        "(threads )",
        "(threads 01)",
        "(threads 001)",
        "(threads 00)",
        "(threads 1000)",
        "(threads 1) ",
        " (threads 1)",
        "(threads  1)",
        "(threads 1 )",
        "(threads 1",
        "(threads 1))",
        "(threads 1 1)",
        "(threads -1)",
        "(threads\t1)",
        "(thread 1)",
        "(Threads 1)",
        "(threads 1)\r",
        "(note threads)",
        "(0 (go))",
    ];
    const BAD: [&str; 6] = [
        "(threads 0)",
        "(threads 201)",
        "(threads 255)",
        "(threads 256)",
        "(threads 257)",
        "(threads 999)",
    ];
    let with = |number: u64| move |line: &'static str| (line.as_bytes(), number);
    NO_FORMS
        .into_iter()
        .map(with(8))
        .chain(BAD.into_iter().map(with(1)))
}

/// A script with a fault or two, which may yet run.
pub fn damaged(r: &mut Random, script: &[u8]) -> Vec<u8> {
    let mut script = script.to_vec();
    let at = r.below(script.len());
    let first = script.iter().position(|&b| b == b'\n').unwrap() + 1;
    match r.below(13) {
        0 => script[at] = r.byte(),
        1 => script[at] = r.pick(b"() \n\t\r0129gosetclrn~\x1f\x7f"),
        2 => drop(script.remove(at)),
        3 => script.insert(at, r.pick(b"() \n0129a")),
        4 => script.truncate(at),
        5 => drop(script.pop()),
        6 => {
            let threads = r.pick(&["0", "00", "01", "200", "201", "999", "1000", "", "-1", "+1"]);
            script.splice(..first, format!("(threads {threads})\n").into_bytes());
        }
        7 => drop(script.drain(..first)),
        8 => script.extend_from_within(..first),
        9 => script.extend(b"(0 (set 999))\n"),
        10 => script.extend(
            r.pick(&[
                "(00 (go))\n",
                "(0 (foo))\n",
                "(999 (go))\n",
                "(0 (set))\n",
                "(0 (hold 0))\n",
            ])
            .bytes(),
        ),
        11 => script.extend(
            r.pick(&["(note)\n", "(note(a))\n", "(note ))\n", "(note a", "\n"])
                .bytes(),
        ),
        _ => script = r.bytes(at.min(40)),
    }
    script
}
