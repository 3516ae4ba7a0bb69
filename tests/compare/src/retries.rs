//! Examples of 02 §7: moves that are retries, each beside ones that are not, and
//! runs whose retries are counted.

use crate::comparison::Comparison;
use crate::model::{CALL_EXCLUSIVE, CALL_SHARED, CLEAR, GO, HOLD, MAX_SCRIPT, RELENT, SET};
use crate::part::{done, refused, retries_of, value_of, Call};
use crate::tables;

/// What a quiet move answers that is a retry, and one that is none.
const RETRY: u64 = 1 << 40;
const QUIET: u64 = 0;

/// Examples of moves and of runs.
pub fn examples(c: &mut Comparison) {
    readers(c);
    setting_flags(c);
    reading_busy(c);
    clearing_flags(c);
    events(c);
    most_threads(c);
    counted(c);
    stopped_at_hold(c);
    without_retries(c);
    many(c);
}

/// A move of thread 0, with its answer and the table after it.
type Move = ([u16; 2], u64, [u8; 9]);

/// Makes moves of thread 0 in a table, each in this same table.
fn moves(c: &mut Comparison, table: [u8; 9], moves: &[Move]) {
    for ([mov, target], answer, after) in moves {
        let call = Call::make_move(table.to_vec(), 0, *mov, *target);
        c.expect("a retry or none", &call, *answer, after);
    }
}

/// A reader that was turned away tries again. Before, it backs off; with the
/// mutex it goes on.
fn readers(c: &mut Comparison) {
    let again = [2, 0, 255, 1, 0, 0, 9, 0, 0];
    let turned_away = [2, 0, 255, 4, 0, 0, 9, 0, 0];
    let holds = [2, 1, 255, 18, 0, 0, 9, 0, 0];
    moves(
        c,
        turned_away,
        &[([GO, 0], RETRY, again), ([HOLD, 0], RETRY, holds)],
    );
    moves(c, holds, &[([GO, 0], QUIET, again)]);
    let backs_off = [2, 0, 255, 3, 1, 0, 9, 0, 0];
    moves(c, backs_off, &[([GO, 0], QUIET, turned_away)]);
    let raised = [2, 0, 255, 2, 1, 0, 9, 0, 0];
    moves(c, again, &[([GO, 0], QUIET, raised)]);
    let held = [2, 1, 255, 4, 0, 0, 10, 0, 0];
    let again = [2, 1, 255, 1, 0, 0, 10, 0, 0];
    moves(
        c,
        held,
        &[([HOLD, 0], refused(7, 0), held), ([GO, 0], RETRY, again)],
    );
}

/// A writer in 10 sets a flag that is set, or one that is not.
fn setting_flags(c: &mut Comparison) {
    moves(
        c,
        [2, 1, 255, 10, 0, 0, 0, 0, 1],
        &[
            ([SET, 1], RETRY, [2, 1, 1, 11, 0, 0, 0, 0, 1]),
            ([SET, 0], QUIET, [2, 1, 0, 11, 0, 1, 0, 0, 1]),
        ],
    );
}

/// A writer in 11 reads busy 1 or 0, or relents; in 12 it goes on.
fn reading_busy(c: &mut Comparison) {
    let takes_back = [2, 1, 1, 12, 0, 0, 2, 1, 1];
    moves(
        c,
        [2, 1, 1, 11, 0, 0, 2, 1, 1],
        &[
            ([GO, 0], RETRY, takes_back),
            ([RELENT, 0], RETRY, takes_back),
        ],
    );
    moves(
        c,
        takes_back,
        &[([GO, 0], QUIET, [2, 1, 255, 10, 0, 0, 2, 1, 0])],
    );
    moves(
        c,
        [2, 1, 1, 11, 0, 0, 1, 0, 1],
        &[
            ([GO, 0], QUIET, [2, 1, 255, 10, 0, 0, 1, 0, 1]),
            ([RELENT, 0], RETRY, [2, 1, 1, 12, 0, 0, 1, 0, 1]),
        ],
    );
    moves(
        c,
        [2, 1, 0, 11, 0, 1, 1, 0, 1],
        &[([GO, 0], QUIET, [2, 1, 255, 13, 0, 1, 1, 0, 1])],
    );
}

/// A writer in 15 sets flags, and clears ones that are set or not.
fn clearing_flags(c: &mut Comparison) {
    let one = [2, 1, 255, 15, 0, 0, 6, 1, 1];
    let both = [2, 1, 255, 15, 0, 1, 6, 1, 1];
    moves(
        c,
        one,
        &[
            ([SET, 0], RETRY, both),
            ([SET, 1], RETRY, one),
            ([CLEAR, 0], RETRY, one),
            ([CLEAR, 1], QUIET, [2, 1, 255, 16, 0, 0, 6, 1, 0]),
        ],
    );
    moves(
        c,
        both,
        &[
            ([SET, 0], RETRY, both),
            ([SET, 1], RETRY, both),
            ([CLEAR, 0], QUIET, one),
            ([CLEAR, 1], QUIET, [2, 1, 255, 15, 0, 1, 6, 1, 0]),
        ],
    );
}

/// A move that shows an event is no retry.
fn events(c: &mut Comparison) {
    let free = [2, 0, 255, 0, 0, 0, 0, 0, 0];
    moves(
        c,
        free,
        &[
            ([CALL_SHARED, 0], done(1), [2, 0, 255, 1, 0, 0, 0, 0, 0]),
            ([CALL_EXCLUSIVE, 0], done(5), [2, 0, 255, 9, 0, 0, 0, 0, 0]),
        ],
    );
    let [in_5, in_6, in_7] = [5, 6, 7].map(|phase| [2, 0, 255, phase, 1, 0, 0, 0, 0]);
    let [in_8, in_17] = [8, 17].map(|phase| [2, 0, 255, phase, 0, 0, 0, 0, 0]);
    let [in_13, in_14, in_15] = [13, 14, 15].map(|phase| [2, 1, 255, phase, 0, 1, 0, 0, 1]);
    for (event, before, after) in [
        (2, in_5, in_6),
        (3, in_6, in_7),
        (4, in_8, free),
        (6, in_13, in_14),
        (7, in_14, in_15),
        (8, in_17, free),
    ] {
        moves(c, before, &[([GO, 0], done(event), after)]);
    }
}

/// The first of 200 threads writes; the last one's flag is set, no other.
fn most_threads(c: &mut Comparison) {
    for (phase, mov, target, answer) in [
        (10, SET, 199, RETRY),
        (10, SET, 198, QUIET),
        (15, SET, 199, RETRY),
        (15, SET, 198, RETRY),
        (15, CLEAR, 199, QUIET),
        (15, CLEAR, 198, RETRY),
    ] {
        let mut table = tables::fresh(200);
        tables::put(&mut table, 0, phase);
        table[1] = 1;
        table[5 + 3 * 199] = 1;
        let call = Call::make_move(table, 0, mov, target);
        let got = c.compare(&call);
        c.claim(got == answer, || {
            format!("{got} and not {answer}: {}", call.words())
        });
    }
}

/// Lines of a script for two threads, and which are retries: all seven kinds, set
/// in 15 for both values of the flag, and between them notes and their
/// neighbours.
const LINES: [(&str, bool); 39] = [
    ("(1 (call exclusive))", false),
    ("(1 (go))", false),
    ("(1 (set 0))", false),
    ("(0 (call shared))", false),
    ("(0 (go))", false),
    ("(1 (go))", true),
    ("(0 (go))", false),
    ("(0 (go))", false),
    ("(note it was turned away)", false),
    ("(0 (go))", true),
    ("(1 (go))", false),
    ("(1 (set 0))", false),
    ("(1 (relent))", true),
    ("(1 (go))", false),
    ("(1 (set 0))", false),
    ("(1 (go))", false),
    ("(1 (set 0))", true),
    ("(1 (go))", false),
    ("(1 (set 1))", false),
    ("(1 (go))", false),
    ("(0 (go))", false),
    ("(0 (go))", false),
    ("(0 (go))", false),
    ("(1 (go))", false),
    ("(1 (go))", false),
    ("(1 (clear 0))", false),
    ("(note (1 (clear 0)))", false),
    ("(1 (clear 0))", true),
    ("(1 (set 0))", true),
    ("(1 (set 0))", true),
    ("(1 (clear 1))", false),
    ("(1 (clear 0))", false),
    ("(1 (go))", false),
    ("(0 (hold))", true),
    ("(0 (go))", false),
    ("(0 (go))", false),
    ("(0 (go))", false),
    ("(0 (go))", false),
    ("(1 (go))", false),
];

/// Runs a script and claims how many retries it counts.
fn counts(c: &mut Comparison, script: String, retries: u64) {
    let room = 5 * script.len() + 64;
    let answer = c.compare(&Call::run(script.clone().into_bytes(), vec![7; room]));
    let got = retries_of(answer);
    c.claim(got == retries && value_of(answer) > 0, || {
        format!("{got} retries and not {retries}: {script}")
    });
}

/// Lines of which a run turns one down for the thread's phase.
const CALLS: &str = "(1 (call exclusive))\n(1 (call exclusive))\n";

/// The script after each of its lines: as it stands then, and with a line behind
/// it that is turned down for its phase or its form.
fn counted(c: &mut Comparison) {
    let (mut script, mut retries) = ("(threads 2)\n".to_string(), 0);
    for (line, retry) in LINES {
        script += &format!("{line}\n");
        retries += u64::from(retry);
        for last in ["", CALLS, "(0 (go)\n"] {
            counts(c, format!("{script}{last}"), retries);
        }
    }
    c.claim(retries == 8, || format!("{retries} retries of 8"));
    // A run that is refused has no retries to tell of.
    let call = Call::run(script.into_bytes(), vec![7; 20]);
    c.expect("no room", &call, refused(12, 0), &[7; 20]);
}

/// A run that is stopped at a hold, which is refused while another thread has the
/// mutex, does not count it.
fn stopped_at_hold(c: &mut Comparison) {
    let script = "(threads 2)\n(1 (call exclusive))\n(1 (go))\n(1 (set 0))\n(0 (call shared))\n\
        (0 (go))\n(0 (go))\n(0 (go))\n(0 (hold))\n";
    let printed =
        b"(event 1 (enter exclusive call))\n(event 0 (enter shared call))\n(refused 7 9)\n";
    let call = Call::run(script.as_bytes().to_vec(), vec![7; printed.len()]);
    c.expect("hold", &call, done(printed.len() as u64), printed);
}

/// Scripts that make no retry, or no move.
fn without_retries(c: &mut Comparison) {
    for script in [
        "",
        "(threads 0)\n",
        "(threads 1)\n",
        "(threads 1)\n(note (0 (hold)))\n",
        "(threads 1)\n(0 (relent))\n",
        "(threads 1)\n(0 (call shared))\n(0 (go))\n(0 (go))\n(0 (go))\n(0 (go))\n",
    ] {
        counts(c, script.to_string(), 0);
    }
}

/// The moves of one thread that lead to 15.
const TO_15: &str = "(threads 1)\n(0 (call exclusive))\n(0 (go))\n(0 (set 0))\n(0 (go))\n\
    (0 (go))\n(0 (go))\n";

/// As many retries as fit in a script: sets in 15.
fn many(c: &mut Comparison) {
    let line = "(0 (set 0))\n";
    let most = (MAX_SCRIPT - TO_15.len()) / line.len();
    for retries in [255, 256, 257, 1023, 1024, most - 1, most] {
        let script = TO_15.to_string() + &line.repeat(retries);
        counts(c, script, retries as u64);
    }
    c.say(&format!("  a script with {most} retries"));
}
