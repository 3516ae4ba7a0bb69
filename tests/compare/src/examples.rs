//! The marked and other examples of the scope paper and its bounds, and
//! examples of hold and of the watcher.

use crate::comparison::Comparison;
use crate::histories;
use crate::model::{self, Record, MAX_HISTORY, MAX_SCRIPT, RECORD_SIZE, RUN_ROOM};
use crate::part::{done, refused, retried, Call};
use crate::random::Random;
use crate::scripts;
use crate::watchers::record;

/// M1 to M12.
pub fn marked(c: &mut Comparison) {
    c.expect(
        "M1",
        &Call::fresh(1, vec![7; 6]),
        done(6),
        &[1, 0, 255, 0, 0, 0],
    );
    // name, thread, move, target, event, table after
    type Step = (&'static str, [u16; 3], u64, [u8; 9]);
    let steps: [Step; 10] = [
        ("M2", [1, 2, 0], 5, [2, 0, 255, 0, 0, 0, 9, 0, 0]),
        ("M3", [1, 0, 0], 0, [2, 1, 255, 0, 0, 0, 10, 0, 0]),
        ("M4", [1, 3, 0], 0, [2, 1, 0, 0, 0, 1, 11, 0, 0]),
        ("M5", [1, 0, 0], 0, [2, 1, 255, 0, 0, 1, 10, 0, 0]),
        ("M6", [1, 3, 1], 0, [2, 1, 1, 0, 0, 1, 11, 0, 1]),
        ("M6", [1, 0, 0], 0, [2, 1, 255, 0, 0, 1, 13, 0, 1]),
        ("M7", [1, 0, 0], 6, [2, 1, 255, 0, 0, 1, 14, 0, 1]),
        ("M8", [0, 1, 0], 1, [2, 1, 255, 1, 0, 1, 14, 0, 1]),
        ("M8", [0, 0, 0], 0, [2, 1, 255, 2, 1, 1, 14, 0, 1]),
        ("M8", [0, 0, 0], 0, [2, 1, 255, 3, 1, 1, 14, 0, 1]),
    ];
    let mut table = vec![2, 0, 255, 0, 0, 0, 0, 0, 0];
    for (name, [thread, mov, target], event, after) in steps {
        c.expect(
            name,
            &Call::make_move(table, thread, mov, target),
            done(event),
            &after,
        );
        table = after.to_vec();
    }
    let history = vec![0, 1, 0, 2, 1, 5, 1, 6];
    c.expect("M9", &Call::check(2, history), refused(11, 3), &[]);
    let history = vec![0, 1, 0, 2, 1, 5, 0, 3, 1, 6];
    c.expect("M10", &Call::check(2, history), done(5), &[]);
    c.expect("M11", &Call::check(2, vec![0, 2]), refused(10, 0), &[]);
    c.expect("M11", &Call::check(2, vec![]), done(0), &[]);
    let plan = [0, 2, 0, 0, 0, 0, 0, 3, 0, 0, 0, 0, 0, 0, 0];
    c.expect(
        "M12",
        &Call::plan(1, vec![0, 5, 0, 6], vec![7; 15]),
        done(5),
        &plan,
    );
}

/// The other examples, and every bound with one more.
pub fn others(c: &mut Comparison) {
    let table = vec![2, 1, 255, 0, 0, 0, 0, 0, 0];
    c.expect(
        "unsound",
        &Call::make_move(table.clone(), 0, 1, 0),
        refused(2, 0),
        &table,
    );
    let table = vec![1, 0, 255, 0, 0];
    c.expect(
        "five bytes",
        &Call::make_move(table.clone(), 0, 1, 0),
        refused(1, 0),
        &table,
    );
    let mut fresh = vec![0; model::table_size(200)];
    (fresh[0], fresh[2]) = (200, 255);
    c.expect(
        "200 threads",
        &Call::fresh(200, vec![7; 603]),
        done(603),
        &fresh,
    );
    c.expect(
        "201 threads",
        &Call::fresh(201, vec![7; 700]),
        refused(1, 0),
        &[7; 700],
    );
    let script = b"(threads 1)\n(0 (call shared))\n(0 (go))\n(0 (go))\n(0 (go))\n";
    let printed = b"(event 0 (enter shared call))\n(event 0 (enter shared return))\n(steps 4)\n";
    let call = Call::run(script.to_vec(), vec![7; printed.len()]);
    c.expect("whole case", &call, done(printed.len() as u64), printed);
    c.expect(
        "empty script",
        &Call::run(vec![], vec![7; 14]),
        done(14),
        b"(refused 8 1)\n",
    );
    for (depth, printed) in [(16, &b"(steps 0)\n7777"[..]), (17, b"(refused 8 2)\n")] {
        // The note's own bracket is not counted.
        let note = [b"(".repeat(depth), b")".repeat(depth + 1)].concat();
        let script = [&b"(threads 1)\n(note "[..], &note, b"\n"].concat();
        let size = printed.iter().position(|&byte| byte == b'\n').unwrap() as u64 + 1;
        let call = Call::run(script, vec![b'7'; 14]);
        c.expect("depth of a note", &call, done(size), printed);
    }
    for (byte, printed) in [
        (31, b"(refused 8 2)\n"),
        (32, b"(steps 0)\n7777"),
        (126, b"(steps 0)\n7777"),
        (127, b"(refused 8 2)\n"),
    ] {
        let script = [&b"(threads 1)\n(note "[..], &[byte], b")\n"].concat();
        let size = printed.iter().position(|&byte| byte == b'\n').unwrap() as u64 + 1;
        let call = Call::run(script, vec![b'7'; 14]);
        c.expect("byte of a note", &call, done(size), printed);
    }
    lengths(c);
}

/// Examples of hold and of the phase 18 to which it leads.
pub fn hold(c: &mut Comparison) {
    // A reader in 4 or 18, a writer in EE; then a writer that has the mutex.
    let before = [2, 0, 255, 4, 0, 0, 9, 0, 0];
    let held = [2, 1, 255, 18, 0, 0, 9, 0, 0];
    let again = [2, 0, 255, 1, 0, 0, 9, 0, 0];
    let taken = [2, 1, 255, 4, 0, 0, 10, 0, 0];
    // table, thread, move, target, answer, table after
    let requests = [
        (before, [0, 6, 0], retried(done(0), 1), held),
        (before, [0, 0, 0], retried(done(0), 1), again),
        (held, [0, 0, 0], done(0), again),
        (before, [0, 7, 0], refused(4, 0), before),
        (before, [0, 6, 1], refused(5, 0), before),
        (before, [1, 6, 0], refused(6, 0), before),
        (held, [0, 6, 0], refused(6, 0), held),
        (held, [1, 0, 0], refused(7, 0), held),
        (taken, [0, 6, 0], refused(7, 0), taken),
    ];
    for (table, [thread, mov, target], answer, after) in requests {
        let call = Call::make_move(table.to_vec(), thread, mov, target);
        c.expect("hold", &call, answer, &after);
    }
    let call = Call::nodes(held.to_vec(), vec![7; 2]);
    c.expect("nodes beside 18", &call, done(2), &[1, 5]);
    // table, thread, its open moves
    let open: [(_, _, &[u8]); 4] = [
        (before, 0, &[0, 0, 6, 0]),
        (held, 0, &[0, 0]),
        (held, 1, &[]),
        (taken, 0, &[0, 0]),
    ];
    for (table, thread, moves) in open {
        let call = Call::open_moves(table.to_vec(), thread, vec![7; moves.len()]);
        c.expect("open moves", &call, done(moves.len() as u64), moves);
    }
    unsound_beside_hold(c);
    hold_lines(c);
}

/// Tables with a thread in 18, or past it, that break one rule of soundness.
fn unsound_beside_hold(c: &mut Comparison) {
    for table in [
        [2, 0, 255, 18, 0, 0, 9, 0, 0],
        [2, 1, 255, 18, 1, 0, 9, 0, 0],
        [2, 1, 255, 18, 0, 1, 9, 0, 0],
        [2, 1, 255, 18, 0, 0, 9, 0, 1],
        [2, 1, 0, 18, 0, 0, 9, 0, 0],
        [2, 1, 255, 18, 0, 0, 10, 0, 0],
        [2, 1, 255, 18, 0, 0, 18, 0, 0],
        [2, 0, 255, 19, 0, 0, 9, 0, 0],
        [2, 1, 255, 19, 0, 0, 9, 0, 0],
    ] {
        let call = Call::nodes(table.to_vec(), vec![7; 2]);
        c.expect("unsound beside 18", &call, refused(2, 0), &[7; 2]);
    }
}

/// The second line of a script for one thread in phase 0, and its refusal.
fn hold_lines(c: &mut Comparison) {
    for (line, refusal) in [
        ("(0 (hold))", 6),
        ("(1 (hold))", 3),
        ("(0 (hold 0))", 8),
        ("(0 (hold ))", 8),
        ("(0 (hol))", 8),
        ("(0 (holds))", 8),
    ] {
        let script = format!("(threads 1)\n{line}\n").into_bytes();
        let printed = format!("(refused {refusal} 2)\n").into_bytes();
        let call = Call::run(script, vec![7; printed.len()]);
        c.expect(line, &call, done(printed.len() as u64), &printed);
    }
}

/// The longest history, plan and script.
fn lengths(c: &mut Comparison) {
    let round = [0, 1, 0, 2, 0, 3, 0, 4].repeat(MAX_HISTORY / 8 + 1);
    for size in MAX_HISTORY - 2..=MAX_HISTORY + 2 {
        let long = size > MAX_HISTORY || size % 2 == 1;
        let history = &round[..size];
        let [events, moves] = if long {
            [refused(8, 0); 2]
        } else {
            [size / 2, histories::plan_moves(1, history)].map(|count| done(count as u64))
        };
        for (call, answer) in [
            (Call::check(1, history.to_vec()), events),
            (Call::plan_length(1, history.to_vec()), moves),
        ] {
            c.expect("length of a history", &call, answer, &[]);
        }
    }
    let full = [199, 5, 199, 6, 199, 7, 199, 8].repeat(MAX_HISTORY / 8);
    let room = 3 * histories::plan_moves(200, &full);
    for size in [room - 1, room, room + 1] {
        c.compare(&Call::plan(200, full.clone(), vec![7; size]));
    }
    let mut r = Random::new(1);
    for size in MAX_SCRIPT - 1..=MAX_SCRIPT + 1 {
        c.compare(&Call::run(
            scripts::script_of_size(&mut r, size),
            vec![7; RUN_ROOM],
        ));
    }
}

/// Examples of the watcher.
pub fn watcher(c: &mut Comparison) {
    starts(c);
    watch(c, "a round in shared, a round in exclusive", &ROUNDS);
    watch(c, "a watch goes on after a bad event", &GOES_ON);
    watch(c, "reader and writer excluded", &EXCLUDED);
    watch(c, "readers together, writers not", &TOGETHER);
    most_threads(c);
    bad_records(c);
    order_of_refusals(c);
}

fn starts(c: &mut Comparison) {
    let old = [7; RECORD_SIZE];
    for threads in [1, 200] {
        let after = record(threads, 0, 0, &[]);
        let call = Call::watch_start(u16::from(threads), &old);
        c.expect("start", &call, done(0), &after);
    }
    for threads in [0, 201, 255, 256, 257, 65535] {
        let call = Call::watch_start(threads, &old);
        c.expect("bad start", &call, refused(1, 0), &old);
    }
}

/// A step of a watch of two threads: thread and event, the refusal (0 for
/// none), the record's bytes up to the second place, and whether anybody is
/// inside then.
type Step = ([u16; 2], u64, [u8; 5], bool);

const ROUNDS: [Step; 8] = [
    ([0, 1], 0, [2, 0, 0, 1, 0], false),
    ([0, 2], 0, [2, 1, 0, 2, 0], true),
    ([0, 3], 0, [2, 0, 0, 3, 0], false),
    ([0, 4], 0, [2, 0, 0, 0, 0], false),
    ([0, 5], 0, [2, 0, 0, 5, 0], false),
    ([0, 6], 0, [2, 0, 1, 6, 0], true),
    ([0, 7], 0, [2, 0, 0, 7, 0], false),
    ([0, 8], 0, [2, 0, 0, 0, 0], false),
];

const GOES_ON: [Step; 17] = [
    ([0, 0], 9, [2, 0, 0, 0, 0], false),
    ([0, 9], 9, [2, 0, 0, 0, 0], false),
    ([0, 257], 9, [2, 0, 0, 0, 0], false),
    ([2, 1], 9, [2, 0, 0, 0, 0], false),
    ([256, 1], 9, [2, 0, 0, 0, 0], false),
    ([1, 2], 10, [2, 0, 0, 0, 0], false),
    ([1, 8], 10, [2, 0, 0, 0, 0], false),
    ([1, 1], 0, [2, 0, 0, 0, 1], false),
    ([1, 1], 10, [2, 0, 0, 0, 1], false),
    ([1, 2], 0, [2, 1, 0, 0, 2], true),
    ([1, 4], 10, [2, 1, 0, 0, 2], true),
    ([1, 9], 9, [2, 1, 0, 0, 2], true),
    ([1, 3], 0, [2, 0, 0, 0, 3], false),
    ([1, 5], 10, [2, 0, 0, 0, 3], false),
    ([1, 4], 0, [2, 0, 0, 0, 0], false),
    ([1, 6], 10, [2, 0, 0, 0, 0], false),
    ([1, 5], 0, [2, 0, 0, 0, 5], false),
];

const EXCLUDED: [Step; 14] = [
    ([0, 1], 0, [2, 0, 0, 1, 0], false),
    ([0, 2], 0, [2, 1, 0, 2, 0], true),
    ([1, 5], 0, [2, 1, 0, 2, 5], true),
    ([1, 6], 11, [2, 1, 0, 2, 5], true),
    ([0, 3], 0, [2, 0, 0, 3, 5], false),
    ([1, 6], 0, [2, 0, 1, 3, 6], true),
    ([0, 4], 0, [2, 0, 1, 0, 6], true),
    ([0, 1], 0, [2, 0, 1, 1, 6], true),
    ([0, 2], 11, [2, 0, 1, 1, 6], true),
    ([1, 7], 0, [2, 0, 0, 1, 7], false),
    ([0, 2], 0, [2, 1, 0, 2, 7], true),
    ([1, 8], 0, [2, 1, 0, 2, 0], true),
    ([0, 3], 0, [2, 0, 0, 3, 0], false),
    ([0, 4], 0, [2, 0, 0, 0, 0], false),
];

const TOGETHER: [Step; 14] = [
    ([0, 1], 0, [2, 0, 0, 1, 0], false),
    ([1, 1], 0, [2, 0, 0, 1, 1], false),
    ([0, 2], 0, [2, 1, 0, 2, 1], true),
    ([1, 2], 0, [2, 2, 0, 2, 2], true),
    ([0, 3], 0, [2, 1, 0, 3, 2], true),
    ([1, 3], 0, [2, 0, 0, 3, 3], false),
    ([0, 4], 0, [2, 0, 0, 0, 3], false),
    ([1, 4], 0, [2, 0, 0, 0, 0], false),
    ([0, 5], 0, [2, 0, 0, 5, 0], false),
    ([1, 5], 0, [2, 0, 0, 5, 5], false),
    ([1, 6], 0, [2, 0, 1, 5, 6], true),
    ([0, 6], 11, [2, 0, 1, 5, 6], true),
    ([1, 7], 0, [2, 0, 0, 5, 7], false),
    ([0, 6], 0, [2, 0, 1, 6, 7], true),
];

/// Makes the steps of a watch, and asks the question after each.
fn watch(c: &mut Comparison, name: &str, steps: &[Step]) {
    let mut before = record(2, 0, 0, &[]);
    inside(c, name, &before, false);
    for &([thread, event], refusal, after, answer) in steps {
        let after = record(after[0], after[1], after[2], &after[3..]);
        let call = Call::watch_event(&before, thread, event);
        c.expect(name, &call, refused(refusal, 0), &after);
        inside(c, name, &after, answer);
        before = after;
    }
}

fn inside(c: &mut Comparison, name: &str, record: &Record, answer: bool) {
    let call = Call::watch_inside(record);
    c.expect(name, &call, done(u64::from(answer)), &[]);
}

/// The last of 200 threads, alone and with all others in shared.
fn most_threads(c: &mut Comparison) {
    let name = "200 threads";
    let with = |shared: u8, exclusive: u8, others: u8, last: u8| {
        let mut places = [others; 200];
        places[199] = last;
        record(200, shared, exclusive, &places)
    };
    for (event, before, after) in [
        (5, with(0, 0, 0, 0), with(0, 0, 0, 5)),
        (6, with(0, 0, 0, 5), with(0, 1, 0, 6)),
        (7, with(0, 1, 0, 6), with(0, 0, 0, 7)),
        (8, with(0, 0, 0, 7), with(0, 0, 0, 0)),
        (1, with(199, 0, 2, 0), with(199, 0, 2, 1)),
        (2, with(199, 0, 2, 1), with(200, 0, 2, 2)),
        (3, with(200, 0, 2, 2), with(199, 0, 2, 3)),
        (4, with(199, 0, 2, 3), with(199, 0, 2, 0)),
    ] {
        let call = Call::watch_event(&before, 199, event);
        c.expect(name, &call, done(0), &after);
    }
    inside(c, name, &with(200, 0, 2, 2), true);
    inside(c, name, &with(0, 1, 7, 6), true);
    inside(c, name, &with(0, 0, 7, 3), false);
    let before = with(199, 0, 2, 5);
    let call = Call::watch_event(&before, 199, 6);
    c.expect(name, &call, refused(11, 0), &before);
    let call = Call::watch_event(&before, 200, 1);
    c.expect(name, &call, refused(9, 0), &before);
}

/// Records that are turned down by good and bad events, and by the question.
fn bad_records(c: &mut Comparison) {
    let last_entry = |threads: u8, entry: u8| {
        let mut record = record(threads, 0, 0, &[]);
        record[RECORD_SIZE - 1] = entry;
        record
    };
    let cases = [
        ("N of 0", 1, record(0, 0, 0, &[])),
        ("N of 201", 1, record(201, 0, 0, &[])),
        ("N of 255", 1, record(255, 0, 0, &[])),
        ("N of 0, shared 1", 1, record(0, 1, 0, &[])),
        ("N of 0, entry 0", 1, record(0, 0, 0, &[1])),
        ("N of 201, exclusive 1 for 0", 1, record(201, 0, 1, &[])),
        ("N of 201, place 4", 1, record(201, 0, 0, &[0, 4])),
        ("shared 1 for 0", 13, record(2, 1, 0, &[])),
        ("shared 0 for 1", 13, record(2, 0, 0, &[0, 2])),
        ("shared 1 for 2", 13, record(3, 1, 0, &[0, 2, 2])),
        ("shared 255 for 1", 13, record(2, 255, 0, &[0, 2])),
        ("exclusive 1 for 0", 13, record(2, 0, 1, &[])),
        ("exclusive 0 for 1", 13, record(2, 0, 0, &[0, 6])),
        ("exclusive 2 for 1", 13, record(2, 0, 2, &[1, 6])),
        ("the totals changed over", 13, record(2, 0, 1, &[0, 2])),
        ("entry N", 13, record(2, 0, 0, &[0, 0, 1])),
        ("entry N + 1", 13, record(2, 0, 0, &[0, 0, 0, 5])),
        ("entry N, counted", 13, record(2, 1, 0, &[0, 0, 2])),
        ("entry N, not counted", 13, record(2, 0, 0, &[0, 0, 6])),
        ("entry 199 of 2", 13, last_entry(2, 3)),
        ("entry 199 of 199", 13, last_entry(199, 255)),
        ("place 4", 13, record(2, 0, 0, &[0, 4])),
        ("place 8", 13, record(2, 0, 0, &[0, 8])),
        ("place 255", 13, record(2, 0, 0, &[0, 255])),
        ("place 4 of thread 199", 13, last_entry(200, 4)),
        ("two in exclusive", 13, record(3, 0, 2, &[0, 6, 6])),
        ("two in exclusive", 13, record(3, 0, 2, &[1, 6, 6])),
        ("in exclusive and shared", 13, record(3, 1, 1, &[0, 6, 2])),
    ];
    for (name, number, record) in cases {
        for [thread, event] in [[0, 1], [0, 2], [0, 9], [200, 1]] {
            let call = Call::watch_event(&record, thread, event);
            c.expect(name, &call, refused(number, 0), &record);
        }
        let call = Call::watch_inside(&record);
        c.expect(name, &call, refused(number, 0), &[]);
    }
}

/// Events that are bad in more than one way, on a consistent record: thread 0
/// is in exclusive, thread 1 is not there yet, thread 2 is outside.
fn order_of_refusals(c: &mut Comparison) {
    let before = record(3, 0, 1, &[6, 1]);
    for (name, [thread, event], number) in [
        ("9 before 10", [1, 9], 9),
        ("9 before 10 and 11", [3, 2], 9),
        ("10 before 11", [2, 2], 10),
        ("10 before 11", [1, 6], 10),
        ("11", [1, 2], 11),
    ] {
        let call = Call::watch_event(&before, thread, event);
        c.expect(name, &call, refused(number, 0), &before);
    }
}
