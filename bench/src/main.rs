//! Times each entry of the archive against the model, on the same inputs.
//!
//! A round times a number of calls of the one and then of the other, the order
//! changing from round to round. What is printed is the median of all rounds,
//! in nanoseconds a call, and the archive's time as a multiple of the model's.

use std::hint::black_box;
use std::time::Instant;

use compare::archive::Archive;
use compare::histories;
use compare::model::{self, Record, EXCLUSIVE_TOTAL, PLACES, RECORD_SIZE, SHARED_TOTAL};
use compare::model::{CALL_EXCLUSIVE, CALL_SHARED, GO, MAX_HISTORY, MAX_SCRIPT, RUN_ROOM};
use compare::part::{done, done_reading, number_of, value_of, Model, Part, WAITING};
use compare::random::Random;
use compare::scripts;
use compare::tables;
use compare::watchers;

/// Rounds of which the median is taken.
const ROUNDS: usize = 301;
/// Tables that a timed move takes in turn, and records that an event does.
const TABLES: usize = 8;
/// How long the calls of one part of a round shall take.
const SPAN: u128 = 20_000;
const THREADS: [usize; 4] = [1, 8, 50, 200];

/// Nanoseconds a call of the archive and of the model.
#[derive(Clone, Copy)]
struct Times {
    archive: f64,
    model: f64,
}

/// Nanoseconds a call. Both parts are called through the same machine code.
fn elapsed(calls: usize, part: &dyn Part, call: &mut dyn FnMut(&dyn Part) -> u64) -> f64 {
    let start = Instant::now();
    for _ in 0..calls {
        black_box(call(part));
    }
    start.elapsed().as_nanos() as f64 / calls as f64
}

fn median(mut times: Vec<f64>) -> f64 {
    times.sort_by(f64::total_cmp);
    times[times.len() / 2]
}

/// Times a call of the archive and of the model in alternation.
fn times(mut call: impl FnMut(&dyn Part) -> u64) -> Times {
    let start = Instant::now();
    call(&Model);
    call(&Archive);
    let once = start.elapsed().as_nanos() / 2 + 1;
    let calls = (SPAN / once).clamp(1, 1000) as usize;
    // Fewer rounds for calls of milliseconds.
    let rounds = (3_000_000_000 / (2 * once * calls as u128)).clamp(31, ROUNDS as u128) as usize;
    let (mut archive, mut model) = (Vec::new(), Vec::new());
    for round in 0..rounds {
        if round % 2 == 0 {
            archive.push(elapsed(calls, &Archive, &mut call));
            model.push(elapsed(calls, &Model, &mut call));
        } else {
            model.push(elapsed(calls, &Model, &mut call));
            archive.push(elapsed(calls, &Archive, &mut call));
        }
    }
    Times {
        archive: median(archive),
        model: median(model),
    }
}

fn cell(times: Times) -> String {
    let Times { archive, model } = times;
    let digits = if archive < 1000.0 { 1 } else { 0 };
    format!(
        "{archive:>10.digits$} {model:>10.digits$} {:>5.2}",
        archive / model
    )
}

fn head(title: &str) {
    print!("\n{title:<34}");
    for threads in THREADS {
        print!("{:>28}", format!("N = {threads}   "));
    }
    print!("\n{:<34}", "");
    for _ in THREADS {
        print!("{:>10} {:>10} {:>5} ", "archive", "model", "ratio");
    }
    println!();
}

// ------------------------------------------------------------------ the move

/// A move that is timed: in which phase, to which phase, and its name.
struct Kind {
    name: &'static str,
    from: u8,
    mov: u16,
    to: u8,
}

const fn kind(name: &'static str, from: u8, mov: u16, to: u8) -> Kind {
    Kind {
        name,
        from,
        mov,
        to,
    }
}

const KINDS: [Kind; 27] = [
    kind("phase 0, call shared", 0, 1, 1),
    kind("phase 0, call exclusive", 0, 2, 9),
    kind("phase 1, go", 1, 0, 2),
    kind("phase 2, go, not forbidden", 2, 0, 5),
    kind("phase 2, go, forbidden", 2, 0, 3),
    kind("phase 3, go", 3, 0, 4),
    kind("phase 4, go", 4, 0, 1),
    kind("phase 4, hold, mutex 0", 4, 6, 18),
    kind("phase 4, hold, refused (7)", 4, 6, 4),
    kind("phase 5, go", 5, 0, 6),
    kind("phase 6, go", 6, 0, 7),
    kind("phase 7, go", 7, 0, 8),
    kind("phase 8, go", 8, 0, 0),
    kind("phase 9, go, mutex 0", 9, 0, 10),
    kind("phase 9, go, refused (7)", 9, 0, 9),
    kind("phase 10, set", 10, 3, 11),
    kind("phase 11, go, target not busy", 11, 0, 10),
    kind("phase 11, go, target busy", 11, 0, 12),
    kind("phase 11, relent", 11, 5, 12),
    kind("phase 12, go", 12, 0, 10),
    kind("phase 13, go", 13, 0, 14),
    kind("phase 14, go", 14, 0, 15),
    kind("phase 15, set", 15, 3, 15),
    kind("phase 15, clear", 15, 4, 15),
    kind("phase 16, go", 16, 0, 17),
    kind("phase 17, go", 17, 0, 0),
    kind("phase 18, go", 18, 0, 1),
];

/// A request and the table that it is made on.
struct Request {
    table: Vec<u8>,
    thread: usize,
    target: usize,
}

/// Random sound tables on which a move of a kind can be made.
fn requests(kind: &Kind, threads: usize) -> Vec<Request> {
    let mut r = Random::new(7);
    let mut found = Vec::new();
    for _ in 0..20_000 {
        let table = tables::sound(&mut r, threads);
        let Some(thread) = (0..threads).find(|&t| table[3 + 3 * t] == kind.from) else {
            continue;
        };
        let target = if model::takes_target(kind.mov) {
            r.below(threads)
        } else {
            0
        };
        let mut after = table.clone();
        model::make_move(&mut after, thread as u16, kind.mov, target as u16);
        if after[3 + 3 * thread] == kind.to {
            found.push(Request {
                table,
                thread,
                target,
            });
        }
        if found.len() == TABLES {
            break;
        }
    }
    found
}

/// Both parts give each request the same answer and do not refuse its table.
fn assert_same(kind: &Kind, requests: &[Request]) {
    for request in requests {
        let make = |part: &dyn Part| {
            let mut table = request.table.clone();
            let [thread, target] = [request.thread, request.target].map(|number| number as u16);
            let answer = part.make_move(&mut table, thread, kind.mov, target);
            (answer, table)
        };
        let made = make(&Archive);
        assert_eq!(made, make(&Model), "{}", kind.name);
        assert!(!matches!(number_of(made.0), 1 | 2), "{}", kind.name);
    }
}

/// What a move may write, with the bytes that are there before it: mutex and
/// target, and the bytes of the mover and of the targets.
fn kept(request: &Request) -> [(usize, u8); 7] {
    let old = usize::from(request.table[2]).min(request.table.len() / 3 - 2);
    let (own, other) = (3 + 3 * request.thread, 5 + 3 * request.target);
    let places = [1, 2, own, own + 1, own + 2, other, 5 + 3 * old];
    places.map(|place| (place, request.table[place]))
}

/// Makes the move on each table in turn. What it may write is put back after it.
fn turns(kind: &Kind, requests: &[Request]) -> impl FnMut(&dyn Part) -> u64 {
    struct Turn {
        table: Vec<u8>,
        thread: u16,
        target: u16,
        kept: [(usize, u8); 7],
    }
    let mov = kind.mov;
    let mut turns = requests
        .iter()
        .map(|request| Turn {
            table: request.table.clone(),
            thread: request.thread as u16,
            target: request.target as u16,
            kept: kept(request),
        })
        .collect::<Vec<_>>();
    let mut next = 0;
    move |part| {
        let turn = &mut turns[next];
        let answer = part.make_move(&mut turn.table, turn.thread, mov, turn.target);
        for (place, byte) in turn.kept {
            turn.table[place] = byte;
        }
        next = (next + 1) % turns.len();
        answer
    }
}

fn moves() {
    head("the move");
    let mut sums = [(0.0, 0.0, 0); THREADS.len()];
    for kind in &KINDS {
        print!("{:<34}", kind.name);
        for (threads, sum) in THREADS.into_iter().zip(&mut sums) {
            let requests = requests(kind, threads);
            if requests.is_empty() {
                print!("{:>27} ", "-");
                continue;
            }
            assert_same(kind, &requests);
            let t = times(turns(kind, &requests));
            *sum = (sum.0 + t.archive, sum.1 + t.model, sum.2 + 1);
            print!("{} ", cell(t));
        }
        println!();
    }
    print!("{:<34}", "mean of these");
    for (archive, model, count) in sums {
        let count = f64::from(count);
        print!(
            "{} ",
            cell(Times {
                archive: archive / count,
                model: model / count
            })
        );
    }
    println!();
}

// --------------------------------------------------- tables, nodes, open moves

/// A row of times, one for each number of threads.
fn row(name: &str, mut timed: impl FnMut(usize) -> Times) {
    print!("{name:<34}");
    for threads in THREADS {
        print!("{} ", cell(timed(threads)));
    }
    println!();
}

/// The first random sound table that has a thread in this phase, and it.
fn table_with(threads: usize, phase: u8) -> (Vec<u8>, u16) {
    let mut r = Random::new(11);
    loop {
        let table = tables::sound(&mut r, threads);
        if let Some(thread) = (0..threads).find(|&t| table[3 + 3 * t] == phase) {
            return (table, thread as u16);
        }
    }
}

fn readings() {
    head("fresh, nodes, open moves");
    row("fresh", |threads| {
        let mut out = [0; 603];
        times(|part| part.fresh(threads as u16, black_box(&mut out)))
    });
    row("nodes", |threads| {
        let (table, _) = table_with(threads, 14);
        let mut out = [0; 200];
        assert_eq!(Archive.nodes(&table, &mut out), done(threads as u64));
        times(|part| part.nodes(black_box(&table), &mut out))
    });
    for phase in [0, 10, 15] {
        row(&format!("open moves, phase {phase}"), |threads| {
            let (table, thread) = table_with(threads, phase);
            let mut out = [0; 800];
            assert_eq!(number_of(Archive.open_moves(&table, thread, &mut out)), 0);
            times(|part| part.open_moves(black_box(&table), thread, &mut out))
        });
    }
}

// ----------------------------------------------------------- histories, scripts

fn history_rows() {
    head(&format!("histories of {MAX_HISTORY} bytes"));
    let history =
        |threads: usize| histories::history(&mut Random::new(13), threads, MAX_HISTORY / 2, false);
    row("check", |threads| {
        let history = history(threads);
        let n = threads as u16;
        assert_eq!(number_of(Archive.check(n, &history)), 0);
        times(|part| part.check(n, black_box(&history)))
    });
    row("plan length", |threads| {
        let history = history(threads);
        let n = threads as u16;
        let moves = histories::plan_moves(threads, &history);
        assert_eq!(Archive.plan_length(n, &history), done(moves as u64));
        times(|part| part.plan_length(n, black_box(&history)))
    });
    row("plan, all of it written", |threads| {
        let history = history(threads);
        let n = threads as u16;
        let room = 3 * histories::plan_moves(threads, &history);
        let mut out = vec![0; room];
        assert_eq!(
            3 * value_of(Archive.plan(n, &history, &mut out)),
            room as u64
        );
        times(|part| part.plan(n, black_box(&history), &mut out))
    });
}

/// The head of rows that have one cell.
fn single_head(title: &str) {
    println!(
        "\n{title:<34}{:>10} {:>10} {:>5}",
        "archive", "model", "ratio"
    );
}

fn script_rows() {
    single_head(&format!("scripts of {MAX_SCRIPT} bytes"));
    let mut r = Random::new(17);
    let moves = scripts::script_of_size(&mut r, MAX_SCRIPT);
    let mut note = b"(threads 200)\n(note ".to_vec();
    note.resize(MAX_SCRIPT - 2, b'.');
    note.extend(b")\n");
    for (name, script) in [
        ("run, moves and notes, N = 3", moves),
        ("run, one long note", note),
    ] {
        let mut out = vec![0; RUN_ROOM];
        assert_eq!(Archive.run(&script, &mut out), Model.run(&script, &mut out));
        let t = times(|part| part.run(black_box(&script), &mut out));
        println!("{name:<34}{}", cell(t));
    }
}

/// The longest start of a plan of rounds whose script isn't too long.
fn long_plan(threads: usize) -> Vec<u8> {
    let history = histories::history(&mut Random::new(13), threads, 2000, false);
    let mut plan = vec![0; 3 * histories::plan_moves(threads, &history)];
    Model.plan(threads as u16, &history, &mut plan);
    let mut size = scripts::spelled(threads, &[]).len();
    let fits = |triple: &&[u8]| {
        size += scripts::line(triple).len();
        size <= MAX_SCRIPT
    };
    plan.chunks(3).take_while(fits).flatten().copied().collect()
}

/// Times writing a list of moves and reading its script.
fn writing_row(name: &str, threads: usize, list: &[u8]) {
    let n = threads as u16;
    let script = scripts::spelled(threads, list);
    let name = format!("{name}, {} bytes", script.len());
    let mut out = vec![0; script.len()];
    assert_eq!(
        Archive.write_script(n, list, &mut out),
        done(out.len() as u64)
    );
    assert_eq!(out, script);
    let t = times(|part| part.write_script(n, black_box(list), &mut out));
    println!("{:<34}{}", format!("write {name}"), cell(t));
    let mut out = vec![0; list.len()];
    let answer = done_reading(threads as u64, list.len() as u64);
    assert_eq!(Archive.read_script(&script, &mut out), answer);
    assert_eq!(out, list);
    let t = times(|part| part.read_script(black_box(&script), &mut out));
    println!("{:<34}{}", format!("read {name}"), cell(t));
}

fn writing_rows() {
    single_head("scripts written and read");
    // the whole case of the scope paper
    let short = [0, 1, 0, 0, 0, 0, 0, 0, 0, 0, 0, 0];
    writing_row("4 moves, N = 1", 1, &short);
    for threads in [8, 200] {
        let plan = long_plan(threads);
        writing_row(&format!("a plan, N = {threads}"), threads, &plan);
    }
}

// ------------------------------------------------------------------ the watcher

/// An event, the record that it is put to, and the bytes of the record that it
/// may write.
struct Put {
    record: Record,
    thread: u16,
    event: u16,
    kept: [(usize, u8); 3],
}

/// Random records, each with an event that is accepted (0) or gets refusal 10.
fn puts(threads: usize, number: u8) -> Vec<Put> {
    let mut r = Random::new(19);
    let mut found = Vec::new();
    while found.len() < TABLES {
        let record = watchers::consistent(&mut r, threads as u8);
        let [thread, event] = watchers::event(&mut r, &record);
        let answer = Model.watch_event(&mut record.clone(), thread, event);
        if number_of(answer) == number {
            let places = [SHARED_TOTAL, EXCLUSIVE_TOTAL, PLACES + usize::from(thread)];
            found.push(Put {
                record,
                thread,
                event,
                kept: places.map(|place| (place, record[place])),
            });
        }
    }
    found
}

/// Puts the event to each record in turn, and the record back after it.
fn event_turns(mut puts: Vec<Put>) -> impl FnMut(&dyn Part) -> u64 {
    let mut next = 0;
    move |part| {
        let put = &mut puts[next];
        let answer = part.watch_event(&mut put.record, put.thread, put.event);
        for (place, byte) in put.kept {
            put.record[place] = byte;
        }
        next = (next + 1) % puts.len();
        answer
    }
}

fn watch_rows() {
    head("the watcher");
    row("start", |threads| {
        let mut record = [0; RECORD_SIZE];
        times(|part| part.watch_start(threads as u16, black_box(&mut record)))
    });
    for (name, number) in [("event, accepted", 0), ("event, refused (10)", 10)] {
        row(name, |threads| times(event_turns(puts(threads, number))));
    }
    row("is anybody inside?", |threads| {
        let record = watchers::consistent(&mut Random::new(23), threads as u8);
        times(|part| part.watch_inside(black_box(&record)))
    });
}

// -------------------------------------------------------------- the dispatcher

/// A random table in which the dispatcher is waiting.
fn waiting(r: &mut Random, threads: usize) -> Vec<u8> {
    let mut table = tables::sound(r, threads);
    while Model.dispatch(&mut table) != WAITING {}
    table
}

/// The thread and target of the move that the dispatcher makes in a table.
fn moved(table: &[u8]) -> Option<(usize, usize)> {
    let answer = Model.dispatch(&mut table.to_vec());
    let byte = |at: u32| (value_of(answer) >> at & 255) as usize;
    (answer != WAITING).then(|| (byte(8), byte(24)))
}

/// A random table in which this thread moves and all others wait, where it comes
/// to one: the host made a call of the thread, a leaving or a retry, and then some
/// turns were made.
fn moving(r: &mut Random, threads: usize, thread: usize) -> Option<Request> {
    let mut table = waiting(r, threads);
    let mov = match table[3 + 3 * thread] {
        0 => r.pick(&[CALL_SHARED, CALL_EXCLUSIVE]),
        _ => GO,
    };
    Model.make_move(&mut table, thread as u16, mov, 0);
    let mut found = None;
    for _ in 0..=r.below(2 * threads + 4) {
        match moved(&table) {
            Some((mover, target)) if mover == thread => {
                found = Some(Request {
                    table: table.clone(),
                    thread,
                    target,
                });
                Model.dispatch(&mut table);
            }
            _ => break,
        }
    }
    found
}

/// Tables in which this thread moves and all others wait.
fn movings(threads: usize, thread: usize) -> Vec<Request> {
    let mut r = Random::new(29);
    let mut found = Vec::new();
    while found.len() < TABLES {
        found.extend(moving(&mut r, threads, thread));
    }
    found
}

/// Tables in which the dispatcher is waiting. Nothing is written.
fn waitings(threads: usize) -> Vec<Request> {
    let mut r = Random::new(31);
    let request = |_| Request {
        table: waiting(&mut r, threads),
        thread: 0,
        target: 0,
    };
    (0..TABLES).map(request).collect()
}

/// Makes a turn on each table in turn. What it may write is put back after it.
/// Both parts give each table the same answer, and it is waiting or not.
fn dispatches(requests: &[Request], waits: bool) -> impl FnMut(&dyn Part) -> u64 {
    let mut turns = Vec::new();
    for request in requests {
        let make = |part: &dyn Part| {
            let mut table = request.table.clone();
            (part.dispatch(&mut table), table)
        };
        let made = make(&Archive);
        assert_eq!(made, make(&Model));
        assert_eq!(made.0 == WAITING, waits);
        turns.push((request.table.clone(), kept(request)));
    }
    let mut next = 0;
    move |part| {
        let (table, kept) = &mut turns[next];
        let answer = part.dispatch(table);
        for (place, byte) in *kept {
            table[place] = byte;
        }
        next = (next + 1) % turns.len();
        answer
    }
}

fn dispatch_rows() {
    head("the dispatcher, one turn");
    row("thread 0 moves", |threads| {
        times(dispatches(&movings(threads, 0), false))
    });
    row("the last thread moves", |threads| {
        times(dispatches(&movings(threads, threads - 1), false))
    });
    row("waiting", |threads| {
        times(dispatches(&waitings(threads), true))
    });
}

fn main() {
    println!("nanoseconds a call, median of {ROUNDS} rounds (31 or more for long calls)");
    moves();
    readings();
    if cfg!(feature = "dispatch") {
        dispatch_rows();
    }
    if cfg!(feature = "history") {
        history_rows();
    }
    if cfg!(feature = "script") {
        script_rows();
    }
    if cfg!(feature = "writing") {
        writing_rows();
    }
    if cfg!(feature = "watch") {
        watch_rows();
    }
}
