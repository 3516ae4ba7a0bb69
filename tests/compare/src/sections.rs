//! What is compared, one function a section.

use std::collections::HashSet;

use crate::cases;
use crate::comparison::Comparison;
use crate::graph::REACHED;
use crate::histories;
use crate::lengths;
use crate::model::{self, LAST_MOVE};
use crate::model::{Record, EXCLUSIVE_TOTAL, RECORD_SIZE, SHARED_TOTAL};
use crate::part::{done, hex, number_of, refused, retried, retries_of, value_of, without_retries};
use crate::part::{Call, Caller, Entry, Model, ENTRIES};
use crate::random::Random;
use crate::tables;
use crate::vectors::{self, before_hold, before_rule, Vector};
use crate::watchers;
use crate::written;

/// Random cases for each entry.
const CASES: usize = 200_000;
/// What the last line of a run can be: steps (0), or one of these refusals.
const PRINTED: [u8; 7] = [0, 1, 3, 5, 6, 7, 8];
/// Numbers past every range, some of which a cut to eight bits brings back.
const FAR: [u16; 3] = [255, 256, 65535];
/// Numbers of threads, and how many of the small records are consistent.
const CONSISTENT: [(usize, usize); 2] = [(1, 7), (2, 46)];
/// Numbers of threads of walks, plans and watches.
const THREADS: [usize; 7] = [1, 2, 3, 4, 8, 50, 200];
/// Requests of a walk.
const REQUESTS: usize = 20_000;
/// The nodes Shared and Exclusive, of those inside.
const NODES_INSIDE: [u8; 2] = [3, 8];
/// Events of a random list that is watched.
const EVENTS: usize = 400;
/// Events of a long watch: more than a history holds or 16 bits count.
const MANY_EVENTS: usize = 70_000;
/// The verdicts on an event of a watch.
const VERDICTS: [u8; 4] = [0, 9, 10, 11];

/// All vectors, held against the model and the part. Those that the rule of
/// `before_hold` names are held in the form that it gives them; as they stand,
/// model and part must agree on them, and the answer of some is another now.
/// Those that `before_rule` names are held to refusal 2, all others to the
/// answer that they came with. They say nothing of retries: of a move or a run
/// model and part must agree on these.
pub fn vectors(c: &mut Comparison, vectors: &[Vector]) {
    // Planted faults are sought without vectors too.
    if vectors.is_empty() {
        return;
    }
    let (mut named, mut changed, mut barred) = (0, 0, 0);
    let mut retries = 0;
    for vector in vectors {
        let old = before_hold(vector);
        let held = old.as_ref().unwrap_or(vector);
        let unsound = before_rule(held);
        let held = unsound.as_ref().unwrap_or(held);
        let answer = with_retries(c, held);
        c.expect(&held.name, &held.call, answer, &held.after);
        retries += u32::from(answer != held.answer);
        barred += u32::from(unsound.is_some());
        if old.is_some() {
            let answer = c.compare(&vector.call);
            named += 1;
            let same = without_retries(answer) == vector.answer && c.lent() == vector.after;
            changed += u32::from(!same);
        }
        if c.stopped() {
            return;
        }
    }
    c.say(&format!(
        "  made before hold, with its move, phase or word: {named} vectors, {changed} of them with another answer now"
    ));
    c.claim(changed > 0, || {
        format!("hold changes the answer of none of {named} vectors")
    });
    c.say(&format!(
        "  made before the rule on 3, 4 and 18, with a table that it bars: {barred} vectors, held to refusal 2"
    ));
    c.claim(barred > 0, || "the rule bars no vector's table".to_string());
    c.say(&format!(
        "  made before retries were told: {retries} vectors with a retry, held to the answer without it"
    ));
    c.claim(retries > 0, || "no vector has a retry".to_string());
    for entry in vectors::entries() {
        let count = vectors
            .iter()
            .filter(|vector| vector.call.entry == entry)
            .count();
        let who = if c.has(entry) {
            "model and part"
        } else {
            "model"
        };
        c.say(&format!("  {}: {count} vectors, {who}", entry.name()));
    }
}

/// The answer of a vector with the retries of its move or run, on which model
/// and part must agree.
fn with_retries(c: &mut Comparison, vector: &Vector) -> u64 {
    if !vector.call.entry.makes_retries() {
        return vector.answer;
    }
    let answer = c.compare(&vector.call);
    retried(vector.answer, retries_of(answer))
}

fn upto(last: u16) -> Vec<u16> {
    (0..=last).chain(FAR).collect()
}

/// The tables that the part's own moves reach for one to three threads: their
/// number, and that they are the sound ones by the part's nodes. No request
/// writes outside its table, and a refused one leaves the table as it was.
pub fn reached_by_part(c: &mut Comparison) {
    for (threads, count) in REACHED {
        let before = c.passed;
        let tables = tables::reached(c.part(), threads, count, |request, answer, caller| {
            let accepted = number_of(answer) == 0;
            let kept = caller.kept_the_rest(request);
            if !c.stopped() {
                c.claim(kept && (accepted || caller.lent() == request.lent), || {
                    format!("wrote what it may not: {}", request.words())
                });
            }
        });
        let made = c.passed - before;
        counted(c, threads, &tables, count);
        c.say(&format!(
            "  {threads} threads: {} tables, {made} requests",
            tables.len()
        ));
        sound_are_reached(c, threads, &tables);
        if c.stopped() {
            return;
        }
    }
}

/// How far past its range a byte of a small table goes. For three threads one
/// past it would be a hundred million tables.
fn past(threads: usize) -> u8 {
    u8::from(threads < 3)
}

/// The part's nodes accept every table reached and no other list of bytes of
/// that length. Tried are all whose bytes are in range or past it by `past`,
/// and all that differ from a table reached in one byte.
///
/// Passed over are lists with a byte further past its range that differ from
/// each table reached in another byte too; the random cases have some of them.
/// By the rules no sound table is among them: a byte past its range makes a
/// table unsound whatever the others are.
fn sound_are_reached(c: &mut Comparison, threads: usize, reached: &[Vec<u8>]) {
    let mut nodes = Nodes::new(c, threads, reached);
    for table in reached {
        nodes.ask(c, table);
    }
    let accepted = nodes.accepted;
    c.claim(accepted == reached.len(), || {
        format!("{threads} threads: {accepted} of the tables reached are sound")
    });
    (nodes.asked, nodes.accepted) = (0, 0);
    tables::every(threads, past(threads), |table| nodes.ask(c, table));
    let (asked, accepted) = (nodes.asked, nodes.accepted);
    c.claim(accepted == reached.len(), || {
        format!("{threads} threads: {accepted} tables are sound")
    });
    nodes.asked = 0;
    for table in reached {
        tables::with_one_byte(table, |other| nodes.ask(c, other));
    }
    c.say(&format!(
        "  {threads} threads: {accepted} of {asked} tables are sound; {} more with one byte changed",
        nodes.asked
    ));
}

/// The part's nodes, asked whether lists of bytes are sound tables.
struct Nodes<'a> {
    caller: Caller<'a>,
    call: Call,
    reached: HashSet<&'a [u8]>,
    asked: usize,
    accepted: usize,
}

impl<'a> Nodes<'a> {
    fn new(c: &Comparison<'a>, threads: usize, reached: &'a [Vec<u8>]) -> Nodes<'a> {
        Nodes {
            caller: Caller::new(c.part()),
            call: Call::nodes(reached[0].clone(), vec![0x5a; threads]),
            reached: reached.iter().map(Vec::as_slice).collect(),
            asked: 0,
            accepted: 0,
        }
    }

    /// What is accepted is reached; what isn't is refused by 2, or by 1 where
    /// the number of threads is another.
    fn ask(&mut self, c: &mut Comparison, table: &[u8]) {
        if c.stopped() {
            return;
        }
        self.call.read.copy_from_slice(table);
        let answer = self.caller.call(&self.call);
        let threads = self.call.lent.len();
        let accepted = number_of(answer) == 0;
        let right = if accepted {
            answer == done(threads as u64) && self.reached.contains(table)
        } else {
            let sized = usize::from(table[0]) == threads;
            answer == refused(1 + u64::from(sized), 0)
        };
        if !right {
            c.claim(false, || format!("nodes answer {answer}: {}", hex(table)));
        }
        self.asked += 1;
        self.accepted += usize::from(accepted);
    }
}

/// Claims that so many tables are reached.
fn counted(c: &mut Comparison, threads: usize, tables: &[Vec<u8>], count: usize) {
    c.claim(tables.len() == count, || {
        format!("{threads} threads: {} tables", tables.len())
    });
}

/// All tables that the model's moves reach for one to three threads, each with
/// all requests to the move, its nodes, and its open moves, which are those
/// the move accepts.
pub fn reached_tables(c: &mut Comparison) {
    for (threads, count) in REACHED {
        let tables = tables::reached(&Model, threads, count, |_, _, _| ());
        counted(c, threads, &tables, count);
        let before = c.passed;
        for table in &tables {
            c.compare(&Call::nodes(table.clone(), vec![0x5a; threads]));
            for thread in upto(threads as u16 + 1) {
                requests(c, table, thread);
            }
            if c.stopped() {
                return;
            }
        }
        let made = c.passed - before;
        c.say(&format!(
            "  {threads} threads: {} tables, {made} calls",
            tables.len()
        ));
    }
}

/// All requests of one thread on one table, and the thread's open moves.
fn requests(c: &mut Comparison, table: &[u8], thread: u16) {
    let threads = u16::from(table[0]);
    let mut accepted = Vec::new();
    let mut call = Call::make_move(table.to_vec(), thread, 0, 0);
    for mov in upto(LAST_MOVE + 2) {
        for target in upto(threads + 1) {
            call.numbers = [thread, mov, target];
            if number_of(c.compare(&call)) == 0 {
                accepted.extend([mov as u8, target as u8]);
            }
        }
    }
    let open = Call::open_moves(table.to_vec(), thread, vec![0x5a; accepted.len() + 1]);
    let answer = c.compare(&open);
    if thread < threads {
        let right = value_of(answer) as usize == accepted.len();
        let right = right && c.lent()[..accepted.len()] == accepted;
        c.claim(right, || {
            format!("open moves aren't the accepted ones: {}", open.words())
        });
    }
}

/// Every table of one to three threads whose bytes are in range, or past it by
/// `past`, sound or not: its nodes, one move and one turn.
pub fn small_tables(c: &mut Comparison) {
    let before = c.passed;
    for (threads, _) in REACHED {
        tables::every(threads, past(threads), |table| {
            if !c.stopped() {
                self::table(c, table);
            }
        });
    }
    c.say(&format!("  {} calls", c.passed - before));
}

fn table(c: &mut Comparison, table: &[u8]) {
    let thread = u16::from(table[3] ^ table[4] ^ table[5]) % u16::from(table[0]);
    c.compare(&Call::nodes(table.to_vec(), vec![0x5a; 3]));
    c.compare(&Call::make_move(table.to_vec(), thread, model::GO, 0));
    c.compare(&Call::dispatch(table.to_vec()));
}

/// Random cases of each entry that the part has.
pub fn random_cases(c: &mut Comparison, seed: u64) {
    for entry in ENTRIES {
        if c.has(entry) && !c.stopped() {
            random_cases_of(c, entry, seed);
        }
    }
}

/// Random cases of one entry.
pub fn random_cases_of(c: &mut Comparison, entry: Entry, seed: u64) {
    let mut r = Random::new(seed ^ (entry as u64) << 32);
    let mut printed = [false; 13];
    let mut retries = 0;
    c.reset_seen();
    for _ in 0..CASES {
        let call = cases::any(&mut r, entry);
        let answer = c.compare(&call);
        retries += retries_of(answer);
        if entry == Entry::Run && number_of(answer) == 0 {
            printed[refusal_printed(&c.lent()[..value_of(answer) as usize])] = true;
        }
        if c.stopped() {
            return;
        }
    }
    c.all_seen(entry);
    let refusals = numbers(entry.refusals());
    c.say(&format!(
        "  {}: {CASES} cases, refusals {refusals}",
        entry.name()
    ));
    if entry.makes_retries() {
        c.claim(retries > 0, || format!("{} made no retry", entry.name()));
        c.say(&format!("  {}: {retries} retries", entry.name()));
    }
    if entry == Entry::Run {
        all_printed(c, &printed);
    }
}

/// Claims that runs printed each refusal that they can print.
fn all_printed(c: &mut Comparison, printed: &[bool]) {
    for number in PRINTED {
        c.claim(printed[usize::from(number)], || {
            format!("no run printed {number}")
        });
    }
    c.say(&format!(
        "  run: printed refusals {}",
        numbers(&PRINTED[1..])
    ));
}

fn numbers(list: &[u8]) -> String {
    list.iter()
        .map(u8::to_string)
        .collect::<Vec<_>>()
        .join(", ")
}

/// The refusal in the last line of a run's output, 0 for a line of steps.
fn refusal_printed(output: &[u8]) -> usize {
    written::stop(output).map_or(0, |[number, _]| number as usize)
}

/// Every list of up to four pairs for one and two threads, events and threads
/// one past the range too: checked, measured and planned.
pub fn small_histories(c: &mut Comparison) {
    let before = c.passed;
    for (threads, pairs) in [(1, 4), (2, 3)] {
        let choices = (threads + 1) * 10;
        for len in 0..=pairs {
            for index in 0..usize::pow(choices, len) {
                let mut rest = index;
                let mut history = Vec::new();
                for _ in 0..len {
                    let choice = rest % choices;
                    history.extend([(choice / 10) as u8, (choice % 10) as u8]);
                    rest /= choices;
                }
                let out = vec![0x5a; 3 * histories::plan_moves(threads, &history) + 1];
                lengths::measure(c, threads as u16, &history);
                c.compare(&Call::plan(threads as u16, history, out));
            }
            if c.stopped() {
                return;
            }
        }
    }
    c.say(&format!("  {} calls", c.passed - before));
}

/// Scripts that have every form between them, and the refusal that each prints
/// last, 0 for none. In the second a reader waits at the mutex.
const FORMS: [(&[u8], u64); 2] = [
    (
        b"(threads 12)\n(note a (b) c)\n(11 (call exclusive))\n(11 (go))\n(11 (set 10))\n\
        (3 (call shared))\n(11 (relent))\n(11 (go))\n(note )\n(3 (go))\n(11 (clear 2))\n",
        6,
    ),
    (
        b"(threads 2)\n(1 (call exclusive))\n(1 (go))\n(1 (set 0))\n\
        (0 (call shared))\n(0 (go))\n(0 (go))\n(0 (go))\n\
        (1 (go))\n(1 (set 1))\n(1 (go))\n(1 (go))\n(1 (go))\n\
        (1 (clear 0))\n(1 (clear 1))\n(1 (go))\n(0 (hold))\n(0 (go))\n",
        0,
    ),
];

/// These scripts with each byte taken out, doubled, or replaced by each
/// of the 256, and cut after each byte: run and read.
pub fn edited_scripts(c: &mut Comparison) {
    let before = c.passed;
    for (script, refusal) in FORMS {
        edited_script(c, script, refusal);
    }
    c.say(&format!("  {} calls", c.passed - before));
}

fn edited_script(c: &mut Comparison, script: &[u8], refusal: u64) {
    let (stopped, _) = written::run_and_read(c, script);
    let printed = stopped.map_or(0, |[number, _]| number);
    c.claim(printed == refusal, || {
        format!("a script printed refusal {printed} and not {refusal}")
    });
    for at in 0..script.len() {
        let (front, back) = script.split_at(at);
        for byte in 0..=255 {
            written::run_and_read(c, &[front, &[byte], &back[1..]].concat());
        }
        written::run_and_read(c, &[front, &back[1..]].concat());
        written::run_and_read(c, &[front, &back[..1], back].concat());
        written::run_and_read(c, front);
        if c.stopped() {
            return;
        }
    }
}

/// Lists of requests from a fresh table, each on the table that the one before
/// left; what they show is a permitted history.
pub fn walks(c: &mut Comparison, seed: u64) {
    let (mut requests, mut shown, mut retries) = (0, 0, 0);
    for (round, threads) in THREADS.repeat(4).into_iter().enumerate() {
        let mut r = Random::new(seed ^ round as u64);
        let mut history = Vec::new();
        retries += walk(c, &mut r, threads, |_, pair, _| history.extend(pair));
        requests += REQUESTS;
        shown += history.len() / 2;
        permitted(c, threads, &history);
        if c.stopped() {
            return;
        }
    }
    c.say(&format!(
        "  28 walks, {requests} requests, {retries} retries, {shown} events shown, all permitted"
    ));
}

/// Makes the requests of a walk. `see` gets each event shown, its thread before
/// it, and the table after it. Gives how many moves were retries.
fn walk(
    c: &mut Comparison,
    r: &mut Random,
    threads: usize,
    mut see: impl FnMut(&mut Comparison, [u8; 2], &[u8]),
) -> u64 {
    c.compare(&Call::fresh(
        threads as u16,
        vec![0x5a; model::table_size(threads)],
    ));
    let mut table = c.lent().to_vec();
    let (mut thread, mut retries) = (0, 0);
    for _ in 0..REQUESTS {
        if r.chance(1, 3) {
            thread = r.below(threads) as u16;
        }
        let (mov, target) = request(r, &table, thread);
        let thread = if r.chance(1, 50) {
            tables::near(r, threads)
        } else {
            thread
        };
        let answer = c.compare(&Call::make_move(table.clone(), thread, mov, target));
        table.copy_from_slice(c.lent());
        retries += retries_of(answer);
        if number_of(answer) == 0 && value_of(answer) > 0 {
            see(c, [thread as u8, value_of(answer) as u8], &table);
        }
    }
    retries
}

/// A move for a thread: as a rule one that its phase has, with the lowest
/// target that it changes.
fn request(r: &mut Random, table: &[u8], thread: u16) -> (u16, u16) {
    let threads = usize::from(table[0]);
    let lowest = |flag: u8| {
        table[5..]
            .iter()
            .step_by(3)
            .position(|&f| f == flag)
            .unwrap_or(0)
    };
    let mov = match table[3 + 3 * usize::from(thread)] {
        _ if r.chance(1, 50) => tables::mov(r),
        0 => r.pick(&[model::CALL_SHARED, model::CALL_EXCLUSIVE]),
        4 if r.chance(1, 2) => model::HOLD,
        10 => model::SET,
        11 if r.chance(1, 200) => model::RELENT,
        15 if r.chance(1, 100) => model::SET,
        15 => model::CLEAR,
        _ => model::GO,
    };
    let target = match mov {
        _ if r.chance(1, 200) => usize::from(tables::near(r, threads)),
        model::SET => lowest(0),
        model::CLEAR => lowest(1),
        _ => 0,
    };
    (mov, target as u16)
}

/// The check accepts a history with its number of events, as long as it takes
/// histories of this length; its plan is measured.
pub(crate) fn permitted(c: &mut Comparison, threads: usize, history: &[u8]) {
    let history = &history[..history.len().min(model::MAX_HISTORY)];
    let answer = c.compare(&Call::check(threads as u16, history.to_vec()));
    c.claim(answer == done(history.len() as u64 / 2), || {
        format!("the check turned down what {threads} threads showed")
    });
    lengths::measure(c, threads as u16, history);
}

/// Plans of random histories, made move by move from a fresh table: each move
/// is accepted, none is a retry, and together they show the history.
pub fn plans(c: &mut Comparison, seed: u64) {
    let mut moves = 0;
    for (round, threads) in THREADS.repeat(20).into_iter().enumerate() {
        let mut r = Random::new(seed ^ round as u64);
        let pairs = r.below(120);
        let history = histories::history(&mut r, threads, pairs, false);
        let room = 3 * histories::plan_moves(threads, &history);
        let answer = c.compare(&Call::plan(
            threads as u16,
            history.clone(),
            vec![0x5a; room],
        ));
        c.claim(answer == done(room as u64 / 3), || {
            format!("a plan answered {answer}")
        });
        let plan = c.lent().to_vec();
        lengths::measure(c, threads as u16, &history);
        moves += replay(c, threads, &plan, &history);
        if c.stopped() {
            return;
        }
    }
    c.say(&format!(
        "  140 plans, {moves} moves, all accepted, none a retry, showing the histories planned"
    ));
}

fn replay(c: &mut Comparison, threads: usize, plan: &[u8], history: &[u8]) -> usize {
    c.compare(&Call::fresh(
        threads as u16,
        vec![0x5a; model::table_size(threads)],
    ));
    let mut table = c.lent().to_vec();
    let mut shown = Vec::new();
    let mut accepted = true;
    for triple in plan.chunks_exact(3) {
        let [thread, mov, target] = [0, 1, 2].map(|i| u16::from(triple[i]));
        let answer = c.compare(&Call::make_move(table.clone(), thread, mov, target));
        table.copy_from_slice(c.lent());
        accepted &= number_of(answer) == 0 && retries_of(answer) == 0;
        if value_of(answer) > 0 {
            shown.extend([triple[0], value_of(answer) as u8]);
        }
    }
    c.claim(accepted && shown == history, || {
        format!("a plan for {threads} threads doesn't show its history")
    });
    plan.len() / 3
}

/// Every small record of one and two threads, consistent or not: the question,
/// and all events of all threads, past their ranges too.
pub fn small_records(c: &mut Comparison) {
    for (threads, count) in CONSISTENT {
        let before = c.passed;
        let records = watchers::small(threads);
        let mut consistent = 0;
        for record in &records {
            let answer = c.compare(&Call::watch_inside(record));
            consistent += usize::from(number_of(answer) == 0);
            events(c, record);
            if c.stopped() {
                return;
            }
        }
        let made = c.passed - before;
        c.claim(consistent == count, || {
            format!("{threads} threads: {consistent} consistent records")
        });
        c.say(&format!(
            "  {threads} threads: {} records, {consistent} of them consistent, {made} calls",
            records.len()
        ));
    }
}

/// All events on one record.
fn events(c: &mut Comparison, record: &Record) {
    let mut call = Call::watch_event(record, 0, 0);
    for thread in upto(3).into_iter().chain([199, 200]) {
        // 257 is 1 where it is cut to eight bits.
        for event in upto(9).into_iter().chain([257]) {
            call.numbers = [thread, event, 0];
            c.compare(&call);
        }
    }
}

/// A watch, and the record that its events left.
struct Watch {
    record: Record,
}

impl Watch {
    fn start(c: &mut Comparison, threads: usize) -> Watch {
        let mut record = [0x5a; RECORD_SIZE];
        let answer = c.compare(&Call::watch_start(threads as u16, &record));
        c.claim(answer == done(0), || {
            format!("no watch of {threads} threads")
        });
        record.copy_from_slice(c.lent());
        Watch { record }
    }

    /// The verdict on an event.
    fn event(&mut self, c: &mut Comparison, [thread, event]: [u8; 2]) -> u64 {
        let call = Call::watch_event(&self.record, u16::from(thread), u16::from(event));
        let verdict = c.compare(&call);
        self.record.copy_from_slice(c.lent());
        verdict
    }

    /// How many are in shared and in exclusive.
    fn totals(&self) -> [u8; 2] {
        [SHARED_TOTAL, EXCLUSIVE_TOTAL].map(|at| self.record[at])
    }

    /// Claims what is answered to "Is anybody inside?".
    fn inside(&self, c: &mut Comparison, inside: bool) {
        let call = Call::watch_inside(&self.record);
        let answer = c.compare(&call);
        c.claim(answer == done(u64::from(inside)), || {
            format!("anybody inside is {inside}: {}", call.words())
        });
    }
}

/// Whole watches: of the walks, of lists of random events, and a long one.
pub fn watches(c: &mut Comparison, seed: u64) {
    let mut shown = 0;
    for (round, threads) in THREADS.repeat(4).into_iter().enumerate() {
        let mut r = Random::new(seed ^ round as u64);
        shown += watched_walk(c, &mut r, threads);
        if c.stopped() {
            return;
        }
    }
    c.say(&format!("  28 walks, {shown} events, all accepted"));
    let mut verdicts = [0; VERDICTS.len()];
    for (round, threads) in THREADS.repeat(20).into_iter().enumerate() {
        let mut r = Random::new(seed ^ round as u64);
        watched_list(c, &mut r, threads, &mut verdicts);
        if c.stopped() {
            return;
        }
    }
    c.claim(!verdicts.contains(&0), || {
        format!("verdicts {VERDICTS:?} are given {verdicts:?} times")
    });
    c.say(&format!(
        "  140 lists, {} events, verdicts {} given {verdicts:?} times",
        140 * EVENTS,
        numbers(&VERDICTS)
    ));
    long_watch(c);
}

/// A thread goes round many times, in shared and in exclusive by turns.
fn long_watch(c: &mut Comparison) {
    let mut watch = Watch::start(c, 2);
    let mut accepted = true;
    for event in (1..=8).cycle().take(MANY_EVENTS) {
        accepted &= watch.event(c, [1, event]) == done(0);
    }
    c.claim(accepted, || "a long watch ended".to_string());
    c.say(&format!("  one of {MANY_EVENTS} events, all accepted"));
}

/// Watches a walk: each event shown is accepted, and after it the totals and the
/// question's answer are those of a count over the table's nodes. Gives the
/// number of events.
fn watched_walk(c: &mut Comparison, r: &mut Random, threads: usize) -> usize {
    let mut watch = Watch::start(c, threads);
    let mut shown = 0;
    walk(c, r, threads, |c, pair, table| {
        shown += 1;
        let verdict = watch.event(c, pair);
        c.claim(verdict == done(0), || {
            format!("{threads} threads showed {pair:?}, the watcher answered {verdict}")
        });
        c.compare(&Call::nodes(table.to_vec(), vec![0x5a; threads]));
        let count = |node: u8| c.lent().iter().filter(|&&n| n == node).count() as u8;
        let counts = NODES_INSIDE.map(count);
        c.claim(watch.totals() == counts, || {
            format!(
                "{counts:?} threads are inside, record {}",
                hex(&watch.record)
            )
        });
        watch.inside(c, counts != [0, 0]);
    });
    shown
}

/// Watches random events, bad ones among them: each is judged as the check
/// judges the events accepted so far with this one added, and the question is
/// answered by each thread's last accepted event.
fn watched_list(
    c: &mut Comparison,
    r: &mut Random,
    threads: usize,
    verdicts: &mut [usize; VERDICTS.len()],
) {
    let mut watch = Watch::start(c, threads);
    let mut accepted = Vec::new();
    let mut last = [0; 256];
    for _ in 0..EVENTS {
        // A history has bytes.
        let pair = watchers::event(r, &watch.record).map(|number| number.min(255) as u8);
        let verdict = watch.event(c, pair);
        let history = [&accepted[..], &pair].concat();
        let judged = c.compare(&Call::check(threads as u16, history.clone()));
        let index = accepted.len() as u64 / 2;
        let right = match number_of(judged) {
            0 => judged == done(index + 1) && verdict == done(0),
            number => {
                let number = u64::from(number);
                judged == refused(number, index) && verdict == refused(number, 0)
            }
        };
        c.claim(right, || {
            format!("{threads} threads: verdict {verdict}, check {judged} of {history:?}")
        });
        if number_of(verdict) == 0 {
            accepted = history;
            last[usize::from(pair[0])] = pair[1];
        }
        watch.inside(c, last.contains(&2) || last.contains(&6));
        if let Some(i) = VERDICTS.iter().position(|&v| v == number_of(verdict)) {
            verdicts[i] += 1;
        }
        if c.stopped() {
            return;
        }
    }
}
