//! 02 §7, from every sound table of one to three threads and by the part's own
//! answers: moves that are no call and no retry come to an end, after N x (3N +
//! 5) of them at most; and where a thread isn't in phase 0, some move is accepted
//! that is no call.

use crate::comparison::Comparison;
use crate::graph::{Graph, Step, REACHED};
use crate::model::table_size;
use crate::part::hex;

/// The moves of the longest sequence without calls and retries, for one to three
/// threads.
const LONGEST: [usize; 3] = [8, 22, 42];

/// Whether a move is no call and no retry.
fn makes_progress(step: &Step) -> bool {
    !step.is_call && !step.is_retry
}

/// For each table the moves of its longest sequence without calls and retries.
/// None where some sequence doesn't end.
fn longest(graph: &Graph) -> Option<Vec<usize>> {
    let count = graph.tables.len();
    let mut before = vec![Vec::new(); count];
    let mut open = vec![0; count];
    for (from, step) in graph.edges().filter(|(_, step)| makes_progress(step)) {
        before[step.to].push(from);
        open[from] += 1;
    }
    // Tables whose moves are all measured, those without moves first.
    let mut measured = (0..count).filter(|&at| open[at] == 0).collect::<Vec<_>>();
    let mut moves = vec![0; count];
    let mut next = 0;
    while let Some(&at) = measured.get(next) {
        for &from in &before[at] {
            moves[from] = moves[from].max(moves[at] + 1);
            open[from] -= 1;
            if open[from] == 0 {
                measured.push(from);
            }
        }
        next += 1;
    }
    (measured.len() == count).then_some(moves)
}

/// The index of the table with every thread in 9.
fn all_in_9(graph: &Graph) -> Option<usize> {
    let mut table = vec![0; table_size(graph.threads)];
    (table[0], table[2]) = (graph.threads as u8, 255);
    table[3..].chunks_exact_mut(3).for_each(|row| row[0] = 9);
    graph.tables.iter().position(|other| *other == table)
}

/// A retry shows no event.
fn retries_are_quiet(c: &mut Comparison, graph: &Graph) -> usize {
    let mut retries = 0;
    for (from, step) in graph.edges().filter(|(_, step)| step.is_retry) {
        retries += 1;
        c.claim(step.event == 0, || {
            let table = hex(&graph.tables[from]);
            format!("a retry of {} shows {}: {table}", step.thread, step.event)
        });
    }
    retries
}

/// Where a thread isn't in phase 0, some move that is no call is accepted.
fn some_move_accepted(c: &mut Comparison, graph: &Graph) {
    for (table, steps) in graph.tables.iter().zip(&graph.steps) {
        let free = table[3..].iter().step_by(3).all(|&phase| phase == 0);
        let accepted = steps.iter().any(|step| !step.is_call);
        c.claim(free || accepted, || {
            format!("nothing but calls is accepted: {}", hex(table))
        });
    }
}

/// The longest sequence without calls and retries has `most` moves, and is made
/// from the table with every thread in 9.
fn limited(c: &mut Comparison, graph: &Graph, most: usize) {
    let threads = graph.threads;
    let Some(moves) = longest(graph) else {
        return c.claim(false, || {
            format!("{threads} threads: moves without calls and retries that never end")
        });
    };
    let found = moves.iter().max();
    c.claim(found == Some(&most), || {
        format!("{threads} threads: {found:?} moves without calls and retries")
    });
    let found = all_in_9(graph).map(|at| moves[at]);
    c.claim(found == Some(most), || {
        format!("{threads} threads in 9: {found:?} moves without calls and retries")
    });
}

/// The limit on moves without calls and retries, and that some move is open.
pub fn limit(c: &mut Comparison) {
    for ((threads, count), most) in REACHED.into_iter().zip(LONGEST) {
        let Some(graph) = Graph::of(c.part(), threads, count) else {
            return c.claim(false, || format!("{threads} threads: not {count} tables"));
        };
        limited(c, &graph, most);
        let retries = retries_are_quiet(c, &graph);
        some_move_accepted(c, &graph);
        let moves = graph.edges().count();
        c.say(&format!(
            "  {threads} threads: {count} tables, {moves} moves, {retries} of them retries; at most {most} without calls and retries"
        ));
        if c.stopped() {
            return;
        }
    }
}
