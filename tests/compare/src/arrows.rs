//! 02 §7, from every sound table of one to three threads and by the part's own
//! answers: each arrow of Figure 1 whose condition holds for a thread can be
//! taken by that thread, after moves that keep every thread in its node.

use crate::comparison::Comparison;
use crate::graph::{Graph, Step, REACHED};
use crate::part::{hex, Call, Caller, Part};

/// For one to three threads, how often an arrow's condition holds for a thread.
const ENABLED: [usize; 3] = [17, 936, 40_257];

/// An arrow of Figure 1: the nodes that it leads from and to, its event (0 for
/// none), and the nodes in which its condition wants nobody.
struct Arrow {
    from: u8,
    to: u8,
    event: u64,
    nobody_in: &'static [u8],
}

const fn arrow(from: u8, to: u8, event: u64, nobody_in: &'static [u8]) -> Arrow {
    Arrow {
        from,
        to,
        event,
        nobody_in,
    }
}

const FREE: u8 = 0;
const ES: u8 = 1;
const LOE: u8 = 2;
const SHARED: u8 = 3;
const LS: u8 = 4;
const EE: u8 = 5;
const SAF: u8 = 6;
const LOS: u8 = 7;
const EXCLUSIVE: u8 = 8;
const LE: u8 = 9;
const OE: u8 = 10;

const ARROWS: [Arrow; 12] = [
    arrow(FREE, ES, 1, &[]),
    arrow(ES, LOE, 0, &[LOS, EXCLUSIVE]),
    arrow(LOE, SHARED, 2, &[]),
    arrow(SHARED, LS, 3, &[]),
    arrow(LS, FREE, 4, &[]),
    arrow(FREE, EE, 5, &[]),
    arrow(EE, SAF, 0, &[SAF, LOS, EXCLUSIVE, LE]),
    arrow(SAF, LOS, 0, &[LOE, SHARED]),
    arrow(LOS, EXCLUSIVE, 6, &[]),
    arrow(EXCLUSIVE, LE, 7, &[]),
    arrow(LE, OE, 0, &[]),
    arrow(OE, FREE, 8, &[]),
];

impl Arrow {
    /// Whether the condition holds for a thread.
    fn enabled(&self, nodes: &[u8], thread: usize) -> bool {
        nodes[thread] == self.from && !nodes.iter().any(|node| self.nobody_in.contains(node))
    }

    /// Whether a move takes a thread along this arrow.
    fn taken(&self, nodes: &[u8], step: &Step, after: &[u8]) -> bool {
        let mut moved = nodes.to_vec();
        moved[step.thread] = self.to;
        self.enabled(nodes, step.thread) && moved == after && step.event == self.event
    }
}

/// The nodes of each table, by the part.
fn nodes_of(part: &dyn Part, graph: &Graph) -> Vec<Vec<u8>> {
    let mut caller = Caller::new(part);
    let tables = graph.tables.iter();
    tables
        .map(|table| {
            caller.call(&Call::nodes(table.clone(), vec![0; graph.threads]));
            caller.lent().to_vec()
        })
        .collect()
}

/// What moves do to the nodes: which tables come before each by a move that
/// keeps them, and for each arrow the tables in which a thread takes it.
struct Moves {
    before: Vec<Vec<usize>>,
    taken: Vec<(usize, usize, usize)>,
}

impl Moves {
    /// Each move keeps every thread in its node or takes its thread along an
    /// arrow.
    fn of(c: &mut Comparison, graph: &Graph, nodes: &[Vec<u8>]) -> Moves {
        let mut moves = Moves {
            before: vec![Vec::new(); nodes.len()],
            taken: Vec::new(),
        };
        for (from, step) in graph.edges() {
            let (now, after) = (&nodes[from], &nodes[step.to]);
            let along = ARROWS.iter().position(|a| a.taken(now, step, after));
            let kept = now == after && step.event == 0;
            c.claim(kept || along.is_some(), || {
                let table = hex(&graph.tables[from]);
                format!("a move of {} along no arrow: {table}", step.thread)
            });
            match along {
                Some(arrow) => moves.taken.push((arrow, step.thread, from)),
                None => moves.before[step.to].push(from),
            }
        }
        moves
    }

    /// The tables from which a thread comes to take an arrow, after moves that
    /// keep every thread in its node.
    fn takeable(&self, arrow: usize, thread: usize) -> Vec<bool> {
        let mut found = vec![false; self.before.len()];
        let taken = self.taken.iter();
        let mut open = taken
            .filter(|&&(a, t, _)| (a, t) == (arrow, thread))
            .map(|&(_, _, at)| at)
            .collect::<Vec<_>>();
        while let Some(at) = open.pop() {
            if !found[at] {
                found[at] = true;
                open.extend(&self.before[at]);
            }
        }
        found
    }
}

/// Claims of each arrow that it can be taken exactly where its condition holds.
/// Gives in how many cases that is.
fn enabled_are_takeable(c: &mut Comparison, graph: &Graph) -> usize {
    let nodes = nodes_of(c.part(), graph);
    let moves = Moves::of(c, graph, &nodes);
    let mut count = 0;
    for (at, arrow) in ARROWS.iter().enumerate() {
        for thread in 0..graph.threads {
            let takeable = moves.takeable(at, thread);
            for ((table, nodes), takeable) in graph.tables.iter().zip(&nodes).zip(takeable) {
                let enabled = arrow.enabled(nodes, thread);
                count += usize::from(enabled);
                c.claim(enabled == takeable, || {
                    let [from, to] = [arrow.from, arrow.to];
                    format!(
                        "{from} to {to} of {thread}, condition {enabled}: {}",
                        hex(table)
                    )
                });
            }
        }
    }
    count
}

/// Each arrow whose condition holds can be taken.
pub fn figure_1(c: &mut Comparison) {
    for ((threads, count), cases) in REACHED.into_iter().zip(ENABLED) {
        let Some(graph) = Graph::of(c.part(), threads, count) else {
            return c.claim(false, || format!("{threads} threads: not {count} tables"));
        };
        let found = enabled_are_takeable(c, &graph);
        c.claim(found == cases, || {
            format!("{threads} threads: an arrow's condition holds {found} times")
        });
        c.say(&format!(
            "  {threads} threads: {count} tables, an arrow's condition holds for a thread {found} times, and it can be taken"
        ));
        if c.stopped() {
            return;
        }
    }
}
