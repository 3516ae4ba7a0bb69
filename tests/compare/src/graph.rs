//! The tables that a part's moves reach for a few threads, and the moves from
//! each, by the part's answers. These are all sound tables.

use std::collections::HashMap;

use crate::model::{self, CALL_EXCLUSIVE, CALL_SHARED, LAST_MOVE};
use crate::part::{number_of, retries_of, value_of, Call, Caller, Part};
use crate::tables;

/// Numbers of threads, and how many tables moves reach for each. These are the
/// sound ones.
pub const REACHED: [(usize, usize); 3] = [(1, 16), (2, 479), (3, 14_118)];

/// An accepted move.
pub struct Step {
    pub thread: usize,
    pub is_call: bool,
    pub is_retry: bool,
    /// The event shown, 0 for none.
    pub event: u64,
    /// The index of the table that it leaves.
    pub to: usize,
}

pub struct Graph {
    pub threads: usize,
    pub tables: Vec<Vec<u8>>,
    /// The accepted moves from each table.
    pub steps: Vec<Vec<Step>>,
}

impl Graph {
    /// None where the part reaches another number of tables.
    pub fn of(part: &dyn Part, threads: usize, count: usize) -> Option<Graph> {
        let tables = tables::reached(part, threads, count, |_, _, _| ());
        if tables.len() != count {
            return None;
        }
        let index = tables
            .iter()
            .enumerate()
            .map(|(at, table)| (table.as_slice(), at))
            .collect::<HashMap<_, _>>();
        let mut caller = Caller::new(part);
        let steps = tables
            .iter()
            .map(|table| steps(&mut caller, &index, table))
            .collect();
        Some(Graph {
            threads,
            tables,
            steps,
        })
    }

    /// Every accepted move with the index of the table that it is made in.
    pub fn edges(&self) -> impl Iterator<Item = (usize, &Step)> {
        let steps = self.steps.iter().enumerate();
        steps.flat_map(|(from, steps)| steps.iter().map(move |step| (from, step)))
    }
}

/// The accepted moves from a table. Requests out of range are refused, which
/// other sections test.
fn steps(caller: &mut Caller, index: &HashMap<&[u8], usize>, table: &[u8]) -> Vec<Step> {
    let threads = usize::from(table[0]);
    let mut steps = Vec::new();
    let mut call = Call::make_move(table.to_vec(), 0, 0, 0);
    for thread in 0..threads {
        for mov in 0..=LAST_MOVE {
            for target in 0..model::targets(mov, threads) {
                call.numbers = [thread as u16, mov, target as u16];
                let answer = caller.call(&call);
                if number_of(answer) == 0 {
                    steps.push(Step {
                        thread,
                        is_call: mov == CALL_SHARED || mov == CALL_EXCLUSIVE,
                        is_retry: retries_of(answer) > 0,
                        event: value_of(answer),
                        to: index[caller.lent()],
                    });
                }
            }
        }
    }
    steps
}
