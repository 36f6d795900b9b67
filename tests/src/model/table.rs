//! Tables of abstract distances: the lower-bound test, the fill, and estimates.

use super::exercise::Exercise;
use super::matching::{apply, meets_goal};
use super::rank::{rank, state_of_rank};
use super::relabel::{relabel, relabel_state};
use mikjuqan::NO_PATH;

/// A relabelled rule taken from the abstract state of rank `from` to that of rank `to`.
#[derive(Clone, Copy, Debug)]
pub struct Edge {
    pub from: usize,
    pub to: usize,
    pub cost: u8,
}

/// The relabelled exercise as a graph of ranks.
pub struct Graph {
    /// For each rank whether its state meets a relabelled goal.
    pub goals: Vec<bool>,
    pub edges: Vec<Edge>,
}

impl Graph {
    pub fn new(exercise: &Exercise) -> Graph {
        let relabelled = relabel(exercise);
        let mut graph = Graph { goals: Vec::new(), edges: Vec::new() };
        for from in 0..exercise.abstract_states() {
            let state = state_of_rank(from, relabelled.labels, relabelled.positions);
            graph.goals.push(meets_goal(&relabelled, &state));
            for rule in &relabelled.rules {
                if let Some(next) = apply(rule, &state) {
                    graph.edges.push(Edge { from, to: rank(&next, relabelled.labels), cost: rule.cost });
                }
            }
        }
        graph
    }

    /// The lower-bound test on a table that is long enough.
    pub fn passes(&self, table: &[u32]) -> bool {
        let goal_holds = |(&goal, &entry): (&bool, &u32)| !goal || entry == 0;
        let edge_holds = |edge: &Edge| {
            let (before, behind) = (table[edge.from], table[edge.to]);
            let bound = u64::from(edge.cost) + u64::from(behind);
            behind == NO_PATH || before != NO_PATH && u64::from(before) <= bound
        };
        self.goals.iter().zip(table).all(goal_holds) && self.edges.iter().all(edge_holds)
    }

    /// Lowers entries along edges until none can be lowered. A table that comes out of this obeys the test's part on
    /// rules, whatever it held before. The mark lies above all numbers: it is lowered even where the bound reaches
    /// its own.
    pub fn lower(&self, table: &mut [u32]) {
        let mut changed = true;
        while changed {
            changed = false;
            for edge in &self.edges {
                let bound = table[edge.to].saturating_add(edge.cost.into()).min(NO_PATH - 1);
                if table[edge.to] != NO_PATH && bound < table[edge.from] {
                    table[edge.from] = bound;
                    changed = true;
                }
            }
        }
    }

    /// The least cost from each abstract state to a goal.
    pub fn least_costs(&self) -> Vec<u32> {
        let mut table: Vec<u32> = self.goals.iter().map(|&goal| if goal { 0 } else { NO_PATH }).collect();
        self.lower(&mut table);
        table
    }
}

/// The filled table of an exercise.
pub fn fill(exercise: &Exercise) -> Vec<u32> {
    Graph::new(exercise).least_costs()
}

pub fn passes(exercise: &Exercise, table: &[u32]) -> bool {
    Graph::new(exercise).passes(table)
}

/// The estimate of a state, or nothing where its entry is the mark.
pub fn estimate(exercise: &Exercise, table: &[u32], state: &[u8]) -> Option<u32> {
    let abstract_state = relabel_state(exercise, state);
    let entry = table[rank(&abstract_state, exercise.abstract_labels)];
    (entry != NO_PATH).then_some(entry)
}
