//! What the calls answer that tell more than a yes or a length.
//!
//! They are the answers of the wrapper once more, whose structs cannot be made here. Here alone is one turned into the
//! other: every comparison is between answers of the model.

/// Where a replay ends: how many rules were applied, and what they cost; where all were, the goal that the state there
/// meets, if any.
#[derive(Clone, Copy, Debug, PartialEq, Eq)]
pub enum Replay {
    Done { steps: usize, cost: u32, goal: Option<u8> },
    Stuck { steps: usize, cost: u32 },
}

/// What a search answers.
#[derive(Clone, Copy, Debug, PartialEq, Eq)]
pub enum Search {
    Found { steps: usize, cost: u32, visits: u32, goal: u8 },
    NoPlan { visits: u32 },
    Spent { visits: u32 },
}

impl Search {
    /// How many rules the plan has, none where there is no plan.
    pub fn steps(self) -> usize {
        match self {
            Search::Found { steps, .. } => steps,
            Search::NoPlan { .. } | Search::Spent { .. } => 0,
        }
    }
}

impl From<mikjuqan::Replay> for Replay {
    fn from(told: mikjuqan::Replay) -> Replay {
        match told {
            mikjuqan::Replay::Done(mikjuqan::RunEnd { steps, cost, goal, .. }) => Replay::Done { steps, cost, goal },
            mikjuqan::Replay::Stuck(mikjuqan::RunEnd { steps, cost, goal: None, .. }) => Replay::Stuck { steps, cost },
            other => panic!("the model has no {other:?}"),
        }
    }
}

impl From<mikjuqan::Search> for Search {
    fn from(told: mikjuqan::Search) -> Search {
        match told {
            mikjuqan::Search::Found(mikjuqan::Plan { steps, cost, visits, goal, .. }) => {
                Search::Found { steps, cost, visits, goal }
            }
            mikjuqan::Search::NoPlan { visits } => Search::NoPlan { visits },
            mikjuqan::Search::Spent { visits } => Search::Spent { visits },
            other => panic!("the model has no {other:?}"),
        }
    }
}
