//! What a search is asked, what calls answer, and how that is told from the answers of the library.
//!
//! [`Limits`] and [`Plan`] have the layout of the header's structs, as they are handed to the library and back as they
//! are.

use crate::ffi::{self, NO_GOAL};
use crate::refusal::accepted;
use crate::{Refusal, NO_PATH};

/// What a search may use.
#[derive(Clone, Copy, Debug, PartialEq, Eq)]
#[repr(C)]
pub struct Limits {
    /// The most rules of a plan, at most [`PLAN_LENGTH`](crate::PLAN_LENGTH).
    pub steps: usize,
    /// The highest cost of a plan.
    pub cost: u32,
    /// The most visits, over all rounds.
    pub visits: u32,
}

/// A plan that was found.
#[derive(Clone, Copy, Debug, PartialEq, Eq)]
#[non_exhaustive]
#[repr(C)]
pub struct Plan {
    /// How many rules it has.
    pub steps: usize,
    /// What they cost.
    pub cost: u32,
    /// The visits made, that of the plan included.
    pub visits: u32,
    /// The goal that its last state meets, the lowest number where it meets several.
    pub goal: u8,
}

/// What a search answers.
#[derive(Clone, Copy, Debug, PartialEq, Eq)]
#[non_exhaustive]
pub enum Search {
    /// A cheapest plan.
    Found(Plan),
    /// No list of rules within the limits reaches a goal.
    NoPlan {
        /// The visits made.
        visits: u32,
    },
    /// The allowance was used up before that was known.
    Spent {
        /// The visits made, which are all that were allowed.
        visits: u32,
    },
}

/// Where a replay ends.
#[derive(Clone, Copy, Debug, PartialEq, Eq)]
#[non_exhaustive]
pub struct RunEnd {
    /// How many rules were applied. Where the replay is stuck, this is the index of the rule that does not apply.
    pub steps: usize,
    /// What they cost together.
    pub cost: u32,
    /// The goal that the state there meets, the lowest number where it meets several. `None` where it meets none, and
    /// always where the replay is stuck.
    pub goal: Option<u8>,
}

/// How a replay ends.
#[derive(Clone, Copy, Debug, PartialEq, Eq)]
#[non_exhaustive]
pub enum Replay {
    /// Every rule applied.
    Done(RunEnd),
    /// A rule did not apply.
    Stuck(RunEnd),
}

// The header says of every answer that its other members are 0 where the call is refused, and a goal is none. They are
// dropped then, and builds with debug assertions look whether that holds.

pub(crate) fn decision(answer: ffi::Decision) -> Result<bool, Refusal> {
    let ffi::Decision { refusal, yes } = answer;
    debug_assert!(refusal == 0 || yes == 0);
    accepted(refusal)?;
    match yes {
        0 => Ok(false),
        1 => Ok(true),
        _ => unreachable!("the library has no decision {yes}"),
    }
}

pub(crate) fn length(answer: ffi::Length) -> Result<usize, Refusal> {
    let ffi::Length { refusal, bytes } = answer;
    debug_assert!(refusal == 0 || bytes == 0);
    accepted(refusal)?;
    Ok(bytes)
}

pub(crate) fn estimate(answer: ffi::Entry) -> Result<Option<u32>, Refusal> {
    let ffi::Entry { refusal, entry } = answer;
    debug_assert!(refusal == 0 || entry == 0);
    accepted(refusal)?;
    Ok((entry != NO_PATH).then_some(entry))
}

pub(crate) fn goal(answer: ffi::Goal) -> Result<Option<u8>, Refusal> {
    let ffi::Goal { refusal, goal } = answer;
    debug_assert!(refusal == 0 || goal == NO_GOAL);
    accepted(refusal)?;
    Ok(met(goal))
}

pub(crate) fn replay(answer: ffi::Replay) -> Result<Replay, Refusal> {
    let ffi::Replay { refusal, stuck, end: ffi::RunEnd { steps, cost, goal } } = answer;
    debug_assert!(refusal == 0 || (stuck, steps, cost) == (0, 0, 0));
    debug_assert!((refusal, stuck) == (0, 0) || goal == NO_GOAL);
    accepted(refusal)?;
    let end = RunEnd { steps, cost, goal: met(goal) };
    match stuck {
        0 => Ok(Replay::Done(end)),
        1 => Ok(Replay::Stuck(end)),
        _ => unreachable!("the library has no end {stuck} of a replay"),
    }
}

pub(crate) fn search(answer: ffi::Search) -> Result<Search, Refusal> {
    let ffi::Search { refusal, status, plan } = answer;
    debug_assert!(refusal == 0 || (status, plan.visits) == (0, 0));
    debug_assert!((refusal, status) == (0, 0) || (plan.steps, plan.cost, plan.goal) == (0, 0, NO_GOAL));
    accepted(refusal)?;
    match status {
        0 => Ok(Search::Found(plan)),
        1 => Ok(Search::NoPlan { visits: plan.visits }),
        2 => Ok(Search::Spent { visits: plan.visits }),
        _ => unreachable!("the library has no status {status}"),
    }
}

/// The goal with this number, if there is one.
fn met(number: u8) -> Option<u8> {
    (number != NO_GOAL).then_some(number)
}
