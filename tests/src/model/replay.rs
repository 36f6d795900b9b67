//! Replaying a list of rule numbers.

use super::answers::Replay;
use super::exercise::{Exercise, State};
use super::matching::{apply, met_goal};

/// How a replay ends, and the state there.
pub fn replay(exercise: &Exercise, start: &[u8], list: &[u8]) -> (Replay, State) {
    let mut state = start.to_vec();
    let mut cost = 0;
    for (steps, &number) in list.iter().enumerate() {
        let rule = &exercise.rules[usize::from(number)];
        match apply(rule, &state) {
            Some(next) => state = next,
            None => return (Replay::Stuck { steps, cost }, state),
        }
        cost += u32::from(rule.cost);
    }
    (Replay::Done { steps: list.len(), cost, goal: met_goal(exercise, &state) }, state)
}
