//! Ranks: a state's labels read as digits, position 0 highest.

use super::exercise::State;

pub fn rank(state: &[u8], labels: usize) -> usize {
    state.iter().fold(0, |rank, &label| rank * labels + usize::from(label))
}

/// The state of a rank.
pub fn state_of_rank(rank: usize, labels: usize, positions: usize) -> State {
    let mut rest = rank;
    let mut state = vec![0; positions];
    for label in state.iter_mut().rev() {
        *label = (rest % labels) as u8;
        rest /= labels;
    }
    state
}
