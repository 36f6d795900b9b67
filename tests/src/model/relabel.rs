//! Relabelling: from labels to abstract labels by the map.

use super::exercise::{Exercise, Pattern, Rule, State};
use super::term::Term;

/// The exercise over abstract labels, whose own map changes nothing.
pub fn relabel(exercise: &Exercise) -> Exercise {
    let pattern = |pattern: &Pattern| relabel_pattern(&exercise.map, pattern);
    let rule = |rule: &Rule| Rule { cost: rule.cost, left: pattern(&rule.left), right: pattern(&rule.right) };
    Exercise {
        positions: exercise.positions,
        labels: exercise.abstract_labels,
        abstract_labels: exercise.abstract_labels,
        map: (0..exercise.abstract_labels as u8).collect(),
        rules: exercise.rules.iter().map(rule).collect(),
        goals: exercise.goals.iter().map(pattern).collect(),
    }
}

fn relabel_pattern(map: &[u8], pattern: &[Term]) -> Pattern {
    let relabel_term = |&term: &Term| match term {
        Term::Label(label) => Term::Label(map[usize::from(label)]),
        other => other,
    };
    pattern.iter().map(relabel_term).collect()
}

/// The abstract state of a state.
pub fn relabel_state(exercise: &Exercise, state: &[u8]) -> State {
    state.iter().map(|&label| exercise.map[usize::from(label)]).collect()
}
