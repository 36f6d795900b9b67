//! Matching a pattern, applying a rule, meeting a goal.

use super::exercise::{Exercise, Rule, State};
use super::term::Term;

/// The label of each variable, where it has one.
type Bindings = [Option<u8>; 16];

/// What a pattern's variables are bound to by a state, or nothing where the state does not match.
fn bind(pattern: &[Term], state: &[u8]) -> Option<Bindings> {
    let mut bindings = [None; 16];
    for (&term, &label) in pattern.iter().zip(state) {
        match term {
            Term::Label(constant) if constant != label => return None,
            Term::Variable(name) => {
                if *bindings[usize::from(name)].get_or_insert(label) != label {
                    return None;
                }
            }
            Term::Label(_) | Term::Dash => {}
        }
    }
    Some(bindings)
}

pub fn matches(pattern: &[Term], state: &[u8]) -> bool {
    bind(pattern, state).is_some()
}

/// The state that a rule leads to, where it applies.
pub fn apply(rule: &Rule, state: &[u8]) -> Option<State> {
    let bindings = bind(&rule.left, state)?;
    let new_label = |(&term, &old_label): (&Term, &u8)| match term {
        Term::Label(constant) => constant,
        Term::Variable(name) => bindings[usize::from(name)].expect("a right variable stands on the left"),
        Term::Dash => old_label,
    };
    Some(rule.right.iter().zip(state).map(new_label).collect())
}

/// The lowest number of a goal that a state meets.
pub fn met_goal(exercise: &Exercise, state: &[u8]) -> Option<u8> {
    exercise.goals.iter().position(|goal| matches(goal, state)).map(|number| number as u8)
}

pub fn meets_goal(exercise: &Exercise, state: &[u8]) -> bool {
    met_goal(exercise, state).is_some()
}
