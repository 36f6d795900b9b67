//! Reversible by form, and one-to-one by trying all states.

use super::exercise::{Exercise, Rule};
use super::matching::apply;
use super::rank::state_of_rank;
use super::term::Term;
use std::collections::HashSet;

/// Whether every position that is overwritten has a left term whose label can be told from the new state.
pub fn is_reversible_by_form(rule: &Rule) -> bool {
    let can_be_told = |term: Term| match term {
        Term::Label(_) => true,
        Term::Variable(_) => {
            let is_kept = |(left, right): (&Term, &Term)| *left == term && *right == Term::Dash;
            rule.right.contains(&term) || rule.left.iter().zip(&rule.right).any(is_kept)
        }
        Term::Dash => false,
    };
    rule.left.iter().zip(&rule.right).all(|(&left, &right)| right == Term::Dash || can_be_told(left))
}

/// Whether no two states to which the rule applies have the same image.
pub fn is_one_to_one(exercise: &Exercise, rule: &Rule) -> bool {
    let mut images = HashSet::new();
    (0..exercise.labels.pow(exercise.positions as u32))
        .filter_map(|rank| apply(rule, &state_of_rank(rank, exercise.labels, exercise.positions)))
        .all(|image| images.insert(image))
}
