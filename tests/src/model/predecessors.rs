//! Stepping back: the next state in rank order that a rule takes to a given one.
//!
//! Ranks order states as lists are ordered, so that states are compared as lists; with sixteen positions and labels a
//! rank would need 64 bits. Few states are all tried in turn. Many are built up position by position.

use super::exercise::{Exercise, Rule, State};
use super::matching::apply;
use super::rank::state_of_rank;
use super::term::Term;

/// Exercises with at most so many states are walked through.
const MOST_WALKED: u128 = 256;

/// The first state after `earlier`, or of all, that the rule takes to `image`.
pub fn next(exercise: &Exercise, rule: &Rule, image: &[u8], earlier: Option<&[u8]>) -> Option<State> {
    if (exercise.labels as u128).pow(exercise.positions as u32) <= MOST_WALKED {
        walk(exercise, rule, image, earlier)
    } else {
        build(exercise, rule, image, earlier)
    }
}

/// By trying all states in rank order.
pub fn walk(exercise: &Exercise, rule: &Rule, image: &[u8], earlier: Option<&[u8]>) -> Option<State> {
    (0..exercise.labels.pow(exercise.positions as u32))
        .map(|rank| state_of_rank(rank, exercise.labels, exercise.positions))
        .find(|state| is_after(state, earlier) && apply(rule, state).as_deref() == Some(image))
}

fn is_after(state: &[u8], earlier: Option<&[u8]>) -> bool {
    earlier.is_none_or(|earlier| state > earlier)
}

/// By building states up, lowest label first.
pub fn build(exercise: &Exercise, rule: &Rule, image: &[u8], earlier: Option<&[u8]>) -> Option<State> {
    let constant_differs = |(&term, &label): (&Term, &u8)| matches!(term, Term::Label(constant) if constant != label);
    if rule.right.iter().zip(image).any(constant_differs) {
        return None;
    }
    let fits = |position: usize, &label: &u8| fits(rule, image, position, label);
    let choices = (0..exercise.positions)
        .map(|position| (0..exercise.labels as u8).filter(|label| fits(position, label)).collect());
    Builder { rule, choices: choices.collect(), earlier }.complete(&mut Vec::new())
}

/// Whether a label at a position of the old state agrees with what the position's left term and the image ask. A
/// variable stands for one label everywhere: its left positions that are kept and its right positions show it in the
/// image.
fn fits(rule: &Rule, image: &[u8], position: usize, label: u8) -> bool {
    let is_kept = |position: usize| rule.right[position] == Term::Dash;
    let term = rule.left[position];
    match term {
        Term::Label(constant) => label == constant && (!is_kept(position) || label == image[position]),
        Term::Dash => !is_kept(position) || label == image[position],
        Term::Variable(_) => (0..image.len()).all(|other| {
            let shown = rule.right[other] == term || rule.left[other] == term && is_kept(other);
            !shown || label == image[other]
        }),
    }
}

struct Builder<'a> {
    rule: &'a Rule,
    /// The labels that fit each position by themselves.
    choices: Vec<Vec<u8>>,
    earlier: Option<&'a [u8]>,
}

impl Builder<'_> {
    /// The first state with these labels in front.
    fn complete(&self, front: &mut State) -> Option<State> {
        let position = front.len();
        if self.earlier.is_some_and(|earlier| front[..] < earlier[..position]) {
            return None;
        }
        if position == self.choices.len() {
            return is_after(front, self.earlier).then(|| front.clone());
        }
        for &label in &self.choices[position] {
            if self.agrees(front, label) {
                front.push(label);
                let completed = self.complete(front);
                front.pop();
                if completed.is_some() {
                    return completed;
                }
            }
        }
        None
    }

    /// Whether the next position may hold a label: a variable that stands in front has it already.
    fn agrees(&self, front: &[u8], label: u8) -> bool {
        let term = self.rule.left[front.len()];
        let same_variable = |position: usize| term.is_variable() && self.rule.left[position] == term;
        (0..front.len()).all(|position| !same_variable(position) || front[position] == label)
    }
}
