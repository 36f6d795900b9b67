//! The five numbers of a head.

use crate::model::exercise::Exercise;
use crate::random::Random;

#[derive(Clone, Copy, Debug)]
pub struct Sizes {
    pub positions: usize,
    pub labels: usize,
    pub abstract_labels: usize,
    pub rules: usize,
    pub goals: usize,
}

impl Sizes {
    /// The sizes of an exercise.
    pub fn of(exercise: &Exercise) -> Sizes {
        Sizes {
            positions: exercise.positions,
            labels: exercise.labels,
            abstract_labels: exercise.abstract_labels,
            rules: exercise.rules.len(),
            goals: exercise.goals.len(),
        }
    }

    /// The number of abstract states, or nothing where it is over the limit.
    pub fn abstract_states(&self) -> Option<usize> {
        let number = (self.abstract_labels as u128).checked_pow(self.positions as u32)?;
        (number <= 16_384).then_some(number as usize)
    }
}

/// Sizes within the limits, with at most so many abstract states. Most are small, some have up to sixteen positions
/// and labels, and some have just so many.
pub fn draw(random: &mut Random, most_entries: usize) -> Sizes {
    let (least, most) = match random.below(32) {
        0 => (16, 16),
        1..=3 => (1, 16),
        _ => (1, 5),
    };
    let mut sizes = Sizes {
        positions: random.between(least, most),
        labels: random.between(least, most),
        abstract_labels: 0,
        rules: random.between(1, 6),
        goals: random.pick(&[1, 2, 3, 8]),
    };
    set_abstract_labels(random, &mut sizes, most_entries);
    if random.one_in(20) {
        sizes.rules = random.pick(&[0, 0, 20, 64]);
    }
    if random.one_in(20) {
        sizes.goals = random.between(4, 7);
    }
    sizes
}

/// Sizes with room for long ways to a goal.
pub fn draw_for_moves(random: &mut Random, most_entries: usize) -> Sizes {
    let positions = random.between(3, 6);
    let labels = random.between(3, 6);
    let goals = random.pick(&[1, 2, 8, 8]);
    let mut sizes = Sizes { positions, labels, abstract_labels: 0, rules: 2 * positions, goals };
    set_abstract_labels(random, &mut sizes, most_entries);
    sizes
}

fn set_abstract_labels(random: &mut Random, sizes: &mut Sizes, most_entries: usize) {
    sizes.abstract_labels = draw_abstract_labels(random, sizes, most_entries);
}

/// A number of abstract labels with at most so many abstract states. The sizes need not be within the limits.
pub fn draw_abstract_labels(random: &mut Random, sizes: &Sizes, most_entries: usize) -> usize {
    let mut drawn = Sizes { abstract_labels: random.between(1, sizes.labels.max(1)), ..*sizes };
    while drawn.abstract_states().is_none_or(|number| number > most_entries) {
        drawn.abstract_labels -= 1;
    }
    drawn.abstract_labels
}

/// Abstract labels and positions with K^n at 16,384 or as near below as K and n allow, and the smallest.
const POWERS_WITHIN: [(usize, usize); 6] = [(2, 14), (4, 7), (5, 6), (11, 4), (16, 3), (1, 16)];

/// The same with K^n above that. Some of these are 0 in 32 bits, (16, 16) also in 64 bits.
const POWERS_ABOVE: [(usize, usize); 11] =
    [(2, 15), (3, 9), (4, 8), (7, 5), (12, 4), (16, 4), (2, 16), (4, 16), (16, 8), (8, 16), (16, 16)];

/// Sizes with one number at its limit, or beyond it.
pub fn draw_at_limits(random: &mut Random) -> Sizes {
    let mut sizes = draw(random, 64);
    match random.below(7) {
        0 => {
            // One abstract label, so that the positions alone are out of limits.
            sizes.positions = random.pick(&[0, 1, 16, 17, 18, 255]);
            sizes.abstract_labels = 1;
        }
        1 => {
            sizes.labels = random.pick(&[0, 1, 16, 17, 255]);
            sizes.abstract_labels = 1;
        }
        2 => sizes.abstract_labels = random.pick(&[0, sizes.labels, sizes.labels + 1, 255]),
        3 => sizes.rules = random.pick(&[0, 64, 65, 128, 255]),
        4 => sizes.goals = random.pick(&[0, 1, 8, 9, 255]),
        5 => set_power(random, &mut sizes, &POWERS_WITHIN),
        _ => set_power(random, &mut sizes, &POWERS_ABOVE),
    }
    sizes
}

fn set_power(random: &mut Random, sizes: &mut Sizes, powers: &[(usize, usize)]) {
    (sizes.abstract_labels, sizes.positions) = random.pick(powers);
    sizes.labels = random.between(sizes.abstract_labels, 16);
}
