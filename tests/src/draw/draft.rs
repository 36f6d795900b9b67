//! Exercises as frames of bytes, which may be anything: unlike an exercise of the model, a draft can be out of limits.

use super::sizes::Sizes;
use crate::random::Random;

pub const DASH: u8 = 0xFF;
const FIRST_VARIABLE: u8 = 0x10;

#[derive(Clone, Debug)]
pub struct Draft {
    pub sizes: Sizes,
    pub map: Vec<u8>,
    /// For each rule its cost, left terms and right terms.
    pub rules: Vec<Vec<u8>>,
    pub goals: Vec<Vec<u8>>,
}

impl Draft {
    /// A random exercise of these sizes, in which nothing but the sizes can be wrong.
    pub fn new(random: &mut Random, sizes: Sizes) -> Draft {
        // Sizes of 0 are out of limits; what the labels then are does not matter.
        let label_count = sizes.labels.clamp(1, 16);
        let abstract_count = sizes.abstract_labels.max(1);
        Draft {
            sizes,
            map: (0..sizes.labels).map(|_| random.below(abstract_count) as u8).collect(),
            rules: (0..sizes.rules).map(|_| draw_rule(random, sizes.positions, label_count)).collect(),
            goals: (0..sizes.goals).map(|_| draw_goal(random, sizes, label_count)).collect(),
        }
    }

    /// The same with rules of another kind: labels move to neighbours that hold label 0, to and fro.
    pub fn with_moves(random: &mut Random, sizes: Sizes) -> Draft {
        let mut draft = Draft::new(random, sizes);
        for (number, rule) in draft.rules.iter_mut().enumerate() {
            let (from, to) = (number / 2, (number / 2 + 1) % sizes.positions);
            let (from, to) = if number % 2 == 0 { (from, to) } else { (to, from) };
            let cost = if random.one_in(16) { 255 } else { random.between(0, 3) as u8 };
            if !random.one_in(8) {
                *rule = move_rule(cost, sizes.positions, from, to);
            }
        }
        draft
    }

    /// Makes a state one of the goals; sometimes other states meet the goal too.
    pub fn set_goal(&mut self, random: &mut Random, number: usize, state: &[u8]) {
        let is_loose = random.one_in(3);
        let term = |&label: &u8| match random.below(8) {
            0 if is_loose => DASH,
            1 if is_loose => FIRST_VARIABLE + label,
            _ => label,
        };
        self.goals[number] = state.iter().map(term).collect();
    }

    /// Head, map, rules and goals.
    pub fn frames(&self) -> Vec<Vec<u8>> {
        let Sizes { positions, labels, abstract_labels, rules, goals } = self.sizes;
        let head = [positions, labels, abstract_labels, rules, goals].map(|number| number as u8);
        let mut frames = vec![head.to_vec(), self.map.clone()];
        frames.extend_from_slice(&self.rules);
        frames.extend_from_slice(&self.goals);
        frames
    }

    pub fn block(&self) -> Vec<u8> {
        self.frames().concat()
    }

    /// The left terms of a rule.
    pub fn left(&self, rule: usize) -> &[u8] {
        &self.rules[rule][1..][..self.sizes.positions]
    }

    /// The right terms of a rule.
    pub fn right(&self, rule: usize) -> &[u8] {
        &self.rules[rule][1 + self.sizes.positions..]
    }
}

fn draw_rule(random: &mut Random, positions: usize, labels: usize) -> Vec<u8> {
    let mut left = vec![DASH; positions];
    let mut right = vec![DASH; positions];
    if positions > 0 {
        match random.below(10) {
            0..=3 => draw_terms(random, labels, &mut left, &mut right),
            4..=6 => {
                let from = random.below(positions);
                set_move(&mut left, &mut right, from, (from + random.between(1, 2)) % positions);
            }
            7..=8 => draw_change(random, labels, &mut left, &mut right),
            _ => draw_turn(random, &mut left, &mut right),
        }
    }
    let cost = if random.one_in(8) { random.pick(&[0, 0, 100, 254, 255]) } else { random.between(0, 4) as u8 };
    [vec![cost], left, right].concat()
}

fn move_rule(cost: u8, positions: usize, from: usize, to: usize) -> Vec<u8> {
    let mut left = vec![DASH; positions];
    let mut right = vec![DASH; positions];
    set_move(&mut left, &mut right, from, to);
    [vec![cost], left, right].concat()
}

/// Any terms; few variables, so that the same one stands at several positions.
fn draw_terms(random: &mut Random, labels: usize, left: &mut [u8], right: &mut [u8]) {
    let percent_labels = random.pick(&[5, 20, 50]);
    let variables = random.between(1, 3);
    let draw_term = |random: &mut Random| match random.below(100) {
        percent if percent < percent_labels => random.below(labels) as u8,
        percent if percent < 70 => FIRST_VARIABLE + random.below(variables) as u8,
        _ => DASH,
    };
    left.fill_with(|| draw_term(random));
    for term in right {
        *term = draw_term(random);
        if is_variable(*term) && !left.contains(term) {
            *term = DASH;
        }
    }
}

/// What stands at one position goes to another, which has to hold label 0.
fn set_move(left: &mut [u8], right: &mut [u8], from: usize, to: usize) {
    (left[to], right[from]) = (0, 0);
    (left[from], right[to]) = (FIRST_VARIABLE, FIRST_VARIABLE);
}

/// One position changes from one label to another.
fn draw_change(random: &mut Random, labels: usize, left: &mut [u8], right: &mut [u8]) {
    let position = random.below(left.len());
    left[position] = random.below(labels) as u8;
    right[position] = random.below(labels) as u8;
}

/// What stands at the first few positions turns in a ring.
fn draw_turn(random: &mut Random, left: &mut [u8], right: &mut [u8]) {
    let length = random.between(1, left.len());
    for position in 0..length {
        left[position] = FIRST_VARIABLE + (position % 16) as u8;
        right[(position + 1) % length] = left[position];
    }
}

/// Where there are many goals they are mostly labels, so that those behind have their states too.
fn draw_goal(random: &mut Random, sizes: Sizes, labels: usize) -> Vec<u8> {
    let percent_labels = if sizes.goals > 3 { 95 } else { random.pick(&[30, 60, 95]) };
    let mut draw_term = || match random.below(100) {
        percent if percent < percent_labels => random.below(labels) as u8,
        percent if percent % 3 == 0 => FIRST_VARIABLE + random.below(2) as u8,
        _ => DASH,
    };
    (0..sizes.positions).map(|_| draw_term()).collect()
}

pub fn is_variable(term: u8) -> bool {
    (0x10..=0x1F).contains(&term)
}
