//! The exercise block: what is refused with 3 to 7, each over the whole block before the next.

use super::exercise::{Exercise, Pattern, Rule};
use super::term::Term;
use mikjuqan::Refusal;

/// The most abstract states of an exercise, and of one under all its maps together.
pub const MOST_ABSTRACT_STATES: u128 = 16_384;

/// The five numbers of the head.
#[derive(Clone, Copy, Debug)]
pub struct Head {
    pub positions: usize,
    pub labels: usize,
    pub abstract_labels: usize,
    pub rules: usize,
    pub goals: usize,
}

impl Head {
    /// The head at the front of a block.
    pub fn read(block: &[u8]) -> Result<Head, Refusal> {
        let numbers = block.get(..5).ok_or(Refusal::Head)?;
        let head = Head {
            positions: numbers[0].into(),
            labels: numbers[1].into(),
            abstract_labels: numbers[2].into(),
            rules: numbers[3].into(),
            goals: numbers[4].into(),
        };
        if head.is_within_limits() {
            Ok(head)
        } else {
            Err(Refusal::Head)
        }
    }

    fn is_within_limits(&self) -> bool {
        (1..=16).contains(&self.positions)
            && (1..=16).contains(&self.labels)
            && (1..=self.labels).contains(&self.abstract_labels)
            && self.rules <= 64
            && (1..=8).contains(&self.goals)
            && (self.abstract_labels as u128).pow(self.positions as u32) <= MOST_ABSTRACT_STATES
    }

    /// The lengths of head, map, each rule and each goal: the frames that are a line each in a text.
    pub fn frame_lengths(&self) -> Vec<usize> {
        let mut lengths = vec![5, self.labels];
        lengths.extend(vec![1 + 2 * self.positions; self.rules]);
        lengths.extend(vec![self.positions; self.goals]);
        lengths
    }

    pub fn block_length(&self) -> usize {
        self.frame_lengths().iter().sum()
    }
}

/// The exercise that a block describes.
pub fn check(block: &[u8]) -> Result<Exercise, Refusal> {
    let head = Head::read(block)?;
    if block.len() != head.block_length() {
        return Err(Refusal::Length);
    }
    let (map, rest) = block[5..].split_at(head.labels);
    if map.iter().any(|&byte| usize::from(byte) >= head.abstract_labels) {
        return Err(Refusal::Map);
    }
    let (rules, goals) = rest.split_at(head.rules * (1 + 2 * head.positions));
    let rules = decode_rules(&head, rules)?;
    let goals = goals.chunks(head.positions).map(|goal| decode_pattern(&head, goal)).collect::<Result<_, _>>()?;
    if rules.iter().any(has_unbound_variable) {
        return Err(Refusal::Unbound);
    }
    Ok(Exercise {
        positions: head.positions,
        labels: head.labels,
        abstract_labels: head.abstract_labels,
        map: map.to_vec(),
        rules,
        goals,
    })
}

fn decode_rules(head: &Head, bytes: &[u8]) -> Result<Vec<Rule>, Refusal> {
    let decode_rule = |rule: &[u8]| {
        let (left, right) = rule[1..].split_at(head.positions);
        Ok(Rule { cost: rule[0], left: decode_pattern(head, left)?, right: decode_pattern(head, right)? })
    };
    bytes.chunks(1 + 2 * head.positions).map(decode_rule).collect()
}

fn decode_pattern(head: &Head, bytes: &[u8]) -> Result<Pattern, Refusal> {
    let decode_term = |&byte: &u8| match Term::decode(byte) {
        Some(Term::Label(label)) if usize::from(label) >= head.labels => Err(Refusal::Term),
        Some(term) => Ok(term),
        None => Err(Refusal::Term),
    };
    bytes.iter().map(decode_term).collect()
}

fn has_unbound_variable(rule: &Rule) -> bool {
    rule.right.iter().any(|term| term.is_variable() && !rule.left.contains(term))
}
