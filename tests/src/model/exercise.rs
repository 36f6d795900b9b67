//! An exercise as an accepted block describes it.

use super::term::Term;

/// The labels of all positions.
pub type State = Vec<u8>;

/// One term for each position: a side of a rule, or a goal.
pub type Pattern = Vec<Term>;

#[derive(Clone, Debug, PartialEq, Eq)]
pub struct Rule {
    pub cost: u8,
    pub left: Pattern,
    pub right: Pattern,
}

#[derive(Clone, Debug, PartialEq, Eq)]
pub struct Exercise {
    pub positions: usize,
    pub labels: usize,
    pub abstract_labels: usize,
    pub map: Vec<u8>,
    pub rules: Vec<Rule>,
    pub goals: Vec<Pattern>,
}

impl Exercise {
    /// The number of abstract states, which is the number of entries of a table.
    pub fn abstract_states(&self) -> usize {
        self.abstract_labels.pow(self.positions as u32)
    }

    /// Whether some bytes are a state: a label for each position.
    pub fn is_state(&self, bytes: &[u8]) -> bool {
        bytes.len() == self.positions && bytes.iter().all(|&label| usize::from(label) < self.labels)
    }

    /// The block that describes this exercise.
    pub fn encode(&self) -> Vec<u8> {
        let head = [self.positions, self.labels, self.abstract_labels, self.rules.len(), self.goals.len()];
        let mut block: Vec<u8> = head.iter().map(|&number| number as u8).collect();
        block.extend(&self.map);
        for rule in &self.rules {
            block.push(rule.cost);
            block.extend(encode_pattern(&rule.left));
            block.extend(encode_pattern(&rule.right));
        }
        for goal in &self.goals {
            block.extend(encode_pattern(goal));
        }
        block
    }
}

fn encode_pattern(pattern: &[Term]) -> impl Iterator<Item = u8> + '_ {
    pattern.iter().map(|term| term.encode())
}
