//! Plans without a table: by looking at every list of rules within the step limit.

use super::exercise::{Exercise, State};
use super::matching::{apply, meets_goal};
use std::collections::HashMap;

/// A list of rule numbers that reaches a goal, and its cost.
#[derive(Clone, Debug, PartialEq, Eq)]
pub struct Plan {
    pub rules: Vec<u8>,
    pub cost: u32,
}

/// Looks at open lists in the order of their rule numbers, a prefix before its extensions.
struct Walk<'a> {
    exercise: &'a Exercise,
    steps: usize,
    /// How many lists may still be looked at.
    left: usize,
    best: Option<Plan>,
}

/// There are more open lists than were to be looked at.
#[derive(Debug)]
pub struct TooMany;

/// The plan that a search should find: no open list to a goal costs less, and none that costs the same comes before
/// it. Nothing where no open list leads to a goal. Looks at no more than `most` lists.
pub fn first_cheapest(exercise: &Exercise, start: &[u8], steps: usize, most: usize) -> Result<Option<Plan>, TooMany> {
    let mut walk = Walk { exercise, steps, left: most, best: None };
    walk.look(&mut vec![start.to_vec()], &mut Plan { rules: Vec::new(), cost: 0 })?;
    Ok(walk.best)
}

impl Walk<'_> {
    fn look(&mut self, path: &mut Vec<State>, list: &mut Plan) -> Result<(), TooMany> {
        self.left = self.left.checked_sub(1).ok_or(TooMany)?;
        let state = path.last().expect("a path has a start").clone();
        let is_cheaper = self.best.as_ref().is_none_or(|best| list.cost < best.cost);
        if is_cheaper && meets_goal(self.exercise, &state) {
            self.best = Some(list.clone());
        }
        if list.rules.len() == self.steps {
            return Ok(());
        }
        for (number, rule) in self.exercise.rules.iter().enumerate() {
            if let Some(next) = apply(rule, &state).filter(|next| !path.contains(next)) {
                path.push(next);
                list.rules.push(number as u8);
                list.cost += u32::from(rule.cost);
                self.look(path, list)?;
                list.cost -= u32::from(rule.cost);
                list.rules.pop();
                path.pop();
            }
        }
        Ok(())
    }
}

/// The least cost of any list within the step limit that reaches a goal, also of one that passes a state twice.
pub fn least_cost(exercise: &Exercise, start: &[u8], steps: usize) -> Option<u32> {
    let mut costs: HashMap<State, u32> = HashMap::from([(start.to_vec(), 0)]);
    for _ in 0..steps {
        // The least costs with one step more: of the lists so far, and of these with a rule behind.
        let mut further = costs.clone();
        for (state, cost) in &costs {
            for rule in &exercise.rules {
                if let Some(next) = apply(rule, state) {
                    let cost = cost + u32::from(rule.cost);
                    further.entry(next).and_modify(|least| *least = cost.min(*least)).or_insert(cost);
                }
            }
        }
        costs = further;
    }
    costs.into_iter().filter(|(state, _)| meets_goal(exercise, state)).map(|(_, cost)| cost).min()
}
