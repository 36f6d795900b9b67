//! The search by rounds of rising thresholds.

use super::answers::Search;
use super::exercise::{Exercise, State};
use super::matching::{apply, meets_goal, met_goal};
use mikjuqan::Limits;

/// The estimate of a state, or nothing where it is the mark.
pub type Estimate<'a> = dyn Fn(&[u8]) -> Option<u32> + 'a;

/// What a search works on; it ends with the visits used.
struct Rounds<'a> {
    exercise: &'a Exercise,
    estimate: &'a Estimate<'a>,
    limits: Limits,
    visits: u32,
}

/// A list of rule numbers, the states on its path with the start first, and its cost.
#[derive(Default)]
struct List {
    rules: Vec<u8>,
    path: Vec<State>,
    cost: u64,
}

impl List {
    /// The state that the list leads to.
    fn state(&self) -> &State {
        self.path.last().expect("a path has a start")
    }
}

/// A round: its threshold, and the least figure above it so far.
struct Round {
    threshold: u64,
    overshoot: Option<u64>,
}

/// Why a round ends before all its lists were visited.
enum Stop {
    Found,
    Spent,
}

/// What a search answers, and the plan where there is one. The estimates are those of tables that pass the test.
pub fn find(exercise: &Exercise, start: &[u8], limits: Limits, estimate: &Estimate) -> (Search, Vec<u8>) {
    let mut rounds = Rounds { exercise, estimate, limits, visits: 0 };
    let mut threshold = estimate(start).map(u64::from);
    while let Some(now) = threshold.filter(|&threshold| threshold <= u64::from(limits.cost)) {
        let mut list = List { path: vec![start.to_vec()], ..List::default() };
        let mut round = Round { threshold: now, overshoot: None };
        match rounds.visit(&mut round, &mut list) {
            Err(Stop::Found) => return (rounds.found(&list), list.rules),
            Err(Stop::Spent) => return (Search::Spent { visits: rounds.visits }, Vec::new()),
            Ok(()) => threshold = round.overshoot,
        }
    }
    (Search::NoPlan { visits: rounds.visits }, Vec::new())
}

impl Rounds<'_> {
    /// The answer where a list meets a goal.
    fn found(&self, list: &List) -> Search {
        let goal = met_goal(self.exercise, list.state()).expect("the list meets a goal");
        Search::Found { steps: list.rules.len(), cost: list.cost as u32, visits: self.visits, goal }
    }

    /// Visits a list, then its extensions in rising rule number. If that stops, the list is where it stopped.
    fn visit(&mut self, round: &mut Round, list: &mut List) -> Result<(), Stop> {
        if self.visits == self.limits.visits {
            return Err(Stop::Spent);
        }
        self.visits += 1;
        let state = list.state().clone();
        if meets_goal(self.exercise, &state) {
            return Err(Stop::Found);
        }
        if list.rules.len() < self.limits.steps {
            for number in 0..self.exercise.rules.len() {
                self.extend(round, list, &state, number)?;
            }
        }
        Ok(())
    }

    /// Visits the extension of a list by one rule, or notes its figure, or cuts it.
    fn extend(&mut self, round: &mut Round, list: &mut List, state: &[u8], number: usize) -> Result<(), Stop> {
        let rule = &self.exercise.rules[number];
        let Some(next) = apply(rule, state).filter(|next| !list.path.contains(next)) else {
            return Ok(());
        };
        let Some(estimate) = (self.estimate)(&next) else {
            return Ok(());
        };
        let cost = list.cost + u64::from(rule.cost);
        let figure = cost + u64::from(estimate);
        if figure > round.threshold {
            round.overshoot = Some(round.overshoot.map_or(figure, |least| least.min(figure)));
            return Ok(());
        }
        list.rules.push(number as u8);
        list.path.push(next);
        list.cost = cost;
        self.visit(round, list)?;
        list.rules.pop();
        list.path.pop();
        list.cost -= u64::from(rule.cost);
        Ok(())
    }
}
