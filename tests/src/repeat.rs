//! Many random cases of one call, and a count of what was met, so that no test becomes empty unnoticed.

use crate::model::answers::{Replay, Search};
use crate::random::Random;
use mikjuqan::Refusal;
use std::collections::BTreeMap;
use std::env;
use std::panic::{catch_unwind, resume_unwind, AssertUnwindSafe};

/// How many cases each call is tried on: `MIKJUQAN_CASES`, or 100,000.
pub fn cases() -> u64 {
    match env::var("MIKJUQAN_CASES") {
        Ok(number) => number.parse().expect("MIKJUQAN_CASES is a number"),
        Err(_) => 100_000,
    }
}

/// The numbers of goals as they are counted, for those lists of what is possible that have goals.
pub const GOALS: &str = "goal 0, goal 1, goal 2, goal 3, goal 4, goal 5, goal 6, goal 7";

/// Answers fall into a few kinds, which are counted; the goals that they tell are counted beside these.
pub trait Kind {
    fn kind(&self) -> &'static str;

    fn goal(&self) -> Option<u8> {
        None
    }
}

impl Kind for () {
    fn kind(&self) -> &'static str {
        "accepted"
    }
}

impl Kind for usize {
    fn kind(&self) -> &'static str {
        "written"
    }
}

impl Kind for bool {
    fn kind(&self) -> &'static str {
        if *self {
            "yes"
        } else {
            "no"
        }
    }
}

impl Kind for Option<u32> {
    fn kind(&self) -> &'static str {
        match self {
            Some(_) => "estimate",
            None => "no path",
        }
    }
}

impl Kind for Option<u8> {
    fn kind(&self) -> &'static str {
        match self {
            Some(_) => "met",
            None => "not met",
        }
    }

    fn goal(&self) -> Option<u8> {
        *self
    }
}

impl Kind for Replay {
    fn kind(&self) -> &'static str {
        match self {
            Replay::Done { goal: Some(_), .. } => "done at a goal",
            Replay::Done { goal: None, .. } => "done elsewhere",
            Replay::Stuck { .. } => "stuck",
        }
    }

    fn goal(&self) -> Option<u8> {
        match *self {
            Replay::Done { goal, .. } => goal,
            Replay::Stuck { .. } => None,
        }
    }
}

impl Kind for Search {
    fn kind(&self) -> &'static str {
        match self {
            Search::Found { steps: 0, .. } => "found at the start",
            Search::Found { steps: 1..=3, .. } => "found near",
            Search::Found { .. } => "found far",
            Search::NoPlan { .. } => "no plan",
            Search::Spent { .. } => "spent",
        }
    }

    fn goal(&self) -> Option<u8> {
        match *self {
            Search::Found { goal, .. } => Some(goal),
            Search::NoPlan { .. } | Search::Spent { .. } => None,
        }
    }
}

impl<T: Kind> Kind for Result<T, Refusal> {
    fn kind(&self) -> &'static str {
        const REFUSED: [&str; 16] =
            ["1", "2", "3", "4", "5", "6", "7", "8", "9", "10", "11", "12", "13", "14", "15", "16"];
        match self {
            Ok(answer) => answer.kind(),
            Err(refusal) => REFUSED[refusal.number() as usize - 1],
        }
    }

    fn goal(&self) -> Option<u8> {
        self.as_ref().ok().and_then(T::goal)
    }
}

/// Runs a case so many times and counts the kinds of its answers, and the goals. Those listed as possible, answers,
/// goals and numbers of refusals with commas between, must each have been met at least once in a thousand cases, and
/// no others at all.
pub fn repeat<T: Kind>(name: &str, cases: u64, possible: &str, case: impl Fn(&mut Random) -> T) {
    let seed = name.bytes().fold(cases_seed(), |seed, byte| seed.wrapping_mul(257).wrapping_add(byte.into()));
    let mut met: BTreeMap<&str, u64> = BTreeMap::new();
    for number in 0..cases {
        let mut random = Random::new(Random::new(seed.wrapping_add(number)).bits());
        let answer = catch_unwind(AssertUnwindSafe(|| case(&mut random))).unwrap_or_else(|fault| {
            println!("{name}: this was case {number}");
            resume_unwind(fault)
        });
        *met.entry(answer.kind()).or_default() += 1;
        if let Some(goal) = answer.goal() {
            let name = GOALS.split(", ").nth(goal.into()).expect("there are at most eight goals");
            *met.entry(name).or_default() += 1;
        }
    }
    println!("{name}: {cases} cases, {met:?}");
    let mut possible: Vec<&str> = possible.split(", ").collect();
    possible.sort_unstable();
    assert_eq!(met.keys().copied().collect::<Vec<_>>(), possible, "kinds of answers met, and those possible");
    let rare = met.iter().find(|(_, &times)| times * 1000 < cases);
    assert!(rare.is_none(), "too rare: {rare:?}");
}

/// The seed of all random cases: `MIKJUQAN_SEED`, or 1.
fn cases_seed() -> u64 {
    match env::var("MIKJUQAN_SEED") {
        Ok(number) => number.parse().expect("MIKJUQAN_SEED is a number"),
        Err(_) => 1,
    }
}
