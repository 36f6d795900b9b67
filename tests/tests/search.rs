//! What is promised of every plan, with none to three further maps, looked at without a table: by looking at all lists
//! of rules within the step limit.

use mikjuqan::Limits;
use outside::compare;
use outside::draw::maps::draw_map;
use outside::draw::sizes::Sizes;
use outside::draw::tables::draw_passing_entries;
use outside::draw::Drawn;
use outside::model;
use outside::model::answers::{Replay, Search};
use outside::model::block::check;
use outside::model::exercise::Exercise;
use outside::model::exhaustive::{first_cheapest, least_cost, Plan};
use outside::model::maps::Mapped;
use outside::model::table::Graph;
use outside::random::Random;
use outside::repeat::{cases, repeat, GOALS};

/// The most open lists that are looked at.
const MOST: usize = 5000;

const ANY: u32 = u32::MAX;

/// What the library answers, and the plan.
fn find(exercise: &Exercise, start: &[u8], limits: Limits, lent: &Lent) -> (Search, Vec<u8>) {
    let mut plan = vec![0; limits.steps];
    let block = exercise.encode();
    let mapped = mikjuqan::Exercise::new(&block).with_maps(&lent.maps);
    let answer = mapped.find_plan(start, limits, &lent.tables, &mut plan);
    let answer = answer.map(Search::from).expect("nothing is wrong");
    (answer, plan[..answer.steps()].to_vec())
}

/// An exercise with a start and a step limit, small enough for all open lists to be looked at, and the plan to be
/// named.
fn draw_small(random: &mut Random) -> (Exercise, Vec<u8>, usize, Option<Plan>) {
    loop {
        let (drawn, start) = Drawn::with_start(random, 64);
        let steps = random.between(0, 7);
        if let Ok(exercise) = check(&drawn.draft.block()) {
            if let Ok(plan) = first_cheapest(&exercise, &start, steps, MOST) {
                return (exercise, start, steps, plan);
            }
        }
    }
}

/// Further maps, none to three, and a table that passes the test for each map.
#[derive(Debug)]
struct Lent {
    maps: Vec<u8>,
    tables: Vec<u32>,
    mapped: Mapped,
}

impl Lent {
    fn draw(random: &mut Random, exercise: &Exercise) -> Lent {
        let mut maps = Vec::new();
        for _ in 0..random.below(4) {
            let longer = [maps.clone(), draw_map(random, &Sizes::of(exercise), 64)].concat();
            // An exercise with a very large table has no room for more.
            maps = if Mapped::new(exercise.clone(), &longer).is_ok() { longer } else { maps };
        }
        let mapped = Mapped::new(exercise.clone(), &maps).expect("the maps are within the limits");
        let draw = |exercise: &Exercise| draw_passing_entries(random, &Graph::new(exercise));
        Lent { tables: mapped.exercises().iter().flat_map(draw).collect(), maps, mapped }
    }
}

/// The answers that are possible where the allowance is enough.
fn never_spent() -> String {
    format!("found at the start, found near, found far, {GOALS}, no plan")
}

#[test]
fn plan_is_the_first_cheapest_open_list() {
    repeat("plan_is_the_first_cheapest_open_list", cases() / 5, &never_spent(), |random| {
        let (exercise, start, steps, plan) = draw_small(random);
        let lent = Lent::draw(random, &exercise);
        let (answer, rules) = find(&exercise, &start, Limits { steps, cost: ANY, visits: ANY }, &lent);
        let cost = if let Search::Found { cost, .. } = answer { Some(cost) } else { None };
        assert_eq!(cost, plan.as_ref().map(|plan| plan.cost), "{exercise:?} {start:?} {steps} {lent:?}");
        assert_eq!(cost, least_cost(&exercise, &start, steps), "lists that pass a state twice are not cheaper");
        assert_eq!(rules, plan.map_or(vec![], |plan| plan.rules), "{exercise:?} {start:?} {steps} {lent:?}");
        answer
    });
}

#[test]
fn plan_that_is_replayed_ends_at_its_goal() {
    repeat("plan_that_is_replayed", cases() / 5, &never_spent(), |random| {
        let (exercise, start, steps, _) = draw_small(random);
        let lent = Lent::draw(random, &exercise);
        let (answer, rules) = find(&exercise, &start, Limits { steps, cost: ANY, visits: ANY }, &lent);
        if let Search::Found { steps, cost, goal, .. } = answer {
            let block = exercise.encode();
            let (end, state) = compare::replay_run(random, &block, &start, &rules, start.len());
            assert_eq!(end, Ok(Replay::Done { steps, cost, goal: Some(goal) }));
            assert_eq!(compare::test_goals(random, &block, &state), Ok(Some(goal)));
        }
        answer
    });
}

#[test]
fn cost_limit_decides_whether_there_is_a_plan() {
    repeat("cost_limit_decides", cases() / 5, &never_spent(), |random| {
        let (exercise, start, steps, plan) = draw_small(random);
        let least = plan.as_ref().map_or(random.below(20) as u32, |plan| plan.cost);
        let cost = random.pick(&[least, least + 1, least.saturating_sub(1), 0]);
        let lent = Lent::draw(random, &exercise);
        let (answer, rules) = find(&exercise, &start, Limits { steps, cost, visits: ANY }, &lent);
        let within = plan.filter(|plan| plan.cost <= cost);
        assert_eq!(matches!(answer, Search::Found { .. }), within.is_some());
        assert_eq!(rules, within.map_or(vec![], |plan| plan.rules));
        answer
    });
}

/// How many visits are made is told by the model's rounds.
#[test]
fn spent_exactly_where_more_visits_are_made() {
    repeat("spent_exactly", cases() / 5, &format!("{}, spent", never_spent()), |random| {
        let (exercise, start, steps, _) = draw_small(random);
        let lent = Lent::draw(random, &exercise);
        let limits = Limits { steps, cost: random.pick(&[ANY, 5]), visits: ANY };
        let free = model::search::find(&exercise, &start, limits, &|state| lent.mapped.estimate(&lent.tables, state));
        let (Search::Found { visits: made, .. } | Search::NoPlan { visits: made }) = free.0 else {
            panic!("so many visits cannot be spent");
        };
        let visits = random.pick(&[made, made + 1, made.saturating_sub(1), made / 2]);
        let limited = find(&exercise, &start, Limits { visits, ..limits }, &lent);
        if visits < made {
            assert_eq!(limited, (Search::Spent { visits }, vec![]));
        } else {
            assert_eq!(limited, free);
        }
        limited.0
    });
}
