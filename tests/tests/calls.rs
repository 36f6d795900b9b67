//! Random and damaged inputs for each of the fourteen calls, compared with the model: the answer and all lent memory.
//!
//! Each test lists the answers and refusals that its call can give, and fails if one of them was not met; those that
//! are lent further maps do so for each number of them.

use mikjuqan::ANSWER_LENGTH;
use outside::compare;
use outside::draw::arguments::{
    change_list, damage_sometimes, draw_back, draw_goal_state, draw_room, draw_rule_number, draw_state,
};
use outside::draw::limits::draw_limits;
use outside::draw::maps::DrawnMaps;
use outside::draw::queries::{count_records, draw_queries};
use outside::draw::tables::draw_table;
use outside::draw::text::draw_text;
use outside::draw::Drawn;
use outside::random::Random;
use outside::repeat::{cases, repeat, Kind, GOALS};

/// Calls that make no table take exercises with any number of abstract states.
const ANY: usize = 16_384;

/// The most abstract states of most exercises where a table is made.
const FEW: usize = 64;

#[test]
fn read_exercise() {
    repeat("read_exercise", cases(), "written, 1, 2, 3, 5, 6, 7, 11", |random| {
        let draft = Drawn::new(random, ANY).draft;
        let text = draw_text(random, &draft);
        let room = draw_room(random, draft.block().len());
        compare::read_exercise(random, &text, room).0
    });
}

#[test]
fn check_block() {
    repeat("check_block", cases(), "accepted, 3, 4, 5, 6, 7", |random| {
        let drawn = Drawn::new(random, ANY);
        compare::check_block(random, &drawn.block)
    });
}

#[test]
fn relabel_block() {
    repeat("relabel_block", cases(), "written, 3, 4, 5, 6, 7, 11", |random| {
        let drawn = Drawn::new(random, ANY);
        let fewer = drawn.draft.sizes.labels.saturating_sub(drawn.draft.sizes.abstract_labels);
        let room = draw_room(random, drawn.draft.block().len() - fewer);
        compare::relabel_block(random, &drawn.block, room).0
    });
}

#[test]
fn apply_rule() {
    repeat("apply_rule", cases(), "yes, no, 3, 4, 5, 6, 7, 8, 9, 11", |random| {
        let drawn = Drawn::new(random, ANY);
        let rule = draw_rule_number(random, &drawn.draft);
        let state = draw_state(random, &drawn.draft);
        let room = draw_room(random, drawn.draft.sizes.positions);
        compare::apply_rule(random, &drawn.block, rule, &state, room).0
    });
}

#[test]
fn test_goals() {
    repeat("test_goals", cases(), &format!("met, not met, {GOALS}, 3, 4, 5, 6, 7, 8"), |random| {
        let drawn = Drawn::new(random, ANY);
        let draw = if random.one_in(2) { draw_state } else { draw_goal_state };
        let state = draw(random, &drawn.draft);
        compare::test_goals(random, &drawn.block, &state)
    });
}

#[test]
fn first_predecessor() {
    repeat("first_predecessor", cases(), "yes, no, 3, 4, 5, 6, 7, 8, 9, 11", |random| {
        let drawn = Drawn::new(random, ANY);
        let rule = draw_rule_number(random, &drawn.draft);
        let (state, _) = draw_back(random, &drawn, rule);
        let room = draw_room(random, drawn.draft.sizes.positions);
        compare::first_predecessor(random, &drawn.block, rule, &state, room).0
    });
}

#[test]
fn next_predecessor() {
    repeat("next_predecessor", cases(), "yes, no, 3, 4, 5, 6, 7, 8, 9, 11", |random| {
        let drawn = Drawn::new(random, ANY);
        let rule = draw_rule_number(random, &drawn.draft);
        let (state, earlier) = draw_back(random, &drawn, rule);
        let room = draw_room(random, drawn.draft.sizes.positions);
        compare::next_predecessor(random, &drawn.block, rule, &state, &earlier, room).0
    });
}

#[test]
fn test_reversible() {
    repeat("test_reversible", cases(), "yes, no, 3, 4, 5, 6, 7, 9", |random| {
        let drawn = Drawn::new(random, ANY);
        let rule = draw_rule_number(random, &drawn.draft);
        compare::test_reversible(random, &drawn.block, rule)
    });
}

#[test]
fn replay_run() {
    let possible = format!("done at a goal, done elsewhere, stuck, {GOALS}, 3, 4, 5, 6, 7, 8, 9, 10, 11");
    repeat("replay_run", cases(), &possible, |random| {
        let (drawn, start, mut list) = Drawn::with_run(random, ANY);
        change_list(random, drawn.draft.sizes.rules, &mut list);
        let start = damage_sometimes(random, &drawn.draft, start);
        let room = draw_room(random, drawn.draft.sizes.positions);
        compare::replay_run(random, &drawn.block, &start, &list, room).0
    });
}

/// Runs a case with each number of further maps, from none to three. Each can be damaged, none too, and so each of them
/// meets all answers and refusals.
fn repeat_by_maps<T: Kind>(name: &str, possible: &str, case: impl Fn(&mut Random, usize) -> T) {
    for count in 0..=3 {
        let name = format!("{name} with {count} further maps");
        repeat(&name, cases() / 4, possible, |random| case(random, count));
    }
}

#[test]
fn fill_table() {
    repeat_by_maps("fill_table", "accepted, 3, 4, 5, 6, 7, 14, 15, 12", |random, count| {
        let drawn = Drawn::new(random, FEW);
        let maps = DrawnMaps::new(random, &drawn.draft, count, FEW);
        let room = draw_room(random, maps.mapped(&drawn).map_or(20, |mapped| mapped.entries()));
        compare::fill_table(random, &drawn.block, &maps.bytes, room).0
    });
}

#[test]
fn test_table() {
    repeat_by_maps("test_table", "yes, no, 3, 4, 5, 6, 7, 14, 15, 12", |random, count| {
        let drawn = Drawn::new(random, FEW);
        let maps = DrawnMaps::new(random, &drawn.draft, count, FEW);
        let table = draw_table(random, &drawn, &maps);
        compare::test_table(random, &drawn.block, &maps.bytes, &table)
    });
}

#[test]
fn look_up_estimate() {
    repeat_by_maps("look_up_estimate", "estimate, no path, 3, 4, 5, 6, 7, 14, 15, 8, 12", |random, count| {
        let drawn = Drawn::new(random, FEW);
        let maps = DrawnMaps::new(random, &drawn.draft, count, FEW);
        let state = draw_state(random, &drawn.draft);
        let table = draw_table(random, &drawn, &maps);
        compare::look_up_estimate(random, &drawn.block, &maps.bytes, &state, &table)
    });
}

#[test]
fn find_plan() {
    let answers = format!("found at the start, found near, found far, {GOALS}, no plan, spent");
    let possible = format!("{answers}, 3, 4, 5, 6, 7, 14, 15, 8, 10, 11, 12, 13");
    repeat_by_maps("find_plan", &possible, |random, count| {
        let (drawn, start) = Drawn::with_start(random, FEW);
        let maps = DrawnMaps::new(random, &drawn.draft, count, FEW);
        let start = damage_sometimes(random, &drawn.draft, start);
        let table = draw_table(random, &drawn, &maps);
        let limits = draw_limits(random, &drawn.block, &maps.bytes, &start, &table);
        let room = draw_room(random, limits.steps.min(70));
        compare::find_plan(random, &drawn.block, &maps.bytes, &start, limits, &table, room).0
    });
}

/// Of the answers one is counted: 8 and 10 are those of a query.
#[test]
fn find_plans() {
    let answers = format!("found at the start, found near, found far, {GOALS}, no plan, spent, 8, 10");
    let possible = format!("{answers}, 3, 4, 5, 6, 7, 14, 15, 16, 12, 13");
    repeat_by_maps("find_plans", &possible, |random, count| {
        let (drawn, start) = Drawn::with_start(random, FEW);
        let maps = DrawnMaps::new(random, &drawn.draft, count, FEW);
        let table = draw_table(random, &drawn, &maps);
        let queries = draw_queries(random, &drawn, &maps.bytes, &start, &table);
        let room = draw_room(random, ANSWER_LENGTH * count_records(&drawn.draft, &queries));
        let answers = compare::find_plans(random, &drawn.block, &maps.bytes, &queries, &table, room).0?;
        let answer = &answers[random.below(answers.len())];
        Ok(answer.as_ref().map(|told| told.0).map_err(|&refusal| refusal))
    });
}
