//! The worked values of the specification, each through the library and through the model.

use mikjuqan::{Limits, Refusal, NO_PATH};
use outside::compare;
use outside::model::answers::{Replay, Search};
use outside::model::session;
use outside::program;
use outside::random::Random;
use outside::samples::{e_block, samples, E_TEXT};

const M: u32 = NO_PATH;
const E_TABLE: [u32; 8] = [M, M, M, 2, M, 1, 0, M];
const E_START: [u8; 3] = [1, 2, 0];
const E_GOAL: [u8; 3] = [2, 1, 0];
const E_LIMITS: Limits = Limits { steps: 8, cost: 100, visits: 100 };

const DASH: u8 = 0xFF;
const A: u8 = 0x10;
const B: u8 = 0x11;
const C: u8 = 0x12;

/// What a search of input E answers, and its plan.
fn find_in_e(start: &[u8], limits: Limits, table: &[u32]) -> (Result<Search, Refusal>, Vec<u8>) {
    let (answer, plan) = compare::find_plan(&mut Random::new(1), &e_block(), &[], start, limits, table, limits.steps);
    (answer, plan[..answer.map_or(0, Search::steps)].to_vec())
}

/// A block of one rule and a goal that every state meets, with one abstract label.
fn block_of_rule(labels: u8, left: &[u8], right: &[u8]) -> Vec<u8> {
    let head = [left.len() as u8, labels, 1, 1, 1];
    [&head, vec![0; labels.into()].as_slice(), &[1], left, right, &vec![DASH; left.len()]].concat()
}

/// All states that rule 0 takes to a state.
fn predecessors(block: &[u8], state: &[u8]) -> Vec<Vec<u8>> {
    let random = &mut Random::new(2);
    let mut found = Vec::new();
    let mut told = compare::first_predecessor(random, block, 0, state, state.len());
    while told.0 == Ok(true) {
        let next = compare::next_predecessor(random, block, 0, state, &told.1, state.len());
        found.push(std::mem::replace(&mut told, next).1);
    }
    assert_eq!(told.0, Ok(false));
    found
}

#[test]
fn text_of_e_is_its_block() {
    let (answer, out) = compare::read_exercise(&mut Random::new(3), E_TEXT, 2261);
    assert_eq!(answer, Ok(53));
    assert_eq!(out[..53], e_block());
    assert_eq!(out[..8], [3, 3, 2, 6, 1, 0, 1, 1]);
    assert_eq!(out[50..53], E_GOAL);
}

#[test]
fn table_of_e() {
    let random = &mut Random::new(4);
    let (answer, table) = compare::fill_table(random, &e_block(), &[], 8);
    assert_eq!((answer, table.as_slice()), (Ok(()), E_TABLE.as_slice()));
    assert_eq!(compare::test_table(random, &e_block(), &[], &E_TABLE), Ok(true));
    assert_eq!(compare::test_table(random, &e_block(), &[], &[0; 8]), Ok(true));
    assert_eq!(compare::look_up_estimate(random, &e_block(), &[], &E_START, &E_TABLE), Ok(Some(0)));
    assert_eq!(compare::look_up_estimate(random, &e_block(), &[], &[0, 1, 2], &E_TABLE), Ok(Some(2)));
    assert_eq!(compare::look_up_estimate(random, &e_block(), &[], &[0, 0, 0], &E_TABLE), Ok(None));
}

#[test]
fn plan_of_e() {
    let found = Ok(Search::Found { steps: 3, cost: 5, visits: 10, goal: 0 });
    assert_eq!(find_in_e(&E_START, E_LIMITS, &E_TABLE), (found, vec![2, 0, 5]));
    let later = compare::replay_run(&mut Random::new(5), &e_block(), &E_START, &[4, 1, 3], 3);
    assert_eq!(later, (Ok(Replay::Done { steps: 3, cost: 5, goal: Some(0) }), E_GOAL.to_vec()));
}

#[test]
fn plan_of_e_by_the_zero_table() {
    let found = Ok(Search::Found { steps: 3, cost: 5, visits: 19, goal: 0 });
    assert_eq!(find_in_e(&E_START, E_LIMITS, &[0; 8]), (found, vec![2, 0, 5]));
}

#[test]
fn nine_visits_of_e_are_spent() {
    let limits = Limits { visits: 9, ..E_LIMITS };
    assert_eq!(find_in_e(&E_START, limits, &E_TABLE), (Ok(Search::Spent { visits: 9 }), vec![]));
}

#[test]
fn no_plan_of_e_at_cost_4() {
    let limits = Limits { cost: 4, ..E_LIMITS };
    assert_eq!(find_in_e(&E_START, limits, &E_TABLE), (Ok(Search::NoPlan { visits: 6 }), vec![]));
}

#[test]
fn no_plan_of_e_in_2_steps() {
    let limits = Limits { steps: 2, ..E_LIMITS };
    assert_eq!(find_in_e(&E_START, limits, &E_TABLE), (Ok(Search::NoPlan { visits: 11 }), vec![]));
}

#[test]
fn step_limit_65_is_refused() {
    let limits = Limits { steps: 65, ..E_LIMITS };
    assert_eq!(find_in_e(&E_START, limits, &E_TABLE).0, Err(Refusal::Limit));
}

#[test]
fn start_at_the_goal_of_e() {
    let found = Ok(Search::Found { steps: 0, cost: 0, visits: 1, goal: 0 });
    assert_eq!(find_in_e(&E_GOAL, E_LIMITS, &E_TABLE), (found, vec![]));
}

#[test]
fn example_rule_forwards_and_back() {
    let random = &mut Random::new(6);
    let block = block_of_rule(8, &[A, A, 1, DASH, B, C], &[2, DASH, DASH, DASH, C, B]);
    let (old, new) = ([4, 4, 1, 7, 5, 6], [2, 4, 1, 7, 6, 5]);
    assert_eq!(compare::apply_rule(random, &block, 0, &old, 6), (Ok(true), new.to_vec()));
    assert_eq!(predecessors(&block, &new), [old]);
    assert_eq!(compare::apply_rule(random, &block, 0, &[4, 5, 1, 7, 5, 6], 6).0, Ok(false));
}

#[test]
fn reversible_rules_by_form() {
    let random = &mut Random::new(7);
    let reversible = block_of_rule(6, &[A, A, DASH, DASH], &[DASH, 2, DASH, DASH]);
    assert_eq!(compare::test_reversible(random, &reversible, 0), Ok(true));
    let lossy = block_of_rule(6, &[A, A, DASH, DASH], &[DASH, DASH, A, DASH]);
    assert_eq!(compare::test_reversible(random, &lossy, 0), Ok(false));
    let six: Vec<Vec<u8>> = (0..6).map(|label| vec![1, 1, label, 5]).collect();
    assert_eq!(predecessors(&lossy, &[1, 1, 1, 5]), six);
}

#[test]
fn sixteen_thousand_abstract_states_at_most() {
    let random = &mut Random::new(8);
    let block = |positions: u8| [[positions, 2, 2, 0, 1, 0, 1].as_slice(), &vec![DASH; positions.into()]].concat();
    assert_eq!(compare::check_block(random, &block(14)), Ok(()));
    assert_eq!(compare::check_block(random, &block(15)), Err(Refusal::Head));
}

#[test]
fn relabelling_twice_changes_nothing_more() {
    let random = &mut Random::new(9);
    for block in samples().iter().map(|sample| sample.block_and_start().0).chain([e_block()]) {
        let (once, relabelled) = compare::relabel_block(random, &block, block.len());
        let length = once.expect("the exercise is accepted");
        let (twice, again) = compare::relabel_block(random, &relabelled[..length], length);
        assert_eq!((twice, again), (once, relabelled[..length].to_vec()));
    }
}

#[test]
fn numbers_of_refusals() {
    let names = "Character Line Head Length Map Term Unbound State Rule Limit Buffer TableShort TableFails Maps \
                 MapRange Records";
    let numbers: Vec<u32> = Refusal::ALL.iter().map(|refusal| refusal.number()).collect();
    assert_eq!(numbers, (1..=16).collect::<Vec<u32>>());
    let shown: Vec<String> = Refusal::ALL.iter().map(|refusal| format!("{refusal:?}")).collect();
    assert_eq!(shown.join(" "), names);
}

#[test]
fn lines_printed_for_e() {
    let lines = [
        ("010200080000006400000064\n", "000003000000050000000A020005\n"),
        ("010200080000006400000009\n", "02000000000000000009\n"),
        ("010200080000000400000064\n", "01000000000000000006\n"),
        ("010200020000006400000064\n", "0100000000000000000B\n"),
        ("010200410000006400000064\n", "FF0A\n"),
        ("020100080000006400000064\n", "0000000000000000000001\n"),
    ];
    for (query, answer) in lines {
        let input = [E_TEXT, query.as_bytes()].concat();
        assert_eq!(session::print(&input), answer.as_bytes());
        let ended = program::run(&input);
        assert_eq!(ended.printed, answer.as_bytes());
        assert!(ended.status.success());
    }
}
