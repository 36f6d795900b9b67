//! Every slice of every call handed over empty once, as `&[]`, whose pointer points nowhere.

use mikjuqan::{read_exercise, Exercise, Limits, Refusal, ANSWER_LENGTH, BLOCK_LENGTH, NO_PATH};
use outside::model::answers::{Replay, Search};
use outside::samples::{e_block, E_TEXT};

const START: [u8; 3] = [1, 2, 0];
const GOAL: [u8; 3] = [2, 1, 0];
const TABLE: [u32; 8] = [0; 8];
const LIMITS: Limits = Limits { steps: 8, cost: 100, visits: 100 };

/// The start and the limits as a query record.
const QUERY: [u8; 12] = [1, 2, 0, 8, 0, 0, 0, 100, 0, 0, 0, 100];

/// Calls with input E, and asserts that a call that is refused has not written to the buffer it was handed.
fn with_e<T>(call: impl FnOnce(Exercise, &mut [u8]) -> Result<T, Refusal>) -> Result<T, Refusal> {
    let block = e_block();
    let mut buffer = [0xEE; BLOCK_LENGTH];
    let answer = call(Exercise::new(&block), &mut buffer);
    assert!(answer.is_ok() || buffer == [0xEE; BLOCK_LENGTH], "a refused call has written");
    answer
}

#[test]
fn text() {
    let mut out = [0xEE; BLOCK_LENGTH];
    assert_eq!(read_exercise(&[], &mut out), Err(Refusal::Line));
    assert_eq!(out, [0xEE; BLOCK_LENGTH]);
    assert_eq!(read_exercise(E_TEXT, &mut []), Err(Refusal::Buffer));
    assert_eq!(read_exercise(&[], &mut []), Err(Refusal::Line));
}

#[test]
fn block() {
    let nothing = Exercise::new(&[]);
    let mut out = [0xEE; ANSWER_LENGTH];
    let mut table = [0xEEEE; 8];
    let refused = Refusal::Head;
    assert_eq!(nothing.check_block(), Err(refused));
    assert_eq!(nothing.relabel_block(&mut out), Err(refused));
    assert_eq!(nothing.test_reversible(0), Err(refused));
    assert_eq!(nothing.test_goals(&GOAL), Err(refused));
    assert_eq!(nothing.apply_rule(2, &START, &mut out), Err(refused));
    assert_eq!(nothing.first_predecessor(2, &START, &mut out), Err(refused));
    assert_eq!(nothing.next_predecessor(2, &START, &GOAL, &mut out), Err(refused));
    assert_eq!(nothing.replay_run(&START, &[2, 0, 5], &mut out), Err(refused));
    assert_eq!(nothing.fill_table(&mut table), Err(refused));
    assert_eq!(nothing.test_table(&TABLE), Err(refused));
    assert_eq!(nothing.look_up_estimate(&START, &TABLE), Err(refused));
    assert_eq!(nothing.find_plan(&START, LIMITS, &TABLE, &mut out), Err(refused));
    assert_eq!(nothing.find_plans(&QUERY, &TABLE, &mut out).err(), Some(refused));
    assert_eq!((out, table), ([0xEE; ANSWER_LENGTH], [0xEEEE; 8]));
}

#[test]
fn states() {
    let refused = Refusal::State;
    assert_eq!(with_e(|e, _| e.test_goals(&[])), Err(refused));
    assert_eq!(with_e(|e, out| e.apply_rule(2, &[], out)), Err(refused));
    assert_eq!(with_e(|e, out| e.first_predecessor(2, &[], out)), Err(refused));
    assert_eq!(with_e(|e, out| e.next_predecessor(2, &[], &START, out)), Err(refused));
    assert_eq!(with_e(|e, out| e.next_predecessor(2, &START, &[], out)), Err(refused));
    assert_eq!(with_e(|e, out| e.replay_run(&[], &[2, 0, 5], out)), Err(refused));
    assert_eq!(with_e(|e, _| e.look_up_estimate(&[], &TABLE)), Err(refused));
    assert_eq!(with_e(|e, plan| e.find_plan(&[], LIMITS, &TABLE, plan)), Err(refused));
}

/// Empty further maps are none; what else is wrong is told as without them.
#[test]
fn maps() {
    let mut table = [0xEEEE; 9];
    assert_eq!(with_e(|e, _| e.with_maps(&[]).fill_table(&mut table)), Ok(()));
    assert_eq!(table, [NO_PATH, NO_PATH, NO_PATH, 2, NO_PATH, 1, 0, NO_PATH, 0xEEEE]);
    assert_eq!(with_e(|e, _| e.with_maps(&[]).test_table(&table)), Ok(true));
    assert_eq!(with_e(|e, _| e.with_maps(&[]).look_up_estimate(&START, &table)), Ok(Some(0)));
    let found = with_e(|e, plan| e.with_maps(&[]).find_plan(&START, LIMITS, &table, plan)).map(Search::from);
    assert_eq!(found, Ok(Search::Found { steps: 3, cost: 5, visits: 10, goal: 0 }));
    assert_eq!(with_e(|e, answers| e.with_maps(&[]).find_plans(&QUERY, &table, answers).map(|told| told.len())), Ok(1));
    let nothing = Exercise::new(&[]).with_maps(&[]);
    assert_eq!(nothing.fill_table(&mut table), Err(Refusal::Head));
    assert_eq!(nothing.test_table(&table), Err(Refusal::Head));
    assert_eq!(nothing.look_up_estimate(&[], &[]), Err(Refusal::Head));
    assert_eq!(nothing.find_plan(&[], LIMITS, &[], &mut []).map(Search::from), Err(Refusal::Head));
    assert_eq!(nothing.find_plans(&[], &[], &mut []).err(), Some(Refusal::Head));
}

/// With a further map all else may be empty: the state, the table, the plan; the queries and the answers.
#[test]
fn all_but_maps() {
    const MAP: [u8; 4] = [2, 0, 0, 1];
    assert_eq!(with_e(|e, _| e.with_maps(&MAP).fill_table(&mut [])), Err(Refusal::TableShort));
    assert_eq!(with_e(|e, _| e.with_maps(&MAP).test_table(&[])), Err(Refusal::TableShort));
    assert_eq!(with_e(|e, _| e.with_maps(&MAP).look_up_estimate(&[], &[])), Err(Refusal::State));
    assert_eq!(with_e(|e, _| e.with_maps(&MAP).look_up_estimate(&START, &[])), Err(Refusal::TableShort));
    let find = |start: &[u8], plan: &mut [u8]| with_e(|e, _| e.with_maps(&MAP).find_plan(start, LIMITS, &[], plan));
    assert_eq!(find(&[], &mut []), Err(Refusal::State));
    assert_eq!(find(&START, &mut []), Err(Refusal::Buffer));
    assert_eq!(find(&START, &mut [0; 8]), Err(Refusal::TableShort));
    let find_all = |queries: &[u8], answers: &mut [u8]| {
        with_e(|e, _| e.with_maps(&MAP).find_plans(queries, &[], answers).map(|told| told.len()))
    };
    assert_eq!(find_all(&[], &mut []), Err(Refusal::Records));
    assert_eq!(find_all(&[], &mut [0; ANSWER_LENGTH]), Err(Refusal::Records));
    assert_eq!(find_all(&QUERY, &mut []), Err(Refusal::Records));
    assert_eq!(find_all(&QUERY, &mut [0; ANSWER_LENGTH]), Err(Refusal::TableShort));
}

/// No queries are no answer of none: at least one is asked for.
#[test]
fn queries_and_answers() {
    let refused = Refusal::Records;
    assert_eq!(with_e(|e, answers| e.find_plans(&[], &TABLE, answers).map(|told| told.len())), Err(refused));
    assert_eq!(with_e(|e, _| e.find_plans(&QUERY, &TABLE, &mut []).map(|told| told.len())), Err(refused));
    assert_eq!(with_e(|e, _| e.find_plans(&[], &TABLE, &mut []).map(|told| told.len())), Err(refused));
}

#[test]
fn tables() {
    let refused = Refusal::TableShort;
    assert_eq!(with_e(|e, _| e.fill_table(&mut [])), Err(refused));
    assert_eq!(with_e(|e, _| e.test_table(&[])), Err(refused));
    assert_eq!(with_e(|e, _| e.look_up_estimate(&START, &[])), Err(refused));
    assert_eq!(with_e(|e, plan| e.find_plan(&START, LIMITS, &[], plan)), Err(refused));
    assert_eq!(with_e(|e, answers| e.find_plans(&QUERY, &[], answers).map(|told| told.len())), Err(refused));
}

#[test]
fn buffers() {
    let refused = Refusal::Buffer;
    assert_eq!(with_e(|e, _| e.relabel_block(&mut [])), Err(refused));
    assert_eq!(with_e(|e, _| e.apply_rule(2, &START, &mut [])), Err(refused));
    assert_eq!(with_e(|e, _| e.first_predecessor(2, &START, &mut [])), Err(refused));
    assert_eq!(with_e(|e, _| e.next_predecessor(2, &START, &GOAL, &mut [])), Err(refused));
    assert_eq!(with_e(|e, _| e.replay_run(&START, &[2, 0, 5], &mut [])), Err(refused));
    assert_eq!(with_e(|e, _| e.find_plan(&START, LIMITS, &TABLE, &mut [])), Err(refused));
}

/// An empty list ends where it starts.
#[test]
fn list() {
    let mut out = [0xEE; 4];
    let end = with_e(|e, _| e.replay_run(&START, &[], &mut out));
    assert_eq!(end.map(Replay::from), Ok(Replay::Done { steps: 0, cost: 0, goal: None }));
    assert_eq!(out, [1, 2, 0, 0xEE]);
    let end = with_e(|e, _| e.replay_run(&GOAL, &[], &mut out));
    assert_eq!(end.map(Replay::from), Ok(Replay::Done { steps: 0, cost: 0, goal: Some(0) }));
    assert_eq!(out, [2, 1, 0, 0xEE]);
}

/// With a step limit of 0 an empty buffer has room for every plan.
#[test]
fn plan_of_no_steps() {
    let limits = Limits { steps: 0, ..LIMITS };
    let find = |start: [u8; 3]| with_e(|e, _| e.find_plan(&start, limits, &TABLE, &mut [])).map(Search::from);
    assert_eq!(find(GOAL), Ok(Search::Found { steps: 0, cost: 0, visits: 1, goal: 0 }));
    assert_eq!(find(START), Ok(Search::NoPlan { visits: 1 }));
}
