//! Each call through the library and through the model: the answer and all lent memory must be the same.
//!
//! Every function gives back the answer, and what the written buffer holds afterwards.

use crate::lent::Lent;
use crate::model::answers::{Replay, Search};
use crate::model::calls;
use crate::random::Random;
use mikjuqan::{Exercise, Limits, Refusal, ANSWER_LENGTH, LIMITS_LENGTH, PLAN_LENGTH};

pub fn read_exercise(random: &mut Random, text: &[u8], room: usize) -> (Result<usize, Refusal>, Vec<u8>) {
    let text = Lent::new("text", random, text);
    let mut out = Lent::with_length("out", random, room);
    let mut expected_out = out.to_vec();
    let expected = calls::read_exercise(&text, &mut expected_out);
    let answer = mikjuqan::read_exercise(&text, &mut out);
    assert_eq!(answer, expected);
    text.assert_kept();
    out.assert_holds(&expected_out);
    (answer, expected_out)
}

pub fn check_block(random: &mut Random, block: &[u8]) -> Result<(), Refusal> {
    let block = Lent::new("block", random, block);
    let expected = calls::check_block(&block);
    let answer = Exercise::new(&block).check_block();
    assert_eq!(answer, expected);
    block.assert_kept();
    answer
}

pub fn relabel_block(random: &mut Random, block: &[u8], room: usize) -> (Result<usize, Refusal>, Vec<u8>) {
    let block = Lent::new("block", random, block);
    let mut out = Lent::with_length("out", random, room);
    let mut expected_out = out.to_vec();
    let expected = calls::relabel_block(&block, &mut expected_out);
    let answer = Exercise::new(&block).relabel_block(&mut out);
    assert_eq!(answer, expected);
    block.assert_kept();
    out.assert_holds(&expected_out);
    (answer, expected_out)
}

pub fn apply_rule(
    random: &mut Random,
    block: &[u8],
    rule: usize,
    state: &[u8],
    room: usize,
) -> (Result<bool, Refusal>, Vec<u8>) {
    let block = Lent::new("block", random, block);
    let state = Lent::new("state", random, state);
    let mut out = Lent::with_length("out", random, room);
    let mut expected_out = out.to_vec();
    let expected = calls::apply_rule(&block, rule, &state, &mut expected_out);
    let answer = Exercise::new(&block).apply_rule(rule, &state, &mut out);
    assert_eq!(answer, expected, "rule {rule}");
    block.assert_kept();
    state.assert_kept();
    out.assert_holds(&expected_out);
    (answer, expected_out)
}

pub fn test_goals(random: &mut Random, block: &[u8], state: &[u8]) -> Result<Option<u8>, Refusal> {
    let block = Lent::new("block", random, block);
    let state = Lent::new("state", random, state);
    let expected = calls::test_goals(&block, &state);
    let answer = Exercise::new(&block).test_goals(&state);
    assert_eq!(answer, expected);
    block.assert_kept();
    state.assert_kept();
    answer
}

pub fn first_predecessor(
    random: &mut Random,
    block: &[u8],
    rule: usize,
    state: &[u8],
    room: usize,
) -> (Result<bool, Refusal>, Vec<u8>) {
    let block = Lent::new("block", random, block);
    let state = Lent::new("state", random, state);
    let mut out = Lent::with_length("out", random, room);
    let mut expected_out = out.to_vec();
    let expected = calls::first_predecessor(&block, rule, &state, &mut expected_out);
    let answer = Exercise::new(&block).first_predecessor(rule, &state, &mut out);
    assert_eq!(answer, expected, "rule {rule}");
    block.assert_kept();
    state.assert_kept();
    out.assert_holds(&expected_out);
    (answer, expected_out)
}

pub fn next_predecessor(
    random: &mut Random,
    block: &[u8],
    rule: usize,
    state: &[u8],
    earlier: &[u8],
    room: usize,
) -> (Result<bool, Refusal>, Vec<u8>) {
    let block = Lent::new("block", random, block);
    let state = Lent::new("state", random, state);
    let earlier = Lent::new("earlier", random, earlier);
    let mut out = Lent::with_length("out", random, room);
    let mut expected_out = out.to_vec();
    let expected = calls::next_predecessor(&block, rule, &state, &earlier, &mut expected_out);
    let answer = Exercise::new(&block).next_predecessor(rule, &state, &earlier, &mut out);
    assert_eq!(answer, expected, "rule {rule}");
    block.assert_kept();
    state.assert_kept();
    earlier.assert_kept();
    out.assert_holds(&expected_out);
    (answer, expected_out)
}

pub fn test_reversible(random: &mut Random, block: &[u8], rule: usize) -> Result<bool, Refusal> {
    let block = Lent::new("block", random, block);
    let expected = calls::test_reversible(&block, rule);
    let answer = Exercise::new(&block).test_reversible(rule);
    assert_eq!(answer, expected, "rule {rule}");
    block.assert_kept();
    answer
}

pub fn replay_run(
    random: &mut Random,
    block: &[u8],
    start: &[u8],
    list: &[u8],
    room: usize,
) -> (Result<Replay, Refusal>, Vec<u8>) {
    let block = Lent::new("block", random, block);
    let start = Lent::new("start", random, start);
    let list = Lent::new("list", random, list);
    let mut out = Lent::with_length("out", random, room);
    let mut expected_out = out.to_vec();
    let expected = calls::replay_run(&block, &start, &list, &mut expected_out);
    let answer = Exercise::new(&block).replay_run(&start, &list, &mut out).map(Replay::from);
    assert_eq!(answer, expected);
    block.assert_kept();
    start.assert_kept();
    list.assert_kept();
    out.assert_holds(&expected_out);
    (answer, expected_out)
}

pub fn fill_table(random: &mut Random, block: &[u8], maps: &[u8], room: usize) -> (Result<(), Refusal>, Vec<u32>) {
    let block = Lent::new("block", random, block);
    let maps = Lent::new("maps", random, maps);
    let mut table = Lent::with_length("table", random, room);
    let mut expected_table = table.to_vec();
    let expected = calls::fill_table(&block, &maps, &mut expected_table);
    let answer = Exercise::new(&block).with_maps(&maps).fill_table(&mut table);
    assert_eq!(answer, expected);
    block.assert_kept();
    maps.assert_kept();
    table.assert_holds(&expected_table);
    (answer, expected_table)
}

pub fn test_table(random: &mut Random, block: &[u8], maps: &[u8], table: &[u32]) -> Result<bool, Refusal> {
    let block = Lent::new("block", random, block);
    let maps = Lent::new("maps", random, maps);
    let table = Lent::new("table", random, table);
    let expected = calls::test_table(&block, &maps, &table);
    let answer = Exercise::new(&block).with_maps(&maps).test_table(&table);
    assert_eq!(answer, expected);
    block.assert_kept();
    maps.assert_kept();
    table.assert_kept();
    answer
}

/// What is lent to a call that is asked something by a table, beside its buffer.
struct Asked {
    block: Lent<u8>,
    maps: Lent<u8>,
    /// The state or the queries.
    subject: Lent<u8>,
    table: Lent<u32>,
}

impl Asked {
    fn new(random: &mut Random, block: &[u8], maps: &[u8], subject: (&'static str, &[u8]), table: &[u32]) -> Asked {
        Asked {
            block: Lent::new("block", random, block),
            maps: Lent::new("maps", random, maps),
            subject: Lent::new(subject.0, random, subject.1),
            table: Lent::new("table", random, table),
        }
    }

    fn exercise(&self) -> Exercise<'_> {
        Exercise::new(&self.block).with_maps(&self.maps)
    }

    fn assert_kept(&self) {
        self.block.assert_kept();
        self.maps.assert_kept();
        self.subject.assert_kept();
        self.table.assert_kept();
    }
}

pub fn look_up_estimate(
    random: &mut Random,
    block: &[u8],
    maps: &[u8],
    state: &[u8],
    table: &[u32],
) -> Result<Option<u32>, Refusal> {
    let asked = Asked::new(random, block, maps, ("state", state), table);
    let expected = calls::look_up_estimate(block, maps, state, table);
    let answer = asked.exercise().look_up_estimate(&asked.subject, &asked.table);
    assert_eq!(answer, expected);
    asked.assert_kept();
    answer
}

pub fn find_plan(
    random: &mut Random,
    block: &[u8],
    maps: &[u8],
    start: &[u8],
    limits: Limits,
    table: &[u32],
    room: usize,
) -> (Result<Search, Refusal>, Vec<u8>) {
    let asked = Asked::new(random, block, maps, ("start", start), table);
    let mut plan = Lent::with_length("plan", random, room);
    let mut expected_plan = plan.to_vec();
    let expected = calls::find_plan(block, maps, start, limits, table, &mut expected_plan);
    let answer = asked.exercise().find_plan(&asked.subject, limits, &asked.table, &mut plan).map(Search::from);
    assert_eq!(answer, expected, "{limits:?}");
    asked.assert_kept();
    plan.assert_holds(&expected_plan);
    (answer, expected_plan)
}

/// What is told of one query, and the plan.
pub type Told = Result<(Search, Vec<u8>), Refusal>;

/// Besides, the library must tell of each query what it tells in a call of its own.
pub fn find_plans(
    random: &mut Random,
    block: &[u8],
    maps: &[u8],
    queries: &[u8],
    table: &[u32],
    room: usize,
) -> (Result<Vec<Told>, Refusal>, Vec<u8>) {
    let asked = Asked::new(random, block, maps, ("queries", queries), table);
    let mut answers = Lent::with_length("answers", random, room);
    let mut expected_answers = answers.to_vec();
    let expected = calls::find_plans(block, maps, queries, table, &mut expected_answers);
    let told = asked.exercise().find_plans(&asked.subject, &asked.table, &mut answers);
    let told = told.map(|told| told.map(|answer| answer.map(|(found, plan)| (found.into(), plan.to_vec()))));
    let told = told.map(Iterator::collect::<Vec<Told>>);
    assert_eq!(told.as_ref().map(|told| told.len() * ANSWER_LENGTH).map_err(|&refusal| refusal), expected);
    asked.assert_kept();
    answers.assert_holds(&expected_answers);
    if let Ok(told) = &told {
        assert_eq!(*told, find_one_by_one(asked.exercise(), queries, table));
    }
    (told, expected_answers)
}

/// What single calls tell of queries that are whole records.
fn find_one_by_one(exercise: Exercise, queries: &[u8], table: &[u32]) -> Vec<Told> {
    let positions = usize::from(exercise.block()[0]);
    let find = |query: &[u8]| {
        let (start, limits) = query.split_at(positions);
        let [steps, cost @ .., v0, v1, v2, v3] = <[u8; LIMITS_LENGTH]>::try_from(limits).expect("a whole record");
        let visits = u32::from_be_bytes([v0, v1, v2, v3]);
        let limits = Limits { steps: steps.into(), cost: u32::from_be_bytes(cost), visits };
        let mut plan = [0; PLAN_LENGTH];
        let answer = exercise.find_plan(start, limits, table, &mut plan).map(Search::from)?;
        Ok((answer, plan[..answer.steps()].to_vec()))
    };
    queries.chunks(positions + LIMITS_LENGTH).map(find).collect()
}
