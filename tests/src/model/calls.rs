//! The fourteen calls: what each refuses, in the order of the numbers, what it answers, and what it writes.
//!
//! They take the block first, then the further maps where there are some, then what the methods of the wrapper take. A
//! refused call returns before anything is written.

use super::answers::{Replay, Search};
use super::block::check;
use super::exercise::{Exercise, Rule, State};
use super::maps::Mapped;
use super::matching::{apply, met_goal};
use super::predecessors;
use super::records::{answer_record, check_records};
use super::relabel::relabel;
use super::replay::replay;
use super::reversible::is_reversible_by_form;
use super::search::find;
use super::text::read;
use mikjuqan::{Limits, Refusal};

pub fn read_exercise(text: &[u8], out: &mut [u8]) -> Result<usize, Refusal> {
    let block = read(text, out.len())?;
    Ok(write(&block, out))
}

pub fn check_block(block: &[u8]) -> Result<(), Refusal> {
    check(block).map(|_| ())
}

pub fn relabel_block(block: &[u8], out: &mut [u8]) -> Result<usize, Refusal> {
    let relabelled = relabel(&check(block)?).encode();
    check_room(out.len(), relabelled.len())?;
    Ok(write(&relabelled, out))
}

pub fn apply_rule(block: &[u8], rule: usize, state: &[u8], out: &mut [u8]) -> Result<bool, Refusal> {
    let exercise = check(block)?;
    check_state(&exercise, state)?;
    let rule = check_rule(&exercise, rule)?;
    check_room(out.len(), exercise.positions)?;
    Ok(write_if_any(apply(rule, state), out))
}

pub fn test_goals(block: &[u8], state: &[u8]) -> Result<Option<u8>, Refusal> {
    let exercise = check(block)?;
    check_state(&exercise, state)?;
    Ok(met_goal(&exercise, state))
}

pub fn first_predecessor(block: &[u8], rule: usize, state: &[u8], out: &mut [u8]) -> Result<bool, Refusal> {
    let exercise = check(block)?;
    check_state(&exercise, state)?;
    let rule = check_rule(&exercise, rule)?;
    check_room(out.len(), exercise.positions)?;
    Ok(write_if_any(predecessors::next(&exercise, rule, state, None), out))
}

pub fn next_predecessor(
    block: &[u8],
    rule: usize,
    state: &[u8],
    earlier: &[u8],
    out: &mut [u8],
) -> Result<bool, Refusal> {
    let exercise = check(block)?;
    check_state(&exercise, state)?;
    check_state(&exercise, earlier)?;
    let rule = check_rule(&exercise, rule)?;
    check_room(out.len(), exercise.positions)?;
    Ok(write_if_any(predecessors::next(&exercise, rule, state, Some(earlier)), out))
}

pub fn test_reversible(block: &[u8], rule: usize) -> Result<bool, Refusal> {
    let exercise = check(block)?;
    let rule = check_rule(&exercise, rule)?;
    Ok(is_reversible_by_form(rule))
}

pub fn replay_run(block: &[u8], start: &[u8], list: &[u8], out: &mut [u8]) -> Result<Replay, Refusal> {
    let exercise = check(block)?;
    check_state(&exercise, start)?;
    for &number in list {
        check_rule(&exercise, number.into())?;
    }
    if list.len() > 4096 {
        return Err(Refusal::Limit);
    }
    check_room(out.len(), exercise.positions)?;
    let (answer, state) = replay(&exercise, start, list);
    write(&state, out);
    Ok(answer)
}

pub fn fill_table(block: &[u8], maps: &[u8], table: &mut [u32]) -> Result<(), Refusal> {
    let mapped = Mapped::new(check(block)?, maps)?;
    check_table(&mapped, table)?;
    write(&mapped.fill(), table);
    Ok(())
}

pub fn test_table(block: &[u8], maps: &[u8], table: &[u32]) -> Result<bool, Refusal> {
    let mapped = Mapped::new(check(block)?, maps)?;
    check_table(&mapped, table)?;
    Ok(mapped.passes(table))
}

pub fn look_up_estimate(block: &[u8], maps: &[u8], state: &[u8], table: &[u32]) -> Result<Option<u32>, Refusal> {
    let mapped = Mapped::new(check(block)?, maps)?;
    check_state(mapped.own(), state)?;
    check_table(&mapped, table)?;
    Ok(mapped.estimate(table, state))
}

pub fn find_plan(
    block: &[u8],
    maps: &[u8],
    start: &[u8],
    limits: Limits,
    table: &[u32],
    plan: &mut [u8],
) -> Result<Search, Refusal> {
    let mapped = Mapped::new(check(block)?, maps)?;
    check_state(mapped.own(), start)?;
    if limits.steps > 64 {
        return Err(Refusal::Limit);
    }
    check_room(plan.len(), limits.steps)?;
    check_passing_table(&mapped, table)?;
    let (answer, rules) = find(mapped.own(), start, limits, &|state| mapped.estimate(table, state));
    write(&rules, plan);
    Ok(answer)
}

/// The number of bytes written.
pub fn find_plans(
    block: &[u8],
    maps: &[u8],
    queries: &[u8],
    table: &[u32],
    answers: &mut [u8],
) -> Result<usize, Refusal> {
    let mapped = Mapped::new(check(block)?, maps)?;
    let records = check_records(mapped.own(), queries, answers.len())?;
    check_passing_table(&mapped, table)?;
    let estimate = |state: &[u8]| mapped.estimate(table, state);
    let told: Vec<u8> = records.into_iter().flat_map(|query| answer_record(mapped.own(), query, &estimate)).collect();
    Ok(write(&told, answers))
}

fn check_state(exercise: &Exercise, state: &[u8]) -> Result<(), Refusal> {
    exercise.is_state(state).then_some(()).ok_or(Refusal::State)
}

fn check_rule(exercise: &Exercise, number: usize) -> Result<&Rule, Refusal> {
    exercise.rules.get(number).ok_or(Refusal::Rule)
}

fn check_room(room: usize, needed: usize) -> Result<(), Refusal> {
    (room >= needed).then_some(()).ok_or(Refusal::Buffer)
}

fn check_table(mapped: &Mapped, table: &[u32]) -> Result<(), Refusal> {
    (table.len() >= mapped.entries()).then_some(()).ok_or(Refusal::TableShort)
}

fn check_passing_table(mapped: &Mapped, table: &[u32]) -> Result<(), Refusal> {
    check_table(mapped, table)?;
    mapped.passes(table).then_some(()).ok_or(Refusal::TableFails)
}

/// Writes at the front of a buffer, and tells how much.
fn write<T: Copy>(contents: &[T], buffer: &mut [T]) -> usize {
    buffer[..contents.len()].copy_from_slice(contents);
    contents.len()
}

/// Writes a state if there is one, and tells whether there is.
fn write_if_any(state: Option<State>, out: &mut [u8]) -> bool {
    state.is_some_and(|state| write(&state, out) > 0)
}
