//! Queries and answers as bytes: those of a line of `par`, and those of a record in a call.

use super::answers::Search;
use super::exercise::Exercise;
use super::search::{find, Estimate};
use mikjuqan::{Limits, Refusal};

/// How many bytes an answer record has.
const RECORD_LENGTH: usize = 75;

const MOST_RECORDS: usize = 256;

/// How many bytes a query of an exercise has.
pub fn query_length(exercise: &Exercise) -> usize {
    exercise.positions + 9
}

/// The records that query bytes are, if there are neither none nor too many, all are whole, and the answers fit.
pub fn check_records<'a>(exercise: &Exercise, queries: &'a [u8], room: usize) -> Result<Vec<&'a [u8]>, Refusal> {
    let records: Vec<&[u8]> = queries.chunks(query_length(exercise)).collect();
    let are_whole = records.iter().all(|record| record.len() == query_length(exercise));
    let is_number = (1..=MOST_RECORDS).contains(&records.len());
    (are_whole && is_number && records.len() * RECORD_LENGTH <= room).then_some(records).ok_or(Refusal::Records)
}

/// The answer record for a query: the bytes of the printed line, and zeros behind them.
pub fn answer_record(exercise: &Exercise, query: &[u8], estimate: &Estimate) -> Vec<u8> {
    let mut bytes = answer(exercise, query, estimate);
    bytes.resize(RECORD_LENGTH, 0);
    bytes
}

/// The bytes of the line that is printed for a query, which has the right length.
pub fn answer(exercise: &Exercise, query: &[u8], estimate: &Estimate) -> Vec<u8> {
    match read_query(exercise, query) {
        Ok((start, limits)) => {
            let (answer, plan) = find(exercise, start, limits, estimate);
            told(answer, &plan)
        }
        Err(refusal) => refused(refusal),
    }
}

fn read_query<'a>(exercise: &Exercise, query: &'a [u8]) -> Result<(&'a [u8], Limits), Refusal> {
    let (start, numbers) = query.split_at(exercise.positions);
    if !exercise.is_state(start) {
        return Err(Refusal::State);
    }
    let steps = usize::from(numbers[0]);
    if steps > 64 {
        return Err(Refusal::Limit);
    }
    let number = |from: usize| numbers[from..from + 4].iter().fold(0, |number, &byte| 256 * number + u32::from(byte));
    Ok((start, Limits { steps, cost: number(1), visits: number(5) }))
}

/// The bytes of an answer. The goal stands in them only where there is a plan.
fn told(answer: Search, plan: &[u8]) -> Vec<u8> {
    let (mut bytes, cost, visits) = match answer {
        Search::Found { cost, visits, goal, .. } => (vec![0, goal], cost, visits),
        Search::NoPlan { visits } => (vec![1], 0, visits),
        Search::Spent { visits } => (vec![2], 0, visits),
    };
    bytes.push(plan.len() as u8);
    bytes.extend(cost.to_be_bytes());
    bytes.extend(visits.to_be_bytes());
    bytes.extend(plan);
    bytes
}

pub fn refused(refusal: Refusal) -> Vec<u8> {
    vec![0xFF, refusal.number() as u8]
}
