//! The program `par` as a function: what it prints for an input.

use super::block::check;
use super::exercise::Exercise;
use super::records::{answer, query_length, refused};
use super::table::{estimate, fill};
use super::text::{decode_line, encode_line, read, read_head, split_lines};
use mikjuqan::Refusal;

const LONGEST_INPUT: usize = 32_768;

pub fn print(input: &[u8]) -> Vec<u8> {
    if input.len() > LONGEST_INPUT {
        return refusal_line(Refusal::Line);
    }
    let lines = split_lines(input);
    let (text, queries) = lines.split_at(count_exercise_lines(&lines));
    match read(&text.concat(), usize::MAX).and_then(|block| check(&block)) {
        Ok(exercise) => print_answers(&exercise, queries),
        Err(refusal) => refusal_line(refusal),
    }
}

/// How many lines the reader receives: those that the head asks for, or the first alone if the head fails.
fn count_exercise_lines(lines: &[&[u8]]) -> usize {
    let head = lines.first().map(|line| decode_line(line)).transpose();
    let asked = match head.and_then(|frame| read_head(frame.as_ref())) {
        Ok(head) => head.frame_lengths().len(),
        Err(_) => 1,
    };
    asked.min(lines.len())
}

fn print_answers(exercise: &Exercise, queries: &[&[u8]]) -> Vec<u8> {
    let table = fill(exercise);
    let answer_line = |line: &&[u8]| match read_query(exercise, line) {
        Ok(query) => encode_line(&answer(exercise, &query, &|state| estimate(exercise, &table, state))),
        Err(refusal) => refusal_line(refusal),
    };
    queries.iter().flat_map(answer_line).collect()
}

fn read_query(exercise: &Exercise, line: &[u8]) -> Result<Vec<u8>, Refusal> {
    let query = decode_line(line)?;
    (query.len() == query_length(exercise)).then_some(query).ok_or(Refusal::Line)
}

fn refusal_line(refusal: Refusal) -> Vec<u8> {
    encode_line(&refused(refusal))
}
