//! Query records, back to back: whole and damaged, and none or too many of them.

use super::arguments::{damage_sometimes, draw_whole_state};
use super::draft::Draft;
use super::limits::draw_limits;
use super::Drawn;
use crate::random::Random;
use mikjuqan::{Limits, LIMITS_LENGTH};

/// Queries of which most are from the start. About one in eight times they are no records, too many or not whole.
pub fn draw_queries(random: &mut Random, drawn: &Drawn, maps: &[u8], start: &[u8], table: &[u32]) -> Vec<u8> {
    let draft = &drawn.draft;
    let queries = match random.below(48) {
        0..=1 => Vec::new(),
        2..=4 => draw_many(random, draft),
        _ => {
            let mut queries = Vec::new();
            for _ in 0..random.between(1, 4) {
                let state = if random.one_in(4) { draw_whole_state(random, draft) } else { start.to_vec() };
                let state = damage_labels(random, draft, state);
                let limits = draw_limits(random, &drawn.block, maps, &state, table);
                queries.extend(draw_query(&state, limits));
            }
            queries
        }
    };
    if random.one_in(24) {
        return damage_length(random, draft, queries);
    }
    queries
}

/// The number of whole records.
pub fn count_records(draft: &Draft, queries: &[u8]) -> usize {
    queries.len() / (draft.sizes.positions + LIMITS_LENGTH)
}

/// About as many records as are allowed, or many more. All are answered soon.
fn draw_many(random: &mut Random, draft: &Draft) -> Vec<u8> {
    let count = random.pick(&[255, 256, 256, 256, 257, 257, 258, 512, 513]);
    let mut queries = Vec::new();
    for _ in 0..count {
        let state = draw_whole_state(random, draft);
        let state = damage_labels(random, draft, state);
        let steps = random.pick(&[0, 1, 2, 64, 65]);
        let limits = Limits { steps, cost: random.below(4) as u32, visits: random.below(4) as u32 };
        queries.extend(draw_query(&state, limits));
    }
    queries
}

fn draw_query(state: &[u8], limits: Limits) -> Vec<u8> {
    [state, &limits.to_bytes()].concat()
}

/// A state that is sometimes damaged, but as long as it was.
fn damage_labels(random: &mut Random, draft: &Draft, state: Vec<u8>) -> Vec<u8> {
    let mut damaged = damage_sometimes(random, draft, state);
    damaged.resize(draft.sizes.positions, draft.sizes.labels as u8);
    damaged
}

/// Some bytes more or fewer, mostly one.
fn damage_length(random: &mut Random, draft: &Draft, mut queries: Vec<u8>) -> Vec<u8> {
    match random.below(4) {
        0 => drop(queries.pop()),
        1 => queries.push(random.pick(&[0, 1, 0xFF])),
        2 => queries.truncate(random.below(queries.len() + 1)),
        _ => queries.resize(queries.len() + random.between(1, draft.sizes.positions + LIMITS_LENGTH), 0),
    }
    queries
}
