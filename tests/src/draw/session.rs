//! Inputs of `par`: an exercise and query lines, whole and damaged.

use super::arguments::{damage_sometimes, draw_whole_state};
use super::text::{damage_text, draw_text, write_text};
use super::Drawn;
use crate::model::text::encode_line;
use crate::random::Random;

/// An input with a few queries, some from a start from which a goal is some steps away.
pub fn draw_input(random: &mut Random) -> Vec<u8> {
    let (drawn, start) = Drawn::with_start(random, 64);
    let mut input = if random.below(3) > 0 { write_text(&drawn.draft) } else { draw_text(random, &drawn.draft) };
    for _ in 0..random.between(0, 6) {
        let state = if random.one_in(2) { start.clone() } else { draw_whole_state(random, &drawn.draft) };
        let state = damage_sometimes(random, &drawn.draft, state);
        input.extend(draw_query(random, state));
    }
    match random.below(32) {
        0..=1 => drop(input.pop()),
        2..=6 => damage_text(random, &mut input),
        _ => {}
    }
    input
}

/// A query line, about one in four times damaged. Its visits are few, whatever the damage is.
fn draw_query(random: &mut Random, state: Vec<u8>) -> Vec<u8> {
    let mut query = state;
    query.push(if random.one_in(12) { random.pick(&[64, 65, 66, 255]) } else { random.between(0, 12) as u8 });
    let few = random.below(10) as u32;
    let cost = random.pick(&[u32::MAX, 0x0100_0000, 0x0001_0000, 0x0100, 100, few, few]);
    let visits = random.pick(&[0x0400, 0x0100, 100, 30, few]);
    query.extend(cost.to_be_bytes());
    query.extend(visits.to_be_bytes());
    let mut line = encode_line(&query);
    if random.one_in(6) {
        damage_query(random, &mut line);
    }
    line
}

fn damage_query(random: &mut Random, line: &mut Vec<u8>) {
    match random.below(7) {
        0 => line.insert(0, b' '),
        1 => line.insert(line.len() - 1, b'\r'),
        2 => line.insert(random.below(line.len()), random.pick(b"\0aAg0\n")),
        3 => drop(line.remove(0)),
        4 => drop(line.drain(..2)),
        5 => drop(line.splice(..0, *b"00")),
        _ => *line = b"\n".to_vec(),
    }
}
