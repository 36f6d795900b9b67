//! Tables: filled, zero, lowered, with large numbers, and altered so that they fail the test by just one entry. With
//! further maps there is one behind the other.

use super::maps::DrawnMaps;
use super::Drawn;
use crate::model::maps::Mapped;
use crate::model::table::{Edge, Graph};
use crate::random::Random;
use mikjuqan::NO_PATH;

/// Tables for the exercise and the maps that were drawn; one in twelve is too short, and some have entries behind those
/// that count.
pub fn draw_table(random: &mut Random, drawn: &Drawn, maps: &DrawnMaps) -> Vec<u32> {
    let mut table = match maps.mapped(drawn) {
        Some(mapped) => draw_tables(random, &mapped),
        None => vec![0; random.below(20)],
    };
    match random.below(24) {
        0 => drop(table.pop()),
        1 => table.truncate(random.below(table.len() + 1)),
        2..=6 => {
            for _ in 0..random.between(1, 5) {
                table.push(draw_entry(random));
            }
        }
        _ => {}
    }
    table
}

/// A table for each map, of which at most one fails the test.
fn draw_tables(random: &mut Random, mapped: &Mapped) -> Vec<u32> {
    let failing = random.below(mapped.exercises().len());
    let mut tables = Vec::new();
    for (number, exercise) in mapped.exercises().iter().enumerate() {
        let graph = Graph::new(exercise);
        let draw = if number == failing { draw_entries } else { draw_passing_entries };
        tables.extend(draw(random, &graph));
    }
    tables
}

fn draw_entries(random: &mut Random, graph: &Graph) -> Vec<u32> {
    let mut table = match random.below(8) {
        0 => (0..graph.goals.len()).map(|_| draw_entry(random)).collect(),
        _ => draw_passing_entries(random, graph),
    };
    if random.one_in(3) {
        alter(random, graph, &mut table);
    }
    table
}

/// A table that passes the test: filled, zero, or otherwise below the filled one, or any.
pub fn draw_passing_entries(random: &mut Random, graph: &Graph) -> Vec<u32> {
    match random.below(7) {
        0..=2 => graph.least_costs(),
        3 => vec![0; graph.goals.len()],
        4 => {
            let divisor = random.between(2, 4) as u32;
            let divide = |entry: u32| if entry == NO_PATH { entry } else { entry / divisor };
            graph.least_costs().into_iter().map(divide).collect()
        }
        5 => {
            let large = random.pick(&[NO_PATH - 1, NO_PATH - 1, NO_PATH - 255, 1 << 31, 20_000]);
            graph.least_costs().into_iter().map(|entry| entry.min(large)).collect()
        }
        _ => draw_passing(random, graph),
    }
}

/// Any entries, lowered along the rules until the table passes.
fn draw_passing(random: &mut Random, graph: &Graph) -> Vec<u32> {
    let entry = |&goal: &bool| if goal { 0 } else { draw_entry(random) };
    let mut table: Vec<u32> = graph.goals.iter().map(entry).collect();
    graph.lower(&mut table);
    table
}

fn draw_entry(random: &mut Random) -> u32 {
    match random.below(8) {
        0 => random.bits() as u32,
        1 => NO_PATH - random.below(300) as u32,
        2 => 20_000,
        3..=5 => NO_PATH,
        _ => random.below(8) as u32,
    }
}

/// Alters an entry: often so that it is just within what the test asks, or just beyond.
fn alter(random: &mut Random, graph: &Graph, table: &mut [u32]) {
    if graph.edges.is_empty() || random.one_in(4) {
        let rank = random.below(table.len());
        table[rank] = random.pick(&[1, table[rank].saturating_add(1), NO_PATH]);
        return;
    }
    let edge = random.pick(&graph.edges);
    let bound = table[edge.to].saturating_add(edge.cost.into());
    match random.below(4) {
        0 => table[edge.from] = bound,
        1 => table[edge.from] = bound.saturating_add(1),
        2 => table[edge.from] = NO_PATH,
        _ => unmark(random, graph, table),
    }
}

/// Where a rule leads from a marked entry to a marked entry, gives that one the highest number there is. Any cost on
/// top of it reaches the mark's number, but the mark is no number, and the table fails.
fn unmark(random: &mut Random, graph: &Graph, table: &mut [u32]) {
    let is_marked = |edge: &&Edge| edge.from != edge.to && table[edge.from] == NO_PATH && table[edge.to] == NO_PATH;
    let marked: Vec<&Edge> = graph.edges.iter().filter(is_marked).collect();
    if !marked.is_empty() {
        table[random.pick(&marked).to] = NO_PATH - 1;
    }
}
