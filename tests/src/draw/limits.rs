//! Limits of a search, at and next to what an earlier search has told.

use crate::model::answers::Search;
use crate::model::calls::find_plan;
use crate::random::Random;
use mikjuqan::{Limits, PLAN_LENGTH};

const ANY: u32 = u32::MAX;

/// Limits for a search, which need not be one that is accepted.
pub fn draw_limits(random: &mut Random, block: &[u8], maps: &[u8], start: &[u8], table: &[u32]) -> Limits {
    if random.one_in(16) {
        let steps = random.pick(&[65, 65, 66, 128, 255, 256, (1 << 32) + 3, usize::MAX]);
        return Limits { steps, cost: ANY, visits: 100 };
    }
    let steps = if random.one_in(8) { random.between(13, PLAN_LENGTH) } else { random.between(0, 12) };
    // Most searches are stopped early, so that many can be tried.
    let visits = if random.one_in(64) { 10_000 } else { random.pick(&[40, 200, 1000]) };
    let limits = Limits { steps, cost: ANY, visits };
    match find_plan(block, maps, start, limits, table, &mut [0; PLAN_LENGTH]) {
        Ok(told) => draw_next_to(random, limits, told, table),
        Err(_) => limits,
    }
}

/// Other limits beside what a search with all costs allowed has told. A visit allowance beyond that search's is drawn
/// only where it is known that few visits are made.
fn draw_next_to(random: &mut Random, limits: Limits, told: Search, table: &[u32]) -> Limits {
    match told {
        Search::Found { steps, cost, visits, .. } if random.one_in(2) => Limits {
            steps: random.pick(&[steps, steps + 1, steps.saturating_sub(1)]).min(PLAN_LENGTH),
            cost: random.pick(&[ANY, cost]),
            visits: draw_visits(random, limits.visits, visits),
        },
        Search::Found { cost, visits, .. } => {
            Limits { cost: draw_cost(random, cost), visits: draw_visits(random, ANY, visits), ..limits }
        }
        Search::NoPlan { visits } => {
            // With large entries thresholds lie at or next to an entry.
            let entry = random.pick(table);
            Limits { cost: draw_cost(random, entry), visits: draw_visits(random, ANY, visits), ..limits }
        }
        Search::Spent { visits } => {
            Limits { cost: draw_cost(random, ANY), visits: draw_visits(random, visits, visits / 2), ..limits }
        }
    }
}

fn draw_cost(random: &mut Random, told: u32) -> u32 {
    let few = random.below(8) as u32;
    random.pick(&[ANY, ANY, told, told, told.saturating_add(1), told.saturating_sub(1), told.saturating_add(few), few])
}

fn draw_visits(random: &mut Random, most: u32, told: u32) -> u32 {
    let few = random.below(10) as u32;
    random.pick(&[most, most, told, told, told + 1, told.saturating_sub(1), few])
}
