//! Searches from many starts of one exercise in one call, and prints what is told of each.
//!
//! Three slots hold the labels 0 (empty), 1 and 2. A label moves to an empty neighbour at cost 1, and from one end to
//! the other at cost 3; the goal is <2,1,0>. Of the starts one has no way to the goal, and one is no state.
//! `samples/many_starts.c` is the same program in C.

use mikjuqan::{Exercise, Limits, Refusal, Search, ANSWER_LENGTH, BLOCK_LENGTH, PLAN_LENGTH};

const TEXT: &[u8] = b"0303020601\n000101\n\
    011000FF0010FF\n010010FF1000FF\n01FF1000FF0010\n01FF0010FF1000\n0310FF0000FF10\n0300FF1010FF00\n\
    020100\n";

const STARTS: [[u8; 3]; 8] = [[0, 1, 2], [0, 2, 1], [1, 0, 2], [1, 2, 0], [2, 0, 1], [2, 1, 0], [1, 1, 0], [1, 2, 3]];

fn main() -> Result<(), Refusal> {
    let mut room = [0; BLOCK_LENGTH];
    let length = mikjuqan::read_exercise(TEXT, &mut room)?;
    let exercise = Exercise::new(&room[..length]);
    let mut table = [0; 8];
    exercise.fill_table(&mut table)?;

    let limits = Limits { steps: PLAN_LENGTH, cost: 100, visits: 1000 };
    let queries: Vec<u8> = STARTS.iter().flat_map(|start| start.iter().copied().chain(limits.to_bytes())).collect();
    let mut answers = [0; STARTS.len() * ANSWER_LENGTH];
    for (start, answer) in STARTS.iter().zip(exercise.find_plans(&queries, &table, &mut answers)?) {
        match answer {
            Ok((Search::Found(found), rules)) => {
                println!("{start:?}: rules {rules:?}, cost {}, {} visits", found.cost, found.visits);
            }
            Ok((Search::NoPlan { visits }, _)) => println!("{start:?}: no plan, {visits} visits"),
            Ok((Search::Spent { visits }, _)) => println!("{start:?}: spent, {visits} visits"),
            Ok((other, _)) => println!("{start:?}: {other:?}"),
            Err(refusal) => println!("{start:?}: refused with {}", refusal.number()),
        }
    }
    Ok(())
}
