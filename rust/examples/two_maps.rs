//! Fills tables and searches with one map and with two, and prints what each search takes.
//!
//! Seven pancakes lie in a pile, and rule k turns over the first k + 2 of them, at cost 1. The exercise's own map tells
//! the last three from the others, the further map odd ones from even ones: a table with two abstract labels has 128
//! entries. `samples/two_maps.c` is the same program in C.

use mikjuqan::{Exercise, Limits, Refusal, Search, BLOCK_LENGTH, PLAN_LENGTH};

const TEXT: &[u8] = b"0707020601\n00000000010101\n\
    011011FFFFFFFFFF1110FFFFFFFFFF\n01101112FFFFFFFF121110FFFFFFFF\n\
    0110111213FFFFFF13121110FFFFFF\n011011121314FFFF1413121110FFFF\n\
    01101112131415FF151413121110FF\n011011121314151616151413121110\n\
    00010203040506\n";

/// K, and the abstract label of each label.
const FURTHER_MAP: [u8; 8] = [2, 0, 1, 0, 1, 0, 1, 0];

const START: [u8; 7] = [4, 6, 2, 5, 1, 3, 0];

fn search(name: &str, exercise: Exercise, tables: &mut [u32]) -> Result<(), Refusal> {
    exercise.fill_table(tables)?;
    let mut plan = [0; PLAN_LENGTH];
    let limits = Limits { steps: PLAN_LENGTH, cost: 100, visits: u32::MAX };
    let Search::Found(found) = exercise.find_plan(&START, limits, tables, &mut plan)? else {
        panic!("there is a plan");
    };
    let rules: Vec<String> = plan[..found.steps].iter().map(u8::to_string).collect();
    let (entries, rules) = (tables.len(), rules.join(" "));
    println!("{name}, {entries} entries: rules {rules}, cost {}, {} visits", found.cost, found.visits);
    Ok(())
}

fn main() -> Result<(), Refusal> {
    let mut room = [0; BLOCK_LENGTH];
    let length = mikjuqan::read_exercise(TEXT, &mut room)?;
    let exercise = Exercise::new(&room[..length]);
    let mut tables = [0; 256];
    search("one map", exercise, &mut tables[..128])?;
    search("two maps", exercise.with_maps(&FURTHER_MAP), &mut tables)
}
