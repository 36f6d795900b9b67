//! Further maps: the same exercise under each of them, with tables that stand behind one another in one slice.

use super::block::MOST_ABSTRACT_STATES;
use super::exercise::Exercise;
use super::table;
use mikjuqan::Refusal;

const MOST_FURTHER_MAPS: usize = 3;

/// An exercise under its own map, then under each further one. They differ in map and number of abstract labels alone.
#[derive(Debug)]
pub struct Mapped {
    exercises: Vec<Exercise>,
}

impl Mapped {
    /// Takes further maps of an accepted exercise: for each the number of its abstract labels, and a byte for each
    /// label.
    pub fn new(exercise: Exercise, maps: &[u8]) -> Result<Mapped, Refusal> {
        let records: Vec<&[u8]> = maps.chunks(1 + exercise.labels).collect();
        let is_whole = |record: &&[u8]| record.len() == 1 + exercise.labels;
        if records.len() > MOST_FURTHER_MAPS || !records.iter().all(is_whole) {
            return Err(Refusal::Maps);
        }
        let is_within = |record: &&[u8]| {
            (1..=exercise.labels).contains(&record[0].into()) && record[1..].iter().all(|&byte| byte < record[0])
        };
        if !records.iter().all(is_within) {
            return Err(Refusal::MapRange);
        }
        let under = |record: &&[u8]| Exercise {
            abstract_labels: record[0].into(),
            map: record[1..].to_vec(),
            ..exercise.clone()
        };
        let further: Vec<Exercise> = records.iter().map(under).collect();
        let mapped = Mapped { exercises: [vec![exercise], further].concat() };
        if mapped.count_abstract_states() > MOST_ABSTRACT_STATES {
            return Err(Refusal::MapRange);
        }
        Ok(mapped)
    }

    /// Sixteen to the power sixteen does not fit in 64 bits.
    fn count_abstract_states(&self) -> u128 {
        let count = |exercise: &Exercise| (exercise.abstract_labels as u128).pow(exercise.positions as u32);
        self.exercises.iter().map(count).sum()
    }

    /// The exercise under its own map.
    pub fn own(&self) -> &Exercise {
        &self.exercises[0]
    }

    /// The exercise under each map, its own first.
    pub fn exercises(&self) -> &[Exercise] {
        &self.exercises
    }

    /// The number of entries of all tables together.
    pub fn entries(&self) -> usize {
        self.count_abstract_states() as usize
    }

    /// Each exercise with its own part of a slice that is long enough.
    fn parts<'a>(&'a self, tables: &'a [u32]) -> impl Iterator<Item = (&'a Exercise, &'a [u32])> {
        let mut rest = tables;
        self.exercises.iter().map(move |exercise| {
            let (part, behind) = rest.split_at(exercise.abstract_states());
            rest = behind;
            (exercise, part)
        })
    }

    /// The filled tables.
    pub fn fill(&self) -> Vec<u32> {
        self.exercises.iter().flat_map(table::fill).collect()
    }

    /// Whether each table passes the lower-bound test under its own map.
    pub fn passes(&self, tables: &[u32]) -> bool {
        self.parts(tables).all(|(exercise, part)| table::passes(exercise, part))
    }

    /// The estimate of a state: the largest of its entries, or nothing where one of them is the mark.
    pub fn estimate(&self, tables: &[u32], state: &[u8]) -> Option<u32> {
        let entries = self.parts(tables).map(|(exercise, part)| table::estimate(exercise, part, state));
        let entries = entries.collect::<Option<Vec<u32>>>()?;
        entries.into_iter().max()
    }
}
