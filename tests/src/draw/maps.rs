//! Further maps, whole and damaged: each kind of damage by itself is refused with 14 or with 15.

use super::draft::Draft;
use super::sizes::{draw_abstract_labels, Sizes};
use super::Drawn;
use crate::model::maps::Mapped;
use crate::random::Random;

/// Random further maps, and bytes made from them that may be damaged. Tables are drawn for the maps as they were.
pub struct DrawnMaps {
    pub whole: Vec<u8>,
    pub bytes: Vec<u8>,
}

impl DrawnMaps {
    /// Draws so many maps for an exercise, each with at most so many abstract states. About one in six times they are
    /// damaged.
    pub fn new(random: &mut Random, draft: &Draft, count: usize, most_entries: usize) -> DrawnMaps {
        let records: Vec<Vec<u8>> = (0..count).map(|_| draw_map(random, &draft.sizes, most_entries)).collect();
        let whole = records.concat();
        let bytes = match random.below(12) {
            0 => damage_length(random, draft, whole.clone()),
            1 => damage_range(random, draft, records),
            _ => whole.clone(),
        };
        DrawnMaps { whole, bytes }
    }

    /// The exercise that was drawn under all maps that were, if all are within the limits.
    pub fn mapped(&self, drawn: &Drawn) -> Option<Mapped> {
        Mapped::new(drawn.exercise()?, &self.whole).ok()
    }
}

/// A map with at most so many abstract states: the number of its abstract labels, and one of them for each label.
pub fn draw_map(random: &mut Random, sizes: &Sizes, most_entries: usize) -> Vec<u8> {
    let abstract_labels = draw_abstract_labels(random, sizes, most_entries);
    draw_record(random, sizes.labels, abstract_labels)
}

fn draw_record(random: &mut Random, labels: usize, abstract_labels: usize) -> Vec<u8> {
    let label = |_| random.below(abstract_labels.max(1)) as u8;
    [abstract_labels as u8].into_iter().chain((0..labels).map(label)).collect()
}

/// Some bytes more or fewer than whole maps have, or more than three maps.
fn damage_length(random: &mut Random, draft: &Draft, mut maps: Vec<u8>) -> Vec<u8> {
    match random.below(6) {
        0 => drop(maps.pop()),
        1 => maps.push(random.pick(&[0, 1, 0xFF])),
        2 => maps.truncate(random.below(maps.len() + 1)),
        3 => maps.resize(maps.len() + random.between(1, 2 * draft.sizes.labels + 1), 0),
        _ => {
            for _ in 0..random.pick(&[1, 3, 4, 4, 5, 256]) {
                maps.extend(draw_map(random, &draft.sizes, 64));
            }
        }
    }
    maps
}

/// In one of the maps, or in one that is added, a number of abstract labels or a map byte that is out of range, or so
/// many abstract labels that there are more than 16,384 abstract states.
fn damage_range(random: &mut Random, draft: &Draft, mut records: Vec<Vec<u8>>) -> Vec<u8> {
    if records.is_empty() {
        records.push(draw_map(random, &draft.sizes, 64));
    }
    let number = random.below(records.len());
    let (labels, record) = (draft.sizes.labels as u8, &mut records[number]);
    match random.below(6) {
        0 => record[0] = random.pick(&[0, labels.wrapping_add(1), labels.wrapping_add(1), 16, 17, 0x80, 0xFF]),
        1..=2 if record.len() > 1 => {
            let (least, place) = (record[0], random.between(1, record.len() - 1));
            let own = draft.sizes.abstract_labels as u8;
            let byte = random.pick(&[least, least, least.wrapping_add(1), own.saturating_sub(1), 0x0F, 0x10, 0xFF]);
            record[place] = byte.max(least);
        }
        _ => *record = draw_record(random, draft.sizes.labels, draft.sizes.labels.max(1)),
    }
    records.concat()
}
