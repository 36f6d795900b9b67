//! Random inputs, whole and damaged.

pub mod arguments;
pub mod damage;
pub mod draft;
pub mod limits;
pub mod maps;
pub mod queries;
pub mod session;
pub mod sizes;
pub mod tables;
pub mod text;

use crate::model::block::check;
use crate::model::exercise::{Exercise, State};
use crate::model::replay::replay;
use crate::random::Random;
use draft::Draft;

/// A random exercise, and a block made from it that may be damaged. Arguments are drawn for the exercise as it was.
pub struct Drawn {
    pub draft: Draft,
    pub block: Vec<u8>,
}

impl Drawn {
    /// Draws an exercise with at most so many abstract states, now and then one with sizes at the limits or beyond.
    pub fn new(random: &mut Random, most_entries: usize) -> Drawn {
        let sizes = if random.one_in(32) { sizes::draw_at_limits(random) } else { sizes::draw(random, most_entries) };
        let draft = Draft::new(random, sizes);
        let block = damage::draw_block(random, &draft);
        Drawn { draft, block }
    }

    /// Draws an exercise and a start from which, one time in two, the goals are some steps away.
    pub fn with_start(random: &mut Random, most_entries: usize) -> (Drawn, State) {
        let (drawn, start, _) = Drawn::with_run(random, most_entries);
        (drawn, start)
    }

    /// The same, and rules that mostly apply one after the other from the start on, to a goal where it is some steps
    /// away.
    pub fn with_run(random: &mut Random, most_entries: usize) -> (Drawn, State, Vec<u8>) {
        if random.one_in(2) {
            let drawn = Drawn::new(random, most_entries);
            let start = arguments::draw_whole_state(random, &drawn.draft);
            let list = arguments::draw_list(random, &drawn, &start);
            return (drawn, start, list);
        }
        let sizes = sizes::draw_for_moves(random, most_entries);
        let mut draft = Draft::with_moves(random, sizes);
        let start = arguments::draw_start(random, &draft);
        let exercise = check(&draft.block()).expect("the sizes are within the limits");
        let mut list = Vec::new();
        for _ in 0..random.pick(&[1, 1, 2]) {
            let length = random.between(1, 48);
            list = arguments::draw_run(random, &exercise, &start, length);
            let goal = random.below(sizes.goals);
            draft.set_goal(random, goal, &replay(&exercise, &start, &list).1);
        }
        let block = damage::draw_block(random, &draft);
        (Drawn { draft, block }, start, list)
    }

    /// The exercise that was drawn, if its sizes are within the limits.
    pub fn exercise(&self) -> Option<Exercise> {
        check(&self.draft.block()).ok()
    }
}
