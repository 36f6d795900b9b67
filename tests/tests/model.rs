//! The model against itself: what the specification says twice over must come out the same.

use outside::draw::arguments::draw_back;
use outside::draw::Drawn;
use outside::model::block::check;
use outside::model::exercise::Exercise;
use outside::model::predecessors::{build, walk};
use outside::model::relabel::relabel;
use outside::model::reversible::{is_one_to_one, is_reversible_by_form};
use outside::model::table::Graph;
use outside::random::Random;
use outside::repeat::{cases, repeat};

/// An exercise whose states can all be walked through.
fn draw_small(random: &mut Random) -> (Drawn, Exercise) {
    loop {
        let drawn = Drawn::new(random, 64);
        if let Some(exercise) = drawn.exercise() {
            if exercise.labels.checked_pow(exercise.positions as u32).is_some_and(|states| states <= 3125) {
                return (drawn, exercise);
            }
        }
    }
}

#[test]
fn block_of_an_exercise_is_the_block_it_came_from() {
    repeat("encode", cases() / 5, "accepted, 3, 4, 5, 6, 7", |random| {
        let drawn = Drawn::new(random, 16_384);
        let exercise = check(&drawn.block)?;
        assert_eq!(exercise.encode(), drawn.block);
        Ok(())
    });
}

#[test]
fn relabelled_exercises_are_accepted_and_stay_as_they_are() {
    repeat("relabel", cases() / 5, "accepted", |random| {
        let (_, exercise) = draw_small(random);
        let relabelled = relabel(&exercise);
        assert_eq!(check(&relabelled.encode()).as_ref(), Ok(&relabelled));
        assert_eq!(relabel(&relabelled), relabelled);
    });
}

#[test]
fn predecessors_by_walking_are_those_by_building() {
    repeat("predecessors", cases() / 5, "yes, no", |random| {
        let (drawn, exercise) = draw_small(random);
        let Some(number) = exercise.rules.len().checked_sub(1).map(|last| random.between(0, last)) else {
            return false;
        };
        let (state, earlier) = draw_back(random, &drawn, number);
        if !exercise.is_state(&state) || !exercise.is_state(&earlier) {
            return false;
        }
        let rule = &exercise.rules[number];
        let earlier = if random.one_in(2) { Some(earlier.as_slice()) } else { None };
        let walked = walk(&exercise, rule, &state, earlier);
        assert_eq!(walked, build(&exercise, rule, &state, earlier));
        walked.is_some()
    });
}

#[test]
fn reversible_by_form_is_one_to_one_for_two_labels_or_more() {
    repeat("reversible", cases() / 5, "yes, no", |random| {
        let (_, exercise) = draw_small(random);
        let mut all_reversible = true;
        for rule in exercise.rules.iter().filter(|_| exercise.labels >= 2) {
            assert_eq!(is_reversible_by_form(rule), is_one_to_one(&exercise, rule), "{rule:?}");
            all_reversible &= is_reversible_by_form(rule);
        }
        all_reversible
    });
}

#[test]
fn filled_tables_pass_and_higher_ones_do_not() {
    repeat("fill", cases() / 5, "yes, no", |random| {
        let (_, exercise) = draw_small(random);
        let graph = Graph::new(&exercise);
        let mut table = graph.least_costs();
        assert!(graph.passes(&table));
        assert!(graph.passes(&vec![0; table.len()]));
        // A filled table is the highest that passes: where there is a path, no entry can be raised by itself.
        let rank = random.below(table.len());
        let is_finite = table[rank] != mikjuqan::NO_PATH;
        table[rank] = table[rank].saturating_add(1);
        assert!(!is_finite || !graph.passes(&table));
        is_finite
    });
}
