//! What is handed over beside the block: states, rule numbers, lists, buffers.

use super::draft::{is_variable, Draft, DASH};
use super::Drawn;
use crate::model::exercise::Exercise;
use crate::model::matching::apply;
use crate::random::Random;

/// A random state, or a damaged one.
pub fn draw_state(random: &mut Random, draft: &Draft) -> Vec<u8> {
    let state = draw_whole_state(random, draft);
    damage_sometimes(random, draft, state)
}

/// A state that may well match one of the exercise's patterns.
pub fn draw_whole_state(random: &mut Random, draft: &Draft) -> Vec<u8> {
    let dashes = vec![DASH; draft.sizes.positions];
    let pattern = match random.below(6) {
        0..=2 if !draft.rules.is_empty() => draft.left(random.below(draft.rules.len())),
        3 if !draft.rules.is_empty() => draft.right(random.below(draft.rules.len())),
        4 if !draft.goals.is_empty() => &draft.goals[random.below(draft.goals.len())],
        _ => &dashes,
    };
    draw_instance(random, draft, pattern)
}

/// A random state that meets one of the goals, or a damaged one.
pub fn draw_goal_state(random: &mut Random, draft: &Draft) -> Vec<u8> {
    let number = random.below(draft.goals.len().max(1));
    let state = match draft.goals.get(number) {
        Some(goal) => draw_instance(random, draft, goal),
        None => draw_whole_state(random, draft),
    };
    damage_sometimes(random, draft, state)
}

/// A random state with label 0 at one position at least.
pub fn draw_start(random: &mut Random, draft: &Draft) -> Vec<u8> {
    let mut state = draw_whole_state(random, draft);
    let position = random.below(state.len());
    state[position] = 0;
    state
}

/// A random state that matches a pattern.
fn draw_instance(random: &mut Random, draft: &Draft, pattern: &[u8]) -> Vec<u8> {
    let labels = draft.sizes.labels.max(1);
    let bindings: [u8; 16] = std::array::from_fn(|_| random.below(labels) as u8);
    let mut label = |&term: &u8| match term {
        DASH => random.below(labels) as u8,
        term if is_variable(term) => bindings[usize::from(term - 0x10)],
        constant => constant,
    };
    pattern.iter().map(&mut label).collect()
}

/// A state that is damaged about one in twelve times.
pub fn damage_sometimes(random: &mut Random, draft: &Draft, mut state: Vec<u8>) -> Vec<u8> {
    if random.one_in(12) {
        damage_state(random, draft.sizes.labels, &mut state);
    }
    state
}

fn damage_state(random: &mut Random, labels: usize, state: &mut Vec<u8>) {
    match random.below(5) {
        0 => drop(state.pop()),
        1 => state.push(0),
        2 => state.truncate(random.below(state.len() + 1)),
        _ if state.is_empty() => {}
        _ => {
            let position = random.below(state.len());
            state[position] = random.pick(&[labels as u8, labels as u8, 0x10, 0x80, 0xFF]);
        }
    }
}

/// The number of a rule, about one in twelve times of a rule that is not there. Numbers that are right in their low 8
/// or 32 bits alone are among these.
pub fn draw_rule_number(random: &mut Random, draft: &Draft) -> usize {
    let rules = draft.sizes.rules;
    if rules > 0 && !random.one_in(12) {
        return random.below(rules);
    }
    random.pick(&[rules, rules, rules + 1, 64, 255, 256, 1 << 32, (1 << 32) + 1, 1 << 63, usize::MAX])
}

/// The length of a buffer of which so much is needed; about one in twelve is too short.
pub fn draw_room(random: &mut Random, needed: usize) -> usize {
    match random.below(24) {
        0 => needed.saturating_sub(1),
        1 => random.below(needed + 1),
        2..=9 => needed + random.between(1, 5),
        _ => needed,
    }
}

/// A state, and one to look for predecessors behind. Where the rule is there, the state is often an image of it.
pub fn draw_back(random: &mut Random, drawn: &Drawn, rule: usize) -> (Vec<u8>, Vec<u8>) {
    let draft = &drawn.draft;
    let mut state = draw_whole_state(random, draft);
    let mut earlier = draw_whole_state(random, draft);
    if let Some(rule) = drawn.exercise().and_then(|exercise| exercise.rules.get(rule).cloned()) {
        if random.below(4) > 0 {
            let old = draw_instance(random, draft, &rule.left.iter().map(|term| term.encode()).collect::<Vec<u8>>());
            state = apply(&rule, &old).expect("a rule applies in an instance of its left side");
            if random.below(4) > 0 {
                earlier = old;
                step_rank(random, draft.sizes.labels as u8, &mut earlier);
            }
        }
    }
    if random.one_in(8) {
        earlier.fill(random.pick(&[0, draft.sizes.labels.saturating_sub(1) as u8]));
    }
    (damage_sometimes(random, draft, state), damage_sometimes(random, draft, earlier))
}

/// Goes to the state before or behind by rank, or stays.
fn step_rank(random: &mut Random, labels: u8, state: &mut [u8]) {
    let is_forward = match random.below(3) {
        0 => return,
        chosen => chosen == 1,
    };
    let (end, begin) = if is_forward { (labels - 1, 0) } else { (0, labels - 1) };
    for label in state.iter_mut().rev() {
        if *label != end {
            *label = if is_forward { *label + 1 } else { *label - 1 };
            return;
        }
        *label = begin;
    }
}

/// Rules that mostly apply one after the other, now and then about as many as are allowed in a list.
pub fn draw_list(random: &mut Random, drawn: &Drawn, start: &[u8]) -> Vec<u8> {
    let length = match random.below(32) {
        0 => random.between(4094, 4099),
        1 => random.between(100, 300),
        _ => random.between(0, 12),
    };
    match drawn.exercise() {
        Some(exercise) if !exercise.rules.is_empty() => draw_run(random, &exercise, start, length),
        _ => vec![0; length.min(drawn.draft.sizes.rules)],
    }
}

/// Changes a list to replay: sometimes any rule stands behind it or within it, sometimes one that is not there.
pub fn change_list(random: &mut Random, rules: usize, list: &mut Vec<u8>) {
    if random.one_in(6) {
        list.push(random.below(rules.max(1)) as u8);
    }
    if random.one_in(12) {
        let place = random.below(list.len() + 1);
        list.insert(place, random.pick(&[rules.min(255) as u8, rules.min(255) as u8, 64, 128, 255]));
    }
    if random.one_in(8) && !list.is_empty() {
        let place = random.below(list.len());
        list[place] = random.below(rules.max(1)) as u8;
    }
}

/// Rules that apply one after the other, or any where none does.
pub fn draw_run(random: &mut Random, exercise: &Exercise, start: &[u8], length: usize) -> Vec<u8> {
    let mut state = start.to_vec();
    let mut next = || {
        let tried = (0..8).map(|_| random.below(exercise.rules.len())).find_map(|number| {
            let next = apply(&exercise.rules[number], &state)?;
            Some((number, next))
        });
        match tried {
            Some((number, next)) => {
                state = next;
                number as u8
            }
            None => random.below(exercise.rules.len()) as u8,
        }
    };
    (0..length).map(|_| next()).collect()
}
