//! Damage to an exercise: each kind by itself is refused with a number from 3 to 7, and several may come together.

use super::draft::{is_variable, Draft};
use crate::random::Random;

/// The block of an exercise, two times in three without damage.
pub fn draw_block(random: &mut Random, draft: &Draft) -> Vec<u8> {
    if random.below(3) > 0 {
        return draft.block();
    }
    let mut block = draw_contents(random, draft).block();
    if random.one_in(4) {
        damage_length(random, &mut block);
    }
    if random.one_in(6) {
        damage_head(random, &mut block);
    }
    block
}

/// The exercise with up to three faults in its map, rules and goals.
pub fn draw_contents(random: &mut Random, draft: &Draft) -> Draft {
    let mut damaged = draft.clone();
    for _ in 0..random.pick(&[0, 1, 1, 1, 2, 3]) {
        damage_contents(random, &mut damaged);
    }
    damaged
}

fn damage_contents(random: &mut Random, draft: &mut Draft) {
    match random.below(8) {
        0..=1 => damage_map(random, draft),
        2..=3 => damage_term(random, draft),
        4..=6 => unbind_variable(random, draft),
        _ => change_byte(random, draft),
    }
}

/// A map byte that is no abstract label.
fn damage_map(random: &mut Random, draft: &mut Draft) {
    if !draft.map.is_empty() {
        let position = random.below(draft.map.len());
        let least = draft.sizes.abstract_labels as u8;
        draft.map[position] = random.pick(&[least, least.saturating_add(1), 0x0F, 0x10, 0x80, 0xFF]).max(least);
    }
}

/// In a rule or a goal a byte that is no term, or a constant that is no label.
fn damage_term(random: &mut Random, draft: &mut Draft) {
    let least = draft.sizes.labels as u8;
    let faults = [least, least, 0x0F, 0x20, 0x21, 0x7F, 0x80, 0xF0, 0xFE];
    let fault = random.pick(&faults);
    // With sixteen labels 10 hexadecimal is a variable, and 0F a label: no fault, or another one.
    if random.one_in(3) || draft.rules.is_empty() {
        set_random(random, &mut draft.goals, 0, fault);
    } else {
        set_random(random, &mut draft.rules, 1, fault);
    }
}

/// Sets a byte of one of the frames, not one of the first few.
fn set_random(random: &mut Random, frames: &mut [Vec<u8>], first: usize, byte: u8) {
    if frames.is_empty() {
        return;
    }
    let frame = &mut frames[random.below(frames.len())];
    if frame.len() > first {
        let place = random.between(first, frame.len() - 1);
        frame[place] = byte;
    }
}

/// A right variable that does not stand on the left of its rule.
fn unbind_variable(random: &mut Random, draft: &mut Draft) {
    if draft.rules.is_empty() || draft.sizes.positions == 0 {
        return;
    }
    let number = random.below(draft.rules.len());
    let rule = &mut draft.rules[number];
    let position = random.below(draft.sizes.positions);
    let variable = random.between(0x10, 0x1F) as u8;
    if random.one_in(2) {
        rule[1 + draft.sizes.positions + position] = variable;
    } else if is_variable(rule[1 + position]) {
        // Another variable on the left: the one that stood there is unbound if it stood there alone.
        rule[1 + position] = variable;
    }
}

/// Any byte of a rule, its cost included, becomes any other.
fn change_byte(random: &mut Random, draft: &mut Draft) {
    let byte = random.byte();
    set_random(random, &mut draft.rules, 0, byte);
}

fn damage_length(random: &mut Random, block: &mut Vec<u8>) {
    match random.below(4) {
        0 => block.truncate(block.len() - random.between(1, 3).min(block.len())),
        1 => block.truncate(random.below(block.len() + 1)),
        2 => block.truncate(random.between(0, 6)),
        _ => {
            for _ in 0..random.between(1, 3) {
                block.push(random.pick(&[0, 0x10, 0xFF]));
            }
        }
    }
}

/// A number of the head changes, and what follows it does not.
fn damage_head(random: &mut Random, block: &mut [u8]) {
    let place = random.below(5);
    if let Some(number) = block.get_mut(place) {
        let (more, less) = (number.wrapping_add(1), number.wrapping_sub(1));
        *number = random.pick(&[0, more, less, 17, 65, 9, 255, 0x80]);
    }
}
