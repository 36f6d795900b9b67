//! Texts of exercises, whole and damaged.

use super::damage::draw_contents;
use super::draft::Draft;
use crate::model::text::{encode_line, split_lines};
use crate::random::Random;

/// The lines of an exercise.
pub fn write_text(draft: &Draft) -> Vec<u8> {
    draft.frames().iter().flat_map(|frame| encode_line(frame)).collect()
}

/// The lines of an exercise, two times in five without damage.
pub fn draw_text(random: &mut Random, draft: &Draft) -> Vec<u8> {
    let kind = random.below(5);
    if kind < 2 {
        return write_text(draft);
    }
    let mut text = if kind == 2 { write_text(draft) } else { write_text(&draw_contents(random, draft)) };
    if kind == 2 || random.one_in(3) {
        for _ in 0..random.pick(&[1, 1, 2]) {
            damage_text(random, &mut text);
        }
    }
    text
}

/// Damages a text: its lines, its digits or its end.
pub fn damage_text(random: &mut Random, text: &mut Vec<u8>) {
    match random.below(14) {
        0..=1 => insert_character(random, text),
        2..=3 => replace_character(random, text),
        4 => drop(text.pop()),
        5 => text.truncate(random.below(text.len() + 1)),
        6 => damage_head_line(random, text),
        7 => move_pair(random, text),
        8 => swap_case(random, text),
        _ => damage_lines(random, text),
    }
}

/// Another character, or a digit too many.
fn insert_character(random: &mut Random, text: &mut Vec<u8>) {
    let place = random.below(text.len() + 1);
    text.insert(place, random.pick(b"0AaG \r\n\0\xFF"));
}

/// Another character in the place of a digit, often one that stands next to the digits or looks like one.
fn replace_character(random: &mut Random, text: &mut [u8]) {
    if !text.is_empty() {
        let place = random.below(text.len());
        text[place] = random.pick(b"/:@G`abcdefg \r\n\0\x0B\x80\xFF");
    }
}

fn swap_case(random: &mut Random, text: &mut [u8]) {
    let letters: Vec<usize> = (0..text.len()).filter(|&place| text[place].is_ascii_alphabetic()).collect();
    if !letters.is_empty() {
        text[random.pick(&letters)] ^= 0x20;
    }
}

/// A pair of digits more or fewer in the first line, or another digit there.
fn damage_head_line(random: &mut Random, text: &mut Vec<u8>) {
    match random.below(4) {
        0 => drop(text.splice(..0, *b"03")),
        1 => drop(text.drain(..text.len().min(2))),
        2 => drop(text.drain(..text.len().min(1))),
        _ => {
            let place = random.below(10);
            if let Some(digit) = text.get_mut(place) {
                *digit = random.pick(b"0123456789ABCDEF");
            }
        }
    }
}

/// The last pair of a line goes to the front of the next: the block would be the same.
fn move_pair(random: &mut Random, text: &mut [u8]) {
    let ends: Vec<usize> = (2..text.len()).filter(|&place| text[place] == b'\n' && place + 1 < text.len()).collect();
    if !ends.is_empty() {
        let end = random.pick(&ends);
        text.copy_within(end - 2..end, end - 1);
        text[end - 2] = b'\n';
    }
}

/// A line is left out, doubled, empty, joined with the next or too long.
fn damage_lines(random: &mut Random, text: &mut Vec<u8>) {
    let mut lines: Vec<Vec<u8>> = split_lines(text).into_iter().map(<[u8]>::to_vec).collect();
    if lines.is_empty() {
        return;
    }
    let place = random.below(lines.len());
    match random.below(6) {
        0 => drop(lines.remove(place)),
        1 => lines.insert(place, lines[place].clone()),
        2 => lines.insert(random.between(0, lines.len()), b"\n".to_vec()),
        3 => drop(lines[place].pop()),
        4 => lines[place].splice(..0, *b"00").for_each(drop),
        _ => lines.push(b"00\n".to_vec()),
    }
    *text = lines.concat();
}
