//! Text: lines of digits, and the reader.

use super::block::{check, Head};
use mikjuqan::Refusal;

/// The bytes of a line, which ends with a line feed.
pub fn decode_line(line: &[u8]) -> Result<Vec<u8>, Refusal> {
    let digits = line.strip_suffix(b"\n").ok_or(Refusal::Character)?;
    digits.chunks(2).map(decode_pair).collect()
}

fn decode_pair(pair: &[u8]) -> Result<u8, Refusal> {
    match pair {
        &[high, low] => Ok(16 * decode_digit(high)? + decode_digit(low)?),
        _ => Err(Refusal::Character),
    }
}

fn decode_digit(digit: u8) -> Result<u8, Refusal> {
    match digit {
        b'0'..=b'9' => Ok(digit - b'0'),
        b'A'..=b'F' => Ok(digit - b'A' + 10),
        _ => Err(Refusal::Character),
    }
}

/// A line of digits for some bytes.
pub fn encode_line(bytes: &[u8]) -> Vec<u8> {
    let digit = |value: u8| b"0123456789ABCDEF"[usize::from(value)];
    let mut line: Vec<u8> = bytes.iter().flat_map(|&byte| [digit(byte / 16), digit(byte % 16)]).collect();
    line.push(b'\n');
    line
}

/// A text's lines, each with its line feed; the last may have none.
pub fn split_lines(text: &[u8]) -> Vec<&[u8]> {
    text.split_inclusive(|&character| character == b'\n').collect()
}

/// The head that the first line holds.
pub fn read_head(frame: Option<&Vec<u8>>) -> Result<Head, Refusal> {
    let frame = frame.filter(|frame| frame.len() == 5).ok_or(Refusal::Line)?;
    Head::read(frame)
}

/// The block that a text holds, if it is no longer than `room`.
pub fn read(text: &[u8], room: usize) -> Result<Vec<u8>, Refusal> {
    let frames = split_lines(text).into_iter().map(decode_line).collect::<Result<Vec<_>, _>>()?;
    let head = read_head(frames.first())?;
    let lengths: Vec<usize> = frames.iter().map(Vec::len).collect();
    if lengths != head.frame_lengths() {
        return Err(Refusal::Line);
    }
    let block = frames.concat();
    if block.len() > room {
        return Err(Refusal::Buffer);
    }
    check(&block)?;
    Ok(block)
}
