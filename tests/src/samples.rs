//! Exercises that are known by name: input E of the specification, and the samples of the repository.

use crate::model::text::{decode_line, read, split_lines};
use std::fs;
use std::path::{Path, PathBuf};

/// The lines of input E.
pub const E_TEXT: &[u8] = b"0303020601\n000101\n\
    011000FF0010FF\n010010FF1000FF\n01FF1000FF0010\n01FF0010FF1000\n0310FF0000FF10\n0300FF1010FF00\n\
    020100\n";

pub fn e_block() -> Vec<u8> {
    read(E_TEXT, usize::MAX).expect("input E is an exercise")
}

/// An input of `par`, and what is printed for it.
pub struct Sample {
    pub name: String,
    pub input: Vec<u8>,
    pub answers: Vec<u8>,
}

impl Sample {
    /// The block of the sample's exercise, and the start of its first query.
    pub fn block_and_start(&self) -> (Vec<u8>, Vec<u8>) {
        let (block, mut queries) = self.block_and_queries();
        let mut start = queries.swap_remove(0);
        start.truncate(block[0].into());
        (block, start)
    }

    /// The block of the sample's exercise, and the bytes of each query.
    pub fn block_and_queries(&self) -> (Vec<u8>, Vec<Vec<u8>>) {
        let lines = split_lines(&self.input);
        let read_front = |count: usize| Some((count, read(&lines[..count].concat(), usize::MAX).ok()?));
        let (count, block) = (1..lines.len()).find_map(read_front).expect("a sample has an exercise and a query");
        (block, decode_lines(&lines[count..]))
    }

    /// The bytes of each answer.
    pub fn answer_bytes(&self) -> Vec<Vec<u8>> {
        decode_lines(&split_lines(&self.answers))
    }
}

fn decode_lines(lines: &[&[u8]]) -> Vec<Vec<u8>> {
    lines.iter().map(|line| decode_line(line).expect("a sample's lines are lines of digits")).collect()
}

/// The directory of the repository.
pub fn repository() -> PathBuf {
    let tests = Path::new(env!("CARGO_MANIFEST_DIR"));
    tests.parent().expect("this package stands in the repository").to_path_buf()
}

/// All samples of the repository, of which there are at least four.
pub fn samples() -> Vec<Sample> {
    let directory = fs::read_dir(repository().join("samples")).expect("the repository has samples");
    let inputs = directory.map(|entry| entry.expect("samples can be read").path());
    let sample = |input: PathBuf| Sample {
        name: input.file_stem().expect("a sample has a name").to_string_lossy().into_owned(),
        answers: fs::read(input.with_extension("answers")).expect("a sample has answers"),
        input: fs::read(input).expect("a sample has an input"),
    };
    let texts = inputs.filter(|path| path.extension().is_some_and(|extension| extension == "txt"));
    let samples: Vec<Sample> = texts.map(sample).collect();
    assert!(samples.len() >= 4, "there are only {} samples", samples.len());
    samples
}
