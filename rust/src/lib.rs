//! Safe calls of Mikjuqan, a planner for exercises written as PSVN rules.
//!
//! An exercise is a block of bytes: a head of five (positions, labels, abstract labels, rules, goals), a map that
//! gives each label its abstract label, rules with their costs, and goals. [`read_exercise`] is handed text, and
//! writes the block; every other call is a method of [`Exercise`], which holds the block. All of them check what they
//! are handed, and refuse what is wrong. A refused call writes nowhere; an accepted call writes at the front of its
//! buffer, and what stands behind that keeps its contents. Nothing is allocated, and nothing is kept between calls.
//!
//! Here an exercise is read from text, its table is filled, and a cheapest plan is found:
//!
//! ```
//! use mikjuqan::{Exercise, Limits, Search};
//!
//! let text = b"0303020601\n000101\n\
//!     011000FF0010FF\n010010FF1000FF\n01FF1000FF0010\n\
//!     01FF0010FF1000\n0310FF0000FF10\n0300FF1010FF00\n\
//!     020100\n";
//! let mut room = [0; mikjuqan::BLOCK_LENGTH];
//! let length = mikjuqan::read_exercise(text, &mut room)?;
//! let exercise = Exercise::new(&room[..length]);
//!
//! // Two abstract labels at three positions make eight abstract states.
//! let mut table = [0; 8];
//! exercise.fill_table(&mut table)?;
//!
//! let mut plan = [0; 8];
//! let limits = Limits { steps: 8, cost: 100, visits: 100 };
//! let Search::Found(found) = exercise.find_plan(&[1, 2, 0], limits, &table, &mut plan)? else {
//!     panic!("there is a plan");
//! };
//! assert_eq!((found.steps, found.cost, found.visits, found.goal), (3, 5, 10, 0));
//! assert_eq!(plan[..found.steps], [2, 0, 5]);
//! # Ok::<(), mikjuqan::Refusal>(())
//! ```
//!
//! Further maps may save visits: [`Exercise::with_maps`] lends up to three beside the block's own. Each has a table, and
//! the largest of a state's entries is its estimate. The plan is the same:
//!
//! ```
//! # use mikjuqan::{Exercise, Limits, Search};
//! # let text = b"0303020601\n000101\n\
//! #     011000FF0010FF\n010010FF1000FF\n01FF1000FF0010\n\
//! #     01FF0010FF1000\n0310FF0000FF10\n0300FF1010FF00\n\
//! #     020100\n";
//! # let mut room = [0; mikjuqan::BLOCK_LENGTH];
//! # let length = mikjuqan::read_exercise(text, &mut room)?;
//! // A further map with three abstract labels, one for each label, whose table has 27 entries.
//! let exercise = Exercise::new(&room[..length]).with_maps(&[3, 0, 1, 2]);
//! let mut tables = [0; 8 + 27];
//! exercise.fill_table(&mut tables)?;
//!
//! let mut plan = [0; 8];
//! let limits = Limits { steps: 8, cost: 100, visits: 100 };
//! let Search::Found(found) = exercise.find_plan(&[1, 2, 0], limits, &tables, &mut plan)? else {
//!     panic!("there is a plan");
//! };
//! assert_eq!((found.steps, found.cost, found.visits), (3, 5, 4));
//! assert_eq!(plan[..found.steps], [2, 0, 5]);
//! # Ok::<(), mikjuqan::Refusal>(())
//! ```
//!
//! Many starts of one exercise are answered in one call, [`Exercise::find_plans`]: its queries are bytes, and so are
//! its answers, which [`Answers`] reads.
//!
//! Buffers of [`POSITIONS`], [`BLOCK_LENGTH`], [`MAPS_LENGTH`], [`TABLE_LENGTH`] and [`PLAN_LENGTH`] elements are long
//! enough for every exercise. Buffers are measured before the answer is known: room for a state is asked for even where
//! none is written.

#![no_std]
#![deny(unsafe_code, missing_docs)]

mod answers;
mod exercise;
#[allow(unsafe_code)]
mod ffi;
mod records;
mod refusal;

pub use answers::{Limits, Plan, Replay, RunEnd, Search};
pub use exercise::Exercise;
pub use records::Answers;
pub use refusal::Refusal;

/// The most labels that a state has.
pub const POSITIONS: usize = 16;

/// The most bytes that a block has, also one that is relabelled or read from text.
pub const BLOCK_LENGTH: usize = 2261;

/// The most bytes that further maps have.
pub const MAPS_LENGTH: usize = 51;

/// The most entries that a table needs, and the most that all tables have together.
pub const TABLE_LENGTH: usize = 16384;

/// The most rules that a plan has, and the largest step limit.
pub const PLAN_LENGTH: usize = 64;

/// The most rule numbers that are replayed.
pub const LIST_LENGTH: usize = 4096;

/// The most query records that one call takes.
pub const QUERIES: usize = 256;

/// The bytes of a query record behind its start.
pub const LIMITS_LENGTH: usize = 9;

/// The bytes of an answer record.
pub const ANSWER_LENGTH: usize = 75;

/// The entry of a table that says 'no path'.
pub const NO_PATH: u32 = u32::MAX;

/// Reads an exercise from its lines of hexadecimal digits, writes the block, and tells its length.
///
/// Refused with 1, 2 (head line), 3, 2 (other lines), 11, 5, 6, 7, in this order.
///
/// ```
/// use mikjuqan::{read_exercise, Refusal};
///
/// // One position, two labels, one abstract label; a rule from label 0 to label 1 at cost 4; goal 1.
/// let mut out = [0xFF; 12];
/// assert_eq!(read_exercise(b"0102010101\n0000\n040001\n01\n", &mut out), Ok(11));
/// assert_eq!(out, [1, 2, 1, 1, 1, 0, 0, 4, 0, 1, 1, 0xFF]);
///
/// // Without its line feed the last line does not end.
/// let unended = read_exercise(b"0102010101\n0000\n040001\n01", &mut out);
/// assert_eq!(unended, Err(Refusal::Character));
/// ```
pub fn read_exercise(text: &[u8], out: &mut [u8]) -> Result<usize, Refusal> {
    answers::length(ffi::read_exercise(text, out))
}
