//! The specification once more, written to be plainly right rather than fast.
//!
//! Each module has one of its sections. [`calls`] has the fourteen calls as a user sees them: what is refused, what is
//! answered and what is written; [`answers`] has what they answer, and how an answer of the library is compared with
//! that. [`session`] has what `par` prints, and [`records`] has queries and answers as bytes. [`exhaustive`] looks for
//! plans without a table.

pub mod answers;
pub mod block;
pub mod calls;
pub mod exercise;
pub mod exhaustive;
pub mod maps;
pub mod matching;
pub mod predecessors;
pub mod rank;
pub mod records;
pub mod relabel;
pub mod replay;
pub mod reversible;
pub mod search;
pub mod session;
pub mod table;
pub mod term;
pub mod text;
