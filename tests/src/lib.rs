//! Checks the library `libmikjuqan.a` and the program `par` from outside their proofs.
//!
//! [`model`] has the specification a second time. [`draw`] makes exercises, arguments, tables and texts at random,
//! whole and damaged. [`compare`] hands the same input to the library and to the model, and compares the answer and
//! all lent memory; [`repeat`] does so many times over and counts what was met. [`program`] runs `par`, and [`stack`]
//! measures how deep a call goes. [`vectors`] has worked exercises with what must come of them.

#![deny(unsafe_code)]

pub mod compare;
pub mod draw;
pub mod lent;
pub mod model;
#[allow(unsafe_code)]
pub mod pages;
pub mod program;
pub mod random;
pub mod repeat;
pub mod samples;
#[allow(unsafe_code)]
pub mod stack;
pub mod vectors;
