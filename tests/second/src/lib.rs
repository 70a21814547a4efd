//! A second runner for CoLiS sheets, written from the rules alone, with a generator of inputs and
//! a comparison with the library.

pub mod answer;
mod callgrind;
pub mod compare;
pub mod context;
mod expression;
pub mod generate;
pub mod hex;
pub mod interpret;
mod library;
pub mod memory;
mod outcomes;
pub mod profile;
pub mod raising;
pub mod random;
mod result;
pub mod run;
pub mod sheet;
pub mod tally;
pub mod tree;
mod utility;
pub mod vectors;
pub mod watch;
pub mod workers;
pub mod writer;
