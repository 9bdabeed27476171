//! One station's side of a compacted roll log: an independent second reading
//! of the paper "01-scope". Written for clarity, not for speed.
//!
//! A station answers its questions in one of two modes, chosen at opening:
//! * `Mode::Definitions` keeps every accepted operation and evaluates the
//!   definitions of the nine kinds over all of them;
//! * `Mode::Rows` answers from totals and rows alone.
//!
//! Both keep the rows in the same way, so the two modes may differ in nothing
//! that can be seen from outside.

pub mod definitions;
pub mod forms;
pub mod gen;
pub mod group;
pub mod kinds;
pub mod lines;
pub mod material;
pub mod other;
pub mod program;
pub mod refusal;
pub mod replay;
pub mod rng;
pub mod rows;
pub mod rules;
pub mod saved;
pub mod shrink;
pub mod station;
pub mod table;
pub mod tally;
pub mod vector;
