//! The comparison: the archive (or the twin) on one side, the crate's five files on the other.
pub mod classes;
pub mod conversions;
pub mod lookahead;
pub mod operators;
pub mod readings;
pub mod rows;
pub mod runs;
pub mod sides;
pub mod tally;
pub mod text;
