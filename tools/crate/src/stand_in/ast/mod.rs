//! Stands for oxc_ast::ast. Each type has the name of theirs, and the fields that the five files or the rows of a sheet need.
mod build;
mod dummy;
mod nodes;
mod sums;

pub use crate::operator::*;
pub use dummy::Dummy;
pub use nodes::*;
pub use sums::*;
