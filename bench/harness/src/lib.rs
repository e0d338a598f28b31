//! What the programs share: the sheets of each family, the readers, and tables.
pub mod families;
pub mod painted;
pub mod readers;
pub mod shape;
pub mod table;
