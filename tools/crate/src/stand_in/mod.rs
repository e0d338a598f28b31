//! Stand-ins of our own for what the five files use of oxc_allocator, oxc_span, oxc_syntax, oxc_ast and of the crate's other files. Names follow
//! theirs; the bodies are ours. What lib.rs and lexer/mod.rs of the crate say is done so; what no file at hand says is in guess.rs.
pub mod allocator;
pub mod ast;
pub mod context;
pub mod diagnostics;
pub mod errors;
pub mod function;
pub mod guess;
pub mod identifier;
pub mod lexer;
pub mod list;
pub mod modifiers;
pub mod parser;
pub mod span;
pub mod state;
pub mod syntax;
