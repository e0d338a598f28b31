//! Stands for crate::state, and for the checkpoints of cursor.rs.
use super::ast::AssignmentExpression;
use super::diagnostics::Diagnostic;
use super::lexer::Token;
use super::span::Span;
use std::collections::{HashMap, HashSet};

/// ParserState: the three collections that the five files use, each by a token's start.
#[derive(Default)]
pub struct ParserState<'a> {
    pub not_parenthesized_arrow: HashSet<u32>,
    pub trailing_commas: HashMap<u32, Span>,
    pub cover_initialized_name: HashMap<u32, AssignmentExpression<'a>>,
}

/// FatalError: the first error that cannot be recovered from, and how many came before it.
pub struct FatalError {
    pub error: Diagnostic,
    pub errors_len: usize,
}

/// ParserCheckpoint: the lexer's position, the tokens, the number of errors, and the fatal error, which is put away until the rewind.
pub struct Checkpoint {
    pub position: usize,
    pub token: Token,
    pub previous_end: u32,
    pub errors_len: usize,
    pub fatal_error: Option<FatalError>,
    /// The keys of two collections, for the guess that a rewind restores them.
    pub keys: Option<(HashMap<u32, Span>, Vec<u32>)>,
}
