//! Stands for error_handler.rs, and for check_unfinished_errors of lib.rs.
use super::ast::Dummy;
use super::diagnostics::{self, Diagnostic};
use super::guess::Guess;
use super::lexer::Kind;
use super::parser::{ParserConfig, ParserImpl};
use super::span::Span;
use super::state::FatalError;

impl<C: ParserConfig> ParserImpl<'_, C> {
    /// error: reported, and the reading goes on.
    pub fn error(&mut self, error: Diagnostic) {
        self.errors.push(error);
    }

    /// set_fatal_error: the first one stays. The lexer goes to the end, the current token stays.
    pub fn set_fatal_error(&mut self, error: Diagnostic) {
        if self.fatal_error.is_none() {
            self.lexer.advance_to_end();
            self.fatal_error = Some(FatalError { error, errors_len: self.errors.len() });
            if self.guess == Guess::FatalReplacesToken {
                self.token.kind = Kind::Eof;
            }
        }
    }

    /// set_unexpected: the current token stands where none of its kind may.
    pub fn set_unexpected(&mut self) {
        self.set_fatal_error(diagnostics::unexpected_token(self.cur_token().span()));
    }

    /// unexpected: the same, with a node that stands for nothing.
    pub fn unexpected<T: Dummy>(&mut self) -> T {
        self.set_unexpected();
        T::dummy()
    }

    /// fatal_error: an error that cannot be recovered from, with a node that stands for nothing.
    pub fn fatal_error<T: Dummy>(&mut self, error: Diagnostic) -> T {
        self.set_fatal_error(error);
        T::dummy()
    }

    /// has_fatal_error.
    pub fn has_fatal_error(&self) -> bool {
        self.fatal_error.is_some() || self.guess == Guess::FatalAtEnd && self.at(Kind::Eof)
    }

    /// check_unfinished_errors of lib.rs: an error for each initialized shorthand that never became a target. Here in the order of the text.
    pub fn check_unfinished_errors(&mut self) {
        let mut spans: Vec<Span> = self.state.cover_initialized_name.values().map(|node| node.span).collect();
        spans.sort_by_key(|span| (span.end, span.start));
        for span in spans {
            self.error(diagnostics::cover_initialized_name(span));
        }
    }
}
