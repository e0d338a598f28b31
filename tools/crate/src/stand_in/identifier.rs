//! Stands for what expression.rs has of identifiers and literals, as far as the five files call it.
use super::ast::{BindingIdentifier, Expression, IdentifierName, Literal, Name, PrivateIdentifier};
use super::context::Context;
use super::diagnostics;
use super::guess::Guess;
use super::lexer::Kind;
use super::parser::{ParserConfig, ParserImpl};
use super::span::Span;

/// Tokens carry no text. arrow.rs asks only whether a name is `await`, which is no name here.
pub const NAME: Name<'static> = Name("name");

impl<'a, C: ParserConfig> ParserImpl<'a, C> {
    /// parse_identifier_name: any word.
    pub fn parse_identifier_name(&mut self) -> IdentifierName<'a> {
        if !self.cur_kind().is_word() {
            return self.unexpected();
        }
        let span = self.token.span();
        self.bump_any();
        IdentifierName::new(span, NAME, self)
    }

    /// parse_private_identifier: no byte of a sheet is one.
    pub fn parse_private_identifier(&mut self) -> PrivateIdentifier<'a> {
        self.unexpected()
    }

    /// parse_binding_identifier: a name.
    pub fn parse_binding_identifier(&mut self) -> BindingIdentifier<'a> {
        let span = self.token.span();
        if !self.cur_kind().is_name() {
            if self.guess != Guess::BindingReports || !self.cur_kind().is_word() {
                return self.unexpected();
            }
            self.error(diagnostics::unexpected_token(span));
        }
        self.bump_any();
        BindingIdentifier::new(span, NAME, self)
    }

    /// check_identifier_with_span: a binding's shorthand must be a name. Await and Yield are none here.
    pub fn check_identifier_with_span(&mut self, kind: Kind, _: Context, span: Span) {
        if kind.is_name() {
            return;
        }
        let error = diagnostics::unexpected_token(span);
        if self.guess == Guess::ShorthandReports {
            self.error(error);
        } else {
            self.set_fatal_error(error);
        }
    }

    /// parse_literal_expression: the current token, which is a literal.
    pub fn parse_literal_expression(&mut self) -> Expression<'a> {
        let span = self.token.span();
        self.bump_any();
        Expression::Literal(Literal::boxed(span, self))
    }
}
