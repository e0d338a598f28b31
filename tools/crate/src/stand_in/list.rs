//! Stands for the two list readers of cursor.rs.
use super::allocator::ArenaVec;
use super::diagnostics::{self, Diagnostic};
use super::guess::Guess;
use super::lexer::Kind;
use super::parser::{ParserConfig, ParserImpl};
use super::span::{GetSpan, Span};

impl<'a, C: ParserConfig> ParserImpl<'a, C> {
    /// Whether no element can follow: the closing token, the end, or a fatal error.
    fn list_ends(&self, close: Kind) -> bool {
        self.at(close) || self.at(Kind::Eof) || self.fatal_error.is_some()
    }

    /// parse_delimited_list: elements between separators, left at the closing token, and where a separator stands before that.
    pub fn parse_delimited_list<T>(
        &mut self,
        close: Kind,
        separator: Kind,
        _opening: Span,
        element: impl Fn(&mut Self) -> T,
    ) -> (ArenaVec<'a, T>, Option<u32>) {
        let mut list = ArenaVec::of(Vec::new());
        if self.list_ends(close) {
            return (list, None);
        }
        list.push(element(self));
        while !self.list_ends(close) {
            let place = self.cur_start();
            if !self.at(separator) {
                self.set_unexpected();
                break;
            }
            self.bump_any();
            if self.at(close) {
                return (list, Some(place));
            }
            list.push(element(self));
        }
        (list, None)
    }

    /// parse_delimited_list_with_rest: the same with commas and a rest, which must be the last. A comma after it is reported.
    pub fn parse_delimited_list_with_rest<A, B: GetSpan>(
        &mut self,
        close: Kind,
        _opening: Span,
        element: impl Fn(&mut Self) -> A,
        rest_element: impl Fn(&mut Self) -> B,
        not_last: impl Fn(Span) -> Diagnostic,
    ) -> (ArenaVec<'a, A>, Option<B>) {
        let mut list = ArenaVec::of(Vec::new());
        let mut rest: Option<B> = None;
        let mut first = true;
        while !self.list_ends(close) {
            if !first && !self.comma_before_element(close, rest.is_some()) {
                break;
            }
            first = false;
            if let Some(rest) = &rest {
                self.set_fatal_error(not_last(rest.span()));
                break;
            }
            if self.at(Kind::Dot3) {
                rest = Some(rest_element(self));
            } else {
                list.push(element(self));
            }
        }
        (list, rest)
    }

    /// The comma between two elements; false if none stands there, or if it is the last token of the list.
    fn comma_before_element(&mut self, close: Kind, after_rest: bool) -> bool {
        let comma = self.cur_token().span();
        if !self.at(Kind::Comma) {
            self.set_unexpected();
            return false;
        }
        self.bump_any();
        if self.at(close) && after_rest {
            let error = diagnostics::rest_element_trailing_comma(comma);
            self.seen.rest_comma = true;
            if self.guess == Guess::RestCommaStops {
                self.set_fatal_error(error);
            } else {
                self.error(error);
            }
        }
        !self.at(close)
    }
}
