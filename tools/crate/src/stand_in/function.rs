//! Stands for function.rs, and for what ts/ answers in JavaScript. Bodies in braces and methods are outside the base: they are refused.
use super::allocator::ArenaBox;
use super::ast::{
    FormalParameter, FormalParameterKind, FormalParameters, Function, FunctionBody, TSThisParameter, TSTypeAnnotation, TSTypeParameterDeclaration,
};
use super::context::Context;
use super::diagnostics;
use super::lexer::Kind;
use super::parser::{ParserConfig, ParserImpl};
use crate::js::FunctionKind;

impl<'a, C: ParserConfig> ParserImpl<'a, C> {
    /// parse_ts_type_parameters_with_trailing_comma: there are none.
    pub fn parse_ts_type_parameters_with_trailing_comma(&mut self) -> (Option<ArenaBox<'a, TSTypeParameterDeclaration<'a>>>, bool) {
        (None, false)
    }

    /// parse_ts_return_type_annotation: there is none.
    pub fn parse_ts_return_type_annotation(&mut self) -> Option<ArenaBox<'a, TSTypeAnnotation<'a>>> {
        None
    }

    /// parse_ts_type_annotation: there is none.
    pub fn parse_ts_type_annotation(&mut self) -> Option<ArenaBox<'a, TSTypeAnnotation<'a>>> {
        None
    }

    /// parse_function_body: refused.
    pub fn parse_function_body(&mut self) -> ArenaBox<'a, FunctionBody<'a>> {
        self.unexpected()
    }

    /// parse_method: refused.
    pub fn parse_method(&mut self, _is_async: bool, _star: Option<u32>, _: FunctionKind) -> ArenaBox<'a, Function<'a>> {
        self.unexpected()
    }

    /// check_getter: there is none.
    pub fn check_getter(&mut self, _: &Function<'a>) {}

    /// check_setter: there is none.
    pub fn check_setter(&mut self, _: &Function<'a>) {}

    /// parse_formal_parameters: `(`, parameters with a rest as the last, `)`. The rest is read by binding.rs.
    pub fn parse_formal_parameters(&mut self, _: FunctionKind, kind: FormalParameterKind) -> (Option<TSThisParameter<'a>>, ArenaBox<'a, FormalParameters<'a>>) {
        let opening = self.cur_token().span();
        self.expect(Kind::LParen);
        let (list, rest) = self.parse_delimited_list_with_rest(
            Kind::RParen,
            opening,
            Self::parse_formal_parameter,
            |parser| ArenaBox::of(parser.parse_rest_element_for_formal_parameter()),
            diagnostics::binding_rest_element_last,
        );
        self.expect(Kind::RParen);
        (None, FormalParameters::boxed(self.end_span(opening.start), kind, list, rest, self))
    }

    /// parse_formal_parameter: a binding, read by binding.rs, with an optional default.
    fn parse_formal_parameter(&mut self) -> FormalParameter<'a> {
        let start = self.cur_start();
        let pattern = self.parse_binding_pattern();
        let has_default = self.eat(Kind::Eq);
        let default = has_default.then(|| self.context_add(Context::In, Self::parse_assignment_expression_or_higher));
        FormalParameter::new(self.end_span(start), pattern, default, self)
    }
}
