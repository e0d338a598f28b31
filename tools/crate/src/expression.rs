//! OURS, not the crate's: the expression levels, from ECMA-262, 13.2 to 13.16. The crate keeps them in expression.rs, which is not at hand. They call
//! the crate's own functions wherever its expression reader does: arrow heads, conversion, object literals, spreads, levels and operators.
use super::CoverGrammar;
use super::operator::*;
use crate::ast::*;
use crate::lexer::Kind;
use crate::precedence::Precedence;
use crate::stand_in::guess::Guess;
use crate::stand_in::identifier::NAME;
use crate::{ArenaVec, Context, ParserConfig, ParserImpl, diagnostics};

impl<'a, C: ParserConfig> ParserImpl<'a, C> {
    /// 13.16 Expression.
    pub fn parse_expr(&mut self) -> Expression<'a> {
        let start = self.cur_start();
        let first = self.parse_assignment_expression_or_higher();
        if !self.at(Kind::Comma) {
            return first;
        }
        let mut list = ArenaVec::of(vec![first]);
        while self.eat(Kind::Comma) {
            list.push(self.parse_assignment_expression_or_higher());
        }
        Expression::SequenceExpression(SequenceExpression::boxed(self.end_span(start), list, self))
    }

    /// 13.15 AssignmentExpression.
    pub fn parse_assignment_expression_or_higher(&mut self) -> Expression<'a> {
        self.parse_assignment_expression_or_higher_impl(true)
    }

    /// The same; whether an arrow may have a return type is for arrow.rs alone, and asked in TypeScript only.
    pub fn parse_assignment_expression_or_higher_impl(&mut self, allow_return_type: bool) -> Expression<'a> {
        if self.fatal_error.is_some() && self.guess != Guess::AssignmentGoesOn {
            return Dummy::dummy();
        }
        if let Some(arrow) = self.try_parse_parenthesized_arrow_function_expression(allow_return_type) {
            return arrow;
        }
        if let Some(arrow) = self.try_parse_async_simple_arrow_function_expression(allow_return_type) {
            return arrow;
        }
        let start = self.cur_start();
        let left = self.parse_binary_expression_or_higher(Precedence::Comma);
        let kind = self.cur_kind();
        if kind == Kind::Arrow
            && let Expression::Identifier(parameter) = &left
        {
            return self.parse_simple_arrow_function_expression(start, parameter, false, allow_return_type);
        }
        if kind.is_assignment_operator() {
            return self.parse_assignment(start, left, allow_return_type);
        }
        if kind == Kind::Question {
            return self.parse_conditional(start, left, allow_return_type);
        }
        left
    }

    /// 13.15, from the operator on: the left side is converted before the right one is read.
    fn parse_assignment(&mut self, start: u32, left: Expression<'a>, allow_return_type: bool) -> Expression<'a> {
        let operator = map_assignment_operator(self.cur_kind());
        let target = if operator == AssignmentOperator::Assign {
            AssignmentTarget::cover(left, self)
        } else {
            AssignmentTarget::from(SimpleAssignmentTarget::cover(left, self))
        };
        self.bump_any();
        let right = self.parse_assignment_expression_or_higher_impl(allow_return_type);
        Expression::AssignmentExpression(AssignmentExpression::boxed(self.end_span(start), operator, target, right, self))
    }

    /// 13.14, from the `?` on.
    fn parse_conditional(&mut self, start: u32, test: Expression<'a>, allow_return_type: bool) -> Expression<'a> {
        self.bump_any();
        let consequent = self.context_add(Context::In, |p| p.parse_assignment_expression_or_higher_impl(false));
        self.expect(Kind::Colon);
        let alternate = self.parse_assignment_expression_or_higher_impl(allow_return_type);
        Expression::ConditionalExpression(ConditionalExpression::boxed(self.end_span(start), test, consequent, alternate, self))
    }

    /// 13.6 to 13.13: operators of a level above this one. Equal levels group left, `**` right. `as` and `satisfies` are none in JavaScript.
    pub fn parse_binary_expression_or_higher(&mut self, above: Precedence) -> Expression<'a> {
        let start = self.cur_start();
        let mut left = self.parse_unary(start);
        loop {
            let kind = self.cur_kind();
            if matches!(kind, Kind::As | Kind::Satisfies) {
                return left;
            }
            let Some(level) = kind_to_precedence(kind) else { return left };
            if level < above || level == above && level != Precedence::Exponentiation {
                return left;
            }
            left = self.parse_operator(start, left, level);
        }
    }

    /// One operator and its right side. 13.13: `??` beside a bare `||` or `&&`; 13.6: a bare unary operator left of `**`.
    fn parse_operator(&mut self, start: u32, left: Expression<'a>, level: Precedence) -> Expression<'a> {
        let (kind, place) = (self.cur_kind(), self.token.span());
        self.bump_any();
        let right = self.parse_binary_expression_or_higher(level);
        let span = self.end_span(start);
        if matches!(kind, Kind::Question2 | Kind::Pipe2 | Kind::Amp2) {
            if kind == Kind::Question2 && (is_or_and(&left) || is_or_and(&right)) {
                self.error(diagnostics::mixed_coalesce(place));
            }
            return Expression::LogicalExpression(LogicalExpression::boxed(span, left, map_logical_operator(kind), right, self));
        }
        if kind == Kind::Star2 && matches!(left, Expression::UnaryExpression(_)) {
            self.error(diagnostics::unexpected_exponential(place));
        }
        Expression::BinaryExpression(BinaryExpression::boxed(span, left, map_binary_operator(kind), right, self))
    }

    /// 13.5 and the prefixes of 13.4.
    fn parse_unary(&mut self, start: u32) -> Expression<'a> {
        let kind = self.cur_kind();
        let is_update = matches!(kind, Kind::Plus2 | Kind::Minus2);
        if !is_update && !matches!(kind, Kind::Plus | Kind::Minus | Kind::Bang | Kind::Tilde | Kind::Typeof | Kind::Void | Kind::Delete) {
            return self.parse_postfix(start);
        }
        self.bump_any();
        let inner = self.cur_start();
        let operand = self.parse_unary(inner);
        if is_update {
            let target = SimpleAssignmentTarget::cover(operand, self);
            return Expression::UpdateExpression(UpdateExpression::boxed(self.end_span(start), map_update_operator(kind), true, target, self));
        }
        Expression::UnaryExpression(UnaryExpression::boxed(self.end_span(start), map_unary_operator(kind), operand, self))
    }

    /// 13.4: a postfix operator stands on the line of the token before it.
    fn parse_postfix(&mut self, start: u32) -> Expression<'a> {
        let operand = self.parse_left_hand_side(start);
        let kind = self.cur_kind();
        if !matches!(kind, Kind::Plus2 | Kind::Minus2) || self.token.is_on_new_line() {
            return operand;
        }
        let target = SimpleAssignmentTarget::cover(operand, self);
        self.bump_any();
        Expression::UpdateExpression(UpdateExpression::boxed(self.end_span(start), map_update_operator(kind), false, target, self))
    }

    /// 13.3: members, indexes and calls.
    fn parse_left_hand_side(&mut self, start: u32) -> Expression<'a> {
        let mut left = self.parse_primary();
        while self.fatal_error.is_none() || self.guess == Guess::CallsGoOn {
            match self.cur_kind() {
                Kind::Dot => {
                    self.bump_any();
                    let name = self.parse_identifier_name();
                    left = Expression::StaticMemberExpression(StaticMemberExpression::boxed(self.end_span(start), left, name, self));
                }
                Kind::LBrack => {
                    self.bump_any();
                    let index = self.context_add(Context::In, Self::parse_expr);
                    self.expect(Kind::RBrack);
                    left = Expression::ComputedMemberExpression(ComputedMemberExpression::boxed(self.end_span(start), left, index, self));
                }
                Kind::LParen => {
                    let arguments = self.parse_arguments();
                    left = Expression::CallExpression(CallExpression::boxed(self.end_span(start), left, arguments, self));
                }
                _ => break,
            }
        }
        left
    }

    /// 13.3 Arguments.
    fn parse_arguments(&mut self) -> ArenaVec<'a, Argument<'a>> {
        let opening = self.token.span();
        self.bump_any();
        let (list, _) = self.context_add(Context::In, |p| {
            p.parse_delimited_list(Kind::RParen, Kind::Comma, opening, |p| match p.cur_kind() {
                Kind::Dot3 => Argument::SpreadElement(p.parse_spread_element()),
                _ => Argument::Expression(p.parse_assignment_expression_or_higher()),
            })
        });
        self.expect(Kind::RParen);
        list
    }

    /// 13.2 PrimaryExpression.
    fn parse_primary(&mut self) -> Expression<'a> {
        let span = self.token.span();
        match self.cur_kind() {
            Kind::LCurly => Expression::ObjectExpression(self.parse_object_expression()),
            Kind::LBrack => self.parse_array(),
            Kind::LParen => self.parse_parentheses(),
            Kind::This => {
                self.bump_any();
                Expression::ThisExpression(ThisExpression::boxed(span, self))
            }
            kind if kind.is_literal() => self.parse_literal_expression(),
            kind if kind.is_name() => {
                self.bump_any();
                Expression::new_identifier(span, NAME, self)
            }
            _ => self.unexpected(),
        }
    }

    /// 13.2.4 ArrayLiteral. A comma after a closing spread is noted as object.rs notes it for objects.
    fn parse_array(&mut self) -> Expression<'a> {
        let opening = self.token.span();
        self.expect(Kind::LBrack);
        let (elements, comma) = self.context_add(Context::In, |p| {
            p.parse_delimited_list(Kind::RBrack, Kind::Comma, opening, |p| match p.cur_kind() {
                Kind::Comma => ArrayExpressionElement::Elision(Elision::boxed(p.token.span(), p)),
                Kind::Dot3 => ArrayExpressionElement::SpreadElement(p.parse_spread_element()),
                _ => ArrayExpressionElement::Expression(p.parse_assignment_expression_or_higher()),
            })
        });
        let after_spread = matches!(elements.last(), Some(ArrayExpressionElement::SpreadElement(_)));
        if let Some(comma) = comma
            && (after_spread || self.guess == Guess::CommaOfEveryArray)
        {
            self.state.trailing_commas.insert(opening.start, self.end_span(comma));
        }
        self.expect(Kind::RBrack);
        Expression::ArrayExpression(ArrayExpression::boxed(self.end_span(opening.start), elements, self))
    }

    /// 13.2.9: an expression in parentheses, which are kept.
    fn parse_parentheses(&mut self) -> Expression<'a> {
        let start = self.cur_start();
        let inner = if self.guess == Guess::ParenthesesAsList {
            self.parse_listed()
        } else {
            self.expect(Kind::LParen);
            self.context_add(Context::In, Self::parse_expr)
        };
        self.expect(Kind::RParen);
        Expression::ParenthesizedExpression(ParenthesizedExpression::boxed(self.end_span(start), inner, self))
    }

    /// The other guess: what stands in parentheses is read as a list with commas, which may be neither empty nor end in one.
    fn parse_listed(&mut self) -> Expression<'a> {
        let opening = self.token.span();
        self.expect(Kind::LParen);
        let start = self.cur_start();
        let (mut list, comma) =
            self.context_add(Context::In, |p| p.parse_delimited_list(Kind::RParen, Kind::Comma, opening, Self::parse_assignment_expression_or_higher));
        match list.pop() {
            Some(only) if list.is_empty() && comma.is_none() => only,
            Some(last) if comma.is_none() => {
                list.push(last);
                Expression::SequenceExpression(SequenceExpression::boxed(self.end_span(start), list, self))
            }
            _ => self.unexpected(),
        }
    }
}

/// A bare `||` or `&&`.
fn is_or_and(expression: &Expression) -> bool {
    matches!(expression, Expression::LogicalExpression(logical) if logical.operator != LogicalOperator::Coalesce)
}
