//! The crate's tree as rows of a sheet: kind, mark, first, end, kids. The sixth word, the size, follows from the kids. Rows of kind 41 are left out on
//! both sides, since the crate drops parentheses in targets.
use crate::ast::*;
use crate::lexer::Kind;
use crate::stand_in::state::ParserState;
use crate::{ArenaBox, GetSpan, Span};

/// Five words of a row.
pub type Row = [u32; 5];

/// The rows so far, and what the tree alone does not say: commas after a spread, initialized shorthands, and the tokens.
pub struct Rows<'p, 'a> {
    pub rows: Vec<Row>,
    pub state: &'p ParserState<'a>,
    pub kinds: &'p [Kind],
}

impl<'p, 'a> Rows<'p, 'a> {
    /// No rows yet.
    pub fn new(state: &'p ParserState<'a>, kinds: &'p [Kind]) -> Self {
        Rows { rows: Vec::new(), state, kinds }
    }

    /// A row whose mark is an operator's token.
    fn marked(&mut self, kind: u32, mark: u32, span: Span, kids: u32) {
        self.rows.push([kind, mark, span.start, span.end, kids]);
    }

    /// A row whose mark is its first token.
    fn row(&mut self, kind: u32, span: Span, kids: u32) {
        self.marked(kind, span.start, span, kids);
    }

    /// A hole: its comma.
    fn hole(&mut self, place: u32) {
        self.row(9, Span { start: place, end: place + 1 }, 0);
    }

    /// An expression.
    pub fn expression(&mut self, expression: &Expression<'a>) {
        let span = expression.span();
        match expression {
            Expression::Identifier(_) => self.row(1, span, 0),
            Expression::ThisExpression(_) => self.row(2, span, 0),
            Expression::Literal(_) => self.row(3, span, 0),
            Expression::ParenthesizedExpression(node) => {
                self.expression(&node.expression);
                self.row(4, span, 1);
            }
            Expression::ArrayExpression(node) => self.array(node),
            Expression::ObjectExpression(node) => self.object(node),
            Expression::StaticMemberExpression(node) => self.member(16, node),
            Expression::ComputedMemberExpression(node) => self.index(17, node),
            Expression::CallExpression(node) => self.call(node),
            Expression::ConditionalExpression(node) => {
                self.expressions([&node.test, &node.consequent, &node.alternate]);
                self.marked(24, node.test.span().end, span, 3);
            }
            Expression::SequenceExpression(node) => {
                self.expressions(node.expressions.iter());
                self.marked(27, node.expressions[0].span().end, span, node.expressions.len() as u32);
            }
            Expression::ArrowFunctionExpression(node) => self.arrow(node),
            _ => self.operator(expression),
        }
    }

    /// Expressions one after the other.
    fn expressions<'e>(&mut self, list: impl IntoIterator<Item = &'e Expression<'a>>)
    where
        'a: 'e,
    {
        list.into_iter().for_each(|expression| self.expression(expression));
    }

    /// An expression with an operator. What no sheet has becomes a row of no kind, 99.
    fn operator(&mut self, expression: &Expression<'a>) {
        let span = expression.span();
        match expression {
            Expression::UnaryExpression(node) => {
                self.expression(&node.argument);
                self.row(19, span, 1);
            }
            Expression::UpdateExpression(node) => {
                self.simple_target(&node.argument);
                let (kind, mark) = if node.prefix { (20, span.start) } else { (21, span.end - 1) };
                self.marked(kind, mark, span, 1);
            }
            Expression::BinaryExpression(node) => {
                self.expressions([&node.left, &node.right]);
                self.marked(22, node.left.span().end, span, 2);
            }
            Expression::LogicalExpression(node) => {
                self.expressions([&node.left, &node.right]);
                self.marked(23, node.left.span().end, span, 2);
            }
            Expression::AssignmentExpression(node) => {
                self.target(&node.left);
                self.expression(&node.right);
                let kind = if node.operator == AssignmentOperator::Assign { 25 } else { 26 };
                self.marked(kind, node.right.span().start - 1, span, 2);
            }
            _ => self.row(99, span, 0),
        }
    }

    /// An array; kind 6 if a comma stands after its closing spread.
    fn array(&mut self, node: &ArrayExpression<'a>) {
        for element in node.elements.iter() {
            match element {
                ArrayExpressionElement::Expression(expression) => self.expression(expression),
                ArrayExpressionElement::SpreadElement(spread) => self.spread(spread),
                ArrayExpressionElement::Elision(hole) => self.hole(hole.span.start),
            }
        }
        let ends_in_spread = matches!(node.elements.last(), Some(ArrayExpressionElement::SpreadElement(_)));
        let kind = if ends_in_spread && self.state.trailing_commas.contains_key(&node.span.start) { 6 } else { 5 };
        self.row(kind, node.span, node.elements.len() as u32);
    }

    /// An object; kind 8 if a comma stands after its closing spread.
    fn object(&mut self, node: &ObjectExpression<'a>) {
        for property in node.properties.iter() {
            match property {
                ObjectPropertyKind::SpreadProperty(spread) => self.spread(spread),
                ObjectPropertyKind::ObjectProperty(property) => self.property(property),
            }
        }
        let kind = if self.state.trailing_commas.contains_key(&node.span.start) { 8 } else { 7 };
        self.row(kind, node.span, node.properties.len() as u32);
    }

    /// A property: a shorthand, one with an initializer, or a key and a value.
    fn property(&mut self, node: &ObjectProperty<'a>) {
        if !node.shorthand {
            self.key(&node.key, node.computed, node.span.start);
            self.expression(&node.value);
            return self.row(13, node.span, 2);
        }
        self.expression(&node.value);
        match self.state.cover_initialized_name.get(&node.span.start) {
            Some(init) => {
                self.expression(&init.right);
                self.marked(12, node.span.start + 1, node.span, 2);
            }
            None => self.row(11, node.span, 1),
        }
    }

    /// A spread.
    fn spread(&mut self, node: &SpreadElement<'a>) {
        self.expression(&node.argument);
        self.row(10, node.span, 1);
    }

    /// A key, plain or in brackets.
    fn key(&mut self, key: &PropertyKey<'a>, computed: bool, start: u32) {
        match key {
            PropertyKey::Expression(expression) if computed => {
                self.expression(expression);
                let inner = expression.span();
                self.row(15, Span { start: inner.start - 1, end: inner.end + 1 }, 1);
            }
            _ => self.row(14, Span { start, end: start + 1 }, 0),
        }
    }

    /// A member, as an expression or as a target.
    fn member(&mut self, kind: u32, node: &StaticMemberExpression<'a>) {
        self.expression(&node.object);
        self.marked(kind, node.property.span.start, node.span, 1);
    }

    /// An index, as an expression or as a target.
    fn index(&mut self, kind: u32, node: &ComputedMemberExpression<'a>) {
        self.expressions([&node.object, &node.expression]);
        self.row(kind, node.span, 2);
    }

    /// A call.
    fn call(&mut self, node: &CallExpression<'a>) {
        self.expression(&node.callee);
        for argument in node.arguments.iter() {
            match argument {
                Argument::Expression(expression) => self.expression(expression),
                Argument::SpreadElement(spread) => self.spread(spread),
            }
        }
        self.row(18, node.span, 1 + node.arguments.len() as u32);
    }

    /// An arrow: its parameters and its body.
    fn arrow(&mut self, node: &ArrowFunctionExpression<'a>) {
        for parameter in node.params.items.iter() {
            self.binding(&parameter.pattern);
            if let Some(default) = &parameter.initializer {
                self.expression(default);
                self.marked(34, default.span().start - 1, parameter.span, 2);
            }
        }
        let rest = self.binding_rest(&node.params.rest);
        let ArrowFunctionBody::Expression(body) = &node.body else { return self.row(99, node.span, 0) };
        self.expression(body);
        let kind = if node.r#async { 29 } else { 28 };
        self.marked(kind, body.span().start - 1, node.span, node.params.items.len() as u32 + rest + 1);
    }

    /// A binding.
    pub fn binding(&mut self, pattern: &BindingPattern<'a>) {
        match pattern {
            BindingPattern::BindingIdentifier(node) => self.row(30, node.span, 0),
            BindingPattern::ArrayPattern(node) => self.binding_array(node),
            BindingPattern::ObjectPattern(node) => self.binding_object(node),
            BindingPattern::AssignmentPattern(node) => {
                self.binding(&node.left);
                self.expression(&node.right);
                self.marked(34, node.right.span().start - 1, node.span, 2);
            }
        }
    }

    /// A binding array. The crate's holes have no span: a hole stands after the comma of what is before it.
    fn binding_array(&mut self, node: &ArrayPattern<'a>) {
        let mut place = node.span.start + 1;
        for element in node.elements.iter() {
            match element {
                None => self.hole(place),
                Some(element) => self.binding(element),
            }
            place = element.as_ref().map_or(place, |element| element.span().end) + 1;
        }
        let rest = self.binding_rest(&node.rest);
        self.row(31, node.span, rest + node.elements.len() as u32);
    }

    /// A binding object.
    fn binding_object(&mut self, node: &ObjectPattern<'a>) {
        for property in node.properties.iter() {
            let span = property.span;
            match &property.value {
                value if !property.shorthand => {
                    self.key(&property.key, property.computed, span.start);
                    self.binding(value);
                    self.row(13, span, 2);
                }
                BindingPattern::AssignmentPattern(default) => {
                    self.binding(&default.left);
                    self.expression(&default.right);
                    self.marked(36, span.start + 1, span, 2);
                }
                value => {
                    self.binding(value);
                    self.row(35, span, 1);
                }
            }
        }
        let rest = self.binding_rest(&node.rest);
        self.row(32, node.span, rest + node.properties.len() as u32);
    }

    /// A binding's rest: how many rows it adds to its parent.
    fn binding_rest(&mut self, rest: &Option<ArenaBox<'a, BindingRestElement<'a>>>) -> u32 {
        let Some(rest) = rest else { return 0 };
        self.binding(&rest.argument);
        self.row(33, rest.span, 1);
        1
    }

    /// A target.
    pub fn target(&mut self, target: &AssignmentTarget<'a>) {
        match target {
            AssignmentTarget::Simple(simple) => self.simple_target(simple),
            AssignmentTarget::ArrayAssignmentTarget(node) => self.target_array(node),
            AssignmentTarget::ObjectAssignmentTarget(node) => self.target_object(node),
        }
    }

    /// A name, a member or an index as a target.
    fn simple_target(&mut self, target: &SimpleAssignmentTarget<'a>) {
        match target {
            SimpleAssignmentTarget::AssignmentTargetIdentifier(node) => self.row(40, node.span, 0),
            SimpleAssignmentTarget::StaticMemberExpression(node) => self.member(46, node),
            SimpleAssignmentTarget::ComputedMemberExpression(node) => self.index(47, node),
            _ => self.row(99, target.span(), 0),
        }
    }

    /// A target array, with its holes as in a binding array; an element's parentheses are dropped, and stand before its comma.
    fn target_array(&mut self, node: &ArrayAssignmentTarget<'a>) {
        let mut place = node.span.start + 1;
        for element in node.elements.iter() {
            match element {
                None => self.hole(place),
                Some(element) => {
                    self.target_with_default(element);
                    place = end_of(element);
                    while self.kinds.get(place as usize) == Some(&Kind::RParen) {
                        place += 1;
                    }
                }
            }
            place += 1;
        }
        let rest = self.target_rest(&node.rest);
        self.row(42, node.span, rest + node.elements.len() as u32);
    }

    /// A target object.
    fn target_object(&mut self, node: &ObjectAssignmentTarget<'a>) {
        for property in node.properties.iter() {
            match property {
                AssignmentTargetProperty::Property(property) => {
                    self.key(&property.name, property.computed, property.span.start);
                    self.target_with_default(&property.binding);
                    self.row(48, property.span, 2);
                }
                AssignmentTargetProperty::Identifier(property) => {
                    self.row(40, property.binding.span, 0);
                    match &property.init {
                        None => self.row(49, property.span, 1),
                        Some(init) => {
                            self.expression(init);
                            self.marked(50, property.span.start + 1, property.span, 2);
                        }
                    }
                }
            }
        }
        let rest = self.target_rest(&node.rest);
        self.row(43, node.span, rest + node.properties.len() as u32);
    }

    /// A target, or one with a default.
    fn target_with_default(&mut self, target: &AssignmentTargetMaybeDefault<'a>) {
        match target {
            AssignmentTargetMaybeDefault::Target(target) => self.target(target),
            AssignmentTargetMaybeDefault::AssignmentTargetWithDefault(node) => {
                self.target(&node.binding);
                self.expression(&node.init);
                self.marked(45, node.init.span().start - 1, node.span, 2);
            }
        }
    }

    /// A target's rest: how many rows it adds to its parent.
    fn target_rest(&mut self, rest: &Option<ArenaBox<'a, AssignmentTargetRest<'a>>>) -> u32 {
        let Some(rest) = rest else { return 0 };
        self.target(&rest.target);
        self.row(44, rest.span, 1);
        1
    }
}

/// Where an element of a target array ends.
fn end_of(target: &AssignmentTargetMaybeDefault) -> u32 {
    match target {
        AssignmentTargetMaybeDefault::AssignmentTargetWithDefault(node) => node.span.end,
        AssignmentTargetMaybeDefault::Target(AssignmentTarget::Simple(simple)) => simple.span().end,
        AssignmentTargetMaybeDefault::Target(AssignmentTarget::ArrayAssignmentTarget(node)) => node.span.end,
        AssignmentTargetMaybeDefault::Target(AssignmentTarget::ObjectAssignmentTarget(node)) => node.span.end,
    }
}
