//! The builders of oxc_ast by the names that the five files call, and the conversions between its enums.
use super::nodes::*;
use super::sums::*;
use crate::{ArenaBox, ArenaVec, Span};

/// A rest of a binding.
type BindingRest<'a> = Option<ArenaBox<'a, BindingRestElement<'a>>>;

impl<'a> Expression<'a> {
    /// Expression::new_identifier.
    pub fn new_identifier<G>(span: Span, name: Name<'a>, builder: &G) -> Self {
        Self::Identifier(IdentifierReference::boxed(span, name, builder))
    }

    /// Expression::new_arrow_function_expression. Types are dropped: there are none.
    pub fn new_arrow_function_expression<G>(
        span: Span,
        is_async: bool,
        _: Option<ArenaBox<'a, TSTypeParameterDeclaration<'a>>>,
        params: ArenaBox<'a, FormalParameters<'a>>,
        _: Option<ArenaBox<'a, TSTypeAnnotation<'a>>>,
        body: ArrowFunctionBody<'a>,
        builder: &G,
    ) -> Self {
        Self::ArrowFunctionExpression(ArrowFunctionExpression::boxed(span, is_async, params, body, builder))
    }

    /// Expression::into_member_expression, of one that is.
    pub fn into_member_expression(self) -> MemberExpression<'a> {
        match self {
            Self::ComputedMemberExpression(node) => MemberExpression::ComputedMemberExpression(node),
            Self::StaticMemberExpression(node) => MemberExpression::StaticMemberExpression(node),
            Self::PrivateFieldExpression(node) => MemberExpression::PrivateFieldExpression(node),
            _ => unreachable!("no member expression"),
        }
    }

    /// Expression::get_inner_expression: through parentheses and types.
    pub fn get_inner_expression(&self) -> &Expression<'a> {
        match self {
            Self::ParenthesizedExpression(node) => node.expression.get_inner_expression(),
            Self::TSAsExpression(node) => node.expression.get_inner_expression(),
            Self::TSSatisfiesExpression(node) => node.expression.get_inner_expression(),
            Self::TSNonNullExpression(node) => node.expression.get_inner_expression(),
            Self::TSTypeAssertion(node) => node.expression.get_inner_expression(),
            Self::TSInstantiationExpression(node) => node.expression.get_inner_expression(),
            _ => self,
        }
    }
}

impl<'a> ArrayExpressionElement<'a> {
    /// ArrayExpressionElement::into_expression, of one that is.
    pub fn into_expression(self) -> Expression<'a> {
        match self {
            Self::Expression(expression) => expression,
            _ => unreachable!("no expression"),
        }
    }
}

impl<'a> FormalParameter<'a> {
    /// FormalParameter::new_plain: without a default.
    pub fn new_plain<G>(span: Span, pattern: BindingPattern<'a>, builder: &G) -> Self {
        Self::new(span, pattern, None, builder)
    }
}

impl<'a> FormalParameters<'a> {
    /// FormalParameters::boxed.
    pub fn boxed<G>(
        span: Span,
        _: FormalParameterKind,
        items: impl IntoIterator<Item = FormalParameter<'a>>,
        rest: BindingRest<'a>,
        _: &G,
    ) -> ArenaBox<'a, Self> {
        ArenaBox::of(FormalParameters { span, items: ArenaVec::of(items.into_iter().collect()), rest })
    }
}

impl<'a> AssignmentTarget<'a> {
    /// AssignmentTarget::new_assignment_target_identifier.
    pub fn new_assignment_target_identifier<G>(span: Span, name: Name<'a>, builder: &G) -> Self {
        Self::Simple(SimpleAssignmentTarget::AssignmentTargetIdentifier(IdentifierReference::boxed(span, name, builder)))
    }
}

impl<'a> AssignmentTargetProperty<'a> {
    /// AssignmentTargetProperty::new_assignment_target_property_identifier.
    pub fn new_assignment_target_property_identifier<G>(span: Span, binding: IdentifierReference<'a>, init: Option<Expression<'a>>, builder: &G) -> Self {
        Self::Identifier(AssignmentTargetPropertyIdentifier::boxed(span, binding, init, builder))
    }

    /// AssignmentTargetProperty::new_assignment_target_property_property.
    pub fn new_assignment_target_property_property<G>(
        span: Span,
        name: PropertyKey<'a>,
        binding: AssignmentTargetMaybeDefault<'a>,
        computed: bool,
        builder: &G,
    ) -> Self {
        Self::Property(AssignmentTargetPropertyProperty::boxed(span, name, binding, computed, builder))
    }
}

impl<'a> BindingPattern<'a> {
    /// BindingPattern::new_binding_identifier.
    pub fn new_binding_identifier<G>(span: Span, name: Name<'a>, builder: &G) -> Self {
        Self::BindingIdentifier(BindingIdentifier::boxed(span, name, builder))
    }

    /// BindingPattern::new_object_pattern.
    pub fn new_object_pattern<G>(span: Span, properties: ArenaVec<'a, BindingProperty<'a>>, rest: BindingRest<'a>, builder: &G) -> Self {
        Self::ObjectPattern(ObjectPattern::boxed(span, properties, rest, builder))
    }

    /// BindingPattern::new_array_pattern.
    pub fn new_array_pattern<G>(span: Span, elements: ArenaVec<'a, Option<BindingPattern<'a>>>, rest: BindingRest<'a>, builder: &G) -> Self {
        Self::ArrayPattern(ArrayPattern::boxed(span, elements, rest, builder))
    }

    /// BindingPattern::new_assignment_pattern.
    pub fn new_assignment_pattern<G>(span: Span, left: BindingPattern<'a>, right: Expression<'a>, builder: &G) -> Self {
        Self::AssignmentPattern(AssignmentPattern::boxed(span, left, right, builder))
    }
}

/// An enum that takes over another one.
macro_rules! takes_over {
    ($into:ident :: $case:ident, $from:ident) => {
        impl<'a> From<$from<'a>> for $into<'a> {
            fn from(node: $from<'a>) -> Self {
                $into::$case(node)
            }
        }
    };
}

takes_over!(ArrowFunctionBody::Expression, Expression);
takes_over!(PropertyKey::Expression, Expression);
takes_over!(AssignmentTarget::Simple, SimpleAssignmentTarget);
takes_over!(AssignmentTargetMaybeDefault::Target, AssignmentTarget);

impl<'a> From<MemberExpression<'a>> for SimpleAssignmentTarget<'a> {
    fn from(member: MemberExpression<'a>) -> Self {
        match member {
            MemberExpression::ComputedMemberExpression(node) => Self::ComputedMemberExpression(node),
            MemberExpression::StaticMemberExpression(node) => Self::StaticMemberExpression(node),
            MemberExpression::PrivateFieldExpression(node) => Self::PrivateFieldExpression(node),
        }
    }
}
