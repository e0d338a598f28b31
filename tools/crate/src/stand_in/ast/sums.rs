//! The enums of oxc_ast::ast. Where theirs takes over the cases of another one, ours has one case that holds it.
use super::nodes::*;
use crate::{ArenaBox, GetSpan, Span};

/// An enum of boxed nodes, with its span.
macro_rules! sum {
    ($name:ident { $($case:ident ( $type:ty )),* $(,)? }) => {
        #[derive(Debug)]
        pub enum $name<'a> {
            $($case(ArenaBox<'a, $type>),)*
        }

        impl GetSpan for $name<'_> {
            fn span(&self) -> Span {
                match self {
                    $($name::$case(node) => node.span,)*
                }
            }
        }
    };
}

sum!(Expression {
    Identifier(IdentifierReference<'a>),
    ThisExpression(ThisExpression<'a>),
    Literal(Literal<'a>),
    ParenthesizedExpression(ParenthesizedExpression<'a>),
    ArrayExpression(ArrayExpression<'a>),
    ObjectExpression(ObjectExpression<'a>),
    StaticMemberExpression(StaticMemberExpression<'a>),
    ComputedMemberExpression(ComputedMemberExpression<'a>),
    PrivateFieldExpression(PrivateFieldExpression<'a>),
    CallExpression(CallExpression<'a>),
    UnaryExpression(UnaryExpression<'a>),
    UpdateExpression(UpdateExpression<'a>),
    BinaryExpression(BinaryExpression<'a>),
    LogicalExpression(LogicalExpression<'a>),
    ConditionalExpression(ConditionalExpression<'a>),
    AssignmentExpression(AssignmentExpression<'a>),
    SequenceExpression(SequenceExpression<'a>),
    ArrowFunctionExpression(ArrowFunctionExpression<'a>),
    FunctionExpression(Function<'a>),
    TSAsExpression(TSAsExpression<'a>),
    TSSatisfiesExpression(TSSatisfiesExpression<'a>),
    TSNonNullExpression(TSNonNullExpression<'a>),
    TSTypeAssertion(TSTypeAssertion<'a>),
    TSInstantiationExpression(TSInstantiationExpression<'a>),
});
sum!(MemberExpression {
    StaticMemberExpression(StaticMemberExpression<'a>),
    ComputedMemberExpression(ComputedMemberExpression<'a>),
    PrivateFieldExpression(PrivateFieldExpression<'a>),
});
sum!(BindingPattern {
    BindingIdentifier(BindingIdentifier<'a>),
    ObjectPattern(ObjectPattern<'a>),
    ArrayPattern(ArrayPattern<'a>),
    AssignmentPattern(AssignmentPattern<'a>),
});
sum!(ObjectPropertyKind { ObjectProperty(ObjectProperty<'a>), SpreadProperty(SpreadElement<'a>) });
sum!(AssignmentTargetProperty {
    Identifier(AssignmentTargetPropertyIdentifier<'a>),
    Property(AssignmentTargetPropertyProperty<'a>),
});
sum!(SimpleAssignmentTarget {
    AssignmentTargetIdentifier(IdentifierReference<'a>),
    StaticMemberExpression(StaticMemberExpression<'a>),
    ComputedMemberExpression(ComputedMemberExpression<'a>),
    PrivateFieldExpression(PrivateFieldExpression<'a>),
    TSAsExpression(TSAsExpression<'a>),
    TSSatisfiesExpression(TSSatisfiesExpression<'a>),
    TSNonNullExpression(TSNonNullExpression<'a>),
    TSTypeAssertion(TSTypeAssertion<'a>),
});

/// AssignmentTarget: a simple one or a pattern.
#[derive(Debug)]
pub enum AssignmentTarget<'a> {
    Simple(SimpleAssignmentTarget<'a>),
    ArrayAssignmentTarget(ArenaBox<'a, ArrayAssignmentTarget<'a>>),
    ObjectAssignmentTarget(ArenaBox<'a, ObjectAssignmentTarget<'a>>),
}

/// AssignmentTargetMaybeDefault: a target, or one with a default.
#[derive(Debug)]
pub enum AssignmentTargetMaybeDefault<'a> {
    Target(AssignmentTarget<'a>),
    AssignmentTargetWithDefault(ArenaBox<'a, AssignmentTargetWithDefault<'a>>),
}

/// ArrayExpressionElement: an expression, a spread, or a hole.
#[derive(Debug)]
pub enum ArrayExpressionElement<'a> {
    Expression(Expression<'a>),
    SpreadElement(ArenaBox<'a, SpreadElement<'a>>),
    Elision(ArenaBox<'a, Elision<'a>>),
}

/// Argument: an expression or a spread.
#[derive(Debug)]
pub enum Argument<'a> {
    Expression(Expression<'a>),
    SpreadElement(ArenaBox<'a, SpreadElement<'a>>),
}

/// PropertyKey: a word, a private name, or an expression (a literal, or what stands in brackets).
#[derive(Debug)]
pub enum PropertyKey<'a> {
    StaticIdentifier(ArenaBox<'a, IdentifierName<'a>>),
    PrivateIdentifier(ArenaBox<'a, PrivateIdentifier<'a>>),
    Expression(Expression<'a>),
}

/// ArrowFunctionBody: a body in braces, or an expression.
#[derive(Debug)]
pub enum ArrowFunctionBody<'a> {
    FunctionBody(ArenaBox<'a, FunctionBody<'a>>),
    Expression(Expression<'a>),
}

/// match_expression!: the cases of an enum that are an expression's.
macro_rules! match_expression {
    ($name:ident) => {
        $name::Expression(_)
    };
}

/// match_member_expression!: the cases of an enum that are a member expression's.
macro_rules! match_member_expression {
    ($name:ident) => {
        $name::StaticMemberExpression(_) | $name::ComputedMemberExpression(_) | $name::PrivateFieldExpression(_)
    };
}

pub(crate) use {match_expression, match_member_expression};
