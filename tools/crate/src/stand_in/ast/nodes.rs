//! The structs of oxc_ast::ast.
use super::sums::*;
use crate::operator::*;
use crate::{ArenaBox, ArenaVec, GetSpan, Span};
use std::marker::PhantomData;

/// An atom of oxc_span: a name's text.
#[derive(Clone, Copy, PartialEq, Debug)]
pub struct Name<'a>(pub &'a str);

impl Name<'_> {
    /// The text.
    pub fn as_str(&self) -> &str {
        self.0
    }
}

impl PartialEq<&str> for Name<'_> {
    fn eq(&self, other: &&str) -> bool {
        self.0 == *other
    }
}

/// A struct with a span, and its builders `new` and `boxed`, which take whatever can build nodes as the last argument.
macro_rules! node {
    ($name:ident { $($field:ident : $type:ty),* $(,)? }) => {
        #[derive(Debug)]
        pub struct $name<'a> {
            pub span: Span,
            $(pub $field: $type,)*
            arena: PhantomData<&'a ()>,
        }

        impl<'a> $name<'a> {
            /// The node.
            pub fn new<G>(span: Span, $($field: $type,)* _: &G) -> Self {
                $name { span, $($field,)* arena: PhantomData }
            }

            /// The node in a box.
            pub fn boxed<G>(span: Span, $($field: $type,)* builder: &G) -> ArenaBox<'a, Self> {
                ArenaBox::of($name::new(span, $($field,)* builder))
            }
        }

        impl GetSpan for $name<'_> {
            fn span(&self) -> Span {
                self.span
            }
        }
    };
}

// Names and literals.
node!(IdentifierReference { name: Name<'a> });
node!(IdentifierName { name: Name<'a> });
node!(BindingIdentifier { name: Name<'a> });
node!(PrivateIdentifier { name: Name<'a> });
node!(ThisExpression {});
node!(Literal {}); // one for all literals

// Expressions.
node!(ParenthesizedExpression { expression: Expression<'a> });
node!(ArrayExpression { elements: ArenaVec<'a, ArrayExpressionElement<'a>> });
node!(Elision {});
node!(SpreadElement { argument: Expression<'a> });
node!(ObjectExpression { properties: ArenaVec<'a, ObjectPropertyKind<'a>> });
node!(ObjectProperty { kind: PropertyKind, key: PropertyKey<'a>, value: Expression<'a>, method: bool, shorthand: bool, computed: bool });
node!(StaticMemberExpression { object: Expression<'a>, property: IdentifierName<'a> });
node!(ComputedMemberExpression { object: Expression<'a>, expression: Expression<'a> });
node!(PrivateFieldExpression { object: Expression<'a>, field: PrivateIdentifier<'a> });
node!(CallExpression { callee: Expression<'a>, arguments: ArenaVec<'a, Argument<'a>> });
node!(UnaryExpression { operator: UnaryOperator, argument: Expression<'a> });
node!(UpdateExpression { operator: UpdateOperator, prefix: bool, argument: SimpleAssignmentTarget<'a> });
node!(BinaryExpression { left: Expression<'a>, operator: BinaryOperator, right: Expression<'a> });
node!(LogicalExpression { left: Expression<'a>, operator: LogicalOperator, right: Expression<'a> });
node!(ConditionalExpression { test: Expression<'a>, consequent: Expression<'a>, alternate: Expression<'a> });
node!(AssignmentExpression { operator: AssignmentOperator, left: AssignmentTarget<'a>, right: Expression<'a> });
node!(SequenceExpression { expressions: ArenaVec<'a, Expression<'a>> });
node!(ArrowFunctionExpression { r#async: bool, params: ArenaBox<'a, FormalParameters<'a>>, body: ArrowFunctionBody<'a> });

// Functions: what no sheet has is empty.
node!(Function {});
node!(FunctionBody {});
node!(FormalParameter { pattern: BindingPattern<'a>, initializer: Option<Expression<'a>> });

// Bindings.
node!(ObjectPattern { properties: ArenaVec<'a, BindingProperty<'a>>, rest: Option<ArenaBox<'a, BindingRestElement<'a>>> });
node!(ArrayPattern { elements: ArenaVec<'a, Option<BindingPattern<'a>>>, rest: Option<ArenaBox<'a, BindingRestElement<'a>>> });
node!(AssignmentPattern { left: BindingPattern<'a>, right: Expression<'a> });
node!(BindingRestElement { argument: BindingPattern<'a> });
node!(BindingProperty { key: PropertyKey<'a>, value: BindingPattern<'a>, shorthand: bool, computed: bool });

// Assignment targets.
node!(ArrayAssignmentTarget { elements: ArenaVec<'a, Option<AssignmentTargetMaybeDefault<'a>>>, rest: Option<ArenaBox<'a, AssignmentTargetRest<'a>>> });
node!(ObjectAssignmentTarget { properties: ArenaVec<'a, AssignmentTargetProperty<'a>>, rest: Option<ArenaBox<'a, AssignmentTargetRest<'a>>> });
node!(AssignmentTargetRest { target: AssignmentTarget<'a> });
node!(AssignmentTargetWithDefault { binding: AssignmentTarget<'a>, init: Expression<'a> });
node!(AssignmentTargetPropertyIdentifier { binding: IdentifierReference<'a>, init: Option<Expression<'a>> });
node!(AssignmentTargetPropertyProperty { name: PropertyKey<'a>, binding: AssignmentTargetMaybeDefault<'a>, computed: bool });

// TypeScript, which no sheet has.
node!(TSAsExpression { expression: Expression<'a> });
node!(TSSatisfiesExpression { expression: Expression<'a> });
node!(TSNonNullExpression { expression: Expression<'a> });
node!(TSTypeAssertion { expression: Expression<'a> });
node!(TSInstantiationExpression { expression: Expression<'a> });
node!(TSTypeParameterDeclaration { params: ArenaVec<'a, TSTypeParameter<'a>> });
node!(TSTypeParameter { name: BindingIdentifier<'a>, constraint: Option<()> });
node!(TSTypeAnnotation {});
node!(TSThisParameter {});

/// FormalParameters: its builder also takes a kind and any list, so it is written out.
#[derive(Debug)]
pub struct FormalParameters<'a> {
    pub span: Span,
    pub items: ArenaVec<'a, FormalParameter<'a>>,
    pub rest: Option<ArenaBox<'a, BindingRestElement<'a>>>,
}

/// FormalParameterKind, as far as arrow.rs names it.
#[derive(Debug, Clone, Copy, PartialEq)]
pub enum FormalParameterKind {
    ArrowFormalParameters,
}

/// PropertyKind.
#[derive(Debug, Clone, Copy, PartialEq)]
pub enum PropertyKind {
    Init,
    Get,
    Set,
}
