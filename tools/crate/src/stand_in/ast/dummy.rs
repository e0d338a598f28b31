//! Dummy of oxc_allocator: the nodes that stand for nothing after a fatal error.
use super::nodes::*;
use super::sums::*;
use crate::{ArenaBox, ArenaVec, Span};

/// What has a node that stands for nothing.
pub trait Dummy {
    fn dummy() -> Self;
}

impl Dummy for Span {
    fn dummy() -> Self {
        Span::default()
    }
}

impl Dummy for bool {
    fn dummy() -> Self {
        false
    }
}

impl Dummy for Name<'_> {
    fn dummy() -> Self {
        Name("")
    }
}

impl Dummy for PropertyKind {
    fn dummy() -> Self {
        PropertyKind::Init
    }
}

impl<T> Dummy for Option<T> {
    fn dummy() -> Self {
        None
    }
}

impl<T> Dummy for ArenaVec<'_, T> {
    fn dummy() -> Self {
        ArenaVec::of(Vec::new())
    }
}

impl<T: Dummy> Dummy for ArenaBox<'_, T> {
    fn dummy() -> Self {
        ArenaBox::of(T::dummy())
    }
}

/// A dummy of a struct: all its fields are dummies.
macro_rules! structs {
    ($($name:ident ( $($field:ident),* ))*) => {
        $(impl Dummy for $name<'_> {
            fn dummy() -> Self {
                $(let $field = Dummy::dummy();)*
                Self::new(Span::default(), $($field,)* &())
            }
        })*
    };
}

/// A dummy of an enum: one of its cases.
macro_rules! enums {
    ($($name:ident :: $case:ident)*) => {
        $(impl Dummy for $name<'_> {
            fn dummy() -> Self {
                Self::$case(Dummy::dummy())
            }
        })*
    };
}

structs! {
    Literal()
    Function()
    FunctionBody()
    IdentifierReference(name)
    IdentifierName(name)
    BindingIdentifier(name)
    PrivateIdentifier(name)
    ArrayAssignmentTarget(elements, rest)
    ObjectAssignmentTarget(properties, rest)
    AssignmentTargetPropertyIdentifier(binding, init)
    BindingProperty(key, value, shorthand, computed)
    ObjectProperty(kind, key, value, method, shorthand, computed)
}

enums! {
    Expression::Literal
    PropertyKey::Expression
    BindingPattern::BindingIdentifier
    SimpleAssignmentTarget::AssignmentTargetIdentifier
    AssignmentTargetProperty::Identifier
}
