//! Stands for oxc_syntax: the levels, and the operators numbered in the order in which operator.rs maps to them.

/// oxc_syntax::precedence.
pub mod precedence {
    /// Precedence: NullishCoalescing is level 1 of the rules, and so on.
    #[derive(Debug, Clone, Copy, PartialEq, Eq, PartialOrd, Ord)]
    pub enum Precedence {
        Comma,
        NullishCoalescing,
        LogicalOr,
        LogicalAnd,
        BitwiseOr,
        BitwiseXor,
        BitwiseAnd,
        Equals,
        Compare,
        Shift,
        Add,
        Multiply,
        Exponentiation,
    }
}

/// oxc_syntax::operator.
#[rustfmt::skip]
pub mod operator {
    #[derive(Debug, Clone, Copy, PartialEq, Eq)]
    pub enum AssignmentOperator {
        Assign = 1, Addition, Subtraction, Multiplication, Division, Remainder, ShiftLeft, ShiftRight, ShiftRightZeroFill, BitwiseOR,
        BitwiseXOR, BitwiseAnd, LogicalAnd, LogicalOr, LogicalNullish, Exponential,
    }

    #[derive(Debug, Clone, Copy, PartialEq, Eq)]
    pub enum BinaryOperator {
        Equality = 1, Inequality, StrictEquality, StrictInequality, LessThan, LessEqualThan, GreaterThan, GreaterEqualThan, ShiftLeft,
        ShiftRight, ShiftRightZeroFill, Addition, Subtraction, Multiplication, Division, Remainder, BitwiseOR, BitwiseXOR, BitwiseAnd, In,
        Instanceof, Exponential,
    }

    #[derive(Debug, Clone, Copy, PartialEq, Eq)]
    pub enum LogicalOperator { Or = 1, And, Coalesce }

    #[derive(Debug, Clone, Copy, PartialEq, Eq)]
    pub enum UnaryOperator { UnaryNegation = 1, UnaryPlus, LogicalNot, BitwiseNot, Typeof, Void, Delete }

    #[derive(Debug, Clone, Copy, PartialEq, Eq)]
    pub enum UpdateOperator { Increment = 1, Decrement }
}
