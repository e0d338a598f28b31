//! The token kinds (RULES T4), and the groups of them that the rules speak of (T5 to T8).

macro_rules! kinds {
    ($($name:ident = $number:literal),* $(,)?) => { $(pub const $name: u8 = $number;)* };
}

kinds! {
    IDENT = 1, ASYNC = 2, AS = 3, SATISFIES = 4, MODIFIER = 5, CONST = 6, THIS = 7, NULL = 8, TRUE = 9, FALSE = 10, STR = 11, NUMBER = 12,
    REG_EXP = 13, AWAIT = 14, YIELD = 15, EXTENDS = 16, RESERVED = 17, L_PAREN = 18, R_PAREN = 19, L_BRACK = 20, R_BRACK = 21,
    L_CURLY = 22, R_CURLY = 23, COMMA = 24, COLON = 25, QUESTION = 26, DOT = 27, DOT3 = 28, ARROW = 29, BANG = 30, TILDE = 31,
    TYPEOF = 32, VOID = 33, DELETE = 34, NEW = 35, PLUS2 = 36, MINUS2 = 37, QUESTION2 = 38, PIPE2 = 39, AMP2 = 40, PIPE = 41, CARET = 42,
    AMP = 43, EQ2 = 44, EQ3 = 45, NEQ = 46, NEQ2 = 47, L_ANGLE = 48, R_ANGLE = 49, LT_EQ = 50, GT_EQ = 51, INSTANCEOF = 52, IN = 53,
    SHIFT_LEFT = 54, SHIFT_RIGHT = 55, SHIFT_RIGHT3 = 56, PLUS = 57, MINUS = 58, STAR = 59, SLASH = 60, PERCENT = 61, STAR2 = 62,
    EQ = 63, SLASH_EQ = 67, STAR2_EQ = 78,
}

/// A name: what may stand as an identifier.
pub const fn is_name(kind: u8) -> bool {
    matches!(kind, IDENT..=MODIFIER)
}

/// A word: what may stand as a key or after a dot.
pub const fn is_word(kind: u8) -> bool {
    matches!(kind, IDENT..=FALSE | AWAIT..=RESERVED | TYPEOF..=NEW | INSTANCEOF | IN)
}

/// The literals: null, true, false, string, number, regular expression.
pub const fn is_literal(kind: u8) -> bool {
    matches!(kind, NULL..=REG_EXP)
}

/// The names of the three-way answer alone: await and yield are among them.
pub const fn is_binding_identifier(kind: u8) -> bool {
    matches!(kind, IDENT..=MODIFIER | AWAIT | YIELD)
}

/// The modifiers of the three-way answer.
pub const fn is_modifier(kind: u8) -> bool {
    matches!(kind, ASYNC | MODIFIER | CONST | IN)
}

/// What may be a property's key without brackets.
pub const fn is_plain_key(kind: u8) -> bool {
    is_word(kind) || matches!(kind, STR | NUMBER)
}

/// The prefix operators that make a Unary.
pub const fn is_unary(kind: u8) -> bool {
    matches!(kind, BANG | TILDE | TYPEOF | VOID | DELETE | PLUS | MINUS)
}

/// `++` and `--`.
pub const fn is_update(kind: u8) -> bool {
    matches!(kind, PLUS2 | MINUS2)
}

/// `=` and the compound assignment operators.
pub const fn is_assignment(kind: u8) -> bool {
    matches!(kind, EQ..=STAR2_EQ)
}
