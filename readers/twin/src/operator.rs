//! The levels of the binary operators, by kind (operator.rs of the crate).
use crate::kind;

/// One constant table over the kinds, 0 for none.
pub const LEVELS: [u8; 256] = levels();

const fn levels() -> [u8; 256] {
    let mut table = [0; 256];
    let mut k = 0;
    while k < 256 {
        table[k] = match k as u8 {
            kind::QUESTION2 => 1,
            kind::PIPE2 => 2,
            kind::AMP2 => 3,
            kind::PIPE => 4,
            kind::CARET => 5,
            kind::AMP => 6,
            kind::EQ2..=kind::NEQ2 => 7,
            kind::L_ANGLE..=kind::IN | kind::AS | kind::SATISFIES => 8,
            kind::SHIFT_LEFT..=kind::SHIFT_RIGHT3 => 9,
            kind::PLUS | kind::MINUS => 10,
            kind::STAR..=kind::PERCENT => 11,
            kind::STAR2 => 12,
            _ => 0,
        };
        k += 1;
    }
    table
}

/// The level of a kind as the crate has it, As and Satisfies among the comparisons.
pub fn precedence(kind: u8) -> u8 {
    LEVELS[kind as usize]
}

/// The level by which the reader goes: As and Satisfies are no operators of JavaScript.
pub fn expression_precedence(kind: u8) -> u8 {
    if matches!(kind, kind::AS | kind::SATISFIES) { 0 } else { precedence(kind) }
}
