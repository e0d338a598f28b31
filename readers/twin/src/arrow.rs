//! The three-way answer: could an arrow function's parenthesized head start here? (arrow.rs of the crate)
use crate::kind::{self, is_binding_identifier, is_literal, is_modifier};

#[derive(Clone, Copy, PartialEq, Eq, Debug)]
pub enum Tristate {
    False,
    True,
    Maybe,
}

use Tristate::{False, Maybe, True};

/// The kind at a place; past the end it is 0.
fn at(kinds: &[u8], place: usize) -> u8 {
    kinds.get(place).copied().unwrap_or(0)
}

/// The answer at a place, False at any start but `(`, `<` and Async.
pub fn three_way(kinds: &[u8], flags: &[u8], place: usize, ts: bool, jsx: bool) -> Tristate {
    match at(kinds, place) {
        kind::L_PAREN => after_paren(kinds, place + 1, ts, false),
        kind::L_ANGLE => after_angle(kinds, place + 1, jsx),
        kind::ASYNC if flags.get(place + 1) == Some(&1) => False,
        kind::ASYNC => match at(kinds, place + 1) {
            kind::L_PAREN => after_paren(kinds, place + 2, ts, true),
            kind::L_ANGLE => after_angle(kinds, place + 2, jsx),
            _ => False,
        },
        _ => False,
    }
}

/// After `(` or `async (`. `(` before a literal is False at once: the worker would say so too.
fn after_paren(kinds: &[u8], place: usize, ts: bool, is_async: bool) -> Tristate {
    let second = at(kinds, place);
    let third = at(kinds, place + 1);
    match second {
        kind::R_PAREN => match third {
            kind::COLON if ts => {
                if is_async {
                    Maybe
                } else {
                    True
                }
            }
            kind::ARROW | kind::L_CURLY => True,
            _ => False,
        },
        kind::L_BRACK | kind::L_CURLY => Maybe,
        kind::DOT3 => match third {
            kind::IDENT => True,
            literal if is_literal(literal) => False,
            _ => Maybe,
        },
        _ if is_modifier(second) && second != kind::ASYNC && is_binding_identifier(third) => {
            if third == kind::AS {
                False
            } else {
                True
            }
        }
        _ if is_binding_identifier(second) || second == kind::THIS => match third {
            kind::COLON => True,
            kind::QUESTION => match at(kinds, place + 2) {
                kind::COLON | kind::COMMA | kind::EQ | kind::R_PAREN => True,
                _ => False,
            },
            kind::COMMA | kind::EQ | kind::R_PAREN => Maybe,
            _ => False,
        },
        _ => False,
    }
}

/// After `<` or `async <`: type parameters, as far as JSX lets them be.
fn after_angle(kinds: &[u8], place: usize, jsx: bool) -> Tristate {
    let second = at(kinds, place);
    if !is_binding_identifier(second) && second != kind::CONST {
        return False;
    }
    if !jsx {
        return Maybe;
    }
    let name = if second == kind::CONST { place + 1 } else { place };
    match at(kinds, name + 1) {
        kind::EXTENDS => match at(kinds, name + 2) {
            kind::EQ | kind::R_ANGLE | kind::SLASH => False,
            fourth if is_binding_identifier(fourth) => Maybe,
            _ => True,
        },
        kind::EQ | kind::COMMA => True,
        _ => False,
    }
}
