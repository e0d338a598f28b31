//! The three-way answer without types and JSX, as a reading asks for it: could an arrow function's parenthesized head start here?
use twin::arrow::Tristate::{self, False, Maybe, True};
use twin::kind::{self, is_binding_identifier, is_literal, is_modifier};

/// The kind at a place; past the end it is 0.
fn at(kinds: &[u8], place: usize) -> u8 {
    kinds.get(place).copied().unwrap_or(0)
}

/// The answer at a place where `(` or Async stands.
pub fn three_way(kinds: &[u8], flags: &[u8], place: usize) -> Tristate {
    if at(kinds, place) == kind::L_PAREN {
        return after_paren(kinds, place + 1);
    }
    if flags.get(place + 1) == Some(&1) {
        return False;
    }
    match at(kinds, place + 1) {
        kind::L_PAREN => after_paren(kinds, place + 2),
        kind::L_ANGLE if is_binding_identifier(at(kinds, place + 2)) || at(kinds, place + 2) == kind::CONST => Maybe,
        _ => False,
    }
}

/// After `(` or `async (`.
fn after_paren(kinds: &[u8], place: usize) -> Tristate {
    let third = at(kinds, place + 1);
    match at(kinds, place) {
        kind::R_PAREN if matches!(third, kind::ARROW | kind::L_CURLY) => True,
        kind::L_BRACK | kind::L_CURLY => Maybe,
        kind::DOT3 if third == kind::IDENT => True,
        kind::DOT3 if !is_literal(third) => Maybe,
        second if is_modifier(second) && second != kind::ASYNC && is_binding_identifier(third) => {
            if third == kind::AS {
                False
            } else {
                True
            }
        }
        second if is_binding_identifier(second) || second == kind::THIS => match third {
            kind::COMMA | kind::EQ | kind::R_PAREN => Maybe,
            kind::COLON => True,
            kind::QUESTION if matches!(at(kinds, place + 2), kind::COLON | kind::COMMA | kind::EQ | kind::R_PAREN) => True,
            _ => False,
        },
        _ => False,
    }
}
