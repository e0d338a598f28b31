//! Turning expressions into assignment targets (grammar.rs of the crate), in place: only kind words change.
//! Kids stand from the last to the first below their parent, so one walk judges, from the right, with the leftmost cause winning, and
//! a second one turns the rows and fills the records from the back.
use crate::row::*;
use crate::{Cause, Refusal};

/// What a row is wanted as.
#[derive(Clone, Copy, PartialEq, Eq)]
pub enum Want {
    /// A name, Member or Index, or such in parentheses.
    Simple,
    /// A simple target or a pattern.
    Any,
    /// A target with an optional default: an element or a property's value.
    Element,
}

type Count = Result<usize, Cause>;

/// The row just below a subtree, which is the next kid from the right.
fn below(rows: &[Row], at: usize) -> usize {
    at.wrapping_sub(rows[at][SIZE] as usize)
}

/// The number of records that turning this row will give, or the first cause why it is no target.
pub fn judge(rows: &[Row], at: usize, want: Want) -> Count {
    let row = &rows[at];
    match row[KIND] {
        IDENTIFIER | MEMBER | INDEX => Ok(0),
        PAREN => match rows[at - 1][KIND] {
            ARRAY..=OBJECT_REST_COMMA => Err(Cause::new(Refusal::NoTarget, row[FIRST])),
            _ => judge(rows, at - 1, Want::Simple),
        },
        ARRAY..=OBJECT_REST_COMMA if want != Want::Simple => judge_parts(rows, at),
        ASSIGN if want == Want::Element => Ok(0),
        COMPOUND_ASSIGN if want == Want::Element => Ok(1),
        _ => Err(Cause::new(Refusal::NoTarget, row[FIRST])),
    }
}

/// The parts of a literal, from the right.
fn judge_parts(rows: &[Row], at: usize) -> Count {
    let kids = rows[at][KIDS];
    let mut sum = Ok(0);
    let mut kid = at - 1;
    for after in 0..kids {
        let one = match rows[kid][KIND] {
            HOLE | SHORTHAND | SHORTHAND_INIT => Ok(0),
            SPREAD if after > 0 => Err(Cause::new(Refusal::SpreadNotLast, rows[kid][FIRST])),
            SPREAD => judge(rows, kid - 1, Want::Any).map(|n| n + wrong_rest(rows, at, kid - 1) as usize + has_comma(rows[at][KIND]) as usize),
            PROPERTY => judge(rows, kid - 1, Want::Element),
            _ => judge(rows, kid, Want::Element),
        };
        sum = one.and_then(|n| sum.map(|m: usize| m + n));
        kid = below(rows, kid);
    }
    sum
}

/// A comma stands after the literal's closing spread.
fn has_comma(kind: u32) -> bool {
    matches!(kind, ARRAY_REST_COMMA | OBJECT_REST_COMMA)
}

/// Record 3: what the rest takes, through parentheses, is no name, Member or Index, nor in an array an Array or Object.
fn wrong_rest(rows: &[Row], literal: usize, argument: usize) -> bool {
    let mut inner = argument;
    while rows[inner][KIND] == PAREN {
        inner -= 1;
    }
    match rows[inner][KIND] {
        IDENTIFIER | MEMBER | INDEX => false,
        ARRAY..=OBJECT_REST_COMMA => rows[literal][KIND] >= OBJECT,
        _ => true,
    }
}

/// Where the records go: filled from the back.
struct Back<'a> {
    records: &'a mut [u32],
    at: usize,
}

impl Back<'_> {
    fn say(&mut self, number: u32, place: u32) {
        self.at -= 2;
        self.records[self.at] = number;
        self.records[self.at + 1] = place;
    }
}

/// Turns a row that was judged; its records end at `end` pairs.
pub fn turn(rows: &mut [Row], at: usize, records: &mut [u32], end: usize) {
    turn_row(rows, at, &mut Back { records, at: 2 * end });
}

fn turn_row(rows: &mut [Row], at: usize, back: &mut Back) {
    let kind = rows[at][KIND];
    rows[at][KIND] = match kind {
        IDENTIFIER => TARGET_NAME,
        MEMBER => TARGET_MEMBER,
        INDEX => TARGET_INDEX,
        PAREN => {
            turn_row(rows, at - 1, back);
            TARGET_PAREN
        }
        COMPOUND_ASSIGN => {
            back.say(5, rows[at][MARK]);
            TARGET_DEFAULT
        }
        ASSIGN => TARGET_DEFAULT,
        _ => {
            turn_parts(rows, at, back);
            if kind < OBJECT { TARGET_ARRAY } else { TARGET_OBJECT }
        }
    };
}

/// The parts of a literal, from the right; the literal's own row still has its old kind.
fn turn_parts(rows: &mut [Row], at: usize, back: &mut Back) {
    let mut kid = at - 1;
    for _ in 0..rows[at][KIDS] {
        let next = below(rows, kid);
        match rows[kid][KIND] {
            HOLE => {}
            SHORTHAND => {
                rows[kid - 1][KIND] = TARGET_NAME;
                rows[kid][KIND] = TARGET_SHORTHAND;
            }
            SHORTHAND_INIT => {
                let name = next.wrapping_add(1);
                rows[name][KIND] = TARGET_NAME;
                rows[kid][KIND] = TARGET_SHORTHAND_INIT;
            }
            SPREAD => turn_rest(rows, at, kid, back),
            PROPERTY => {
                turn_row(rows, kid - 1, back);
                rows[kid][KIND] = TARGET_PROPERTY;
            }
            _ => turn_row(rows, kid, back),
        }
        kid = next;
    }
}

/// A closing spread: arrays say 3, the argument's records, 4; objects 3, 4, the argument's.
fn turn_rest(rows: &mut [Row], literal: usize, spread: usize, back: &mut Back) {
    let wrong = wrong_rest(rows, literal, spread - 1);
    let place = rows[spread - 1][FIRST];
    let [kind, _, first, ..] = rows[literal];
    if kind < OBJECT {
        if has_comma(kind) {
            back.say(4, first);
        }
        turn_row(rows, spread - 1, back);
    } else {
        turn_row(rows, spread - 1, back);
        if has_comma(kind) {
            back.say(4, first);
        }
    }
    if wrong {
        back.say(3, place);
    }
    rows[spread][KIND] = TARGET_REST;
}
