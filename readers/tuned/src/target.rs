//! Turning expressions into assignment targets in place, as the plain twin does: a walk that judges, from the right, with the leftmost cause
//! winning, and a walk that turns and fills the records from the back. Both pass over plain kids without a call.
use twin::row::*;
use twin::{Cause, Refusal};

/// What a row is wanted as.
#[derive(Clone, Copy, PartialEq, Eq)]
pub enum Want {
    /// A name, Member or Index, or such in parentheses.
    Simple,
    /// A simple target or a pattern.
    Any,
    /// A target with an optional default: an element or a property's value.
    Element,
}

type Count = Result<usize, Cause>;

fn kind(rows: &[u32], at: usize) -> u32 {
    rows[WORDS * at + KIND]
}

fn first(rows: &[u32], at: usize) -> u32 {
    rows[WORDS * at + FIRST]
}

fn set_kind(rows: &mut [u32], at: usize, kind: u32) {
    rows[WORDS * at + KIND] = kind;
}

/// The row just below a subtree, which is the next kid from the right.
fn below(rows: &[u32], at: usize) -> usize {
    at.wrapping_sub(rows[WORDS * at + SIZE] as usize)
}

/// What a name, Member or Index becomes; 0 for any other row.
pub fn simple(kind: u32) -> u32 {
    match kind {
        IDENTIFIER => TARGET_NAME,
        MEMBER => TARGET_MEMBER,
        INDEX => TARGET_INDEX,
        _ => 0,
    }
}

/// What a plain element or value becomes, one that turns by its kind word alone and without a record; 0 for any other row.
fn plain(kind: u32) -> u32 {
    match kind {
        HOLE => HOLE,
        ASSIGN => TARGET_DEFAULT,
        _ => simple(kind),
    }
}

/// The number of records that turning this row will give, or the first cause why it is no target.
pub fn judge(rows: &[u32], at: usize, want: Want) -> Count {
    match kind(rows, at) {
        IDENTIFIER | MEMBER | INDEX => Ok(0),
        ARRAY..=OBJECT_REST_COMMA if want != Want::Simple => judge_parts(rows, at),
        ASSIGN if want == Want::Element => Ok(0),
        COMPOUND_ASSIGN if want == Want::Element => Ok(1),
        PAREN if !matches!(kind(rows, at - 1), ARRAY..=OBJECT_REST_COMMA) => judge(rows, at - 1, Want::Simple),
        _ => Err(Cause::new(Refusal::NoTarget, first(rows, at))),
    }
}

/// The parts of a literal, from the right.
fn judge_parts(rows: &[u32], at: usize) -> Count {
    let mut sum = Ok(0);
    let mut kid = at - 1;
    for after in 0..rows[WORDS * at + KIDS] {
        let one = match kind(rows, kid) {
            IDENTIFIER | MEMBER | INDEX | ASSIGN | HOLE | SHORTHAND | SHORTHAND_INIT => Ok(0),
            PROPERTY if plain(kind(rows, kid - 1)) != 0 => Ok(0),
            PROPERTY => judge(rows, kid - 1, Want::Element),
            SPREAD => judge_rest(rows, at, kid, after),
            _ => judge(rows, kid, Want::Element),
        };
        if let Ok(1..) | Err(_) = one {
            sum = one.and_then(|n| sum.map(|m: usize| m + n));
        }
        kid = below(rows, kid);
    }
    sum
}

/// A spread with so many parts after it.
fn judge_rest(rows: &[u32], literal: usize, spread: usize, after: u32) -> Count {
    if after > 0 {
        return Err(Cause::new(Refusal::SpreadNotLast, first(rows, spread)));
    }
    let said = wrong_rest(rows, literal, spread - 1) as usize + has_comma(kind(rows, literal)) as usize;
    judge(rows, spread - 1, Want::Any).map(|count| count + said)
}

/// A comma stands after the literal's closing spread.
fn has_comma(kind: u32) -> bool {
    matches!(kind, ARRAY_REST_COMMA | OBJECT_REST_COMMA)
}

/// Record 3: what the rest takes, through parentheses, is no name, Member or Index, nor in an array an Array or Object.
fn wrong_rest(rows: &[u32], literal: usize, argument: usize) -> bool {
    let mut inner = argument;
    while kind(rows, inner) == PAREN {
        inner -= 1;
    }
    match kind(rows, inner) {
        IDENTIFIER | MEMBER | INDEX => false,
        ARRAY..=OBJECT_REST_COMMA => kind(rows, literal) >= OBJECT,
        _ => true,
    }
}

/// Where the records go: filled from the back.
struct Back<'a> {
    records: &'a mut [u32],
    at: usize,
}

impl Back<'_> {
    fn say(&mut self, number: u32, place: u32) {
        self.at -= 2;
        self.records[self.at..self.at + 2].copy_from_slice(&[number, place]);
    }
}

/// Turns a row that was judged; its records end at `end` pairs.
pub fn turn(rows: &mut [u32], at: usize, records: &mut [u32], end: usize) {
    turn_row(rows, at, &mut Back { records, at: 2 * end });
}

fn turn_row(rows: &mut [u32], at: usize, back: &mut Back) {
    let kind = kind(rows, at);
    let turned = match kind {
        PAREN => {
            turn_row(rows, at - 1, back);
            TARGET_PAREN
        }
        COMPOUND_ASSIGN => {
            back.say(5, rows[WORDS * at + MARK]);
            TARGET_DEFAULT
        }
        ARRAY..=OBJECT_REST_COMMA => {
            turn_parts(rows, at, back);
            if kind < OBJECT { TARGET_ARRAY } else { TARGET_OBJECT }
        }
        _ => plain(kind),
    };
    set_kind(rows, at, turned);
}

/// The parts of a literal, from the right; the literal's own row still has its old kind.
fn turn_parts(rows: &mut [u32], at: usize, back: &mut Back) {
    let mut kid = at - 1;
    for _ in 0..rows[WORDS * at + KIDS] {
        let next = below(rows, kid);
        match kind(rows, kid) {
            HOLE => {}
            SHORTHAND => {
                set_kind(rows, kid - 1, TARGET_NAME);
                set_kind(rows, kid, TARGET_SHORTHAND);
            }
            SHORTHAND_INIT => {
                set_kind(rows, next.wrapping_add(1), TARGET_NAME);
                set_kind(rows, kid, TARGET_SHORTHAND_INIT);
            }
            PROPERTY => {
                match plain(kind(rows, kid - 1)) {
                    0 => turn_row(rows, kid - 1, back),
                    turned => set_kind(rows, kid - 1, turned),
                }
                set_kind(rows, kid, TARGET_PROPERTY);
            }
            SPREAD => turn_rest(rows, at, kid, back),
            other => match plain(other) {
                0 => turn_row(rows, kid, back),
                turned => set_kind(rows, kid, turned),
            },
        }
        kid = next;
    }
}

/// A closing spread: arrays say 3, the argument's records, 4; objects 3, 4, the argument's.
fn turn_rest(rows: &mut [u32], literal: usize, spread: usize, back: &mut Back) {
    let wrong = wrong_rest(rows, literal, spread - 1);
    let (place, start) = (first(rows, spread - 1), first(rows, literal));
    let kind = kind(rows, literal);
    if kind == ARRAY_REST_COMMA {
        back.say(4, start);
    }
    turn_row(rows, spread - 1, back);
    if kind == OBJECT_REST_COMMA {
        back.say(4, start);
    }
    if wrong {
        back.say(3, place);
    }
    set_kind(rows, spread, TARGET_REST);
}
