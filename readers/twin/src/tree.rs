//! Trees from anywhere: which are well-formed, and the part of one that is a row's subtree.
use crate::row::*;

/// A set of row kinds.
type Set = u64;

const fn set(kinds: &[u32]) -> Set {
    let mut bits = 0;
    let mut i = 0;
    while i < kinds.len() {
        bits |= 1 << kinds[i];
        i += 1;
    }
    bits
}

const fn range(low: u32, high: u32) -> Set {
    let mut bits = 0;
    let mut k = low;
    while k <= high {
        bits |= 1 << k;
        k += 1;
    }
    bits
}

// The levels of expressions (13.3 to 13.16), targets and bindings.
const LEFT_HAND_SIDE: Set = range(IDENTIFIER, OBJECT_REST_COMMA) | range(MEMBER, CALL);
const UNARY_LEVEL: Set = LEFT_HAND_SIDE | range(UNARY, POSTFIX_UPDATE);
const BINARY_LEVEL: Set = UNARY_LEVEL | set(&[BINARY]);
const SHORT_CIRCUIT: Set = BINARY_LEVEL | set(&[LOGICAL]);
const ASSIGNMENT: Set = SHORT_CIRCUIT | range(CONDITIONAL, COMPOUND_ASSIGN) | set(&[ARROW, ASYNC_ARROW]);
const EXPRESSION: Set = ASSIGNMENT | set(&[SEQUENCE]);
const SIMPLE: Set = set(&[TARGET_NAME, TARGET_PAREN, TARGET_MEMBER, TARGET_INDEX]);
const TARGET: Set = SIMPLE | set(&[TARGET_ARRAY, TARGET_OBJECT]);
const BINDING: Set = range(BINDING_NAME, BINDING_OBJECT);
const ELEMENT: Set = BINDING | set(&[BINDING_DEFAULT]);
const KEYS: Set = set(&[KEY, COMPUTED_KEY]);
const NAME: Set = set(&[IDENTIFIER]);

/// The least and the greatest number of kids.
fn counts(kind: u32) -> Option<(u32, u32)> {
    Some(match kind {
        IDENTIFIER | THIS | LITERAL | HOLE | KEY | BINDING_NAME | TARGET_NAME => (0, 0),
        PAREN | SPREAD | SHORTHAND | COMPUTED_KEY | MEMBER | UNARY | PREFIX_UPDATE | POSTFIX_UPDATE | BINDING_REST | BINDING_SHORTHAND | TARGET_PAREN
        | TARGET_REST | TARGET_MEMBER | TARGET_SHORTHAND => (1, 1),
        SHORTHAND_INIT
        | PROPERTY
        | INDEX
        | BINARY
        | LOGICAL
        | ASSIGN
        | COMPOUND_ASSIGN
        | BINDING_DEFAULT
        | BINDING_SHORTHAND_INIT
        | TARGET_DEFAULT
        | TARGET_INDEX
        | TARGET_PROPERTY
        | TARGET_SHORTHAND_INIT => (2, 2),
        CONDITIONAL => (3, 3),
        ARRAY_REST_COMMA | OBJECT_REST_COMMA | CALL | ARROW | ASYNC_ARROW => (1, u32::MAX),
        SEQUENCE => (2, u32::MAX),
        ARRAY | OBJECT | BINDING_ARRAY | BINDING_OBJECT | TARGET_ARRAY | TARGET_OBJECT => (0, u32::MAX),
        _ => return None,
    })
}

/// The first kid's kinds, or those of the kids after it.
fn first_then(before: u32, first: Set, then: Set) -> Set {
    if before == 0 { first } else { then }
}

/// The kinds that may stand as a kid with `before` kids before it and `after` after it.
fn allowed(kind: u32, before: u32, after: u32) -> Set {
    match kind {
        BINDING_NAME..=BINDING_SHORTHAND_INIT => allowed_in_binding(kind, before, after),
        TARGET_NAME..=TARGET_SHORTHAND_INIT => allowed_in_target(kind, before, after),
        ARROW | ASYNC_ARROW if after == 0 => ASSIGNMENT & !set(&[OBJECT, OBJECT_REST_COMMA]),
        ARROW | ASYNC_ARROW if after == 1 => ELEMENT | set(&[BINDING_REST]),
        ARROW | ASYNC_ARROW => ELEMENT,
        ARRAY_REST_COMMA | OBJECT_REST_COMMA if after == 0 => set(&[SPREAD]),
        ARRAY | ARRAY_REST_COMMA => ASSIGNMENT | set(&[HOLE, SPREAD]),
        OBJECT | OBJECT_REST_COMMA => range(SPREAD, PROPERTY),
        PAREN => EXPRESSION,
        SPREAD | COMPUTED_KEY | SEQUENCE => ASSIGNMENT,
        SHORTHAND => NAME,
        SHORTHAND_INIT => first_then(before, NAME, ASSIGNMENT),
        PROPERTY => first_then(before, KEYS, ASSIGNMENT | ELEMENT),
        MEMBER => LEFT_HAND_SIDE,
        INDEX => first_then(before, LEFT_HAND_SIDE, EXPRESSION),
        CALL => first_then(before, LEFT_HAND_SIDE, ASSIGNMENT | set(&[SPREAD])),
        UNARY => UNARY_LEVEL,
        PREFIX_UPDATE | POSTFIX_UPDATE => SIMPLE,
        BINARY => BINARY_LEVEL,
        LOGICAL => SHORT_CIRCUIT,
        CONDITIONAL => first_then(before, SHORT_CIRCUIT, ASSIGNMENT),
        ASSIGN => first_then(before, TARGET, ASSIGNMENT),
        COMPOUND_ASSIGN => first_then(before, SIMPLE, ASSIGNMENT),
        _ => 0,
    }
}

/// The same for the rows of bindings.
fn allowed_in_binding(kind: u32, before: u32, after: u32) -> Set {
    let rest = if after == 0 { set(&[BINDING_REST]) } else { 0 };
    match kind {
        BINDING_ARRAY => ELEMENT | set(&[HOLE]) | rest,
        BINDING_OBJECT => set(&[BINDING_SHORTHAND, BINDING_SHORTHAND_INIT, PROPERTY]) | rest,
        BINDING_REST => ELEMENT,
        BINDING_DEFAULT => first_then(before, BINDING, ASSIGNMENT),
        BINDING_SHORTHAND => set(&[BINDING_NAME]),
        BINDING_SHORTHAND_INIT => first_then(before, set(&[BINDING_NAME]), ASSIGNMENT),
        _ => 0,
    }
}

/// The same for the rows of targets.
fn allowed_in_target(kind: u32, before: u32, after: u32) -> Set {
    let rest = if after == 0 { set(&[TARGET_REST]) } else { 0 };
    match kind {
        TARGET_PAREN => SIMPLE,
        TARGET_ARRAY => TARGET | set(&[HOLE, TARGET_DEFAULT]) | rest,
        TARGET_OBJECT => range(TARGET_PROPERTY, TARGET_SHORTHAND_INIT) | rest,
        TARGET_REST => TARGET,
        TARGET_DEFAULT => first_then(before, TARGET, ASSIGNMENT),
        TARGET_MEMBER => LEFT_HAND_SIDE,
        TARGET_INDEX => first_then(before, LEFT_HAND_SIDE, EXPRESSION),
        TARGET_PROPERTY => first_then(before, KEYS, TARGET | set(&[TARGET_DEFAULT])),
        TARGET_SHORTHAND => set(&[TARGET_NAME]),
        TARGET_SHORTHAND_INIT => first_then(before, set(&[TARGET_NAME]), ASSIGNMENT),
        _ => 0,
    }
}

/// What a kid's own last kid must be, where its parent has a say: a property's value, an object rest's argument.
fn inner(kind: u32, kid: u32) -> Set {
    match (kind, kid) {
        (OBJECT | OBJECT_REST_COMMA, PROPERTY) => ASSIGNMENT,
        (BINDING_OBJECT, PROPERTY) => ELEMENT,
        (BINDING_OBJECT, BINDING_REST) => set(&[BINDING_NAME]),
        _ => Set::MAX,
    }
}

/// One row over rows that were found right: its kids stand just below it and fit, and the sizes add up.
fn stands(rows: &[Row], at: usize) -> bool {
    let [kind, _, _, _, kids, size] = rows[at];
    let (least, most) = match counts(kind) {
        Some(both) => both,
        None => return false,
    };
    if kids < least || most < kids || kids as usize > at {
        return false;
    }
    let mut left = at;
    for after in 0..kids {
        if left == 0 {
            return false;
        }
        let kid = rows[left - 1];
        let last = if left >= 2 { rows[left - 2][KIND] } else { 0 };
        if allowed(kind, kids - 1 - after, after) >> kid[KIND] & 1 == 0 || inner(kind, kid[KIND]) >> last & 1 == 0 {
            return false;
        }
        left -= kid[SIZE] as usize;
    }
    size as usize == at - left + 1
}

/// The rows of these words, if they are one well-formed tree.
pub fn well_formed(words: &[u32]) -> Option<&[Row]> {
    let (rows, more) = rows_of(words);
    let fits = more.is_empty() && !rows.is_empty() && rows.len() <= 2048;
    (fits && (0..rows.len()).all(|at| stands(rows, at)) && rows[rows.len() - 1][SIZE] as usize == rows.len()).then_some(rows)
}

/// The words of a row's subtree, or an empty part where the words are no well-formed tree or the row is outside.
pub fn subtree(words: &[u32], row: usize) -> &[u32] {
    match well_formed(words) {
        Some(rows) if row < rows.len() => {
            let size = rows[row][SIZE] as usize;
            &words[WORDS * (row + 1 - size)..WORDS * (row + 1)]
        }
        _ => &[],
    }
}
