//! The row kinds (RULES R5). A row is six words: kind, mark, first, end, kids, size.

macro_rules! rows {
    ($($name:ident = $number:literal),* $(,)?) => { $(pub const $name: u32 = $number;)* };
}

rows! {
    IDENTIFIER = 1, THIS = 2, LITERAL = 3, PAREN = 4, ARRAY = 5, ARRAY_REST_COMMA = 6, OBJECT = 7, OBJECT_REST_COMMA = 8, HOLE = 9,
    SPREAD = 10, SHORTHAND = 11, SHORTHAND_INIT = 12, PROPERTY = 13, KEY = 14, COMPUTED_KEY = 15, MEMBER = 16, INDEX = 17, CALL = 18,
    UNARY = 19, PREFIX_UPDATE = 20, POSTFIX_UPDATE = 21, BINARY = 22, LOGICAL = 23, CONDITIONAL = 24, ASSIGN = 25, COMPOUND_ASSIGN = 26,
    SEQUENCE = 27, ARROW = 28, ASYNC_ARROW = 29, BINDING_NAME = 30, BINDING_ARRAY = 31, BINDING_OBJECT = 32, BINDING_REST = 33,
    BINDING_DEFAULT = 34, BINDING_SHORTHAND = 35, BINDING_SHORTHAND_INIT = 36, TARGET_NAME = 40, TARGET_PAREN = 41, TARGET_ARRAY = 42,
    TARGET_OBJECT = 43, TARGET_REST = 44, TARGET_DEFAULT = 45, TARGET_MEMBER = 46, TARGET_INDEX = 47, TARGET_PROPERTY = 48,
    TARGET_SHORTHAND = 49, TARGET_SHORTHAND_INIT = 50,
}

pub const WORDS: usize = 6;

/// A row's words.
pub type Row = [u32; WORDS];

/// The rows of words, and what is left over: `as_chunks` of Rust 1.88, for older ones.
pub fn rows_of(words: &[u32]) -> (&[Row], &[u32]) {
    let (whole, more) = words.split_at(words.len() - words.len() % WORDS);
    // A row is so many words in a line, and `whole` holds so many rows.
    (unsafe { std::slice::from_raw_parts(whole.as_ptr().cast(), whole.len() / WORDS) }, more)
}

/// The rows of words, to be written; what is left over is not given.
pub fn rows_of_mut(words: &mut [u32]) -> &mut [Row] {
    // As in `rows_of`.
    unsafe { std::slice::from_raw_parts_mut(words.as_mut_ptr().cast(), words.len() / WORDS) }
}

// The words of a row.
pub const KIND: usize = 0;
pub const MARK: usize = 1;
pub const FIRST: usize = 2;
pub const END: usize = 3;
pub const KIDS: usize = 4;
pub const SIZE: usize = 5;
