//! Safe functions over the archive of Vuolmaset, a proved reader of JavaScript expressions.
//!
//! Every function takes any bytes, words and lengths: a list is read, or refused by a number and a place. Rust's own rules are all that the archive
//! asks of its caller (lists that are lent for writing overlap nothing), so no safe call can be a wrong one. There is no heap and no global state. The
//! archive wants the function `memset` of its surroundings, and nothing else.
//!
//! Stack: a call takes it by the brackets that are open at once in what it reads, and a conversion by the rows that stand below one another. [`STACK`]
//! bytes are enough for every list, [`CONVERT_STACK`] for every tree. A thread whose stack is shorter can run past its end: where there is a guard page
//! the program is stopped, on a box without one memory is overwritten. A safe call is safe only on a stack that is long enough.
//!
//! A tree is six words a row, and all of the slice that is given: after a reading that is the beginning of the buffer that was lent.
//!
//! ```
//! let (kinds, flags) = ([20, 1, 24, 1, 21], [0; 5]); // [a, b]
//! let (mut rows, mut records) = ([0; 6 * 2048], [0; 2 * 2048]);
//! let counts = vuolmaset::read(&kinds, &flags, &mut rows, &mut records).unwrap();
//! let (tree, last) = (&mut rows[..6 * counts.rows], counts.rows - 1);
//! assert_eq!(vuolmaset::subtree(tree, 0).len(), 6);
//! assert!(vuolmaset::convert(tree, last, &mut records).is_ok());
//! // The whole buffer is no tree: the words past the rows are 0.
//! assert_eq!(vuolmaset::convert(&mut rows, last, &mut records).unwrap_err().to_string(), "refusal 13 at 0: the words are no well-formed tree");
//! ```
#![no_std]
#![warn(missing_docs)]

mod sentences;

pub use sentences::{record_sentence, refusal_sentence};

/// Bytes of stack that are enough for a call of every function but [`convert`], of any list: VUOLMASET_STACK of include/vuolmaset.h. It is a bound for the
/// archive as it is built for x86-64, from its object code by tools/stack.py, and no theorem: the header says what it rests on. The frames of this crate,
/// some hundred bytes, come on top.
pub const STACK: usize = 90_112;

/// Bytes of stack that are enough for a call of [`convert`], of any tree: VUOLMASET_CONVERT_STACK, a bound of the same kind.
pub const CONVERT_STACK: usize = 230_400;

mod archive {
    extern "C" {
        pub fn vuolmaset_read(
            kinds: *const u8, kind_count: usize, flags: *const u8, flag_count: usize, rows: *mut u32, row_words: usize, records: *mut u32,
            record_words: usize, first: *mut usize, second: *mut usize, third: *mut usize,
        ) -> u32;
        pub fn vuolmaset_pattern(
            kinds: *const u8, kind_count: usize, flags: *const u8, flag_count: usize, rows: *mut u32, row_words: usize, records: *mut u32,
            record_words: usize, first: *mut usize, second: *mut usize, third: *mut usize,
        ) -> u32;
        pub fn vuolmaset_convert(
            tree: *mut u32, tree_words: usize, row: usize, records: *mut u32, record_words: usize, first: *mut usize, second: *mut usize,
            third: *mut usize,
        ) -> u32;
        pub fn vuolmaset_three_way(
            kinds: *const u8, kind_count: usize, flags: *const u8, flag_count: usize, is_ts: bool, is_jsx: bool, at: usize, told: *mut usize,
        ) -> u32;
        pub fn vuolmaset_subtree(tree: *const u32, tree_words: usize, row: usize) -> usize;
        pub fn vuolmaset_precedence(kind: u8) -> u8;
        pub fn vuolmaset_expression_precedence(kind: u8) -> u8;
    }
}

/// A list or a tree is refused: by one of the numbers 1 to 14, at a token or a row.
#[derive(Clone, Copy, Debug, PartialEq, Eq)]
pub struct Refused {
    /// Which of the refusals; [`refusal_sentence`] says what it means.
    pub number: u32,
    /// The token, or 0.
    pub place: usize,
}

/// The number, the place and the sentence.
impl core::fmt::Display for Refused {
    fn fmt(&self, to: &mut core::fmt::Formatter) -> core::fmt::Result {
        write!(to, "refusal {} at {}: {}", self.number, self.place, refusal_sentence(self.number).unwrap_or("no such number"))
    }
}

/// What was read.
#[derive(Clone, Copy, Debug, PartialEq, Eq)]
pub struct Counts {
    /// How many rows the tree has, six words each.
    pub rows: usize,
    /// How many records there are, two words each: a number, of which [`record_sentence`] says what it means, and a place.
    pub records: usize,
    /// How many arrow heads were tried and given up.
    pub abandoned: usize,
}

/// Whether an arrow function's head starts at a place.
#[derive(Clone, Copy, Debug, PartialEq, Eq)]
pub enum Tristate {
    /// It does not.
    False,
    /// It does.
    True,
    /// Only reading it tells.
    Maybe,
}

fn answer(number: u32, first: usize, second: usize, third: usize) -> Result<Counts, Refused> {
    match number {
        0 => Ok(Counts { rows: first, records: second, abandoned: third }),
        _ => Err(Refused { number, place: first }),
    }
}

/// Reads a list of tokens that is one Expression: 6 words of `rows` and 2 of `records` are asked for each token.
pub fn read(kinds: &[u8], flags: &[u8], rows: &mut [u32], records: &mut [u32]) -> Result<Counts, Refused> {
    let (mut first, mut second, mut third) = (0, 0, 0);
    // Slices are good for their lengths, and what is lent for writing is not shared.
    let number = unsafe {
        archive::vuolmaset_read(
            kinds.as_ptr(), kinds.len(), flags.as_ptr(), flags.len(), rows.as_mut_ptr(), rows.len(), records.as_mut_ptr(), records.len(),
            &mut first, &mut second, &mut third,
        )
    };
    answer(number, first, second, third)
}

/// Reads a list of tokens that is one binding with an optional initializer.
pub fn pattern(kinds: &[u8], flags: &[u8], rows: &mut [u32], records: &mut [u32]) -> Result<Counts, Refused> {
    let (mut first, mut second, mut third) = (0, 0, 0);
    // As in `read`.
    let number = unsafe {
        archive::vuolmaset_pattern(
            kinds.as_ptr(), kinds.len(), flags.as_ptr(), flags.len(), rows.as_mut_ptr(), rows.len(), records.as_mut_ptr(), records.len(),
            &mut first, &mut second, &mut third,
        )
    };
    answer(number, first, second, third)
}

/// Turns a row of a tree into an assignment target. Refused, no word changes. `tree` is the tree's rows and no more, as `&mut rows[..6 * counts.rows]` after
/// a reading; a longer buffer is refused with 13.
pub fn convert(tree: &mut [u32], row: usize, records: &mut [u32]) -> Result<Counts, Refused> {
    let (mut first, mut second, mut third) = (0, 0, 0);
    // As in `read`.
    let number = unsafe {
        archive::vuolmaset_convert(
            tree.as_mut_ptr(), tree.len(), row, records.as_mut_ptr(), records.len(), &mut first, &mut second, &mut third,
        )
    };
    answer(number, first, second, third)
}

/// The three-way answer at a place.
pub fn three_way(kinds: &[u8], flags: &[u8], is_ts: bool, is_jsx: bool, at: usize) -> Result<Tristate, Refused> {
    let mut told = 0;
    // As in `read`.
    let number =
        unsafe { archive::vuolmaset_three_way(kinds.as_ptr(), kinds.len(), flags.as_ptr(), flags.len(), is_ts, is_jsx, at, &mut told) };
    match (number, told) {
        (0, 0) => Ok(Tristate::False),
        (0, 1) => Ok(Tristate::True),
        (0, _) => Ok(Tristate::Maybe),
        (_, place) => Err(Refused { number, place }),
    }
}

/// The words of a row's subtree; none if the words are no well-formed tree or the row is outside. `tree` is the tree's rows and no more, as for
/// [`convert`].
pub fn subtree(tree: &[u32], row: usize) -> &[u32] {
    // As in `read`.
    let words = unsafe { archive::vuolmaset_subtree(tree.as_ptr(), tree.len(), row) };
    if words == 0 {
        return &[];
    }
    let end = 6 * (row + 1);
    &tree[end - words..end]
}

/// The level of a kind in the table of binary operators, 1 to 12, or 0.
pub fn precedence(kind: u8) -> u8 {
    // Numbers only.
    unsafe { archive::vuolmaset_precedence(kind) }
}

/// The same in an expression, where `as` and `satisfies` are no operators.
pub fn expression_precedence(kind: u8) -> u8 {
    // Numbers only.
    unsafe { archive::vuolmaset_expression_precedence(kind) }
}
