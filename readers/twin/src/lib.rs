//! The reader of docs/RULES.md as plain Rust without a heap, safe but for seeing six words as a row (`row.rs`): the same bytes into the same rows
//! as the proved reader, written from the rules and ECMA-262. It is what the proved reader is timed and compared with.
pub mod arrow;
pub mod entries;
pub mod kind;
pub mod operator;
mod parse;
pub mod protocol;
pub mod row;
mod target;
mod tree;

use arrow::Tristate;
use target::Want;

pub use tree::{subtree, well_formed};

/// The numbers of RULES A1 to A14.
#[derive(Clone, Copy, PartialEq, Eq, Debug)]
#[repr(u8)]
pub enum Refusal {
    Length = 1,
    FlagLength = 2,
    RowRoom = 3,
    RecordRoom = 4,
    Flag = 5,
    Kind = 6,
    Nesting = 7,
    Unexpected = 8,
    NoTarget = 9,
    SpreadNotLast = 10,
    RestName = 11,
    RestLast = 12,
    Tree = 13,
    Outside = 14,
}

/// Why a list was refused, and where.
#[derive(Clone, Copy, PartialEq, Eq, Debug)]
pub struct Cause {
    pub number: Refusal,
    pub place: u32,
}

impl Cause {
    pub fn new(number: Refusal, place: u32) -> Cause {
        Cause { number, place }
    }
}

/// The three counts of a reading.
#[derive(Clone, Copy, PartialEq, Eq, Debug)]
pub struct Counts {
    pub rows: usize,
    pub records: usize,
    pub abandoned: usize,
}

pub type Answer = Result<Counts, Cause>;

pub const MAX_TOKENS: usize = 2048;
const MAX_OPEN: usize = 64;

fn refuse<T>(number: Refusal, place: usize) -> Result<T, Cause> {
    Err(Cause::new(number, place as u32))
}

/// Check 1 and 2.
fn check_lengths(kinds: &[u8], flags: &[u8]) -> Result<(), Cause> {
    if kinds.is_empty() || kinds.len() > MAX_TOKENS {
        return refuse(Refusal::Length, 0);
    }
    if flags.len() != kinds.len() {
        return refuse(Refusal::FlagLength, 0);
    }
    Ok(())
}

/// Check 5, over all flags, then 6.
fn check_bytes(kinds: &[u8], flags: &[u8]) -> Result<(), Cause> {
    if let Some(place) = flags.iter().position(|&flag| flag > 1) {
        return refuse(Refusal::Flag, place);
    }
    if let Some(place) = kinds.iter().position(|&k| k == 0 || k > kind::STAR2_EQ) {
        return refuse(Refusal::Kind, place);
    }
    Ok(())
}

/// Check 7: any closing token takes one away, not below 0.
fn check_nesting(kinds: &[u8]) -> Result<(), Cause> {
    let mut open: usize = 0;
    for (place, &k) in kinds.iter().enumerate() {
        match k {
            kind::L_PAREN | kind::L_BRACK | kind::L_CURLY => {
                open += 1;
                if open > MAX_OPEN {
                    return refuse(Refusal::Nesting, place);
                }
            }
            kind::R_PAREN | kind::R_BRACK | kind::R_CURLY => open = open.saturating_sub(1),
            _ => {}
        }
    }
    Ok(())
}

/// The checks 1 to 7, in this order.
fn check(kinds: &[u8], flags: &[u8], rows: &[u32], records: &[u32]) -> Result<(), Cause> {
    check_lengths(kinds, flags)?;
    if rows.len() < row::WORDS * kinds.len() {
        return refuse(Refusal::RowRoom, 0);
    }
    if records.len() < 2 * kinds.len() {
        return refuse(Refusal::RecordRoom, 0);
    }
    check_bytes(kinds, flags)?;
    check_nesting(kinds)
}

/// Reads by one start of the grammar, and leaves both buffers as RULES A17 to A19 say.
fn run(entry: parse::Entry, kinds: &[u8], flags: &[u8], rows: &mut [u32], records: &mut [u32]) -> Answer {
    check(kinds, flags, rows, records)?;
    let answer = parse::whole(entry, kinds, flags, row::rows_of_mut(rows), records);
    let (row_words, record_words) = match answer {
        Ok(counts) => (row::WORDS * counts.rows, 2 * counts.records),
        Err(_) => (0, 0),
    };
    rows[row_words..].fill(0);
    records[record_words..].fill(0);
    answer
}

/// The list is one Expression, then end.
pub fn read(kinds: &[u8], flags: &[u8], rows: &mut [u32], records: &mut [u32]) -> Answer {
    run(parse::Entry::Expression, kinds, flags, rows, records)
}

/// The list is one binding with an optional initializer, then end.
pub fn pattern(kinds: &[u8], flags: &[u8], rows: &mut [u32], records: &mut [u32]) -> Answer {
    run(parse::Entry::Binding, kinds, flags, rows, records)
}

/// Converts a row of a tree to any target. Refused, it changes no word.
pub fn convert(tree: &mut [u32], row: usize, records: &mut [u32]) -> Answer {
    if tree.is_empty() || tree.len() > row::WORDS * MAX_TOKENS {
        return refuse(Refusal::Length, 0);
    }
    let rows = match well_formed(tree) {
        Some(rows) => rows,
        None => return refuse(Refusal::Tree, 0),
    };
    if row >= rows.len() {
        return refuse(Refusal::Outside, 0);
    }
    let size = rows[row][row::SIZE] as usize;
    if records.len() < 2 * size {
        return refuse(Refusal::RecordRoom, 0);
    }
    let count = target::judge(rows, row, Want::Any)?;
    target::turn(row::rows_of_mut(tree), row, records, count);
    records[2 * count..].fill(0);
    Ok(Counts { rows: size, records: count, abandoned: 0 })
}

/// The three-way answer as an entry.
pub fn three_way(kinds: &[u8], flags: &[u8], ts: bool, jsx: bool, place: usize) -> Result<Tristate, Cause> {
    check_lengths(kinds, flags)?;
    check_bytes(kinds, flags)?;
    if place >= kinds.len() {
        return refuse(Refusal::Outside, 0);
    }
    Ok(arrow::three_way(kinds, flags, place, ts, jsx))
}
