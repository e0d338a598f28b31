//! The reader of docs/RULES.md in safe Rust without a heap, tuned as the proved reader is: quick passes for the checks (`check.rs`), expressions of
//! one token at once and chains by a loop (`parse.rs`), plain kids of patterns without a call (`target.rs`). Answers and words are those of the
//! plain twin, with which it shares the numbers, the levels of operators, the check of trees that others lend, and the entries that do not read.
#![forbid(unsafe_code)]
mod arrow;
mod check;
mod parse;
mod target;

use parse::Entry;
use target::Want;
use twin::entries::Twin;
use twin::protocol::{Entries, Read, Refused};
use twin::row::{SIZE, WORDS};
use twin::{Answer, Cause, Counts, MAX_TOKENS, Refusal};

/// Reads by one start of the grammar, and leaves both buffers as RULES A17 to A19 say.
fn run(entry: Entry, kinds: &[u8], flags: &[u8], rows: &mut [u32], records: &mut [u32]) -> Answer {
    check::lists(kinds, flags, rows, records)?;
    let answer = parse::whole(entry, kinds, flags, rows, records);
    let (row_words, record_words) = answer.map_or((0, 0), |counts| (WORDS * counts.rows, 2 * counts.records));
    rows[row_words..].fill(0);
    records[record_words..].fill(0);
    answer
}

/// The list is one Expression, then end.
pub fn read(kinds: &[u8], flags: &[u8], rows: &mut [u32], records: &mut [u32]) -> Answer {
    run(Entry::Expression, kinds, flags, rows, records)
}

/// The list is one binding with an optional initializer, then end.
pub fn pattern(kinds: &[u8], flags: &[u8], rows: &mut [u32], records: &mut [u32]) -> Answer {
    run(Entry::Binding, kinds, flags, rows, records)
}

/// Converts a row of a tree to any target. Refused, it changes no word.
pub fn convert(tree: &mut [u32], row: usize, records: &mut [u32]) -> Answer {
    let refuse = |number| Err(Cause::new(number, 0));
    if tree.is_empty() || tree.len() > WORDS * MAX_TOKENS {
        return refuse(Refusal::Length);
    }
    if twin::well_formed(tree).is_none() {
        return refuse(Refusal::Tree);
    }
    if row >= tree.len() / WORDS {
        return refuse(Refusal::Outside);
    }
    let size = tree[WORDS * row + SIZE] as usize;
    if records.len() < 2 * size {
        return refuse(Refusal::RecordRoom);
    }
    let count = target::judge(tree, row, Want::Any)?;
    target::turn(tree, row, records, count);
    records[2 * count..].fill(0);
    Ok(Counts { rows: size, records: count, abandoned: 0 })
}

/// The tuned twin as what the protocol asks.
pub struct Tuned;

/// The numbers of an answer.
fn numbers(answer: Answer) -> Result<Read, Refused> {
    answer.map(|counts| [counts.rows, counts.records, counts.abandoned]).map_err(|cause| (cause.number as u32, cause.place))
}

impl Entries for Tuned {
    fn read(kinds: &[u8], flags: &[u8], rows: &mut [u32], records: &mut [u32]) -> Result<Read, Refused> {
        numbers(read(kinds, flags, rows, records))
    }
    fn pattern(kinds: &[u8], flags: &[u8], rows: &mut [u32], records: &mut [u32]) -> Result<Read, Refused> {
        numbers(pattern(kinds, flags, rows, records))
    }
    fn convert(tree: &mut [u32], row: usize, records: &mut [u32]) -> Result<Read, Refused> {
        numbers(convert(tree, row, records))
    }
    fn subtree(tree: &[u32], row: usize) -> (usize, usize) {
        Twin::subtree(tree, row)
    }
    fn three_way(kinds: &[u8], flags: &[u8], ts: bool, jsx: bool, place: usize) -> Result<u8, Refused> {
        Twin::three_way(kinds, flags, ts, jsx, place)
    }
    fn precedence(kind: u8) -> u8 {
        Twin::precedence(kind)
    }
    fn expression_precedence(kind: u8) -> u8 {
        Twin::expression_precedence(kind)
    }
}
