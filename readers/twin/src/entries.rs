//! The twin as what protocol.rs asks.
use crate::protocol::{Entries, Read, Refused};
use crate::{Answer, Cause};

pub struct Twin;

fn refused(cause: Cause) -> Refused {
    (cause.number as u32, cause.place)
}

fn counts(answer: Answer) -> Result<Read, Refused> {
    answer.map(|c| [c.rows, c.records, c.abandoned]).map_err(refused)
}

impl Entries for Twin {
    fn read(kinds: &[u8], flags: &[u8], rows: &mut [u32], records: &mut [u32]) -> Result<Read, Refused> {
        counts(crate::read(kinds, flags, rows, records))
    }
    fn pattern(kinds: &[u8], flags: &[u8], rows: &mut [u32], records: &mut [u32]) -> Result<Read, Refused> {
        counts(crate::pattern(kinds, flags, rows, records))
    }
    fn convert(tree: &mut [u32], row: usize, records: &mut [u32]) -> Result<Read, Refused> {
        counts(crate::convert(tree, row, records))
    }
    fn subtree(tree: &[u32], row: usize) -> (usize, usize) {
        let part = crate::subtree(tree, row);
        if part.is_empty() {
            return (0, 0);
        }
        ((part.as_ptr() as usize - tree.as_ptr() as usize) / 4, part.len())
    }
    fn three_way(kinds: &[u8], flags: &[u8], ts: bool, jsx: bool, place: usize) -> Result<u8, Refused> {
        crate::three_way(kinds, flags, ts, jsx, place).map(|answer| answer as u8).map_err(refused)
    }
    fn precedence(kind: u8) -> u8 {
        crate::operator::precedence(kind)
    }
    fn expression_precedence(kind: u8) -> u8 {
        crate::operator::expression_precedence(kind)
    }
}
