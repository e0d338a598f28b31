//! The two sides: what is asked here, and the crate's functions on the same list.
use super::rows::{Row, Rows};
use crate::ast::{AssignmentTarget, Expression};
use crate::js::CoverGrammar;
use crate::lexer::Kind;
use crate::stand_in::diagnostics::Diagnostic;
use crate::stand_in::guess::Guess;
use crate::stand_in::parser::{Plain, Seen, Settings};
use crate::{GetSpan, ParserImpl};
use lists::List;
use twin::protocol::{Entries, Refused};

/// The entries that are held to the crate: the archive's, or the twin's.
#[cfg(feature = "archive")]
pub type Here = archive::Archive;
#[cfg(not(feature = "archive"))]
pub type Here = twin::entries::Twin;

/// The parser of the five files.
pub type Parser<'a> = ParserImpl<'a, Plain>;

/// What is read.
#[derive(Clone, Copy, PartialEq, Eq, Debug)]
pub enum Entry {
    Expression,
    Binding,
}

/// Memory that each thread has, and the guess that its parsers follow.
pub struct Room {
    rows: Vec<u32>,
    records: Vec<u32>,
    pub kinds: Vec<Kind>,
    pub guess: Guess,
}

impl Room {
    /// Room for the longest sheet.
    pub fn new(guess: Guess) -> Self {
        Room { rows: vec![0; 6 * 2048], records: vec![0; 2 * 2048], kinds: Vec::new(), guess }
    }

    /// Takes over a list's kinds for the crate.
    pub fn take(&mut self, kinds: &[u8]) {
        self.kinds.clear();
        self.kinds.extend(kinds.iter().map(|&byte| Kind::of(byte)));
    }
}

/// A reading here.
pub struct Reading {
    pub refused: Option<Refused>,
    pub rows: Vec<[u32; 6]>,
    /// Numbers and places.
    pub records: Vec<[u32; 2]>,
    pub abandoned: usize,
}

impl Reading {
    /// Read with no record.
    pub fn is_clean(&self) -> bool {
        self.refused.is_none() && self.records.is_empty()
    }

    /// The numbers of the records.
    pub fn record_numbers(&self) -> Vec<u32> {
        self.records.iter().map(|record| record[0]).collect()
    }
}

/// The sizes add up to one tree, and each row of kind 41 lies on its parentheses: the words that the crate has nothing beside, held to the others and to the tokens.
pub fn is_whole(rows: &[[u32; 6]], kinds: &[u8]) -> bool {
    let mut sizes: Vec<u32> = Vec::new();
    for &[kind, mark, first, end, kids, size] in rows {
        let Some(from) = sizes.len().checked_sub(kids as usize) else { return false };
        let below: u32 = sizes.drain(from..).sum();
        let on_parentheses = kids == 1 && mark == first && first + 1 < end && kinds.get(first as usize) == Some(&18) && kinds.get(end as usize - 1) == Some(&19);
        if size != below + 1 || kind == 41 && !on_parentheses {
            return false;
        }
        sizes.push(size);
    }
    sizes.len() == 1
}

/// Whether over 64 brackets are open somewhere, which is refused by a check before the reading.
pub fn nests_too_deep(kinds: &[u8]) -> bool {
    let mut open = 0u32;
    kinds.iter().any(|kind| {
        match kind {
            18 | 20 | 22 => open += 1,
            19 | 21 | 23 => open = open.saturating_sub(1),
            _ => {}
        }
        open > 64
    })
}

/// Rows of six words without those of kind 41, each without its size (`is_whole` sees to both).
pub fn without_parentheses(rows: &[[u32; 6]]) -> Vec<Row> {
    rows.iter().filter(|row| row[0] != 41).map(|row| [row[0], row[1], row[2], row[3], row[4]]).collect()
}

/// A list read here.
pub fn read_here(entry: Entry, list: &List, room: &mut Room) -> Reading {
    let n = list.len();
    let (rows, records) = (&mut room.rows[..6 * n], &mut room.records[..2 * n]);
    let answer = match entry {
        Entry::Expression => Here::read(&list.kinds, &list.flags, rows, records),
        Entry::Binding => Here::pattern(&list.kinds, &list.flags, rows, records),
    };
    match answer {
        Err(refused) => Reading { refused: Some(refused), rows: Vec::new(), records: Vec::new(), abandoned: 0 },
        Ok([r, c, abandoned]) => {
            Reading { refused: None, rows: rows[..6 * r].as_chunks().0.to_vec(), records: records[..2 * c].as_chunks().0.to_vec(), abandoned }
        }
    }
}

/// A reading by the crate.
pub struct CrateReading {
    pub fatal: Option<Diagnostic>,
    pub errors: Vec<Diagnostic>,
    pub rows: Vec<Row>,
    /// The number of places at which a head was given up: the size of `not_parenthesized_arrow`.
    pub noted: usize,
    pub seen: Seen,
}

impl CrateReading {
    /// Read without an error.
    pub fn is_clean(&self) -> bool {
        self.fatal.is_none() && self.errors.is_empty()
    }
}

/// A list read by the crate, from one of its functions to the end, in the order of parse_expression of lib.rs.
pub fn read_there(entry: Entry, list: &List, room: &Room) -> CrateReading {
    let mut parser = Parser::new(&room.kinds, &list.flags, Settings::sheet(room.guess), 0);
    let rows = match entry {
        Entry::Expression => {
            let expression = parser.parse_expr();
            finish(&mut parser);
            rows_of(&parser, &room.kinds, |rows| rows.expression(&expression))
        }
        Entry::Binding => {
            let binding = parser.binding_entry();
            finish(&mut parser);
            rows_of(&parser, &room.kinds, |rows| rows.binding(&binding))
        }
    };
    if parser.fatal_error.is_none() {
        parser.check_unfinished_errors();
    }
    CrateReading {
        fatal: parser.fatal_error.map(|fatal| fatal.error),
        errors: parser.errors,
        rows,
        noted: parser.state.not_parenthesized_arrow.len(),
        seen: parser.seen,
    }
}

/// After what was read the text must be at its end.
fn finish(parser: &mut Parser) {
    if !parser.at(Kind::Eof) {
        parser.set_unexpected();
    }
}

/// The rows of what was read, if it was.
fn rows_of<'p, 'a>(parser: &'p Parser<'a>, kinds: &'p [Kind], write: impl FnOnce(&mut Rows<'p, 'a>)) -> Vec<Row> {
    if parser.fatal_error.is_some() {
        return Vec::new();
    }
    let mut rows = Rows::new(&parser.state, kinds);
    write(&mut rows);
    rows.rows
}

/// A conversion by the crate: the rows of the target and the errors, or the error that stops it.
pub type CrateConversion = (Option<Diagnostic>, Vec<Diagnostic>, Vec<Row>);

/// What is read from a part of a list, turned into a target by grammar.rs. Nothing if the part alone is not read to its end as one expression.
pub fn convert_there(kinds: &[Kind], flags: &[u8], guess: Guess) -> Option<CrateConversion> {
    let mut parser = Parser::new(kinds, flags, Settings::sheet(guess), 0);
    let expression: Expression = parser.parse_expr();
    if parser.fatal_error.is_some() || !parser.at(Kind::Eof) || expression.span().end as usize != kinds.len() {
        return None;
    }
    parser.errors.clear();
    let target = AssignmentTarget::cover(expression, &mut parser);
    let rows = rows_of(&parser, kinds, |rows| rows.target(&target));
    Some((parser.fatal_error.map(|fatal| fatal.error), parser.errors, rows))
}

/// The number of a record by the crate's error; 0 for one that is no record.
pub fn record_number(error: &Diagnostic) -> u32 {
    match error.what {
        "lineterminator_before_arrow" => 1,
        "a_rest_element_cannot_have_an_initializer" | "a_rest_parameter_cannot_have_an_initializer" => 2,
        "invalid_rest_assignment_target" => 3,
        "rest_element_trailing_comma" => 4,
        "invalid_assignment_target_default_value_operator" => 5,
        "mixed_coalesce" => 6,
        "unexpected_exponential" => 7,
        "cover_initialized_name" => 8,
        _ => 0,
    }
}

/// The number of a refusal by the crate's fatal error; 0 for one that is none.
pub fn refusal_number(error: &Diagnostic) -> u32 {
    match error.what {
        "unexpected_token" => 8,
        "invalid_assignment" => 9,
        "spread_last_element" => 10,
        "invalid_binding_rest_element" => 11,
        "binding_rest_element_last" => 12,
        _ => 0,
    }
}
