//! The level and the five mappings of operator.rs, for every kind and for every word that shares a byte.
use super::sides::Here;
use super::tally::Tally;
use crate::js::operator;
use crate::lexer::{Kind, MODIFIER_NAMES, RESERVED_WORDS};
use std::panic::{AssertUnwindSafe, catch_unwind};
use twin::protocol::Entries;

/// A mapping's number, or 0 where the crate's function stops the program.
fn mapped(map: impl Fn() -> u32) -> u32 {
    catch_unwind(AssertUnwindSafe(map)).unwrap_or(0)
}

/// The line of a kind, as the proved program of crates/operators_test prints it.
fn line(kind: Kind) -> (u32, String) {
    let byte = kind.byte();
    let level = operator::kind_to_precedence(kind).map_or(0, |level| level as u32);
    let in_expression = if matches!(kind, Kind::As | Kind::Satisfies) { 0 } else { level };
    let text = format!(
        "{byte}: level {level}, in an expression {in_expression}, binary {}, unary {}, logical {}, update {}, assignment {}",
        mapped(|| operator::map_binary_operator(kind) as u32),
        mapped(|| operator::map_unary_operator(kind) as u32),
        mapped(|| operator::map_logical_operator(kind) as u32),
        mapped(|| operator::map_update_operator(kind) as u32),
        mapped(|| operator::map_assignment_operator(kind) as u32),
    );
    (level, text)
}

/// All kinds. The levels are asked of the archive; it has no entry for the mappings, which are held to what the proved program printed.
pub fn run(printed: &str) -> Tally {
    let lines: Vec<&str> = printed.lines().collect();
    let mut tally = Tally::default();
    std::panic::set_hook(Box::new(|_| {}));
    for kind in (0..=78).map(Kind::of).chain(MODIFIER_NAMES).chain(RESERVED_WORDS) {
        let byte = kind.byte();
        let (level, text) = line(kind);
        tally.lists += 1;
        tally.compared += 7;
        if u32::from(Here::precedence(byte)) != level {
            tally.differs("level", byte.into(), || format!("{kind:?}: {} here, {level} there", Here::precedence(byte)));
        }
        if lines[byte as usize] != text {
            tally.differs("line of a kind", byte.into(), || format!("{kind:?}: {} here, {text} there", lines[byte as usize]));
        }
    }
    let _ = std::panic::take_hook();
    tally
}
