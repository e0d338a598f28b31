//! The checks 1 to 7 (RULES A15): a pass without an early exit where all is well, and the exact walk only where something is wrong.
use twin::kind::{self, STAR2_EQ};
use twin::row::WORDS;
use twin::{Cause, MAX_TOKENS, Refusal};

/// The most brackets that may be open at once.
const MAX_OPEN: usize = 64;

type Checked = Result<(), Cause>;

fn refuse(number: Refusal, place: usize) -> Checked {
    Err(Cause::new(number, place as u32))
}

/// The checks 1 to 7, in this order.
pub fn lists(kinds: &[u8], flags: &[u8], rows: &[u32], records: &[u32]) -> Checked {
    let tokens = kinds.len();
    if tokens == 0 || tokens > MAX_TOKENS {
        return refuse(Refusal::Length, 0);
    }
    if flags.len() != tokens {
        return refuse(Refusal::FlagLength, 0);
    }
    if rows.len() < WORDS * tokens {
        return refuse(Refusal::RowRoom, 0);
    }
    if records.len() < 2 * tokens {
        return refuse(Refusal::RecordRoom, 0);
    }
    if flags.iter().fold(0, |all, flag| all | flag) > 1 {
        return first(flags, Refusal::Flag, |flag| flag > 1);
    }
    if kinds.iter().fold(0, |most, kind| kind.wrapping_sub(1).max(most)) >= STAR2_EQ {
        return first(kinds, Refusal::Kind, |kind| kind == 0 || kind > STAR2_EQ);
    }
    if tokens <= MAX_OPEN || never_deep(kinds) {
        return Ok(());
    }
    nesting(kinds)
}

/// A refusal at the first byte that is wrong.
fn first(bytes: &[u8], number: Refusal, wrong: fn(u8) -> bool) -> Checked {
    bytes.iter().position(|&byte| wrong(byte)).map_or(Ok(()), |place| refuse(number, place))
}

fn opens(kind: u8) -> bool {
    matches!(kind, kind::L_PAREN | kind::L_BRACK | kind::L_CURLY)
}

fn closes(kind: u8) -> bool {
    matches!(kind, kind::R_PAREN | kind::R_BRACK | kind::R_CURLY)
}

/// Whether no more brackets than may be are open, as far as can be told without their order: in each part of the list all that close may come first.
fn never_deep(kinds: &[u8]) -> bool {
    let count = |part: &[u8], is: fn(u8) -> bool| part.iter().map(|&kind| is(kind) as u8).sum::<u8>() as usize;
    let mut open: usize = 0;
    kinds.chunks(64).all(|part| {
        let opening = count(part, opens);
        let fits = open + opening <= MAX_OPEN;
        open = open.saturating_sub(count(part, closes)) + opening;
        fits
    })
}

/// Check 7: any closing token takes one away, not below 0.
fn nesting(kinds: &[u8]) -> Checked {
    let mut open: usize = 0;
    for (place, &k) in kinds.iter().enumerate() {
        match k {
            _ if opens(k) => {
                open += 1;
                if open > MAX_OPEN {
                    return refuse(Refusal::Nesting, place);
                }
            }
            _ if closes(k) => open = open.saturating_sub(1),
            _ => {}
        }
    }
    Ok(())
}
