//! The known classes of differences outside of the comparison: both sides refuse the list, or neither reads it clean, and only a number, a place or what
//! goes on differs. docs/DIFFERENCES.md has each with its smallest sheet. Any other difference fails a run.
use super::sides::{CrateReading, Reading};

/// The class of two readings that are both not clean and not alike, or nothing.
pub fn outside(kinds: &[u8], here: &Reading, there: &CrateReading) -> Option<&'static str> {
    let (number, place) = here.refused?;
    if there.seen.rest_comma {
        return Some("a comma after a binding's rest: 12 here, or what follows from it; reported there");
    }
    if there.seen.modifier {
        return Some("a modifier before a property: 8 here; eaten there");
    }
    let fatal = there.fatal.as_ref()?;
    match (number, fatal.what) {
        (8, _) if kinds.get(place as usize) == Some(&59) && fatal.span.start > place => {
            Some("`*` as a property's first token: 8 at it here; at a later token there")
        }
        (8, "unexpected_token") if fatal.span.start + 1 == place && matches!(kinds[fatal.span.start as usize], 14 | 15) => {
            Some("await or yield as a binding's shorthand: 8 at the token after it here; at it there")
        }
        (12, "unexpected_token") if fatal.span.start == place => Some("another token after a binding's rest: 12 here; unexpected there, at the same token"),
        (12, "invalid_binding_rest_element") => Some("an object's rest that is no name and not closed: 12 here; 11 there"),
        _ => None,
    }
}
