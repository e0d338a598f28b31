//! What the numbers mean. The sentences are those of tools/desk/numbers.js, which tools/sheet and docs/GUIDE.md say; tests/tools.js holds the two
//! lists to each other.

/// The refusals, from 1 on.
const REFUSALS: [&str; 14] = [
    "the sheet has no tokens, or more than 2,048",
    "the list of flags is not as long as the list of kinds",
    "fewer than 6 words are lent for the rows of each token",
    "fewer than 2 words are lent for the records of each token",
    "this flag is neither 0 nor 1",
    "this is no kind of token: 0, or above 78",
    "this bracket is one too many: over 64 are open",
    "no rule allows this here",
    "this is not an assignment target",
    "this spread must come last in a target",
    "the rest of an object binding must be a bare name",
    "a rest must be the last parameter or element, with nothing after it",
    "the words are no well-formed tree",
    "there is no such row or place",
];

/// The records, from 1 on.
const RECORDS: [&str; 8] = [
    "a line break stands before this `=>`",
    "a rest has no initializer",
    "a rest cannot take this",
    "a comma stands after the rest of this target",
    "a default is given by `=` alone",
    "`??` beside a bare `||` or `&&`",
    "a bare unary operator left of `**`",
    "this `=` stands in an object that is no target",
];

/// The sentence of a number in a list.
fn nth(sentences: &'static [&'static str], number: u32) -> Option<&'static str> {
    sentences.get((number as usize).checked_sub(1)?).copied()
}

/// What a refusal's number, 1 to 14, means; nothing for another number.
pub fn refusal_sentence(number: u32) -> Option<&'static str> {
    nth(&REFUSALS, number)
}

/// What a record's number, 1 to 8, means; nothing for another number.
pub fn record_sentence(number: u32) -> Option<&'static str> {
    nth(&RECORDS, number)
}
