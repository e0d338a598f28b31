//! What the stand-ins decide because no file at hand says it, each with another way to decide it. `against guesses` runs under each of them.

/// Another guess than the usual one.
#[derive(Debug, Clone, Copy, PartialEq, Eq)]
pub enum Guess {
    Usual,
    FatalAtEnd,
    RestCommaStops,
    ExpectStays,
    FatalReplacesToken,
    NoModifiers,
    CheckpointKeepsFatal,
    AssignmentGoesOn,
    CallsGoOn,
    RewindRestores,
    CommaOfEveryArray,
    ParenthesesAsList,
    ShorthandReports,
    BindingReports,
}

/// Each guess, and what it says.
pub const GUESSES: [(Guess, &str); 14] = [
    (Guess::Usual, "as the stand-ins are"),
    (Guess::FatalAtEnd, "has_fatal_error is also true at the end of the text"),
    (Guess::RestCommaStops, "a comma after a binding's rest stops instead of being reported"),
    (Guess::ExpectStays, "expect does not advance over a token that it did not expect"),
    (Guess::FatalReplacesToken, "after a fatal error the current token is the end"),
    (Guess::NoModifiers, "no modifiers are eaten in object literals"),
    (Guess::CheckpointKeepsFatal, "a checkpoint leaves the fatal error in place"),
    (Guess::AssignmentGoesOn, "the assignment level does not look for a fatal error"),
    (Guess::CallsGoOn, "members and calls do not look for a fatal error"),
    (Guess::RewindRestores, "a rewind restores trailing_commas and cover_initialized_name"),
    (Guess::CommaOfEveryArray, "trailing_commas is filled for every array, not for those that end in a spread"),
    (Guess::ParenthesesAsList, "parentheses are read as a list with commas"),
    (Guess::ShorthandReports, "a binding's shorthand that is no name is reported and read on"),
    (Guess::BindingReports, "a binding's name that is another word is reported and read on"),
];
