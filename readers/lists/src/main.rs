//! Prints lists as lines of the protocol.
//!
//!     lists small LENGTH | matched LENGTH ALPHABET | random, pattern or checks SEED FROM COUNT LONGEST
use lists::{ALPHABETS, List, matched, random_of, small};
use std::io::{BufWriter, Write, stdout};

fn main() {
    let words: Vec<String> = std::env::args().skip(1).collect();
    let number = |at: usize| words.get(at).and_then(|w| w.parse::<usize>().ok()).expect("a number");
    let mut out = BufWriter::new(stdout().lock());
    let letter = if words.first().map_or(false, |word| word == "pattern") { 'p' } else { 'r' };
    let mut print = |list: &List| writeln!(out, "{}", list.line(letter)).expect("standard output");
    match words.first().map(String::as_str) {
        Some("small") => small(number(1), &mut print),
        Some("matched") => matched(number(1), ALPHABETS[number(2)], &mut print),
        Some(sort @ ("random" | "pattern" | "checks")) => {
            let make = random_of(sort);
            let (seed, from, count, longest) = (number(1), number(2), number(3), number(4));
            (from..from + count).for_each(|n| print(&make(seed as u64, n as u64, longest)));
        }
        _ => panic!("lists small LENGTH | matched LENGTH ALPHABET | random, pattern or checks SEED FROM COUNT LONGEST"),
    }
}
