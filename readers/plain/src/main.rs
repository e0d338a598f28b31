//! The plain reader behind the lines `r KINDS FLAGS` and `p KINDS FLAGS` of readers/twin/src/protocol.rs. The third count is that of the places at
//! which a head was given up, and these follow the records after one more colon. `long` is the answer where the plain way takes too many steps.
use plain::{Outcome, read};
use std::fmt::Write as _;
use std::io::{self, BufRead, Write};

fn bytes(text: &str) -> Vec<u8> {
    let text = if text == "-" { "" } else { text };
    text.as_bytes().chunks(2).map(|pair| u8::from_str_radix(std::str::from_utf8(pair).unwrap(), 16).unwrap()).collect()
}

/// The checks of RULES A that do not look at lent words.
fn checked(kinds: &[u8], flags: &[u8]) -> Result<(), (u32, usize)> {
    if kinds.is_empty() || kinds.len() > 2048 {
        return Err((1, 0));
    }
    if kinds.len() != flags.len() {
        return Err((2, 0));
    }
    flags.iter().position(|&f| f > 1).map_or(Ok(()), |at| Err((5, at)))?;
    kinds.iter().position(|&k| k == 0 || k > 78).map_or(Ok(()), |at| Err((6, at)))?;
    let mut open = 0i32;
    for (at, kind) in kinds.iter().enumerate() {
        match kind {
            18 | 20 | 22 => open += 1,
            19 | 21 | 23 => open = (open - 1).max(0),
            _ => {}
        }
        if open > 64 {
            return Err((7, at));
        }
    }
    Ok(())
}

fn answer(line: &str) -> String {
    let fields: Vec<&str> = line.split_ascii_whitespace().collect();
    let (kinds, flags) = (bytes(fields[1]), bytes(fields[2]));
    if let Err((number, place)) = checked(&kinds, &flags) {
        return format!("refused {number} {place}");
    }
    match read(&kinds, &flags, fields[0] == "p") {
        Err(Outcome::TooLong) => "long".into(),
        Err(Outcome::Refused((number, place))) => format!("refused {number} {place}"),
        Ok(got) => {
            let mut text = format!("read {} {} {} :", got.words.len() / 6, got.records.len(), got.given_up.len());
            got.words.iter().for_each(|word| write!(text, " {word}").unwrap());
            text.push_str(" :");
            got.records.iter().for_each(|(number, place)| write!(text, " {number} {place}").unwrap());
            text.push_str(" :");
            got.given_up.iter().for_each(|place| write!(text, " {place}").unwrap());
            text
        }
    }
}

fn serve() {
    let mut out = io::BufWriter::new(io::stdout().lock());
    for line in io::stdin().lock().lines() {
        writeln!(out, "{}", answer(&line.unwrap())).unwrap();
    }
}

/// The trees are walked by recursion: a chain of 2,048 takes a deep stack.
fn main() {
    std::thread::Builder::new().stack_size(1 << 30).spawn(serve).unwrap().join().unwrap();
}
