//! The crate's own five files, compiled as they are over stand-ins and run on the tokens of sheets, beside the archive (or the twin).
//!
//!     against [--jobs N] [--seconds N] [--printed FILE] RUN..           runs, a table at the end; fails on any difference of no known class
//!     against guesses RUN..                                             the same runs under each guess of stand_in/guess.rs, a line for each
//!     against one read|pattern KINDS FLAGS                              one list in hexadecimal, as in readers/twin/src/protocol.rs: what both sides say
//!
//!     RUN: operators | three:windows:LENGTH | three:looked:LENGTH | three:wide:LENGTH | three:words:LENGTH | PART:small:LENGTH | PART:matched:LENGTH:ALPHABET |
//!          PART:random:SEED:COUNT:LONGEST, where PART is read, pattern, object or convert
extern crate self as oxc_allocator;
extern crate self as oxc_ast;
extern crate self as oxc_span;
extern crate self as oxc_syntax;

mod compare;
mod js;
mod stand_in;

// What the five files name at the root of one of the four crates, or of their own.
pub use stand_in::allocator::{ArenaBox, ArenaVec};
pub use stand_in::context::Context;
pub use stand_in::parser::{ParserConfig, ParserImpl};
pub use stand_in::span::{FileExtension, GetSpan, SourceType, Span};
pub use stand_in::syntax::{operator, precedence};
pub use stand_in::{ast, diagnostics, lexer, modifiers};

use compare::runs::{How, Run, run};
use compare::sides::{Entry, Room, read_here, read_there};
use compare::tally::{Tally, grouped, sum};
use compare::text::show;
use lists::List;
use stand_in::guess::{GUESSES, Guess};
use std::process::ExitCode;
use std::time::Instant;

/// What the command line says.
struct Told {
    how: How,
    /// What the proved program of crates/operators_test printed.
    printed: String,
    words: Vec<String>,
}

/// The command line, or what is wrong with it.
fn told() -> Result<Told, String> {
    let jobs = std::thread::available_parallelism().map_or(1, |count| count.get());
    let mut how = How { jobs, seconds: u64::MAX, guess: Guess::Usual };
    let mut file = "crates/operators_test/stdout".to_owned();
    let mut words = Vec::new();
    let mut given = std::env::args().skip(1);
    while let Some(word) = given.next() {
        let mut value = || given.next().ok_or(format!("{word} wants a value"));
        let number = |text: String| text.parse::<u64>().map_err(|_| format!("{text} is no number"));
        match word.as_str() {
            "--jobs" => how.jobs = number(value()?)?.max(1) as usize,
            "--seconds" => how.seconds = number(value()?)?,
            "--printed" => file = value()?,
            _ => words.push(word),
        }
    }
    let printed = std::fs::read_to_string(&file).map_err(|error| format!("{file}: {error}"))?;
    Ok(Told { how, printed, words })
}

/// The runs by their names.
fn runs(names: &[String]) -> Result<Vec<Run>, String> {
    names.iter().map(|name| Run::of(name).ok_or(format!("{name} is no run"))).collect()
}

/// One line of the table.
fn table_line(name: &str, tally: &Tally, seconds: f64, stopped: bool) -> String {
    let outside = sum(&tally.outside);
    let end = if stopped { ", stopped by its time" } else { "" };
    format!(
        "{name:<28} {:>14} {:>14} {:>10} {:>11} {seconds:>8.1}  {}{end}",
        grouped(tally.lists),
        grouped(tally.compared),
        grouped(outside),
        grouped(tally.difference_count()),
        tally.counts_line()
    )
}

/// All runs, each with its line; then the sum and the classes. Whether nothing differs.
fn compare_all(told: &Told, names: &[String]) -> Result<bool, String> {
    let runs = runs(names)?;
    println!("{:<28} {:>14} {:>14} {:>10} {:>11} {:>8}  what", "run", "lists", "compared", "outside", "differences", "seconds");
    let mut all = Tally::default();
    let begun = Instant::now();
    for one in &runs {
        let start = Instant::now();
        let (tally, stopped) = run(one, told.how, &told.printed);
        println!("{}", table_line(&one.name, &tally, start.elapsed().as_secs_f64(), stopped));
        all.add(&tally);
    }
    all.counts.clear();
    println!("{}", table_line("all", &all, begun.elapsed().as_secs_f64(), false));
    all.print_classes();
    Ok(all.difference_count() == 0)
}

/// The runs under each guess: whether one changes what is compared, and what it changes beyond that.
fn compare_guesses(told: &Told, names: &[String]) -> Result<bool, String> {
    let runs = runs(names)?;
    let mut usual: Option<Tally> = None;
    let mut same = true;
    println!("| guess | lists | compared | differences | beyond the comparison: of no known class | known classes |\n|---|---|---|---|---|---|");
    for (guess, says) in GUESSES {
        let mut all = Tally::default();
        runs.iter().for_each(|one| all.add(&run(one, How { guess, ..told.how }, &told.printed).0));
        let counts = |tally: &Tally| tally.outside.iter().map(|(name, class)| (*name, class.count)).collect::<Vec<_>>();
        let moved = usual.as_ref().is_some_and(|usual| counts(usual) != counts(&all));
        let first = all.beyond.values().next().map_or(String::new(), |class| format!(", as `{}`", class.sample.split(" | ").next().unwrap()));
        let numbers = [all.lists, all.compared, sum(&all.differences)].map(grouped).join(" | ");
        println!("| {says} | {numbers} | {}{first} | {} |", grouped(sum(&all.beyond)), if moved { "other counts" } else { "the same counts" });
        same &= all.differences.is_empty();
        usual.get_or_insert(all);
    }
    Ok(same)
}

/// One list, and what both sides say.
fn show_one(words: &[String]) -> Result<bool, String> {
    let [entry, kinds, flags] = words else { return Err("one read|pattern KINDS FLAGS".to_owned()) };
    let entry = if entry == "pattern" { Entry::Binding } else { Entry::Expression };
    let list = List { kinds: twin::protocol::bytes(Some(kinds))?, flags: twin::protocol::bytes(Some(flags))? };
    let mut room = Room::new(Guess::Usual);
    room.take(&list.kinds);
    let here = read_here(entry, &list, &mut room);
    let there = read_there(entry, &list, &room);
    println!("{}", show(&list));
    println!("here:  refused {:?}, records {:?}, abandoned {}, rows {:?}", here.refused, here.records, here.abandoned, here.rows);
    println!("there: stopped {:?}, errors {:?}, noted {}, rows {:?}", there.fatal, there.errors, there.noted, there.rows);
    Ok(true)
}

fn main() -> ExitCode {
    let done = told().and_then(|told| match told.words.first().map(String::as_str) {
        Some("one") => show_one(&told.words[1..]),
        Some("guesses") => compare_guesses(&told, &told.words[1..]),
        _ => compare_all(&told, &told.words),
    });
    match done {
        Ok(true) => ExitCode::SUCCESS,
        Ok(false) => {
            println!("FAILED: differences of no known class");
            ExitCode::FAILURE
        }
        Err(wrong) => {
            eprintln!("{wrong}");
            ExitCode::from(2)
        }
    }
}
