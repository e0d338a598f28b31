//! Times readers side by side: for each family the best of many rounds, in nanoseconds a token. The readers take turns within each round, so
//! that what else the machine does meets all of them alike. Before a family is timed, all must give the same answers and the same words.
//!
//!     bench [ROUNDS] [FAMILY]       FAMILY: a part of the name
use harness::families::{FAMILIES, Family, LARGEST};
use harness::readers::{Entry, READERS, Room, black_box, compared, names, tokens, with_room_to_recurse};
use harness::table::{Ratios, Table, heads};
use lists::List;
use std::time::Instant;

/// The time of one pass over the sheets, repeated until it can be measured, for a token.
fn pass(entry: Entry, sheets: &[List], room: &mut Room) -> f64 {
    let tokens = tokens(sheets);
    let times = 1 + 20_000 / tokens;
    let begun = Instant::now();
    for _ in 0..times {
        for sheet in sheets {
            let _ = black_box(room.read(entry, black_box(sheet)));
        }
    }
    begun.elapsed().as_nanos() as f64 / (times * tokens) as f64
}

/// The best time of each reader.
fn best(sheets: &[List], rounds: usize) -> Vec<f64> {
    let mut room = Room::new();
    let mut best = vec![f64::INFINITY; READERS.len()];
    for _ in 0..rounds {
        for ((_, entry), best) in READERS.iter().zip(&mut best) {
            *best = best.min(pass(*entry, sheets, &mut room));
        }
    }
    best
}

/// A family's row.
fn row(family: &Family, rounds: usize, ratios: &mut Ratios) -> Vec<String> {
    let sheets = compared(READERS, family, LARGEST);
    let read = sheets.iter().filter(|sheet| Room::new().read(READERS[0].1, sheet).is_ok()).count();
    let mut row = vec![family.name.to_string(), format!("{read} of {}", sheets.len()), tokens(&sheets).to_string()];
    row.extend(ratios.cells(family.name, &best(&sheets, rounds)));
    row
}

/// Times the families that are asked for, and prints the table.
fn bench() {
    let words: Vec<String> = std::env::args().skip(1).collect();
    let rounds: usize = words.first().map_or(50, |word| word.parse().expect("a number of rounds"));
    let part = words.get(1).map_or("", String::as_str);
    let mut table = Table::new(&heads(&["family", "read", "tokens"], &names()));
    let mut ratios = Ratios::default();
    for family in FAMILIES.iter().filter(|family| family.name.contains(part)) {
        table.push(row(family, rounds, &mut ratios));
    }
    println!("Nanoseconds a token, best of {rounds} rounds.\n\n{table}");
    ratios.lines(&names()).iter().for_each(|line| println!("{line}"));
}

fn main() {
    with_room_to_recurse(bench);
}
