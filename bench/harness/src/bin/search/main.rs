//! Looks for the list that takes the most stack of the archive, and for the tree that does in a conversion. What it finds is no bound: tools/stack.py
//! has one, and each list that is tried here is held to it, for as many brackets as the list opens.
//!
//!     search [short] [BOUNDS [LISTS]]      BOUNDS: what tools/stack.py --ways wrote; LISTS: where to write the lists that take the most
mod lists;
mod measure;
mod trees;

use crate::lists::Reach;
use ::lists::{List, random, random_pattern};
use harness::families::{FAMILIES, LARGEST};
use harness::table::Table;
use measure::{Bounds, Entry, Took, for_all};
use std::fmt::Display;
use std::fs;

const SHORT: Reach = Reach { unit: 4, inside: 2, closed: 100, changed: 10, steps: 1_000 };
const LONG: Reach = Reach { unit: 5, inside: 3, closed: 400, changed: 30, steps: 10_000 };

/// What was found: a row of the table, and a line of the protocol for whoever wants to ask it again.
struct Worst {
    table: Table,
    lines: String,
}

impl Worst {
    fn push(&mut self, entry: Entry, took: Took, good: &str, bounds: &Bounds, size: usize, what: &dyn Display, line: String) {
        let answer = if took.number == 0 { good.to_string() } else { format!("refused {} at {}", took.number, took.place) };
        let bound = bounds.of(entry, usize::MAX).map_or(String::new(), |bound| bound.to_string());
        self.table.push(vec![what.to_string(), format!("vuolmaset_{}", entry.name()), answer, size.to_string(), took.bytes.to_string(), bound]);
        self.lines += &format!("{} {line}\n", took.bytes);
    }
}

/// The most that lists take.
fn most(what: &str, lists: &[(Entry, List)], bounds: &Bounds) -> usize {
    for_all(what, lists, bounds, |measure, (entry, list)| measure.list(*entry, &list.kinds, &list.flags).bytes).into_iter().max().unwrap_or(0)
}

fn main() {
    let mut words: Vec<String> = std::env::args().skip(1).collect();
    let is_short = words.first().map_or(false, |word| word == "short");
    words.drain(..is_short as usize);
    let bounds = words.first().map_or(Bounds::default(), |file| Bounds::of_text(&fs::read_to_string(file).expect("the file of bounds")));
    let (reach, rows, many) = if is_short { (SHORT, 2, 1_000) } else { (LONG, 3, 20_000) };

    let mut worst = Worst { table: Table::new(&["list or tree", "function", "answer", "tokens or rows", "bytes", "bound"]), lines: String::new() };
    for found in lists::search(&reach, &bounds) {
        let list = List::plain(&found.shape.kinds());
        let line = list.line(if found.entry == Entry::Read { 'r' } else { 'p' });
        worst.push(found.entry, found.took, "read", &bounds, list.len(), &found.shape, line);
    }
    for found in trees::search(rows, &bounds) {
        let words: Vec<String> = found.tower.words().iter().map(u32::to_string).collect();
        let line = format!("c {} {} {}", words.len() / 6 - 1, words.len() / 3, words.join(" "));
        worst.push(Entry::Convert, found.took, "turned", &bounds, words.len() / 6, &found.tower, line);
    }
    let real = FAMILIES.iter().find(|family| family.name == "real sheets").expect("the family");
    let real: Vec<_> = real.sheets(LARGEST).into_iter().map(|sheet| (Entry::Read, sheet)).collect();
    let pair = |number| [(Entry::Read, random(19, number, LARGEST.tokens)), (Entry::Pattern, random_pattern(19, number, LARGEST.tokens))];
    let random: Vec<_> = (0..many).flat_map(pair).collect();
    println!("{}", worst.table);
    println!("Real sheets: at most {} bytes.", most("real sheets", &real, &bounds));
    println!("{} random lists: at most {} bytes.", random.len(), most("random lists", &random, &bounds));
    if let Some(file) = words.get(1) {
        fs::write(file, worst.lines).expect("the file of lists");
    }
}
