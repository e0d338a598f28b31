//! The trees for the conversion entry: rows over one another, each with the tree so far as a kid and at most one more, repeated.
use crate::measure::{Bounds, Measure, Took, for_all};
use archive::Archive;
use std::fmt::{Display, Formatter, Result};
use twin::protocol::Entries;

/// The most rows of a tree.
const ROWS: usize = 2048;
const KINDS: u32 = 50;

/// A row over the tree so far: its kind, and the kinds of a kid before and of a kid after.
#[derive(Clone, Copy, PartialEq, Eq)]
pub struct Over {
    kind: u32,
    before: Option<u32>,
    after: Option<u32>,
}

/// A tree: a row, and rows over it, so many times.
#[derive(Clone, PartialEq, Eq)]
pub struct Tower {
    core: u32,
    unit: Vec<Over>,
    times: usize,
}

/// A tree that was measured.
pub struct Found {
    pub tower: Tower,
    pub took: Took,
}

impl Tower {
    /// The words of the tree. Places do not matter to a conversion but for its records: all are 0.
    pub fn words(&self) -> Vec<u32> {
        let row = |kind, kids, size| [kind, 0, 0, 0, kids, size];
        let (mut front, mut rows) = (vec![], vec![row(self.core, 0, 1)]);
        for over in self.unit.iter().cycle().take(self.unit.len() * self.times) {
            front.extend(over.before.map(|kind| row(kind, 0, 1)));
            rows.extend(over.after.map(|kind| row(kind, 0, 1)));
            let kids = 1 + over.before.iter().count() + over.after.iter().count();
            rows.push(row(over.kind, kids as u32, (front.len() + rows.len()) as u32 + 1));
        }
        front.reverse();
        [front, rows].concat().concat()
    }

    /// The rows below one another.
    fn height(&self) -> usize {
        1 + self.unit.len() * self.times
    }

    /// With the unit as often as fits.
    fn filled(&self) -> Tower {
        let rows = |over: &Over| 1 + over.before.iter().count() + over.after.iter().count();
        Tower { times: (ROWS - 1) / self.unit.iter().map(rows).sum::<usize>(), ..self.clone() }
    }

    fn is_well_formed(&self) -> bool {
        let words = self.words();
        Archive::subtree(&words, words.len() / 6 - 1).1 > 0
    }
}

fn find(measure: &mut Measure, tower: Tower) -> Found {
    let mut words = tower.words();
    let last = words.len() / 6 - 1;
    let took = measure.tree(&mut words, last, tower.height());
    Found { tower, took }
}

/// The kinds of rows that stand without a kid; and all rows over a tree, with at most one of these beside it, whether they may stand there or not.
fn rows() -> (Vec<u32>, Vec<Over>) {
    let alone: Vec<u32> = (1..=KINDS).filter(|kind| Tower { core: *kind, unit: vec![], times: 0 }.is_well_formed()).collect();
    let beside = |kind: &u32| [(Some(*kind), None), (None, Some(*kind))];
    let pairs: Vec<_> = [(None, None)].into_iter().chain(alone.iter().flat_map(beside)).collect();
    let overs = pairs.iter().flat_map(|(before, after)| (1..=KINDS).map(move |kind| Over { kind, before: *before, after: *after })).collect();
    (alone, overs)
}

/// All units of up to so many rows that begin with a row and may stand over a core.
fn units(core: u32, first: Over, overs: &[Over], length: usize) -> Vec<Tower> {
    let (mut found, mut waiting) = (vec![], vec![vec![first]]);
    while let Some(unit) = waiting.pop() {
        let tower = Tower { core, unit, times: 1 };
        if tower.is_well_formed() {
            if tower.unit.len() < length {
                waiting.extend(overs.iter().map(|over| [&tower.unit[..], &[*over]].concat()));
            }
            found.push(tower);
        }
    }
    found
}

/// The tree with the unit as often as fits, if it takes more the more often there is one.
fn grown(measure: &mut Measure, tower: &Tower) -> Option<Found> {
    let times = |times| Tower { times, ..tower.clone() };
    let grows = times(2).is_well_formed() && find(measure, times(4)).took.bytes < find(measure, times(8)).took.bytes;
    grows.then(|| find(measure, tower.filled()))
}

/// The trees that take the most, refused and turned.
pub fn search(length: usize, bounds: &Bounds) -> Vec<Found> {
    let (cores, overs) = rows();
    let most = |found: Vec<Found>| {
        let (turned, refused): (Vec<_>, Vec<_>) = found.into_iter().partition(|found| found.took.number == 0);
        [refused, turned].into_iter().filter_map(|found| found.into_iter().max_by_key(|found| found.took.bytes)).collect::<Vec<_>>()
    };
    let found = for_all("trees", &overs, bounds, |measure, first| {
        let towers = cores.iter().flat_map(|core| units(*core, *first, &overs, length));
        most(towers.filter_map(|tower| grown(measure, &tower)).collect())
    });
    most(found.into_iter().flatten().collect())
}

/// The name of a kind of rows.
fn name(kind: u32) -> String {
    lists::kinds::row_name(kind).to_lowercase()
}

impl Display for Tower {
    fn fmt(&self, out: &mut Formatter) -> Result {
        let over = |over: &Over| {
            let kid = |kind: Option<u32>, text: &str| kind.map_or(String::new(), |kind| format!(" {text} {}", name(kind)));
            format!("{}{}{}", name(over.kind), kid(over.before, "after"), kid(over.after, "before"))
        };
        let unit: Vec<String> = self.unit.iter().rev().map(over).collect();
        write!(out, "{} x `{}`, over `{}`", self.times, unit.join(" over "), name(self.core))
    }
}
