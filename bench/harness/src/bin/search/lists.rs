//! The lists: units of a few tokens repeated, and repeated inside units that open brackets; these closed, so that they are read; and what comes of
//! changing the best of them step by step.
use crate::measure::{Bounds, Entry, Measure, Took, for_all};
use harness::families::{LARGEST, tokens};
use harness::shape::{Layer, Shape, brackets};
use lists::Random;
use std::cmp::Reverse;
use std::collections::HashSet;

/// What units are made of: tokens of each sort that the reader tells apart. And what closings are made of.
const TOKENS: &str = "a async 1 ( ) [ ] { } , : ? . ... => ! ++ ?? && + ** = +=";
const CLOSINGS: &str = ") ] } => a : , =";
const LONGEST_CLOSING: usize = 4;
const TRIES: usize = 20_000;

/// How far is searched: the longest units, the longest of those that are put inside one another, how many lists are closed, how many are changed, and
/// by how many steps.
pub struct Reach {
    pub unit: usize,
    pub inside: usize,
    pub closed: usize,
    pub changed: usize,
    pub steps: usize,
}

/// A list that was measured.
#[derive(Clone)]
pub struct Found {
    pub entry: Entry,
    pub shape: Shape,
    pub took: Took,
}

impl Found {
    fn is_read(&self) -> bool {
        self.took.number == 0
    }

    /// More bytes are better; and for as many a shorter formula, of plainer tokens.
    fn rank(&self) -> (usize, Reverse<usize>, Reverse<usize>) {
        (self.took.bytes, Reverse(self.shape.size()), Reverse(self.shape.kinds().iter().map(|kind| *kind as usize).sum()))
    }
}

/// All sequences of so many tokens.
fn sequences(tokens: &[u8], length: usize) -> Vec<Vec<u8>> {
    match length {
        0 => vec![vec![]],
        _ => sequences(tokens, length - 1).iter().flat_map(|rest| tokens.iter().map(move |token| [&rest[..], &[*token]].concat())).collect(),
    }
}

/// Whether no bracket is closed that was not opened.
fn opens_first(unit: &[u8]) -> bool {
    (1..=unit.len()).all(|end| brackets(&unit[..end]).0 >= 0)
}

/// The layers, and one more.
fn and(layers: &[Layer], open: &[u8], times: usize) -> Vec<Layer> {
    [layers, &[Layer::new(open, times)]].concat()
}

fn find(measure: &mut Measure, entry: Entry, shape: Shape) -> Found {
    let kinds = shape.kinds();
    let took = measure.list(entry, &kinds, &vec![0; kinds.len()]);
    Found { entry, shape, took }
}

/// The least that a list takes that goes on after some layers.
fn least(measure: &mut Measure, entry: Entry, before: &[Layer]) -> usize {
    let bytes = |token: &u8| find(measure, entry, Shape::of(&and(before, &[*token], 1))).took.bytes;
    tokens(TOKENS).kinds.iter().map(bytes).min().unwrap_or(0)
}

/// Whether a unit takes more the more often it is repeated after some layers. What takes the least eight times is not tried four times.
fn grows(measure: &mut Measure, entry: Entry, before: &[Layer], unit: &[u8], least: usize) -> bool {
    let mut bytes = |times| find(measure, entry, Shape::of(&and(before, unit, times))).took.bytes;
    let eight = bytes(8);
    eight > least && bytes(4) < eight
}

/// The list with a unit as often as it fits after some layers.
fn filled(measure: &mut Measure, entry: Entry, before: &[Layer], unit: &[u8]) -> Found {
    let kinds = Shape::of(before).kinds();
    let times = Layer::new(unit, 1).fitting(LARGEST.tokens - kinds.len(), LARGEST.depth - brackets(&kinds).1);
    find(measure, entry, Shape::of(&and(before, unit, times)))
}

/// The lists that take the most, so many of each entry; of those that take the same, the first in rank.
fn most(found: Vec<Vec<Found>>, kept: usize) -> Vec<Found> {
    let mut found: Vec<Found> = found.into_iter().flatten().collect();
    found.sort_by_cached_key(|found| Reverse(found.rank()));
    let (mut seen, mut left) = (HashSet::new(), [kept; 2]);
    found.retain(|found| {
        let left = &mut left[found.entry as usize];
        let keeps = *left > 0 && seen.insert((found.entry, found.took.bytes));
        *left -= keeps as usize;
        keeps
    });
    found
}

/// All units of up to so many tokens, repeated.
fn repeated(reach: &Reach, bounds: &Bounds) -> Vec<Found> {
    let alphabet = tokens(TOKENS).kinds;
    let lengths = (1..=reach.unit).map(|length| (length - length.min(3), length.min(3)));
    let items: Vec<_> = lengths.flat_map(|(first, rest)| sequences(&alphabet, first).into_iter().map(move |first| (first, rest))).collect();
    let found = for_all("units repeated", &items, bounds, |measure, (first, rest)| {
        let (mut found, least) = (vec![], [Entry::Read, Entry::Pattern].map(|entry| least(measure, entry, &[])));
        for unit in sequences(&alphabet, *rest).iter().map(|rest| [&first[..], rest].concat()).filter(|unit| opens_first(unit)) {
            for entry in [Entry::Read, Entry::Pattern] {
                if grows(measure, entry, &[], &unit, least[entry as usize]) {
                    found.push(filled(measure, entry, &[], &unit));
                }
            }
        }
        most(vec![found], reach.closed)
    });
    most(found, reach.closed)
}

/// All units of up to so many tokens, repeated inside all units that open brackets: inside one, and inside as many as leave room.
fn inside(reach: &Reach, bounds: &Bounds) -> Vec<Found> {
    let alphabet = tokens(TOKENS).kinds;
    let units: Vec<Vec<u8>> = (1..=reach.inside).flat_map(|length| sequences(&alphabet, length)).filter(|unit| opens_first(unit)).collect();
    let openings: Vec<&Vec<u8>> = units.iter().filter(|unit| brackets(unit).0 > 0).collect();
    let found = for_all("units inside others", &openings, bounds, |measure, opening| {
        let mut found = vec![];
        for entry in [Entry::Read, Entry::Pattern] {
            if !grows(measure, entry, &[], opening, 0) {
                continue;
            }
            let before = and(&[], opening, 2);
            let least = least(measure, entry, &before);
            for unit in units.iter() {
                if grows(measure, entry, &before, unit, least) {
                    let often = Layer::new(opening, 1).fitting(LARGEST.tokens / 2, LARGEST.depth - brackets(unit).1);
                    found.extend([1, often].map(|times| filled(measure, entry, &and(&[], opening, times), unit)));
                }
            }
        }
        most(vec![found], reach.closed)
    });
    most(found, reach.closed)
}

/// Lists that `read` takes, as initializers of a pattern.
fn initializers(found: &[Found], bounds: &Bounds) -> Vec<Found> {
    let start = Layer::new(&tokens("a =").kinds, 1);
    for_all("initializers", found, bounds, |measure, found| {
        let mut shape = found.shape.clone();
        shape.layers.insert(0, start.clone());
        shape.fit();
        find(measure, Entry::Pattern, shape)
    })
}

/// Closes the layers of a shape, from this one to the outermost, so that the list is read. So many may be tried.
fn closings(measure: &mut Measure, entry: Entry, shape: &Shape, layer: usize, tries: &mut usize) -> Option<Shape> {
    for close in (0..=LONGEST_CLOSING).flat_map(|length| sequences(&tokens(CLOSINGS).kinds, length)) {
        *tries = tries.checked_sub(1)?;
        let mut shape = shape.clone();
        shape.layers[layer].close = close;
        let kinds = shape.kinds();
        let (number, place) = measure.answer(entry, &kinds);
        match layer {
            0 if number == 0 => return Some(shape),
            1.. if number == 0 || place >= kinds.len() => match closings(measure, entry, &shape, layer - 1, tries) {
                Some(shape) => return Some(shape),
                None => continue,
            },
            _ => continue,
        }
    }
    None
}

/// A list closed, so that it is read: the closings are found with each layer twice.
fn closed(measure: &mut Measure, found: &Found) -> Option<Found> {
    let mut shape = found.shape.clone();
    shape.core.extend(tokens("a").kinds);
    shape.layers.iter_mut().for_each(|layer| layer.times = layer.times.min(2));
    let mut shape = closings(measure, found.entry, &shape, shape.layers.len() - 1, &mut TRIES.clone())?;
    shape.layers.iter_mut().zip(&found.shape.layers).for_each(|(layer, full)| layer.times = full.times);
    shape.fit();
    Some(find(measure, found.entry, shape)).filter(Found::is_read)
}

/// The list with another core, of up to so many tokens, that takes the most and is answered alike.
fn ended(measure: &mut Measure, found: &Found, length: usize) -> Found {
    let mut best = found.clone();
    for core in (0..=length).flat_map(|length| sequences(&tokens(TOKENS).kinds, length)) {
        let mut shape = Shape { core, ..found.shape.clone() };
        shape.fit();
        let other = find(measure, found.entry, shape);
        if other.rank() > best.rank() && other.is_read() == found.is_read() {
            best = other;
        }
    }
    best
}

/// One token more, one less, or another one.
fn change_tokens(kinds: &mut Vec<u8>, alphabet: &[u8], random: &mut Random) {
    let at = random.below(kinds.len() + 1);
    match random.below(3) {
        0 => kinds.insert(at, random.pick(alphabet)),
        1 if at < kinds.len() => drop(kinds.remove(at)),
        _ if at < kinds.len() => kinds[at] = random.pick(alphabet),
        _ => kinds.push(random.pick(alphabet)),
    }
}

/// A small change of a shape.
fn change(shape: &mut Shape, alphabet: &[u8], random: &mut Random) {
    let at = random.below(shape.layers.len());
    let times = shape.layers[at].times;
    match random.below(6) {
        0 => change_tokens(&mut shape.core, alphabet, random),
        1 => change_tokens(&mut shape.layers[at].open, alphabet, random),
        2 => shape.layers[at].times = times + 1 + random.below(3),
        3 => shape.layers[at].times = times - times.min(1 + random.below(3)),
        4 => shape.layers.insert(at, Layer::new(&[random.pick(alphabet), random.pick(alphabet)], 1)),
        _ => {
            let part = random.below(times.max(1));
            shape.layers[at].times = times - part;
            let mut other = Layer { times: part, ..shape.layers[at].clone() };
            change_tokens(&mut other.open, alphabet, random);
            shape.layers.insert(at, other);
        }
    }
}

/// Changes a list step by step: each change is kept that ranks no lower and is answered alike, read or refused.
fn changed(measure: &mut Measure, start: &Found, steps: usize, random: &mut Random) -> Found {
    let alphabet = tokens(TOKENS).kinds;
    let mut best = start.clone();
    for _ in 0..steps {
        let mut shape = best.shape.clone();
        for _ in 0..1 + random.below(3) {
            change(&mut shape, &alphabet, random);
            shape.fit();
        }
        if shape.is_sheet() {
            let found = find(measure, start.entry, shape);
            if found.rank() >= best.rank() && found.is_read() == start.is_read() {
                best = found;
            }
        }
    }
    best
}

/// Gives all lists the best end, and changes them.
fn all_changed(reach: &Reach, bounds: &Bounds, lists: Vec<Found>) -> Vec<Found> {
    let items: Vec<(u64, Found)> = (0..).zip(lists).collect();
    for_all("lists changed", &items, bounds, |measure, (seed, start)| {
        let ended = ended(measure, start, reach.inside);
        changed(measure, &ended, reach.steps, &mut Random(*seed))
    })
}

/// The lists that take the most of each entry, refused and read.
pub fn search(reach: &Reach, bounds: &Bounds) -> Vec<Found> {
    let refused = most(vec![repeated(reach, bounds), inside(reach, bounds)], reach.closed);
    let read = for_all("lists closed", &refused, bounds, closed).into_iter().flatten().collect();
    let mut found = all_changed(reach, bounds, [most(vec![refused], reach.changed), most(vec![read], reach.changed)].concat());
    let reads: Vec<Found> = found.iter().filter(|found| found.entry == Entry::Read).cloned().collect();
    found.extend(all_changed(reach, bounds, initializers(&reads, bounds)));
    let first = |entry, read| most(vec![found.iter().filter(|found| found.entry == entry && found.is_read() == read).cloned().collect()], 1);
    [Entry::Read, Entry::Pattern].iter().flat_map(|entry| [first(*entry, false), first(*entry, true)]).flatten().collect()
}
