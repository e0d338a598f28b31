//! Whole readings: clean or not, the tree where clean, and beyond the comparison the records, the abandoned heads and the refusals.
use super::classes;
use super::sides::{
    CrateReading, Entry, Reading, Room, is_whole, nests_too_deep, read_here, read_there, record_number, refusal_number, without_parentheses,
};
use super::tally::Tally;
use super::text::show;
use lists::List;

/// Both readings of a list.
pub fn compare(entry: Entry, list: &List, room: &mut Room, tally: &mut Tally) {
    room.take(&list.kinds);
    let here = read_here(entry, list, room);
    let there = read_there(entry, list, room);
    tally.lists += 1;
    if nests_too_deep(&list.kinds) {
        return tally.count("nested too deep, not compared");
    }
    tally.compared += 1;
    if matches!(here.refused, Some((..=7, _))) {
        return tally.differs("refused by a check of our own", list.len(), || told(list, &here, &there));
    }
    if here.refused.is_none() && !is_whole(&here.rows, &list.kinds) {
        tally.differs("sizes, or parentheses of a target", list.len(), || format!("{} | {:?}", show(list), here.rows));
    }
    if here.is_clean() != there.is_clean() {
        let class = if here.is_clean() { "clean here, not there" } else { "clean there, not here" };
        return tally.differs(class, list.len(), || told(list, &here, &there));
    }
    if here.is_clean() {
        tally.count("clean");
        return clean(list, &here, &there, tally);
    }
    match (here.refused, &there.fatal) {
        (None, None) => {
            tally.count("with records");
            with_records(list, &here, &there, tally);
        }
        (refused, fatal) => {
            tally.count("refused");
            let alike = refused.zip(fatal.as_ref()).is_some_and(|(refused, fatal)| same_refusal(refused, refusal_number(fatal), fatal.span.start));
            if !alike {
                unlike(list, &here, &there, tally);
            }
        }
    }
}

/// What both sides said, for a sample.
fn told(list: &List, here: &Reading, there: &CrateReading) -> String {
    let stop = there.fatal.as_ref().map(|fatal| (fatal.what, fatal.span.start));
    let errors: Vec<_> = there.errors.iter().map(|error| (error.what, error.span.start)).collect();
    format!("{} | here refused {:?}, records {:?} | there stopped {stop:?}, errors {errors:?}", show(list), here.refused, here.records)
}

/// Two clean readings: the tree, and the number of abandoned heads.
fn clean(list: &List, here: &Reading, there: &CrateReading, tally: &mut Tally) {
    let rows = without_parentheses(&here.rows);
    if rows != there.rows {
        tally.differs("tree of a clean list", list.len(), || format!("{} | {rows:?} here, {:?} there", show(list), there.rows));
    }
    if here.abandoned != there.noted {
        tally.differs_beyond("abandoned heads of a clean list", list.len(), || format!("{} | {} here, {} there", show(list), here.abandoned, there.noted));
    }
}

/// Two readings with records: their numbers in order, the places of those that both put at the same token, and the tree.
fn with_records(list: &List, here: &Reading, there: &CrateReading, tally: &mut Tally) {
    let numbers: Vec<u32> = there.errors.iter().map(record_number).collect();
    if here.record_numbers() != numbers {
        return tally.differs_beyond("records", list.len(), || told(list, here, there));
    }
    let is_apart = |(record, place): (&[u32; 2], u32)| matches!(record[0], 1 | 3 | 6 | 7) && record[1] != place;
    if here.records.iter().zip(there.errors.iter().map(|error| error.span.start)).any(is_apart) {
        tally.differs_beyond("a record's place", list.len(), || told(list, here, there));
    }
    let rows = without_parentheses(&here.rows);
    if rows != there.rows {
        tally.differs_beyond("tree of a list with records", list.len(), || format!("{} | {rows:?} here, {:?} there", show(list), there.rows));
    }
}

/// A refusal of the same number and at the same place. The crate's 12 is at the rest, ours at the token after it.
fn same_refusal((number, place): (u32, u32), other: u32, start: u32) -> bool {
    number == other && (number == 12 || place == start)
}

/// Neither is clean, and they are not alike: of a known class, or a difference.
fn unlike(list: &List, here: &Reading, there: &CrateReading, tally: &mut Tally) {
    match classes::outside(&list.kinds, here, there) {
        Some(class) => tally.outside(class, list.len(), || told(list, here, there)),
        None => tally.differs_beyond("neither clean, other refusals or places", list.len(), || told(list, here, there)),
    }
}
