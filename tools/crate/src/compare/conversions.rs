//! Conversion: at every expression row of a tree that is read here, the entry here beside grammar.rs on that row's own tokens.
use super::sides::{CrateConversion, Entry, Here, Reading, Room, convert_there, is_whole, read_here, record_number, refusal_number, without_parentheses};
use super::tally::Tally;
use super::text::show;
use lists::List;
use twin::protocol::{Entries, Read, Refused};

/// All expression rows of a list's tree, the root among them.
pub fn compare(list: &List, room: &mut Room, tally: &mut Tally) {
    tally.lists += 1;
    let reading = read_here(Entry::Expression, list, room);
    if reading.refused.is_some() {
        return tally.count("lists not read");
    }
    room.take(&list.kinds);
    let words: Vec<u32> = reading.rows.iter().flatten().copied().collect();
    for (row, [kind, _, first, end, ..]) in reading.rows.iter().enumerate() {
        if !matches!(kind, 1..=8 | 16..=29) {
            continue;
        }
        let part = *first as usize..*end as usize;
        let asked = Asked { list, reading: &reading, words: &words, row };
        match convert_there(&room.kinds[part.clone()], &list.flags[part.clone()], room.guess) {
            Some(there) => one(&asked, there, tally),
            // As an operand a call may have the four tokens of the early commit; alone it is refused on both sides.
            None if has_early_commit(&list.kinds[part.clone()], &list.flags[part]) => tally.count("rows left out by the early commit"),
            None => tally.differs("a row's tokens by themselves", list.len(), || asked.told(())),
        }
    }
}

/// `async ( ...` and a plain name on one line, at the start.
fn has_early_commit(kinds: &[u8], flags: &[u8]) -> bool {
    kinds.starts_with(&[2, 18, 28, 1]) && flags[1] == 0
}

/// A row of a tree that is to be converted.
struct Asked<'a> {
    list: &'a List,
    reading: &'a Reading,
    words: &'a [u32],
    row: usize,
}

impl Asked<'_> {
    /// For a sample.
    fn told(&self, more: impl std::fmt::Debug) -> String {
        format!("{}, row {}: {more:?}", show(self.list), self.row)
    }
}

/// One row's conversion on both sides.
fn one(asked: &Asked, (fatal, errors, rows): CrateConversion, tally: &mut Tally) {
    let [_, _, first, _, _, size] = asked.reading.rows[asked.row];
    let mut tree = asked.words.to_vec();
    let mut records = vec![0; 2 * size as usize];
    let here = Here::convert(&mut tree, asked.row, &mut records);
    let length = asked.list.len();
    tally.compared += 1;
    outside_stays(asked, &tree, here, tally);
    match (here, fatal) {
        (Ok(counts @ [_, count, _]), None) => {
            tally.count(if count == 0 { "converted" } else { "converted with records" });
            let rows_after = &tree.as_chunks().0[asked.row + 1 - size as usize..=asked.row];
            if counts != [size as usize, count, 0] || !is_whole(rows_after, &asked.list.kinds) {
                tally.differs("counts or sizes of a conversion", length, || asked.told((counts, rows_after)));
            }
            let mine = target_rows(asked, &tree);
            if mine != rows {
                tally.differs("target tree", length, || asked.told((&mine, &rows)));
            }
            let mine: Vec<[u32; 2]> = records[..2 * count].as_chunks().0.to_vec();
            let same = mine.iter().map(|record| record[0]).eq(errors.iter().map(record_number));
            let apart = |(record, error): (&[u32; 2], u32)| record[0] == 3 && record[1] != first + error;
            if !same || mine.iter().zip(errors.iter().map(|error| error.span.start)).any(apart) {
                tally.differs("records of a conversion", length, || asked.told((&mine, &errors)));
            }
        }
        (Err(refused), Some(error)) => {
            tally.count(if refused.0 == 9 { "refused 9" } else { "refused 10" });
            if refused != (refusal_number(&error), first + error.span.start) {
                tally.differs("refusal of a conversion", length, || asked.told((refused, &error)));
            }
        }
        (here, fatal) => tally.differs("converted on one side", length, || asked.told((here, &fatal))),
    }
}

/// The target's rows, counted from the row's first token.
fn target_rows(asked: &Asked, tree: &[u32]) -> Vec<[u32; 5]> {
    let [_, _, first, _, _, size] = asked.reading.rows[asked.row];
    let low = asked.row + 1 - size as usize;
    let rows = without_parentheses(tree[6 * low..6 * asked.row + 6].as_chunks().0);
    rows.into_iter().map(|[kind, mark, start, end, kids]| [kind, mark - first, start - first, end - first, kids]).collect()
}

/// No word outside of the row's subtree changes, and none at all where it is refused.
fn outside_stays(asked: &Asked, tree: &[u32], here: Result<Read, Refused>, tally: &mut Tally) {
    let size = asked.reading.rows[asked.row][5] as usize;
    let subtree = 6 * (asked.row + 1 - size)..6 * (asked.row + 1);
    let changed = (0..tree.len()).any(|at| tree[at] != asked.words[at] && (here.is_err() || !subtree.contains(&at)));
    if changed {
        tally.differs("a word outside of the target", asked.list.len(), || asked.told(()));
    }
}
