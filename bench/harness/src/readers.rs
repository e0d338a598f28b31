//! The readers that are measured, and the memory they are lent.
use crate::families::{Family, Size};
use lists::List;
use tuned::Tuned;
use twin::entries::Twin;
use twin::protocol::{Entries, Read, Refused};

pub type Entry = fn(&[u8], &[u8], &mut [u32], &mut [u32]) -> Result<Read, Refused>;

/// A reader: its name and its entry.
pub type Reader = (&'static str, Entry);

/// The readers that are there; the last is measured by the others.
pub static READERS: &[Reader] = &[
    ("plain twin", Twin::read as Entry),
    ("tuned twin", Tuned::read as Entry),
    #[cfg(feature = "archive")]
    ("archive", archive::Archive::read as Entry),
];

pub type Converter = fn(&mut [u32], usize, &mut [u32]) -> Result<Read, Refused>;

/// The entries of the same readers that convert.
pub static CONVERTERS: &[Converter] = &[
    Twin::convert as Converter,
    Tuned::convert as Converter,
    #[cfg(feature = "archive")]
    (archive::Archive::convert as Converter),
];

/// The readers' names.
pub fn names() -> Vec<&'static str> {
    READERS.iter().map(|(name, _)| *name).collect()
}

/// Lent memory, as on the box: 6 and 2 words for each token, not cleared between readings.
pub struct Room {
    rows: Vec<u32>,
    records: Vec<u32>,
}

impl Room {
    /// Memory full of words that no reader leaves, so that one that forgets a word is found out.
    pub fn new() -> Room {
        Room { rows: vec![u32::MAX; 6 * 2048], records: vec![u32::MAX; 2 * 2048] }
    }

    /// Reads a sheet into this memory.
    pub fn read(&mut self, entry: Entry, sheet: &List) -> Result<Read, Refused> {
        let n = sheet.len();
        entry(&sheet.kinds, &sheet.flags, &mut self.rows[..6 * n], &mut self.records[..2 * n])
    }
}

impl Default for Room {
    fn default() -> Room {
        Room::new()
    }
}

/// All readers give the same answer and leave the same words.
fn agree(readers: &[Reader], sheet: &List) -> bool {
    let mut seen = readers.iter().map(|(_, entry)| {
        let mut room = Room::new();
        (room.read(*entry, sheet), room.rows, room.records)
    });
    let first = seen.next();
    seen.all(|other| Some(other) == first)
}

/// The sheets of a family, after the readers have been compared on each.
pub fn compared(readers: &[Reader], family: &Family, size: Size) -> Vec<List> {
    let sheets = family.sheets(size);
    assert!(sheets.iter().all(|sheet| agree(readers, sheet)), "{}: the readers differ", family.name);
    sheets
}

/// A tree that was read, with the words that a conversion of it is lent.
#[derive(Clone, PartialEq, Eq)]
pub struct Tree {
    words: Vec<u32>,
    records: Vec<u32>,
}

impl Tree {
    /// The tree of a sheet, as the plain twin reads it.
    pub fn of(sheet: &List) -> Tree {
        let mut room = Room::new();
        let [rows, ..] = room.read(Twin::read, sheet).expect("a sheet that is read");
        room.rows.truncate(6 * rows);
        room.records.truncate(2 * rows);
        Tree { words: room.rows, records: room.records }
    }

    /// Converts the root.
    pub fn convert(&mut self, entry: Converter) -> Result<Read, Refused> {
        let root = self.words.len() / 6 - 1;
        entry(&mut self.words, root, &mut self.records)
    }
}

/// The sheets of a family, after all readers have converted the tree of each to the same words.
pub fn compared_trees(family: &Family, size: Size) -> Vec<List> {
    let turned = |sheet: &List, entry: Converter| {
        let mut tree = Tree::of(sheet);
        let answer = tree.convert(entry);
        assert!(answer.is_ok(), "{}: no target", family.name);
        (answer, tree)
    };
    let agree = |sheet: &List| CONVERTERS.iter().all(|entry| turned(sheet, *entry) == turned(sheet, CONVERTERS[0]));
    let sheets = family.sheets(size);
    assert!(sheets.iter().all(agree), "{}: the readers convert otherwise", family.name);
    sheets
}

/// How many tokens the sheets have.
pub fn tokens(sheets: &[List]) -> usize {
    sheets.iter().map(List::len).sum()
}

/// A value of which the compiler knows nothing more, and which it must have at hand: `std::hint::black_box` of Rust 1.66, for older ones.
pub fn black_box<T>(value: T) -> T {
    // No instruction; for all that the compiler knows, what stands at the address is read and written.
    unsafe { std::arch::asm!("/* {} */", in(reg) &value, options(nostack, preserves_flags)) };
    value
}

/// Runs on a stack that no reader comes to the end of: chains of 2,048 go deep.
pub fn with_room_to_recurse(work: fn()) {
    std::thread::Builder::new().stack_size(1 << 28).spawn(work).unwrap().join().unwrap();
}
