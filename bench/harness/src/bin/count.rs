//! Counts the instructions of each reader by valgrind's callgrind: for each family at 2,048 tokens, and how they grow from 512 to 1,024 to 2,048.
//! One run of this program under callgrind does all work; only what `counted` does is counted, and a dump is written after each call of it.
//!
//!     count            runs itself under callgrind and prints the tables
//!     count growth     prints the largest growth alone, and fails where the last reader's is more than MOST
//!     count work       what callgrind runs
use harness::families::{FAMILIES, Family, GROWING, LARGEST, Size, TURNED};
use harness::readers::{CONVERTERS, READERS, Room, Tree, black_box, compared, compared_trees, names, tokens, with_room_to_recurse};
use harness::table::{Ratios, Table, heads};
use lists::List;
use std::path::Path;
use std::process::Command;

const SIZES: [usize; 3] = [512, 1024, 2048];

/// The most that the instructions may grow by when the tokens double.
const MOST: f64 = 2.05;

/// What is done with the sheets of a family: they are read, or what was read is converted by the entry for that.
#[derive(Clone, Copy)]
enum Work {
    Read(&'static Family),
    Convert(&'static Family),
}

/// What was counted of a work at one size: the tokens, and each reader's instructions.
struct Counted {
    tokens: usize,
    instructions: Vec<f64>,
}

/// A work with what was counted of it, by size.
type Sizes = (Work, Vec<Counted>);

/// All works, those of the table of the largest sheets first.
fn works() -> Vec<Work> {
    let read = FAMILIES.iter().chain(&GROWING).map(Work::Read);
    read.chain(TURNED.iter().map(Work::Convert)).collect()
}

/// What is counted.
#[no_mangle]
#[inline(never)]
fn counted(work: &mut dyn FnMut()) {
    work();
}

/// Before this is called, callgrind writes what it has counted, and starts anew.
#[no_mangle]
#[inline(never)]
fn written() {
    black_box(());
}

impl Work {
    /// What is done, in a word or two.
    fn name(&self) -> String {
        match self {
            Work::Read(family) => family.name.to_string(),
            Work::Convert(family) => format!("convert: {}", family.name),
        }
    }

    fn family(&self) -> &'static Family {
        match self {
            Work::Read(family) | Work::Convert(family) => family,
        }
    }

    /// The sizes of the sheets: all, or the largest alone if the family does not grow.
    fn sizes(&self) -> impl Iterator<Item = Size> {
        let sizes = if self.family().grows() { &SIZES[..] } else { &SIZES[2..] };
        sizes.iter().map(|&tokens| Size { tokens, ..LARGEST })
    }

    /// Does it once with each reader.
    fn run(&self, size: Size, room: &mut Room) {
        let sheets = self.family().sheets(size);
        match self {
            Work::Read(_) => READERS.iter().for_each(|(_, entry)| {
                counted(&mut || {
                    for sheet in &sheets {
                        let _ = black_box(room.read(*entry, black_box(sheet)));
                    }
                });
                written();
            }),
            Work::Convert(_) => CONVERTERS.iter().for_each(|entry| {
                let mut trees: Vec<Tree> = sheets.iter().map(Tree::of).collect();
                counted(&mut || {
                    for tree in &mut trees {
                        let _ = black_box(tree.convert(*entry));
                    }
                });
                written();
            }),
        }
    }

    /// The sheets of a size, after the readers have been compared on them.
    fn compared(&self, size: Size) -> Vec<List> {
        match self {
            Work::Read(family) => compared(READERS, family, size),
            Work::Convert(family) => compared_trees(family, size),
        }
    }
}

/// Does all works, each at its sizes.
fn work() {
    let mut room = Room::new();
    works().iter().for_each(|work| work.sizes().for_each(|size| work.run(size, &mut room)));
}

/// Runs `count work` under callgrind, with its dumps in the folder.
fn run(folder: &Path) {
    let out = folder.join("out");
    let mut valgrind = Command::new("valgrind");
    valgrind.args(["--tool=callgrind", "--quiet", "--toggle-collect=counted", "--dump-before=written"]);
    valgrind.arg(format!("--callgrind-out-file={}", out.display())).arg(std::env::current_exe().unwrap()).arg("work");
    assert!(valgrind.status().expect("valgrind starts").success(), "valgrind failed");
}

/// The number of instructions that a dump tells.
fn instructions(dump: &Path) -> f64 {
    let text = std::fs::read_to_string(dump).unwrap_or_else(|error| panic!("{}: {error}", dump.display()));
    let line = text.lines().find_map(|line| line.strip_prefix("totals: ")).expect("a dump tells its sum");
    line.trim().parse().expect("a number")
}

/// What the dumps tell of each work at its sizes, in the order of `work`. The readers are compared on each sheet.
fn gather(folder: &Path) -> Vec<Sizes> {
    let mut dumps = (1..).map(|number| instructions(&folder.join(format!("out.{number}"))));
    let mut counted = |sheets: &[List]| Counted { tokens: tokens(sheets), instructions: dumps.by_ref().take(READERS.len()).collect() };
    works().into_iter().map(|work| (work, work.sizes().map(|size| counted(&work.compared(size))).collect())).collect()
}

/// The table of the largest sheets: instructions a token.
fn print_largest(works: &[Sizes]) {
    let mut table = Table::new(&heads(&["family", "tokens"], &names()));
    let mut ratios = Ratios::default();
    for (work, sizes) in &works[..FAMILIES.len()] {
        let largest = &sizes[sizes.len() - 1];
        let each: Vec<f64> = largest.instructions.iter().map(|count| count / largest.tokens as f64).collect();
        let mut row = vec![work.name(), largest.tokens.to_string()];
        row.extend(ratios.cells(work.family().name, &each));
        table.push(row);
    }
    println!("Instructions a token.\n\n{table}");
    ratios.lines(&names()).iter().for_each(|line| println!("{line}"));
}

/// By how much a reader's instructions grow when the tokens double; where they do not double exactly, in proportion.
fn growth(from: &Counted, to: &Counted, reader: usize) -> f64 {
    let each = |counted: &Counted| counted.instructions[reader] / counted.tokens as f64;
    2.0 * each(to) / each(from)
}

/// The growth of a reader from each size to the next.
fn growths(sizes: &[Counted], reader: usize) -> Vec<f64> {
    sizes.windows(2).map(|pair| growth(&pair[0], &pair[1], reader)).collect()
}

/// The largest growth of each reader.
fn largest_growth(works: &[Sizes]) -> Vec<f64> {
    let most = |reader| works.iter().flat_map(|(_, sizes)| growths(sizes, reader)).fold(0.0, f64::max);
    (0..READERS.len()).map(most).collect()
}

/// Prints the largest growth of each reader.
fn print_largest_growth(works: &[Sizes]) {
    let most: Vec<String> = names().iter().zip(largest_growth(works)).map(|(name, most)| format!("{name} **{most:.3}**")).collect();
    println!("Largest growth: {}.", most.join(", "));
}

/// The table of growth, for the families that grow.
fn print_growth(works: &[Sizes]) {
    let steps = |name: &&str| ["512 to 1,024", "1,024 to 2,048"].map(|step| format!("{name}, {step}"));
    let columns: Vec<String> = names().iter().flat_map(steps).collect();
    let mut table = Table::new(&[vec!["family".to_string(), "tokens".to_string()], columns].concat());
    for (work, sizes) in works.iter().filter(|(work, _)| work.family().grows()) {
        let lengths: Vec<String> = sizes.iter().map(|counted| counted.tokens.to_string()).collect();
        let values = (0..READERS.len()).flat_map(|reader| growths(sizes, reader)).map(|value| format!("{value:.3}"));
        table.push([work.name(), lengths.join(", ")].into_iter().chain(values).collect());
    }
    println!("\nGrowth of the instructions when the tokens double: at most {MOST} is wanted.\n\n{table}");
}

/// Counts in a folder of its own.
fn count() -> Vec<Sizes> {
    let folder = std::env::temp_dir().join(format!("count-{}", std::process::id()));
    std::fs::create_dir(&folder).expect("a folder for the dumps");
    run(&folder);
    let works = gather(&folder);
    std::fs::remove_dir_all(&folder).expect("the folder can be removed");
    works
}

/// Counts, and prints the tables.
fn tables() {
    let works = count();
    print_largest(&works);
    print_growth(&works);
    print_largest_growth(&works);
}

/// Counts, and fails where the last reader's instructions grow by too much.
fn held() {
    let works = count();
    print_largest_growth(&works);
    if largest_growth(&works).pop().map_or(true, |most| most > MOST) {
        println!("the instructions grow by more than {MOST} when the tokens double");
        std::process::exit(1);
    }
}

fn main() {
    match std::env::args().nth(1).as_deref() {
        Some("work") => with_room_to_recurse(work),
        Some("growth") => with_room_to_recurse(held),
        _ => with_room_to_recurse(tables),
    }
}
