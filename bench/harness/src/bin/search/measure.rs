//! What calls of the archive take of the stack, to the byte, each held to its bound.
use archive::{CONVERT, Converts, PATTERN, READ, Reads};
use harness::painted::{Meter, on_painted_stack};
use harness::readers::black_box;
use harness::shape::brackets;
use std::sync::atomic::{AtomicUsize, Ordering};

/// The bytes of a painted stack, and how many there are.
const STACK: usize = 1 << 23;
const WORKERS: usize = 2;

/// The functions that recur.
#[derive(Clone, Copy, PartialEq, Eq, Hash)]
pub enum Entry {
    Read,
    Pattern,
    Convert,
}

impl Entry {
    /// The name, without `vuolmaset_`.
    pub fn name(self) -> &'static str {
        ["read", "pattern", "convert"][self as usize]
    }
}

/// What a call took, and what it answered.
#[derive(Clone, Copy)]
pub struct Took {
    pub bytes: usize,
    pub number: u32,
    pub place: usize,
}

/// The bounds that tools/stack.py wrote: of each function, by how many brackets are open at once, or by how many rows are below another.
#[derive(Default)]
pub struct Bounds([Vec<usize>; 3]);

impl Bounds {
    pub fn of_text(text: &str) -> Bounds {
        let bounds = |entry: Entry| {
            let line = text.lines().find_map(|line| line.strip_prefix(entry.name())?.strip_prefix(' '));
            line.map_or(vec![], |line| line.split(' ').map(|word| word.parse().expect("a number")).collect())
        };
        Bounds([Entry::Read, Entry::Pattern, Entry::Convert].map(bounds))
    }

    /// The bound of a function, if it is known.
    pub fn of(&self, entry: Entry, level: usize) -> Option<usize> {
        let bounds = &self.0[entry as usize];
        bounds.get(level).or(bounds.last()).copied()
    }
}

extern "C" fn reads_nothing(
    _: *const u8,
    _: usize,
    _: *const u8,
    _: usize,
    _: *mut u32,
    _: usize,
    _: *mut u32,
    _: usize,
    _: *mut usize,
    _: *mut usize,
    _: *mut usize,
) -> u32 {
    0
}

extern "C" fn converts_nothing(_: *mut u32, _: usize, _: usize, _: *mut u32, _: usize, _: *mut usize, _: *mut usize, _: *mut usize) -> u32 {
    0
}

/// Measures calls on a painted stack.
pub struct Measure<'a> {
    meter: &'a mut Meter,
    bounds: &'a Bounds,
    rows: Vec<u32>,
    records: Vec<u32>,
    reads_nothing: usize,
    converts_nothing: usize,
    pub calls: usize,
}

impl Measure<'_> {
    fn new<'a>(meter: &'a mut Meter, bounds: &'a Bounds) -> Measure<'a> {
        let (rows, records) = (vec![0; 6 * 2048], vec![0; 2 * 2048]);
        let mut measure = Measure { meter, bounds, rows, records, reads_nothing: 0, converts_nothing: 0, calls: 0 };
        measure.reads_nothing = measure.reading(reads_nothing, &[], &[]).bytes;
        measure.converts_nothing = measure.converting(converts_nothing, &mut [], 0).bytes;
        measure
    }

    /// What a reading takes, with what is around it.
    #[inline(never)]
    fn reading(&mut self, function: Reads, kinds: &[u8], flags: &[u8]) -> Took {
        let (function, n) = (black_box(function), kinds.len());
        let (rows, records) = (&mut self.rows[..6 * n], &mut self.records[..2 * n]);
        let (mut number, mut place, mut second, mut third) = (0, 0, 0, 0);
        let bytes = self.meter.used(&mut || {
            let (rows, records) = ((rows.as_mut_ptr(), 6 * n), (records.as_mut_ptr(), 2 * n));
            number = unsafe { function(kinds.as_ptr(), n, flags.as_ptr(), n, rows.0, rows.1, records.0, records.1, &mut place, &mut second, &mut third) };
        });
        Took { bytes, number, place }
    }

    /// What a conversion takes, with what is around it.
    #[inline(never)]
    fn converting(&mut self, function: Converts, tree: &mut [u32], row: usize) -> Took {
        let function = black_box(function);
        let (words, records) = (tree.len(), &mut self.records[..]);
        let (mut number, mut place, mut second, mut third) = (0, 0, 0, 0);
        let bytes = self.meter.used(&mut || {
            let records = (records.as_mut_ptr(), records.len());
            number = unsafe { function(tree.as_mut_ptr(), words, row, records.0, records.1, &mut place, &mut second, &mut third) };
        });
        Took { bytes, number, place }
    }

    /// What is left without what is around the call, and with its return address. It must be within the bound.
    fn alone(&mut self, entry: Entry, took: Took, around: usize, level: usize, what: &dyn Fn() -> String) -> Took {
        let bytes = took.bytes - around + 8;
        self.calls += 1;
        if let Some(bound) = self.bounds.of(entry, level).filter(|bound| *bound < bytes) {
            println!("{}: {bytes} bytes, over the bound of {bound} for {level} brackets or rows: {}", entry.name(), what());
            std::process::exit(1);
        }
        Took { bytes, ..took }
    }

    /// What the reading of a list takes.
    pub fn list(&mut self, entry: Entry, kinds: &[u8], flags: &[u8]) -> Took {
        let took = self.reading(if entry == Entry::Read { READ } else { PATTERN }, kinds, flags);
        self.alone(entry, took, self.reads_nothing, brackets(kinds).1, &|| format!("{kinds:?}"))
    }

    /// What a list is answered, refusal and place.
    pub fn answer(&mut self, entry: Entry, kinds: &[u8]) -> (u32, usize) {
        let (n, flags) = (kinds.len(), [0; 2048]);
        let (function, mut place, mut second, mut third) = (if entry == Entry::Read { READ } else { PATTERN }, 0, 0, 0);
        let (rows, records) = (self.rows.as_mut_ptr(), self.records.as_mut_ptr());
        let number = unsafe { function(kinds.as_ptr(), n, flags.as_ptr(), n, rows, 6 * n, records, 2 * n, &mut place, &mut second, &mut third) };
        (number, place)
    }

    /// What the conversion of a row takes, in a tree that has so many rows below one another.
    pub fn tree(&mut self, tree: &mut [u32], row: usize, height: usize) -> Took {
        let before = tree.to_vec();
        let took = self.converting(CONVERT, tree, row);
        self.alone(Entry::Convert, took, self.converts_nothing, height - 1, &|| format!("row {row} of {before:?}"))
    }
}

/// Works on all items, and says how far it has come.
pub fn for_all<T: Sync, R: Send>(what: &str, items: &[T], bounds: &Bounds, work: impl Fn(&mut Measure, &T) -> R + Sync) -> Vec<R> {
    let (next, calls) = (AtomicUsize::new(0), AtomicUsize::new(0));
    let worker = || {
        let mut done = vec![];
        on_painted_stack(STACK, &mut |meter| {
            let mut measure = Measure::new(meter, bounds);
            while let Some((number, item)) = Some(next.fetch_add(1, Ordering::Relaxed)).and_then(|number| Some((number, items.get(number)?))) {
                done.push((number, work(&mut measure, item)));
                if items.len() > 50 && (number + 1) * 10 / items.len() > number * 10 / items.len() {
                    eprintln!("{what}: {} of {}", number + 1, items.len());
                }
            }
            calls.fetch_add(measure.calls, Ordering::Relaxed);
        });
        done
    };
    let mut done: Vec<(usize, R)> = std::thread::scope(|scope| {
        let workers: Vec<_> = (0..WORKERS).map(|_| scope.spawn(worker)).collect();
        workers.into_iter().flat_map(|worker| worker.join().expect("a worker")).collect()
    });
    done.sort_by_key(|(number, _)| *number);
    eprintln!("{what}: {} calls measured", calls.into_inner());
    done.into_iter().map(|(_, result)| result).collect()
}
