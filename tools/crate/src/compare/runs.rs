//! The runs: which lists, shared among threads, with how far they are, and a bound on their time.
use super::sides::{Entry, Room};
use super::tally::{Tally, grouped};
use super::{conversions, lookahead, operators, readings};
use crate::lexer::{Kind, MODIFIER_NAMES, RESERVED_WORDS};
use crate::stand_in::guess::Guess;
use lists::{ALPHABETS, List, matched, random, random_pattern, small};
use std::sync::atomic::{AtomicBool, AtomicU64, Ordering::Relaxed};
use std::time::{Duration, Instant};

/// How the runs are made.
#[derive(Clone, Copy)]
pub struct How {
    pub jobs: usize,
    /// A run is stopped after this time, and says so.
    pub seconds: u64,
    pub guess: Guess,
}

/// What is compared over a run's lists.
#[derive(Clone, Copy, PartialEq, Debug)]
pub enum Part {
    Operators,
    Three,
    Read,
    Pattern,
    Object,
    Convert,
}

/// The lists of a run.
#[derive(Clone, Copy, Debug)]
pub enum Lists {
    /// All kinds of tokens by themselves.
    Kinds,
    /// All windows of a length over all kinds, each with every choice of breaks.
    Windows(usize),
    /// All windows of a length over the kinds that the worker looks at, from `(`, `<` and `async`: no break, one at each place, all.
    Looked(usize),
    /// All windows of a length over all kinds, from `(`, `<` and `async`: no break, and one after the first token.
    Wide(usize),
    /// Windows with each word of the bytes 5 and 17 in turn.
    Words(usize),
    /// All of a length over all kinds, with every break that counts.
    Small(usize),
    /// All bracket-matched ones of a length over an alphabet of readers/lists, with every break that counts.
    Matched(usize, usize),
    /// Random ones: seed, count, the longest.
    Random(u64, u64, usize),
}

/// A run by its name, PART:LISTS.
#[derive(Clone)]
pub struct Run {
    pub name: String,
    pub part: Part,
    pub lists: Lists,
}

impl Run {
    /// The run of a name, or nothing.
    pub fn of(name: &str) -> Option<Run> {
        let (part, rest) = name.split_once(':').unwrap_or((name, "kinds"));
        let (sort, numbers) = rest.split_once(':').unwrap_or((rest, ""));
        let numbers: Vec<u64> = numbers.split(':').filter(|word| !word.is_empty()).map(|word| word.parse().ok()).collect::<Option<_>>()?;
        let part = match part {
            "operators" => Part::Operators,
            "three" => Part::Three,
            "read" => Part::Read,
            "pattern" => Part::Pattern,
            "object" => Part::Object,
            "convert" => Part::Convert,
            _ => return None,
        };
        let lists = match (sort, &numbers[..]) {
            ("kinds", []) if part == Part::Operators => Lists::Kinds,
            ("windows", &[n]) if part == Part::Three => Lists::Windows(n as usize),
            ("looked", &[n]) if part == Part::Three => Lists::Looked(n as usize),
            ("wide", &[n]) if part == Part::Three => Lists::Wide(n as usize),
            ("words", &[n]) if part == Part::Three => Lists::Words(n as usize),
            ("small", &[n]) if part as u8 > Part::Three as u8 => Lists::Small(n as usize),
            ("matched", &[n, alphabet]) if part as u8 > Part::Three as u8 && alphabet < 3 => Lists::Matched(n as usize, alphabet as usize),
            ("random", &[seed, count, longest]) if part as u8 > Part::Three as u8 => Lists::Random(seed, count, longest as usize),
            _ => return None,
        };
        Some(Run { name: name.to_owned(), part, lists })
    }
}

/// The kinds that the worker looks at, one of each class that it asks for, and one that it does not look at.
const LOOKED: [u8; 24] = [1, 2, 3, 5, 6, 7, 12, 14, 16, 53, 18, 19, 20, 22, 24, 25, 26, 28, 29, 48, 49, 60, 63, 57];

/// All words of a length over an alphabet.
fn words_over(alphabet: &[u8], length: usize, each: &mut dyn FnMut(&[u8])) {
    let mut places = vec![0; length];
    let mut word = vec![alphabet[0]; length];
    loop {
        each(&word);
        let Some(at) = places.iter().rposition(|&place| place + 1 < alphabet.len()) else { return };
        places[at] += 1;
        places[at + 1..].fill(0);
        for (letter, &place) in word[at..].iter_mut().zip(&places[at..]) {
            *letter = alphabet[place];
        }
    }
}

/// All words of a length over an alphabet, but for the first token, which is one of those at which the worker is asked.
fn from_starts(alphabet: &[u8], length: usize, each: &mut dyn FnMut(&[u8])) {
    words_over(alphabet, length - 1, &mut |after| [2, 18, 48].into_iter().for_each(|start| each(&[&[start], after].concat())));
}

/// A list with the breaks that the bits of a number say.
fn with_bits(kinds: &[u8], bits: u32) -> List {
    List { kinds: kinds.to_vec(), flags: (0..kinds.len()).map(|at| (bits >> at & 1) as u8).collect() }
}

/// The windows of a run, each with the kinds that the crate is given.
fn windows(lists: Lists, each: &mut dyn FnMut(&List, &[Kind])) {
    let plain = |kinds: &[u8]| kinds.iter().map(|&byte| Kind::of(byte)).collect::<Vec<_>>();
    match lists {
        Lists::Windows(length) => words_over(&(1..=78).collect::<Vec<u8>>(), length, &mut |kinds| {
            (0..1 << length).for_each(|bits| each(&with_bits(kinds, bits), &plain(kinds)));
        }),
        Lists::Looked(length) => from_starts(&LOOKED, length, &mut |kinds| {
            let one_or_all = (0..length).map(|at| 1 << at).chain([0, (1 << length) - 1]);
            one_or_all.for_each(|bits| each(&with_bits(kinds, bits), &plain(kinds)));
        }),
        Lists::Wide(length) => from_starts(&(1..=78).collect::<Vec<u8>>(), length, &mut |kinds| {
            [0, 2].into_iter().for_each(|bits| each(&with_bits(kinds, bits), &plain(kinds)));
        }),
        Lists::Words(length) => {
            for word in MODIFIER_NAMES.into_iter().chain(RESERVED_WORDS) {
                let byte = word.byte();
                words_over(&[1, 2, 3, byte, 18, 48, 28, 26, 25, 24, 63, 19], length, &mut |kinds| {
                    let said = kinds.iter().map(|&kind| if kind == byte { word } else { Kind::of(kind) }).collect::<Vec<_>>();
                    if kinds.contains(&byte) {
                        each(&List::plain(kinds), &said);
                    }
                });
            }
        }
        _ => {}
    }
}

/// Brackets around a list.
fn wrapped(open: u8, list: &List, close: u8) -> List {
    List { kinds: [&[open], &list.kinds[..], &[close]].concat(), flags: [&[0], &list.flags[..], &[0]].concat() }
}

/// The parts of a list from a `{` to the `}` that matches it.
fn objects_in(list: &List, each: &mut dyn FnMut(&List)) {
    let mut open = Vec::new();
    for (at, &kind) in list.kinds.iter().enumerate() {
        match kind {
            18 | 20 | 22 => open.push(at),
            19 | 21 | 23 => {
                let from = open.pop().unwrap_or(at);
                if list.kinds[from] == 22 && kind == 23 {
                    each(&List { kinds: list.kinds[from..=at].to_vec(), flags: list.flags[from..=at].to_vec() });
                }
            }
            _ => {}
        }
    }
}

/// The lists that a part makes of one list: for objects what stands in braces, for conversions also the list in brackets and in braces.
fn made_of(part: Part, lists: Lists, list: &List, each: &mut dyn FnMut(&List)) {
    let is_random = matches!(lists, Lists::Random(..));
    match part {
        Part::Object if is_random => objects_in(list, each),
        Part::Object => each(&wrapped(22, list, 23)),
        Part::Convert if !is_random => {
            each(list);
            each(&wrapped(20, list, 21));
            each(&wrapped(22, list, 23));
        }
        _ => each(list),
    }
}

/// What the threads of a run share: how far it is, and whether its time is over.
struct Shared {
    lists: AtomicU64,
    differences: AtomicU64,
    over: AtomicBool,
}

/// One thread's share of a run.
struct Share<'a> {
    number: usize,
    how: How,
    shared: &'a Shared,
    room: Room,
    tally: Tally,
    seen: u64,
}

impl Share<'_> {
    /// Whether the next list is this thread's: blocks of 512 go round.
    fn takes_next(&mut self) -> bool {
        self.seen += 1;
        (self.seen / 512) as usize % self.how.jobs == self.number && !self.shared.over.load(Relaxed)
    }

    /// Tells how far it is, now and then.
    fn tell(&mut self, told: &mut (u64, u64)) {
        let now = (self.tally.lists, self.tally.difference_count());
        if now.0 >= told.0 + 256 {
            self.shared.lists.fetch_add(now.0 - told.0, Relaxed);
            self.shared.differences.fetch_add(now.1 - told.1, Relaxed);
            *told = now;
        }
    }

    /// Compares one list.
    fn compare(&mut self, run: &Run, list: &List) {
        let (room, tally) = (&mut self.room, &mut self.tally);
        made_of(run.part, run.lists, list, &mut |list| match run.part {
            Part::Pattern => readings::compare(Entry::Binding, list, room, tally),
            Part::Convert => conversions::compare(list, room, tally),
            _ => readings::compare(Entry::Expression, list, room, tally),
        });
    }

    /// All lists of this share.
    fn work(mut self, run: &Run) -> Tally {
        let mut told = (0, 0);
        let mut each = |list: &List| {
            if self.takes_next() {
                self.compare(run, list);
                self.tell(&mut told);
            }
        };
        match run.lists {
            Lists::Small(length) => small(length, &mut each),
            Lists::Matched(length, alphabet) => matched(length, ALPHABETS[alphabet], &mut each),
            Lists::Random(seed, count, longest) => self.work_random(run, seed, count, longest, &mut told),
            _ => windows(run.lists, &mut |list, kinds| {
                if self.takes_next() {
                    let places = if matches!(run.lists, Lists::Looked(_) | Lists::Wide(_)) { 0..1 } else { 0..list.len() };
                    lookahead::compare(list, kinds, places, &mut self.tally);
                    self.tell(&mut told);
                }
            }),
        }
        self.tally
    }

    /// The random lists of this share: each is made by its number alone.
    fn work_random(&mut self, run: &Run, seed: u64, count: u64, longest: usize, told: &mut (u64, u64)) {
        let make = if run.part == Part::Pattern { random_pattern } else { random };
        for number in (self.number as u64..count).step_by(self.how.jobs) {
            if self.shared.over.load(Relaxed) {
                return;
            }
            self.compare(run, &make(seed, number, longest));
            self.tell(told);
        }
    }
}

/// Long lists are read by recursion.
const STACK: usize = 1 << 29;

/// One run: all its shares, with how far it is every few seconds. The second is whether its time was over before its end.
pub fn run(run: &Run, how: How, printed: &str) -> (Tally, bool) {
    if run.part == Part::Operators {
        return (operators::run(printed), false);
    }
    let shared = Shared { lists: AtomicU64::new(0), differences: AtomicU64::new(0), over: AtomicBool::new(false) };
    let mut sum = Tally::default();
    std::thread::scope(|scope| {
        let start = |number| {
            let share = Share { number, how, shared: &shared, room: Room::new(how.guess), tally: Tally::default(), seen: 0 };
            std::thread::Builder::new().stack_size(STACK).spawn_scoped(scope, move || share.work(run)).expect("no thread")
        };
        let threads: Vec<_> = (0..how.jobs).map(start).collect();
        watch(run, how, &shared, &|| threads.iter().all(|thread| thread.is_finished()));
        threads.into_iter().for_each(|thread| sum.add(&thread.join().expect("a thread stopped")));
    });
    (sum, shared.over.load(Relaxed))
}

/// Shows how far a run is, and ends it when its time is over.
fn watch(run: &Run, how: How, shared: &Shared, finished: &dyn Fn() -> bool) {
    let begun = Instant::now();
    let mut shown = 0;
    while !finished() {
        std::thread::sleep(Duration::from_millis(20));
        let seconds = begun.elapsed().as_secs();
        if seconds >= how.seconds {
            shared.over.store(true, Relaxed);
        }
        if seconds >= shown + 5 {
            shown = seconds;
            let (lists, differences) = (shared.lists.load(Relaxed), shared.differences.load(Relaxed));
            eprintln!("  {}: {} lists, {seconds} s, {differences} differences", run.name, grouped(lists));
        }
    }
}
