//! Demand 3 by running: over many lists, the twin (the three-way answer and the notes) and the plain reader read the same lists into the same
//! rows and records, outside the early commit; inside it, what the twin reads the plain one reads too. Where a list is read, the abandoned
//! count is the number of places at which the plain reader gave up a head whose three-way answer is Maybe. The tuned twin gives the twin's answer
//! and words of both buffers on every list.
//!
//!     agree small LENGTH | matched LENGTH ALPHABET | random, pattern or checks SEED FROM COUNT LONGEST
use lists::{ALPHABETS, List, matched, random_of, small};
use plain::Outcome;
use twin::arrow::{Tristate, three_way};

#[derive(Default)]
struct Sums {
    lists: usize,
    read: usize,
    clean: usize,
    abandoned: usize,
    long: usize,
    early: usize,
    unlike: usize,
    /// Words to lend to the twin and to the tuned one.
    lent: [Vec<u32>; 2],
}

type Entry = fn(&[u8], &[u8], &mut [u32], &mut [u32]) -> twin::Answer;

/// The words that are lent for a list's rows and records, full of a sign that no reader leaves.
fn lent_for<'a>(list: &List, words: &'a mut [u32]) -> (&'a mut [u32], &'a mut [u32]) {
    let lent = &mut words[..8 * list.len()];
    lent.fill(u32::MAX);
    lent.split_at_mut(6 * list.len())
}

/// `async ( ...` and a plain name on one line.
fn has_early_commit(list: &List) -> bool {
    list.kinds.windows(4).zip(list.flags.windows(4)).any(|(k, f)| k == [2, 18, 28, 1] && f[1] == 0)
}

/// Whether the two readings agree, or what is unlike.
fn unlike(list: &List, pattern: bool, sums: &mut Sums) -> Option<&'static str> {
    let [lent, tuned_lent] = &mut sums.lent;
    let (rows, records) = lent_for(list, lent);
    let (tuned_rows, tuned_records) = lent_for(list, tuned_lent);
    let (entry, tuned): (Entry, Entry) = if pattern { (twin::pattern, tuned::pattern) } else { (twin::read, tuned::read) };
    let ours = entry(&list.kinds, &list.flags, rows, records);
    if tuned(&list.kinds, &list.flags, tuned_rows, tuned_records) != ours || tuned_rows != rows || tuned_records != records {
        return Some("the tuned twin differs");
    }
    if ours.map_or_else(|cause| cause.number as u8 <= 7, |_| false) {
        return None;
    }
    let early = has_early_commit(list);
    sums.early += early as usize;
    match (ours, plain::read(&list.kinds, &list.flags, pattern)) {
        (_, Err(Outcome::TooLong)) => sums.long += 1,
        (Ok(counts), Ok(plain)) => {
            sums.read += 1;
            sums.clean += (counts.records == 0) as usize;
            sums.abandoned += counts.abandoned;
            let said: Vec<u32> = plain.records.iter().flat_map(|&(number, place)| [number, place as u32]).collect();
            if plain.words != rows[..6 * counts.rows] || said != records[..2 * counts.records] {
                return Some("other rows or records");
            }
            let maybe = |&&at: &&usize| three_way(&list.kinds, &list.flags, at, false, false) == Tristate::Maybe;
            if plain.given_up.iter().filter(maybe).count() != counts.abandoned {
                return Some("another number of abandoned heads");
            }
        }
        (Ok(_), Err(_)) => return Some("the plain reader refuses"),
        (Err(_), Ok(_)) if !early => return Some("the reader refuses"),
        _ => {}
    }
    None
}

fn compare() {
    let words: Vec<String> = std::env::args().skip(1).collect();
    let number = |at: usize| words.get(at).and_then(|w| w.parse::<usize>().ok()).expect("a number");
    let mut sums = Sums { lent: [vec![0; 8 * 2048], vec![0; 8 * 2048]], ..Sums::default() };
    let mut each = |list: &List| {
        for (pattern, letter) in [(false, 'r'), (true, 'p')] {
            sums.lists += 1;
            if let Some(what) = unlike(list, pattern, &mut sums) {
                sums.unlike += 1;
                println!("{what}: {}", list.line(letter));
            }
        }
    };
    match words.first().map(String::as_str) {
        Some("small") => small(number(1), &mut each),
        Some("matched") => matched(number(1), ALPHABETS[number(2)], &mut each),
        Some(sort @ ("random" | "pattern" | "checks")) => {
            let make = random_of(sort);
            let (seed, from, count, longest) = (number(1), number(2), number(3), number(4));
            (from..from + count).for_each(|n| each(&make(seed as u64, n as u64, longest)));
        }
        _ => panic!("agree small LENGTH | matched LENGTH ALPHABET | random, pattern or checks SEED FROM COUNT LONGEST"),
    }
    let Sums { lists, read, clean, abandoned, long, early, unlike, .. } = sums;
    println!(
        "{}: {lists} readings, {read} read, {clean} of them clean, {abandoned} heads abandoned, {long} too long for the plain reader, \
         {early} with the early commit, {unlike} unlike",
        words.join(" ")
    );
    std::process::exit((unlike > 0) as i32);
}

fn main() {
    std::thread::Builder::new().stack_size(1 << 30).spawn(compare).unwrap().join().unwrap();
}
