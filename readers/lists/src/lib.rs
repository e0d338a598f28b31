//! Token lists for comparisons: all short ones, all bracket-matched ones over an alphabet, and random ones made by the grammar, mutated, or
//! with a fault put in on purpose. Every list depends on the seed and its number alone.
pub mod kinds;
pub mod make;

/// A list of tokens: kinds and flags.
#[derive(Clone, Default, PartialEq, Eq, Debug)]
pub struct List {
    pub kinds: Vec<u8>,
    pub flags: Vec<u8>,
}

impl List {
    pub fn plain(kinds: &[u8]) -> List {
        List { kinds: kinds.to_vec(), flags: vec![0; kinds.len()] }
    }

    pub fn push(&mut self, kind: u8, flag: u8) {
        self.kinds.push(kind);
        self.flags.push(flag);
    }

    pub fn len(&self) -> usize {
        self.kinds.len()
    }

    pub fn is_empty(&self) -> bool {
        self.kinds.is_empty()
    }

    /// The list as a line of the protocol.
    pub fn line(&self, letter: char) -> String {
        let hex = |bytes: &[u8]| bytes.iter().map(|b| format!("{b:02x}")).collect::<String>();
        format!("{letter} {} {}", hex(&self.kinds), hex(&self.flags))
    }
}

/// The places whose flag the rules look at: after Async, at `=>`, at `++` and `--`. The first token's flag is free.
fn breakable(kinds: &[u8]) -> Vec<usize> {
    (1..kinds.len()).filter(|&at| kinds[at - 1] == 2 || matches!(kinds[at], 29 | 36 | 37)).collect()
}

/// A list with every choice of breaks at the places where they count.
fn with_breaks(kinds: &[u8], each: &mut impl FnMut(&List)) {
    let places = breakable(kinds);
    for choice in 0..1u32 << places.len() {
        let mut list = List::plain(kinds);
        for (bit, &place) in places.iter().enumerate() {
            list.flags[place] = (choice >> bit & 1) as u8;
        }
        each(&list);
    }
}

/// All lists of a length over all kinds.
pub fn small(length: usize, each: &mut impl FnMut(&List)) {
    let mut kinds = vec![1u8; length];
    loop {
        with_breaks(&kinds, each);
        let at = match kinds.iter().rposition(|&k| k < 78) {
            Some(at) => at,
            None => return,
        };
        kinds[at] += 1;
        kinds[at + 1..].fill(1);
    }
}

/// The alphabets of the bracket-matched lists: arrows and patterns; operators.
pub const ALPHABETS: [&[u8]; 3] = [&[1, 2, 12, 24, 25, 28, 29, 63], &[1, 12, 24, 25, 26, 27, 36, 38, 39, 58, 62, 64], &[1, 2, 5, 24, 26, 28, 29, 48]];

/// All lists of a length over an alphabet and the three sorts of brackets, matched.
pub fn matched(length: usize, alphabet: &[u8], each: &mut impl FnMut(&List)) {
    fn go(kinds: &mut Vec<u8>, open: &mut Vec<u8>, length: usize, alphabet: &[u8], each: &mut impl FnMut(&List)) {
        let left = length - kinds.len();
        if left == 0 {
            with_breaks(kinds, each);
            return;
        }
        if left > open.len() {
            for &kind in alphabet {
                kinds.push(kind);
                go(kinds, open, length, alphabet, each);
                kinds.pop();
            }
        }
        if left > open.len() + 1 {
            for bracket in [18, 20, 22] {
                kinds.push(bracket);
                open.push(bracket + 1);
                go(kinds, open, length, alphabet, each);
                open.pop();
                kinds.pop();
            }
        }
        if let Some(close) = open.pop() {
            kinds.push(close);
            go(kinds, open, length, alphabet, each);
            kinds.pop();
            open.push(close);
        }
    }
    go(&mut Vec::new(), &mut Vec::new(), length, alphabet, each);
}

/// Random numbers (splitmix64).
#[derive(Clone)]
pub struct Random(pub u64);

impl Random {
    pub fn next(&mut self) -> u64 {
        self.0 = self.0.wrapping_add(0x9E37_79B9_7F4A_7C15);
        let mut z = self.0;
        z = (z ^ (z >> 30)).wrapping_mul(0xBF58_476D_1CE4_E5B9);
        z = (z ^ (z >> 27)).wrapping_mul(0x94D0_49BB_1331_11EB);
        z ^ (z >> 31)
    }

    /// A number below `n`.
    pub fn below(&mut self, n: usize) -> usize {
        (self.next() % n.max(1) as u64) as usize
    }

    /// True once in `n` times.
    pub fn once_in(&mut self, n: usize) -> bool {
        self.below(n) == 0
    }

    pub fn pick<T: Copy>(&mut self, from: &[T]) -> T {
        from[self.below(from.len())]
    }
}

/// What makes a list of about so many tokens with up to so many faults.
pub type Make = fn(&mut Random, usize, usize) -> List;

/// The random list of a number: a third each by the grammar alone, mutated, and with faults.
pub fn random(seed: u64, number: u64, longest: usize) -> List {
    random_by(make::expression, seed, number, longest)
}

/// The random list of a number for the pattern entry.
pub fn random_pattern(seed: u64, number: u64, longest: usize) -> List {
    random_by(make::binding, seed, number, longest)
}

/// The random list of a number for the checks: brackets that go up and down about the limit, whatever opens and closes them, and in some lists
/// a byte that is no kind or no flag.
pub fn random_checks(seed: u64, number: u64, longest: usize) -> List {
    let mut random = start(seed, number);
    let length = 1 + random.below(longest);
    let mut list = List::default();
    let (mut open, mut aim) = (0, 64);
    while list.len() < length {
        if open == aim {
            aim = random.below(68);
        }
        let kind = match random.below(8) {
            0 => 1,
            _ if open <= aim => random.pick(&[18, 20, 22]),
            _ => random.pick(&[19, 21, 23]),
        };
        open = match kind {
            1 => open,
            _ if open <= aim => open + 1,
            _ => open - 1,
        };
        list.push(kind, random.once_in(8) as u8);
    }
    let at = random.below(length);
    match random.below(4) {
        0 => list.kinds[at] = random.pick(&[0, 1, 78, 79, 255]),
        1 => list.flags[at] = random.pick(&[0, 1, 2, 255]),
        _ => {}
    }
    list
}

/// What makes the random list of a seed and a number with a longest length, by its name.
pub fn random_of(sort: &str) -> fn(u64, u64, usize) -> List {
    match sort {
        "random" => random,
        "pattern" => random_pattern,
        _ => random_checks,
    }
}

/// Random numbers of a seed and a list's number.
fn start(seed: u64, number: u64) -> Random {
    let mut random = Random(seed.wrapping_mul(0x1000_0000_01B3) ^ number.wrapping_mul(0x9E37_79B9_7F4A_7C15));
    random.next();
    random
}

fn random_by(make: Make, seed: u64, number: u64, longest: usize) -> List {
    let mut random = start(seed, number);
    let bits = (usize::BITS - longest.leading_zeros()) as usize;
    let (about, spread) = (random.below(bits), random.below(bits));
    let size = ((1 << about) + random.below(1 << spread)).min(longest);
    let mode = random.below(3);
    let faults = if mode == 2 { 1 + random.below(4) } else { 0 };
    let mut list = make(&mut random, size, faults);
    if mode == 1 {
        for _ in 0..1 + random.below(4) {
            mutate(&mut random, &mut list);
        }
    }
    list.kinds.truncate(longest);
    list.flags.truncate(longest);
    list
}

/// One token left out, put in, replaced, doubled, or changed with its neighbour, or a break put in.
fn mutate(random: &mut Random, list: &mut List) {
    let at = random.below(list.len());
    let kind = if random.once_in(2) && !list.is_empty() { random.pick(&list.kinds) } else { 1 + random.below(78) as u8 };
    match random.below(6) {
        0 if list.len() > 1 => {
            list.kinds.remove(at);
            list.flags.remove(at);
        }
        1 => {
            list.kinds.insert(at, kind);
            list.flags.insert(at, 0);
        }
        2 => list.kinds[at] = kind,
        3 if at + 1 < list.len() => list.kinds.swap(at, at + 1),
        4 => list.flags[at] ^= 1,
        _ => {
            let (kind, flag) = (list.kinds[at], list.flags[at]);
            list.kinds.insert(at, kind);
            list.flags.insert(at, flag);
        }
    }
}
