//! What a run saw: counts, and classes of unlike answers with the shortest list of each.
use std::collections::BTreeMap;

/// A class of unlike answers.
#[derive(Clone)]
pub struct Class {
    pub count: u64,
    length: usize,
    pub sample: String,
}

/// The counts of one run. What is compared has a name in each run: clean, with records, refused; or the three answers.
#[derive(Default, Clone)]
pub struct Tally {
    pub lists: u64,
    pub compared: u64,
    pub counts: BTreeMap<&'static str, u64>,
    pub differences: BTreeMap<&'static str, Class>,
    pub beyond: BTreeMap<&'static str, Class>,
    pub outside: BTreeMap<&'static str, Class>,
}

impl Tally {
    /// One more of a named count.
    pub fn count(&mut self, name: &'static str) {
        *self.counts.entry(name).or_default() += 1;
    }

    /// A difference in what is to be compared: the run fails.
    pub fn differs(&mut self, class: &'static str, length: usize, sample: impl FnOnce() -> String) {
        hit(&mut self.differences, class, length, sample);
    }

    /// A difference beyond the comparison (a record, a refusal, the abandoned heads), of no known class: the run fails too.
    pub fn differs_beyond(&mut self, class: &'static str, length: usize, sample: impl FnOnce() -> String) {
        hit(&mut self.beyond, class, length, sample);
    }

    /// A difference outside of the comparison, of a class that is known.
    pub fn outside(&mut self, class: &'static str, length: usize, sample: impl FnOnce() -> String) {
        hit(&mut self.outside, class, length, sample);
    }

    /// Adds what another one saw.
    pub fn add(&mut self, other: &Tally) {
        self.lists += other.lists;
        self.compared += other.compared;
        for (name, count) in &other.counts {
            *self.counts.entry(name).or_default() += count;
        }
        let pairs = [(&mut self.differences, &other.differences), (&mut self.beyond, &other.beyond), (&mut self.outside, &other.outside)];
        for (into, from) in pairs {
            for (name, class) in from {
                hit(into, name, class.length, || class.sample.clone());
                into.get_mut(name).unwrap().count += class.count - 1;
            }
        }
    }

    /// How many answers differ in a way that no known class has.
    pub fn difference_count(&self) -> u64 {
        sum(&self.differences) + sum(&self.beyond)
    }

    /// The named counts in one line.
    pub fn counts_line(&self) -> String {
        self.counts.iter().map(|(name, count)| format!("{name} {}", grouped(*count))).collect::<Vec<_>>().join(", ")
    }

    /// The classes, a line each.
    pub fn print_classes(&self) {
        for (sort, classes) in [("DIFFERENCE", &self.differences), ("DIFFERENCE beyond the comparison", &self.beyond), ("outside", &self.outside)] {
            for (name, class) in classes {
                println!("  {sort}: {name}: {}; smallest: {}", grouped(class.count), class.sample);
            }
        }
    }
}

/// How many there are in all classes.
pub fn sum(classes: &BTreeMap<&'static str, Class>) -> u64 {
    classes.values().map(|class| class.count).sum()
}

/// Of two samples the shorter one is kept, then the one with fewer breaks, then the first by its text: always the same one.
fn rank(length: usize, sample: &str) -> (usize, usize, &str) {
    (length, sample.matches('↵').count(), sample)
}

/// One more of a class, with the better of its samples.
fn hit(classes: &mut BTreeMap<&'static str, Class>, name: &'static str, length: usize, sample: impl FnOnce() -> String) {
    match classes.get_mut(name) {
        Some(class) => {
            class.count += 1;
            if length <= class.length {
                let sample = sample();
                if rank(length, &sample) < rank(class.length, &class.sample) {
                    (class.length, class.sample) = (length, sample);
                }
            }
        }
        None => {
            classes.insert(name, Class { count: 1, length, sample: sample() });
        }
    }
}

/// A number with commas.
pub fn grouped(number: u64) -> String {
    let digits = number.to_string();
    let mut out = String::new();
    for (at, digit) in digits.chars().enumerate() {
        if at > 0 && (digits.len() - at) % 3 == 0 {
            out.push(',');
        }
        out.push(digit);
    }
    out
}
