//! The sheets that are measured: those of engineers, and for each other family one sheet of a given size.
use lists::List;
use twin::kind;

/// How large a sheet may be: tokens, and brackets open at once.
#[derive(Clone, Copy)]
pub struct Size {
    pub tokens: usize,
    pub depth: usize,
}

/// The largest sheet that is read.
pub const LARGEST: Size = Size { tokens: 2048, depth: 64 };

/// A family: its name, and what its sheets are made of.
pub struct Family {
    pub name: &'static str,
    shape: Shape,
}

/// What the sheets of a family are made of.
enum Shape {
    /// The texts of `REAL`, whatever the size.
    Real,
    /// A start, a part as often as it fits, an end.
    Repeated(&'static str, &'static str, &'static str),
    /// An opening as often as it fits, what is inside, a closing as often.
    Mirrored(&'static str, &'static str, &'static str),
    /// The same as deep as brackets may be; such with commas between, as many as fit.
    Nested(&'static str, &'static str, &'static str),
    /// Random lists near the limit of the largest sheet, whatever the size, that are read, or that are refused.
    Random(bool),
}

/// The texts of the files in `sheets`.
macro_rules! texts {
    ($($name:literal),* $(,)?) => { [$(include_str!(concat!("../sheets/", $name, ".js"))),*] };
}

/// Measuring sheets as engineers write them.
#[rustfmt::skip]
const REAL: [&str; 48] = texts![
    "alarms", "below_nominal", "calibration", "channel_file", "checksum", "clock", "counter", "debounce", "dip_report", "distortion", "fir",
    "first_pair", "flicker", "frequency", "harmonics", "histogram", "hysteresis", "insulation", "interpolate", "limit_table", "low_pass", "marks",
    "mean_square", "over_limit", "percentile", "phase", "power", "quality_report", "rate_of_change", "rotation", "sag_bounds", "sag_events",
    "sag_length", "sample_or_last", "scaled_channels", "sequence", "settings", "soak", "status_word", "store_rows", "swells", "tariff",
    "thermocouple", "three_phases", "transient", "unbalance", "vote", "window",
];

/// How long a number is: digits with a point, an exponent with its sign, or hexadecimal ones.
fn number(text: &str) -> usize {
    let is_part = |(at, c): (usize, char)| c.is_ascii_alphanumeric() || c == '.' || matches!(c, '+' | '-') && text[..at].ends_with('e');
    text.char_indices().find(|&next| !is_part(next)).map_or(text.len(), |(at, _)| at)
}

/// What is left of a text after spaces, line breaks and comments, and whether a line ended before it.
fn next(text: &str) -> (&str, bool) {
    let rest = text.trim_start();
    let broken = text[..text.len() - rest.len()].contains('\n');
    match rest.strip_prefix("//") {
        Some(comment) => (next(&comment[comment.find('\n').unwrap_or(comment.len())..]).0, true),
        None => (rest, broken),
    }
}

/// The tokens of a text in plain JavaScript.
pub fn tokens(text: &str) -> List {
    let mut known = lists::kinds::texts();
    known.sort_by_key(|(text, _)| std::cmp::Reverse(text.len()));
    let mut list = List::default();
    let (mut rest, mut broken) = (next(text).0, false);
    while let Some(first) = rest.chars().next() {
        let (kind, used) = if first.is_ascii_alphabetic() || first == '_' {
            let used = rest.find(|c: char| !c.is_ascii_alphanumeric() && c != '_').unwrap_or(rest.len());
            (known.iter().find(|(word, _)| *word == &rest[..used]).map_or(kind::IDENT, |(_, kind)| *kind), used)
        } else if first.is_ascii_digit() {
            (kind::NUMBER, number(rest))
        } else if first == '\'' {
            (kind::STR, 2 + rest[1..].find('\'').expect("a closing quote"))
        } else {
            let (sign, kind) = known.iter().find(|(sign, _)| rest.starts_with(sign)).expect("a sign");
            (*kind, sign.len())
        };
        list.push(kind, broken as u8);
        (rest, broken) = next(&rest[used..]);
    }
    list
}

/// The kinds of three texts.
fn kinds(texts: [&str; 3]) -> [Vec<u8>; 3] {
    texts.map(|text| tokens(text).kinds)
}

/// The sheets of engineers. They are read without a record.
fn real() -> Vec<List> {
    let (mut rows, mut records) = (vec![0; 6 * 400], vec![0; 2 * 400]);
    let mut clean = |list: &List| twin::read(&list.kinds, &list.flags, &mut rows, &mut records).map_or(false, |counts| counts.records == 0);
    let sheets: Vec<List> = REAL.iter().map(|text| tokens(text)).collect();
    assert!(sheets.iter().all(|sheet| (20..=400).contains(&sheet.len()) && clean(sheet)), "a real sheet is not clean, or of another size");
    sheets
}

/// Random lists near the limit, of over 1,500 tokens, that are read, or that are refused.
fn random(read: bool) -> Vec<List> {
    let limit = LARGEST.tokens;
    let mut rows = vec![0; 6 * limit];
    let mut records = vec![0; 2 * limit];
    let mut fits = |list: &List| list.len() > 1500 && twin::read(&list.kinds, &list.flags, &mut rows, &mut records).is_ok() == read;
    (0..).map(|number| lists::random(7, number, limit)).filter(|list| fits(list)).take(8).collect()
}

/// A sheet, and as many more of it as fit, with commas between.
fn side_by_side(one: &[u8], limit: usize) -> Vec<u8> {
    let mut kinds = one.to_vec();
    while kinds.len() + 1 + one.len() <= limit {
        kinds.push(24);
        kinds.extend(one);
    }
    kinds
}

impl Family {
    /// Whether the sheets grow with the size, by levels.
    pub fn grows(&self) -> bool {
        !matches!(self.shape, Shape::Real | Shape::Random(_))
    }

    /// How often a sheet of this size repeats what the family repeats: the levels of its nesting, or the links of its chain.
    pub fn levels(&self, size: Size) -> usize {
        match self.shape {
            Shape::Real | Shape::Random(_) => 0,
            Shape::Repeated(start, part, end) => {
                let [start, part, end] = kinds([start, part, end]);
                (size.tokens - start.len() - end.len()) / part.len()
            }
            Shape::Mirrored(open, inside, close) => {
                let [open, inside, close] = kinds([open, inside, close]);
                (size.tokens - inside.len()) / (open.len() + close.len())
            }
            Shape::Nested(open, ..) => size.depth / tokens(open).kinds.iter().filter(|k| matches!(k, 18 | 20 | 22)).count(),
        }
    }

    /// The sheets of this size.
    pub fn sheets(&self, size: Size) -> Vec<List> {
        let times = self.levels(size);
        let kinds = match self.shape {
            Shape::Real => return real(),
            Shape::Random(read) => return random(read),
            Shape::Repeated(start, part, end) => {
                let [start, part, end] = kinds([start, part, end]);
                [start, part.repeat(times), end].concat()
            }
            Shape::Mirrored(open, inside, close) | Shape::Nested(open, inside, close) => {
                let [open, inside, close] = kinds([open, inside, close]);
                let one = [open.repeat(times), inside, close.repeat(times)].concat();
                side_by_side(&one, size.tokens)
            }
        };
        vec![List::plain(&kinds)]
    }
}

/// A family of a shape.
const fn family(name: &'static str, shape: Shape) -> Family {
    Family { name, shape }
}

/// All families.
#[rustfmt::skip]
pub static FAMILIES: [Family; 26] = [
    family("real sheets", Shape::Real),
    family("flat sum", Shape::Repeated("", "a +", "a")),
    family("all levels", Shape::Repeated("", "a || a && a | a ^ a & a == a < a << a + a * a ** a ||", "a")),
    family("a ** a ** ..", Shape::Repeated("", "a **", "a")),
    family("members, calls", Shape::Repeated("a", ".a (a) [a]", "")),
    family("nested (..)", Shape::Nested("(", "a", ")")),
    family("heads that fail", Shape::Nested("(a =", "a", ")")),
    family("wide heads that fail", Shape::Repeated("(", "a = (a), ", "a)")),
    family("(a) => (a) => ..", Shape::Repeated("", "(a) =>", "a")),
    family("a => a => ..", Shape::Repeated("", "a =>", "a")),
    family("arrows in defaults", Shape::Nested("(a = ", "a", ") => a")),
    family("patterns as heads", Shape::Repeated("({a: [a", ", a = a", "]}) => a")),
    family("array", Shape::Repeated("[", "a, ", "]")),
    family("array, converted", Shape::Repeated("[", "a, ", "] = a")),
    family("nested arrays, converted", Shape::Nested("[a, ", "a", "] = a")),
    family("object", Shape::Repeated("{", "a: a, ", "}")),
    family("object, converted", Shape::Repeated("{", "a: a, ", "} = a")),
    family("shorthands, converted", Shape::Repeated("{", "a = a, ", "} = a")),
    family("unary chain", Shape::Repeated("", "-", "a")),
    family("assignment chain", Shape::Repeated("", "a =", "a")),
    family("conditional chain", Shape::Repeated("", "a ? a :", "a")),
    family("a ? a ? .. : a : a", Shape::Mirrored("a ?", "a", ": a")),
    family("random, read", Shape::Random(true)),
    family("random, refused", Shape::Random(false)),
    family("refused at the end", Shape::Repeated("", "a +", "")),
    family("refused as a target", Shape::Repeated("[", "a, ", "1] = a")),
];

/// A sum inside of what is given up, grouped or read at once. Only its growth is looked at.
#[rustfmt::skip]
pub static GROWING: [Family; 3] = [
    family("a sum in heads that fail", Shape::Repeated("(a = (a = (a = (a = (a = (a =", "a +", "a))))))")),
    family("a sum in parentheses", Shape::Repeated("((((((((", "a +", "a))))))))")),
    family("a sum in arrows", Shape::Repeated("((a) => ((a) => ((a) => ((a) =>", "a +", "a))))")),
];

/// What is converted by the entry for that. Only its growth is looked at. At each size there are so many rows that the records, which are cleared, have
/// more than 2,048 bytes: the C library clears fewer in another way.
#[rustfmt::skip]
pub static TURNED: [Family; 3] = [
    family("array with holes", Shape::Repeated("[", "a, , ", "]")),
    family("patterns in an array", Shape::Repeated("[", "[{a}, a], ", "]")),
    family("object", Shape::Repeated("{", "a: a, ", "}")),
];
