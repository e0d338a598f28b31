//! The kinds of readers/kinds.txt.

const LIST: &str = include_str!("../../kinds.txt");

/// The lines of a part of the list: number, name, and texts with spaces between.
fn part(name: &str) -> impl Iterator<Item = (u8, &'static str, &'static str)> {
    let from = LIST.find(&format!("\n{name}\n")).expect("a part of the list") + name.len() + 2;
    let lines = LIST[from..].lines().take_while(|line| !line.is_empty());
    lines.map(|line| {
        let mut words = line.splitn(3, ' ');
        let number = words.next().and_then(|word| word.parse().ok()).expect("a number");
        (number, words.next().expect("a name"), words.next().unwrap_or(""))
    })
}

/// The texts of tokens with their kinds: signs, and words that are no plain names.
pub fn texts() -> Vec<(&'static str, u8)> {
    part("tokens").flat_map(|(kind, _, texts)| texts.split_whitespace().map(move |text| (text, kind))).collect()
}

/// A text of each kind, by its number. Names, strings, numbers and regular expressions are plain ones; past the end there is none.
pub fn spellings() -> Vec<&'static str> {
    let texts = part("tokens").map(|(kind, _, texts)| match kind {
        1 => "a",
        11 => "\"s\"",
        12 => "1",
        13 => "/r/",
        _ => texts.split(' ').last().expect("a text"),
    });
    ["<end>"].into_iter().chain(texts).collect()
}

/// The name of a kind of row.
pub fn row_name(kind: u32) -> &'static str {
    part("rows").find(|(number, ..)| *number as u32 == kind).map_or("?", |(_, name, _)| name)
}
