//! A reader behind lines of text, so that any reader can be asked by any program. One answer line for each line:
//!
//! ```text
//! r KINDS FLAGS [ROW_WORDS RECORD_WORDS]    the reader          read ROWS RECORDS ABANDONED : words of the rows : words of the records
//! p KINDS FLAGS [ROW_WORDS RECORD_WORDS]    the pattern entry   the same
//! c ROW RECORD_WORDS WORDS..                conversion          read ROWS RECORDS 0 : all words of the tree : words of the records
//! s ROW WORDS..                             a row's subtree     part FIRST_WORD WORD_COUNT
//! t KINDS FLAGS PLACE TS JSX                three-way answer    answer 0 (False), 1 (True) or 2 (Maybe)
//! o KIND                                    operator lookup     level AS_THE_CRATE AS_THE_READER
//! ```
//!
//! KINDS and FLAGS are hexadecimal, two digits a byte, `-` for none; other numbers are decimal. A refusal is `refused NUMBER PLACE`. The words
//! that an answer leaves out are held to the rules here: lent longer than needed, filled with a sign before, and `broken ..` is the answer
//! if any of them is not as RULES A17 to A19 and X3 say.
use std::io::{self, BufRead, Write};

/// A refusal's number and place.
pub type Refused = (u32, u32);
/// Rows, records, abandoned heads.
pub type Read = [usize; 3];

/// What is asked. Every implementation is told exactly the lent slices.
pub trait Entries {
    fn read(kinds: &[u8], flags: &[u8], rows: &mut [u32], records: &mut [u32]) -> Result<Read, Refused>;
    fn pattern(kinds: &[u8], flags: &[u8], rows: &mut [u32], records: &mut [u32]) -> Result<Read, Refused>;
    fn convert(tree: &mut [u32], row: usize, records: &mut [u32]) -> Result<Read, Refused>;
    /// The first word and the number of words.
    fn subtree(tree: &[u32], row: usize) -> (usize, usize);
    fn three_way(kinds: &[u8], flags: &[u8], ts: bool, jsx: bool, place: usize) -> Result<u8, Refused>;
    fn precedence(kind: u8) -> u8;
    fn expression_precedence(kind: u8) -> u8;
}

/// What lent words hold before a call.
const SIGN: u32 = 0xA5A5_5A5A;

/// The answer to one line, or what is wrong with the line.
pub fn answer<E: Entries>(line: &str, out: &mut String) -> Result<(), &'static str> {
    let mut fields = line.split_ascii_whitespace();
    match fields.next() {
        Some("r") => reading(E::read, fields, out),
        Some("p") => reading(E::pattern, fields, out),
        Some("c") => conversion::<E>(fields, out),
        Some("s") => part::<E>(fields, out),
        Some("t") => lookahead::<E>(fields, out),
        Some("o") => {
            let kind = number(fields.next())? as u8;
            out.push_str(&format!("level {} {}", E::precedence(kind), E::expression_precedence(kind)));
            Ok(())
        }
        _ => Err("no such question"),
    }
}

/// Answers standard input line by line.
pub fn serve<E: Entries>() -> io::Result<()> {
    let mut out = io::BufWriter::with_capacity(1 << 16, io::stdout().lock());
    let mut text = String::new();
    for line in io::stdin().lock().lines() {
        text.clear();
        if let Err(wrong) = answer::<E>(&line?, &mut text) {
            text = format!("bad line: {wrong}");
        }
        text.push('\n');
        out.write_all(text.as_bytes())?;
    }
    out.flush()
}

fn number(field: Option<&str>) -> Result<usize, &'static str> {
    field.and_then(|text| text.parse().ok()).ok_or("a number is missing")
}

/// Bytes from hexadecimal.
pub fn bytes(field: Option<&str>) -> Result<Vec<u8>, &'static str> {
    let text = field.ok_or("bytes are missing")?;
    if text == "-" {
        return Ok(Vec::new());
    }
    let digit = |c: u8| (c as char).to_digit(16).ok_or("no hexadecimal digit");
    if text.len() % 2 != 0 {
        return Err("half a byte");
    }
    text.as_bytes().chunks(2).map(|pair| Ok((digit(pair[0])? * 16 + digit(pair[1])?) as u8)).collect()
}

fn refusal(out: &mut String, (number, place): Refused) {
    out.push_str(&format!("refused {number} {place}"));
}

fn words(out: &mut String, list: &[u32]) {
    use std::fmt::Write;
    out.push_str(" :");
    for word in list {
        let _ = write!(out, " {word}");
    }
}

type ReadFn = fn(&[u8], &[u8], &mut [u32], &mut [u32]) -> Result<Read, Refused>;

/// The reader or the pattern entry, with all lent words looked at afterwards.
fn reading<'a>(entry: ReadFn, mut fields: impl Iterator<Item = &'a str>, out: &mut String) -> Result<(), &'static str> {
    let kinds = bytes(fields.next())?;
    let flags = bytes(fields.next())?;
    let (row_words, record_words) = match fields.next() {
        Some(field) => (number(Some(field))?, number(fields.next())?),
        None => (6 * kinds.len() + 8, 2 * kinds.len() + 3),
    };
    let mut rows = vec![SIGN; row_words];
    let mut records = vec![SIGN; record_words];
    match entry(&kinds, &flags, &mut rows, &mut records) {
        Ok([r, n, abandoned]) => {
            let past = rows.get(6 * r..).into_iter().chain(records.get(2 * n..)).flatten();
            if 6 * r > rows.len() || 2 * n > records.len() || past.copied().any(|word| word != 0) {
                out.push_str("broken: a word past the used ones is not 0");
                return Ok(());
            }
            out.push_str(&format!("read {r} {n} {abandoned}"));
            words(out, &rows[..6 * r]);
            words(out, &records[..2 * n]);
        }
        Err((number, place)) => {
            let left = if number <= 7 { SIGN } else { 0 };
            if rows.iter().chain(&records).any(|&word| word != left) {
                out.push_str("broken: a lent word after a refusal");
                return Ok(());
            }
            refusal(out, (number, place));
        }
    }
    Ok(())
}

/// Conversion, with all lent words looked at afterwards.
fn conversion<'a, E: Entries>(mut fields: impl Iterator<Item = &'a str>, out: &mut String) -> Result<(), &'static str> {
    let row = number(fields.next())?;
    let mut records = vec![SIGN; number(fields.next())?];
    let before: Vec<u32> = fields.map(|field| field.parse().map_err(|_| "no word")).collect::<Result<_, _>>()?;
    let mut tree = before.clone();
    match E::convert(&mut tree, row, &mut records) {
        Ok([r, n, abandoned]) => {
            let kept = tree.iter().zip(&before).enumerate().all(|(at, (now, was))| now == was || at % 6 == 0);
            if !kept || 2 * n > records.len() || records[2 * n..].iter().any(|&word| word != 0) {
                out.push_str("broken: a word that is not a kind changed, or a record word past the used ones is not 0");
                return Ok(());
            }
            out.push_str(&format!("read {r} {n} {abandoned}"));
            words(out, &tree);
            words(out, &records[..2 * n]);
        }
        Err(refused) => {
            if tree != before || records.iter().any(|&word| word != SIGN) {
                out.push_str("broken: a lent word after a refusal");
                return Ok(());
            }
            refusal(out, refused);
        }
    }
    Ok(())
}

fn part<'a, E: Entries>(mut fields: impl Iterator<Item = &'a str>, out: &mut String) -> Result<(), &'static str> {
    let row = number(fields.next())?;
    let tree: Vec<u32> = fields.map(|field| field.parse().map_err(|_| "no word")).collect::<Result<_, _>>()?;
    let (first, count) = E::subtree(&tree, row);
    out.push_str(&format!("part {first} {count}"));
    Ok(())
}

fn lookahead<'a, E: Entries>(mut fields: impl Iterator<Item = &'a str>, out: &mut String) -> Result<(), &'static str> {
    let kinds = bytes(fields.next())?;
    let flags = bytes(fields.next())?;
    let place = number(fields.next())?;
    let ts = number(fields.next())? != 0;
    let jsx = number(fields.next())? != 0;
    match E::three_way(&kinds, &flags, ts, jsx, place) {
        Ok(answer) => out.push_str(&format!("answer {answer}")),
        Err(refused) => refusal(out, refused),
    }
    Ok(())
}
