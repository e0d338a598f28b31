//! Measures how much stack each reader uses for the sheets of each family.
//! Bytes a level: what the peak grows by from half of the levels to all of them, for one level.
use harness::families::{FAMILIES, Family, LARGEST, Size};
use harness::painted::{Meter, on_painted_stack};
use harness::readers::{Entry, READERS, Room, black_box, compared, names};
use harness::table::Table;
use lists::List;
use twin::protocol::{Read, Refused};

/// The bytes of the painted stack.
const STACK: usize = 1 << 24;

/// The bytes of stack below the caller that a reader uses for a sheet.
fn used(entry: Entry, sheet: &List, meter: &mut Meter) -> usize {
    let mut room = Room::new();
    meter.used(&mut || {
        let _ = black_box(room.read(entry, sheet));
    })
}

/// Reads nothing: what its call uses is taken off.
fn nothing(_: &[u8], _: &[u8], _: &mut [u32], _: &mut [u32]) -> Result<Read, Refused> {
    Ok([0; 3])
}

/// The most stack that a reader uses for the sheets of a family.
fn peak(entry: Entry, family: &Family, size: Size, meter: &mut Meter) -> usize {
    let sheets = family.sheets(size);
    let most = sheets.iter().map(|sheet| used(entry, sheet, meter)).max().expect("a sheet");
    most - used(nothing, &sheets[0], meter)
}

/// The bytes that the peak grows by for each level more, from half of the levels to all of them.
fn bytes_a_level(entry: Entry, family: &Family, peak_of_all: usize, meter: &mut Meter) -> f64 {
    let half = Size { tokens: LARGEST.tokens / 2, depth: LARGEST.depth / 2 };
    let more = peak_of_all as f64 - peak(entry, family, half, meter) as f64;
    more / (family.levels(LARGEST) - family.levels(half)) as f64
}

/// A family's row, after the readers have been compared: its levels, each reader's peak, and each reader's bytes a level. The largest peaks are kept.
fn row(family: &'static Family, meter: &mut Meter, largest: &mut [(usize, &'static str)]) -> Vec<String> {
    compared(READERS, family, LARGEST);
    let levels = if family.grows() { family.levels(LARGEST).to_string() } else { String::new() };
    let mut peaks = vec![];
    let mut each = vec![];
    for ((_, entry), largest) in READERS.iter().zip(largest) {
        let most = peak(*entry, family, LARGEST, meter);
        *largest = (*largest).max((most, family.name));
        peaks.push(most.to_string());
        if family.grows() {
            each.push(format!("{}", (10.0 * bytes_a_level(*entry, family, most, meter)).round() / 10.0));
        }
    }
    [vec![family.name.to_string(), levels], peaks, each].concat()
}

/// Prints the table.
fn measure(meter: &mut Meter) {
    let peaks = names().into_iter().map(|name| format!("{name}, peak"));
    let each = names().into_iter().map(|name| format!("{name}, a level"));
    let heads: Vec<String> = ["family", "levels"].map(str::to_string).into_iter().chain(peaks).chain(each).collect();
    let mut table = Table::new(&heads);
    let mut largest = vec![(0, ""); READERS.len()];
    for family in &FAMILIES {
        table.push(row(family, meter, &mut largest));
    }
    println!("Bytes of stack.\n\n{table}");
    let largest: Vec<String> = names().iter().zip(largest).map(|(name, (most, family))| format!("{name} **{most}** ({family})")).collect();
    println!("Largest peak: {}.", largest.join(", "));
}

fn main() {
    on_painted_stack(STACK, &mut measure);
}
