//! Prints the sheets of each family: its name, a tab, and a line of readers/twin/src/protocol.rs.
use harness::families::{FAMILIES, LARGEST};

fn main() {
    for family in &FAMILIES {
        for sheet in family.sheets(LARGEST) {
            println!("{}\t{}", family.name, sheet.line('r'));
        }
    }
}
