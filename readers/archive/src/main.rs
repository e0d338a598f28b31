//! The archive behind the lines of readers/twin/src/protocol.rs: `READER` for tools/judges/run.sh and tests/sheets.py.
fn main() -> std::io::Result<()> {
    twin::protocol::serve::<archive::Archive>()
}
