//! The tuned twin behind the lines of `readers/twin/src/protocol.rs`.
fn main() -> std::io::Result<()> {
    twin::protocol::serve::<tuned::Tuned>()
}
