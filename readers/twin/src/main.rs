//! The twin behind the lines of `protocol.rs`.
fn main() -> std::io::Result<()> {
    twin::protocol::serve::<twin::entries::Twin>()
}
