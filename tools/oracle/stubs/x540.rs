//! In place of the Rust's x540.rs, which was not published: hardware.rs names a `Setup` and a `setup` of it. A port of the
//! X540 cannot be named to the oracle, so neither is reached.
use super::{Port, Registers, R};

#[derive(Debug, Clone, Copy, PartialEq, Eq)]
pub enum Setup {}

pub fn setup<Io: Registers>(_: &mut Io, _: Port, _: bool) -> R<Setup, Io::Error> {
    unreachable!("no port is an X540")
}
