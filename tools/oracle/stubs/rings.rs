//! In place of the Rust's rings.rs, which was not published: what snp_core.rs needs of it to compile. There are no rings, as
//! the oracle has no operation on packets, so no function here can be called but `frame`, which nothing calls without one.
use super::{Registers, R};

/// The frame of the largest packet, which snp_core.rs checks, and of an empty one.
pub const MAX_FRAME: usize = 14 + 9000 + 4;
pub const MIN_FRAME: usize = 14;

pub struct Filter {
    pub broadcast: bool,
    pub all_multicast: bool,
    pub promiscuous: bool,
}

pub struct Frame {
    pub destination: [u8; 6],
    pub source: [u8; 6],
    pub ethertype: u16,
}

pub fn frame(_: &[u8]) -> Frame {
    unreachable!("no packet was received")
}

pub enum Rings {}

impl Rings {
    pub fn start<Io: Registers>(&mut self, _: &mut Io, _: Filter) -> R<(), Io::Error> { match *self {} }
    pub fn stop<Io: Registers>(&mut self, _: &mut Io) -> R<bool, Io::Error> { match *self {} }
    pub fn set_filter<Io: Registers>(&mut self, _: &mut Io, _: Filter) -> R<(), Io::Error> { match *self {} }
    pub fn transmit<Io: Registers>(&mut self, _: &mut Io, _: &[u8]) -> R<bool, Io::Error> { match *self {} }
    pub fn receive<Io: Registers>(&mut self, _: &mut Io, _: &mut [u8]) -> R<Option<usize>, Io::Error> { match *self {} }
    pub fn peek<Io: Registers>(&mut self, _: &mut Io) -> R<Option<(usize, [u8; 6])>, Io::Error> { match *self {} }
    pub fn skip<Io: Registers>(&mut self, _: &mut Io) -> R<(), Io::Error> { match *self {} }
    pub fn reclaim(&mut self) { match *self {} }
}
