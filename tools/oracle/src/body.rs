//! What the Rust does while it holds a lock, without the lock: a host of its own for `read_reg`, on which every bit is free and is given
//! back at once, and which hands on what is done from the first access to MSCA until the lock is looked at again.
use crate::hw::{Family, Port, Registers};
use crate::talk::Talk;

const MSCA: u32 = 0x0425c;
const MSRWD: u32 = 0x04260;
/// A port whose lock is no more than the bits.
pub const BODY: Port = Port { family: Family::X552, device: 0x15ad, lan: 0 };

pub struct Body<'a> {
    talk: &'a mut Talk,
    is_inside: bool,
}

impl Body<'_> {
    pub fn of(talk: &mut Talk) -> Body<'_> {
        Body { talk, is_inside: false }
    }

    fn enters(&mut self, register: u32) -> bool {
        self.is_inside = register == MSCA || register == MSRWD;
        self.is_inside
    }
}

impl Registers for Body<'_> {
    type Error = u32;

    fn read(&mut self, register: u32) -> Result<u32, u32> {
        if self.enters(register) { self.talk.read(register) } else { Ok(0) }
    }

    fn write(&mut self, register: u32, value: u32) -> Result<(), u32> {
        if self.enters(register) { self.talk.write(register, value) } else { Ok(()) }
    }

    fn delay_us(&mut self, micros: usize) {
        if self.is_inside { self.talk.delay_us(micros) }
    }
}
