//! What a line of the input is read as. Blanks and tabs stand between its words, and digits may be of either case.
use crate::hw::Family;
use std::ops::RangeInclusive;

pub fn words(line: &[u8]) -> Vec<&[u8]> {
    line.split(|byte| b" \t".contains(byte)).filter(|word| !word.is_empty()).collect()
}

/// A number of as many hexadecimal digits as `lengths` allows; None for anything else, as in all of this file.
fn number(word: &[u8], lengths: RangeInclusive<usize>) -> Option<u32> {
    let digits = std::str::from_utf8(word).ok()?;
    let is_number = lengths.contains(&digits.len()) && digits.bytes().all(|digit| digit.is_ascii_hexdigit());
    if is_number { u32::from_str_radix(digits, 16).ok() } else { None }
}

/// A number of one to ten decimal digits that fits 32 bits.
fn decimal(word: &[u8]) -> Option<u32> {
    let digits = std::str::from_utf8(word).ok()?;
    let is_number = (1..=10).contains(&digits.len()) && digits.bytes().all(|digit| digit.is_ascii_digit());
    if is_number { digits.parse().ok() } else { None }
}

/// A word of just eight digits.
pub fn word(word: &[u8]) -> Option<u32> {
    number(word, 8..=8)
}

/// A port as the first line has it: its lan may still be refused, and its pause, which the Rust does not have.
pub struct PortLine {
    pub family: Family,
    pub device: u16,
    pub lan: u32,
    pub pause: u32,
}

pub fn port(line: &[u8]) -> Option<PortLine> {
    let (family, device, lan, pause) = match words(line)[..] {
        [b"port", family, device, lan] => (family, device, lan, Some(10)),
        [b"port", family, device, lan, pause] => (family, device, lan, decimal(pause)),
        _ => return None,
    };
    let family = match family {
        b"X552" => Family::X552,
        b"X553" => Family::X553,
        _ => return None,
    };
    Some(PortLine { family, device: number(device, 4..=4)? as u16, lan: number(lan, 1..=8)?, pause: pause? })
}

/// A reply: what was read (of no meaning after a write), or the code of a failure.
pub fn reply(line: &[u8]) -> Option<Result<u32, u32>> {
    match words(line)[..] {
        [b"v", value] => word(value).map(Ok),
        [b"f", code] => word(code).map(Err),
        _ => None,
    }
}

/// The arguments of an operation, from which they are taken one by one.
pub struct Arguments<'a>(&'a [u32]);

impl<'a> Arguments<'a> {
    pub fn new(words: &'a [u32]) -> Arguments<'a> {
        Arguments(words)
    }

    pub fn word(&mut self) -> Option<u32> {
        let (first, rest) = self.0.split_first()?;
        self.0 = rest;
        Some(*first)
    }

    /// 16 bits.
    pub fn half(&mut self) -> Option<u16> {
        self.word()?.try_into().ok()
    }

    pub fn truth(&mut self) -> Option<bool> {
        match self.word()? {
            0 => Some(false),
            1 => Some(true),
            _ => None,
        }
    }

    /// Nothing (0), or something behind a mark (1).
    pub fn option<T>(&mut self, read: impl FnOnce(&mut Self) -> Option<T>) -> Option<Option<T>> {
        match self.truth()? {
            false => Some(None),
            true => read(self).map(Some),
        }
    }

    /// All that are left.
    pub fn rest(&mut self) -> Vec<u32> {
        std::mem::take(&mut self.0).to_vec()
    }

    pub fn is_empty(&self) -> bool {
        self.0.is_empty()
    }
}
