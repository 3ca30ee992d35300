//! What is to be done, read from standard input. Of each job there are a line with its name, the tracer's input, whose replies
//! a simulated chip gave to the Rust, and the last line of what the Rust printed for it.
use crate::hw::{x552, Port};
use crate::lines;

#[derive(Clone, Copy)]
pub enum What {
    Acquire(u32),
    KrRead(u32),
    Bringup(bool),
    /// phy; nothing is forced yet
    Poll(u32, x552::Internal),
}

/// Number (0: well ended) and words of what an operation gives, as in a listing.
#[derive(Clone, Copy, PartialEq, Debug)]
pub struct Given {
    number: u32,
    len: usize,
    words: [u32; 12],
}

impl Given {
    pub fn new(number: u32, all: &[u32]) -> Given {
        let mut words = [0; 12];
        words[..all.len()].copy_from_slice(all);
        Given { number, len: all.len(), words }
    }

    /// The same behind one word more.
    pub fn behind(self, first: u32) -> Given {
        let mut words = [first; 12];
        words[1..].copy_from_slice(&self.words[..11]);
        Given { number: self.number, len: self.len + 1, words }
    }
}

pub struct Job {
    pub name: String,
    pub port: Port,
    pub what: What,
    /// Two words each: 0 for done and 1 for failed, and the value or the code.
    pub replies: Vec<u32>,
    pub given: Given,
    pub actions: usize,
    pub micros: u64,
}

fn port(line: &str) -> Option<Port> {
    let port = lines::port(line.as_bytes())?;
    Some(Port { family: port.family, device: port.device, lan: u8::try_from(port.lan).ok()? })
}

fn numbers(words: &[&str]) -> Option<Vec<u32>> {
    words.iter().map(|word| lines::word(word.as_bytes())).collect()
}

fn what(line: &str) -> Option<What> {
    let line: Vec<&str> = line.split(' ').collect();
    let (name, words) = line.split_first()?;
    match (*name, &numbers(words)?[..]) {
        ("acquire", [mask]) => Some(What::Acquire(*mask)),
        ("kr_read", [address]) => Some(What::KrRead(*address)),
        ("bringup", [veto]) => Some(What::Bringup(*veto != 0)),
        ("poll", [phy, 0, 0, 0]) => Some(What::Poll(*phy, x552::Internal::Ixfi)),
        _ => None,
    }
}

/// From `end ok WORDS actions N micros N`, or `end no NUMBER WORDS` and so on.
fn end(line: &str) -> Option<(Given, usize, u64)> {
    let (said, counts) = line.split_once(" actions ")?;
    let (actions, micros) = counts.split_once(" micros ")?;
    let said: Vec<&str> = said.split(' ').collect();
    let (number, words) = match said[..] {
        ["end", "ok", ref words @ ..] => (0, words),
        ["end", "no", number, ref words @ ..] => (number.parse().ok()?, words),
        _ => return None,
    };
    Some((Given::new(number, &numbers(words)?), actions.parse().ok()?, micros.parse().ok()?))
}

fn job<'a>(name: &str, rest: &mut impl Iterator<Item = &'a str>) -> Option<Job> {
    let (port, what, mut replies) = (port(rest.next()?)?, what(rest.next()?)?, vec![]);
    loop {
        let line = rest.next()?;
        if let Some((given, actions, micros)) = end(line) {
            return Some(Job { name: name.to_string(), port, what, replies, given, actions, micros });
        }
        replies.extend(match lines::reply(line.as_bytes())? {
            Ok(value) => [0, value],
            Err(code) => [1, code],
        });
    }
}

pub fn read() -> Vec<Job> {
    let text = std::io::read_to_string(std::io::stdin()).expect("standard input is read");
    let (mut jobs, mut rest) = (vec![], text.lines());
    while let Some(name) = rest.next() {
        jobs.push(job(name, &mut rest).unwrap_or_else(|| panic!("{name}: not a job")));
    }
    jobs
}
