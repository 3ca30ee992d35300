//! The port, behind its C functions (c/mansruoy.h).
use crate::hw::{x552, Family, Port};
use crate::jobs::{Given, What};

/// The Rust's.
const PAUSE: u32 = 10;

#[repr(C)]
#[derive(Clone, Copy)]
struct Conversation {
    words: [u32; 68],
    block: [u32; 80],
}

#[repr(C)]
struct Stepped {
    number: u32,
    to: Conversation,
}

#[repr(C)]
struct Asked {
    number: u32,
    kind: u32,
    register: u32,
    value: u32,
}

#[repr(C)]
struct Answered {
    number: u32,
    error: u32,
    count: usize,
    block: usize,
    actions: u64,
    micros: u64,
    words: [u32; 12],
}

#[repr(C)]
struct CRan {
    number: u32,
    to: Conversation,
    at: usize,
    used: usize,
}

extern "C" {
    fn mansruoy_begin(family: u32, device: u32, lan: u32, pause: u32, name: *const u8, name_len: usize, arguments: *const u32,
        arguments_len: usize) -> Stepped;
    fn mansruoy_action(c: Conversation) -> Asked;
    fn mansruoy_step(c: Conversation, kind: u32, value: u32) -> Stepped;
    fn mansruoy_answer(c: Conversation) -> Answered;
    fn mansruoy_run(c: Conversation, replies: *const u32, replies_len: usize, transcript: *mut u32, transcript_len: usize,
        at: usize) -> CRan;
    fn mansruoy_steps(c: Conversation, replies: *const u32, replies_len: usize, actions: usize) -> CRan;
}

pub struct Ran {
    pub actions: u64,
    pub micros: u64,
    /// words written, and reply words used
    pub at: u64,
    pub used: u64,
    answered: Answered,
}

impl Ran {
    /// What the operation gave; None where it has not ended.
    pub fn given(&self) -> Option<Given> {
        let a = &self.answered;
        (a.number == 0).then(|| Given::new(a.error, &a.words[..a.count]))
    }
}

fn begin(port: Port, what: What) -> Conversation {
    let (name, arguments): (&str, &[u32]) = match what {
        What::Acquire(mask) => ("acquire", &[mask]),
        What::KrRead(address) => ("kr_read", &[address]),
        What::Bringup(veto) => ("bringup", &[veto as u32]),
        What::Poll(phy, internal) => ("poll", &[phy, (internal == x552::Internal::Kr) as u32, 0, 0]),
    };
    let family = if port.family == Family::X553 { 553 } else { 552 };
    let s = unsafe {
        mansruoy_begin(family, port.device as u32, port.lan as u32, PAUSE, name.as_ptr(), name.len(), arguments.as_ptr(), arguments.len())
    };
    assert_eq!(s.number, 0, "begin");
    s.to
}

fn ran(c: Conversation, at: usize, used: usize) -> Ran {
    let answered = unsafe { mansruoy_answer(c) };
    Ran { actions: answered.actions, micros: answered.micros, at: at as u64, used: used as u64, answered }
}

/// `begin`, then one `run` over the replies.
pub fn run(port: Port, what: What, replies: &[u32], transcript: &mut [u32]) -> Ran {
    let r = unsafe { mansruoy_run(begin(port, what), replies.as_ptr(), replies.len(), transcript.as_mut_ptr(), transcript.len(), 0) };
    ran(r.to, r.at, r.used)
}

/// `begin`, then the action that is due and a `step`, until the end.
pub fn steps(port: Port, what: What, replies: &[u32], transcript: &mut [u32]) -> Ran {
    let (mut c, mut at, mut used) = (begin(port, what), 0, 0);
    loop {
        let a = unsafe { mansruoy_action(c) };
        if a.number != 0 { return ran(c, at, used); }
        transcript[at..at + 3].copy_from_slice(&[a.kind, a.register, a.value]);
        at += 3;
        let (mut kind, mut value) = (0, 0);
        if a.kind != 3 {
            (kind, value) = (replies[used], replies[used + 1]);
            used += 2;
        }
        c = unsafe { mansruoy_step(c, kind, value) }.to;
    }
}

/// `begin`, then Rattle's own steps, until the end or so many actions: C's words are read before the first and written behind the last.
pub fn inside(port: Port, what: What, replies: &[u32], actions: usize) -> Ran {
    let r = unsafe { mansruoy_steps(begin(port, what), replies.as_ptr(), replies.len(), actions) };
    ran(r.to, r.at, r.used)
}
