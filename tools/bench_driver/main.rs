//! The benchmark's driver: the Rust and the port do the same operations, in one program.
//!
//! It is built in a copy of the oracle's build folder (tools/bench does that), whose reading of lines it uses, and linked with the
//! port's library. The replies come with the jobs (jobs.rs); no line of the port took part in making them. The Rust, over a host
//! that hands out those replies and writes each action's three words down, and the port's `run`, over the same replies, are
//! checked to give the same transcript, answer and counts, and those that the oracle printed, and are timed in turn.

#[path = "rust/hardware.rs"]
#[allow(dead_code, unused_imports)]
mod hw;
mod jobs;
mod lines;
mod port;
mod stack;

use hw::{mdio, sync, x552, x553, Error, Family, Port, Registers};
use jobs::{Given, Job, What};
use std::hint::black_box;
use std::time::Instant;

// ---- The Rust's operations ----------------------------------------------------------

fn copper_words(s: x552::Setup) -> Given {
    let x552::Setup::Copper { phy, id, sel, unstalled, reset, internal, advertised, restarted } = s else {
        panic!("the chip leads to a copper port")
    };
    let mdio::Speeds { g10, g1, m100 } = advertised;
    let internal = (internal == x552::Internal::Kr) as u32;
    Given::new(0, &[6, phy as u32, id, sel, unstalled as u32, reset as u32, internal, g10 as u32, g1 as u32, m100 as u32,
        restarted as u32])
}

fn setup_words(s: x553::Setup) -> Given {
    let x553::Setup::X557(s) = s else { panic!("the chip leads to a copper port") };
    copper_words(s).behind(5)
}

fn poll_words(copper: x552::Copper, watch: x552::Watch) -> Given {
    let (x552::Copper::Up { megabits }, Some(status)) = (copper, watch.forced) else {
        panic!("the chip leads to a forced link")
    };
    Given::new(0, &[1, megabits, 1, status as u32, watch.reforced])
}

fn error_words(e: Error<u32>) -> Given {
    match e {
        Error::Semaphore { held } => Given::new(5, &[held]),
        _ => panic!("no other error is expected"),
    }
}

/// The Rust's operation, over any host.
fn rust<Io: Registers<Error = u32>>(io: &mut Io, port: Port, what: What) -> Given {
    let given = match what {
        What::Acquire(mask) => sync::acquire(io, port, mask).map(|()| Given::new(0, &[])),
        What::KrRead(address) => x552::kr_read(io, port, address).map(|v| Given::new(0, &[v])),
        What::Bringup(veto) if port.family == Family::X553 => x553::prepare(io, port, veto)
            .and_then(|p| x553::setup(io, port, veto, p)).map(setup_words),
        What::Bringup(veto) => x552::prepare(io, port, veto).and_then(|p| x552::setup(io, port, veto, p)).map(copper_words),
        What::Poll(phy, internal) => {
            let mut watch = x552::Watch::new(phy as u8, internal);
            watch.poll(io, port).map(|copper| poll_words(copper, watch))
        }
    };
    given.unwrap_or_else(error_words)
}

// ---- The Rust's host over a script -----------------------------------------------

/// Hands the replies out in order, and writes the actions down.
struct Host<'a> {
    replies: &'a [u32],
    used: usize,
    transcript: &'a mut [u32],
    at: usize,
    actions: u64,
    micros: u64,
}

impl<'a> Host<'a> {
    fn new(replies: &'a [u32], transcript: &'a mut [u32]) -> Host<'a> {
        Host { replies, used: 0, transcript, at: 0, actions: 0, micros: 0 }
    }
    fn note(&mut self, kind: u32, register: u32, value: u32) {
        self.transcript[self.at..self.at + 3].copy_from_slice(&[kind, register, value]);
        self.at += 3;
        self.actions += 1;
    }
    fn reply(&mut self) -> Result<u32, u32> {
        let pair = &self.replies[self.used..self.used + 2];
        self.used += 2;
        if pair[0] == 0 { Ok(pair[1]) } else { Err(pair[1]) }
    }
}

impl Registers for Host<'_> {
    type Error = u32;
    fn read(&mut self, offset: u32) -> Result<u32, u32> {
        self.note(1, offset, 0);
        self.reply()
    }
    fn write(&mut self, offset: u32, value: u32) -> Result<(), u32> {
        self.note(2, offset, value);
        self.reply().map(|_| ())
    }
    fn delay_us(&mut self, micros: usize) {
        self.note(3, 0, micros as u32);
        self.micros += micros as u64;
    }
}

// ---- Checking and timing -------------------------------------------------------------

const ROUNDS: usize = 15;

/// Nanoseconds of one call: the middle of the rounds.
fn middle(mut times: Vec<f64>) -> f64 {
    times.sort_by(f64::total_cmp);
    times[times.len() / 2]
}

fn timed(count: usize, mut f: impl FnMut()) -> f64 {
    let from = Instant::now();
    for _ in 0..count { f(); }
    from.elapsed().as_nanos() as f64 / count as f64
}

/// The Rust's operation over the replies: what it gave, and its counts as the port has them.
fn over(port: Port, what: What, replies: &[u32], transcript: &mut [u32]) -> (Given, [u64; 4]) {
    let mut host = Host::new(replies, transcript);
    let given = rust(&mut host, port, what);
    (given, [host.actions, host.micros, host.at as u64, host.used as u64])
}

/// Both do the same work, which is what the oracle said, or the benchmark stops.
fn check(job: &Job) {
    let Job { name, port, what, replies, given, actions, micros } = job;
    // Room for one action more, which would be seen.
    let (mut a, mut b) = (vec![9; 3 * actions + 3], vec![9; 3 * actions + 3]);
    let counts = [*actions as u64, *micros, 3 * *actions as u64, replies.len() as u64];
    assert_eq!(over(*port, *what, replies, &mut a), (*given, counts), "{name}: the Rust");
    for call in [port::run, port::steps] {
        b.fill(9);
        let r = call(*port, *what, replies, &mut b);
        assert_eq!(r.given(), Some(*given), "{name}: the answer");
        assert_eq!([r.actions, r.micros, r.at, r.used], counts, "{name}: the counts");
        assert!(a == b, "{name}: the transcript");
    }
    let r = port::inside(*port, *what, replies, actions + 1);
    assert_eq!((r.given(), r.actions, r.micros, r.used), (Some(*given), counts[0], counts[1], counts[3]), "{name}: the steps inside");
}

fn main() {
    let millis: f64 = std::env::args().nth(1).map_or(20.0, |w| w.parse().expect("milliseconds of a round"));
    println!("nanoseconds per action         actions      Rust       run   ratio     calls      rest   ratio      step   ratio    inside   ratio");
    let mut sizes = vec![];
    for job in jobs::read() {
        check(&job);
        let Job { name, port, what, replies, actions, .. } = job;
        let mut t = vec![0; 3 * actions];
        let mut ours = |call: fn(Port, What, &[u32], &mut [u32]) -> port::Ran, count| {
            timed(count, || { black_box(call(port, black_box(what), &replies, &mut t)); })
        };
        let rounds = |nanos: f64| ((millis * 1e6 / nanos) as usize).max(1);
        let (count, few) = (rounds(ours(port::run, 50)), rounds(ours(port::steps, 1)));
        let mut u = vec![0; 3 * actions];
        let mut times = [vec![], vec![], vec![], vec![], vec![], vec![]];
        let inside = |replies: &[u32], actions, count| timed(count, || { black_box(port::inside(port, black_box(what), replies, actions)); });
        for _ in 0..ROUNDS {
            times[0].push(timed(count, || { black_box(over(port, black_box(what), &replies, &mut u)); }));
            times[1].push(ours(port::run, count));
            times[2].push(ours(port::steps, few));
            // The same three calls, with no reply and no room: what they cost beside the actions.
            times[3].push(timed(count, || { black_box(port::run(port, black_box(what), &[], &mut [])); }));
            // Rattle's own steps, with all actions and with none.
            times[4].push(inside(&replies, actions, count));
            times[5].push(inside(&replies, 0, count));
        }
        let [r, o, s, calls, all, none] = times.map(|t| middle(t) / actions as f64);
        let (rest, i) = (o - calls, all - none);
        println!("{name:30} {actions:7} {r:9.2} {o:9.2} {:7.2} {calls:9.2} {rest:9.2} {:7.2} {s:9.2} {:7.2} {i:9.2} {:7.2}",
            o / r, rest / r, s / r, i / r);
        let none = stack::used(|| ());
        sizes.push((name, stack::used(|| { black_box(over(port, black_box(what), &replies, &mut u)); }) - none,
            stack::used(|| { black_box(port::run(port, black_box(what), &replies, &mut u)); }) - none,
            stack::used(|| { black_box(port::steps(port, black_box(what), &replies, &mut u)); }) - none));
    }
    println!("\nbytes of stack                               Rust       run               step");
    for (name, r, o, s) in sizes { println!("{name:38} {r:9} {o:9} {s:18}"); }
}
