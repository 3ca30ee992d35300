//! The operations by their names: how the arguments of each are read, and which function of the Rust it is.
//!
//! Unreadable are an unknown name, a wrong number of words, a word that is not eight digits, a truth value or the mark of an
//! option above 1, a place that the enum lacks, and more than 16 bits where 16 are meant. An address above 31 is refused and
//! not unreadable, of any size.
use crate::answers::Words;
use crate::hw::{self, hostif, mdio, sync, x552, x553, Error, Family, Port};
use crate::lines::{self, Arguments};
use crate::body::{Body, BODY};
use crate::talk::Talk;

/// What came of an operation, and what it leaves to its caller beside that: the words of a host block, or of a watch.
pub struct Done {
    pub answer: Result<Vec<u32>, Error<u32>>,
    pub left: Option<Vec<u32>>,
}

pub struct Operation {
    /// Of the PHY and of the devices in it.
    pub addresses: Vec<u32>,
    /// The pairs of its list.
    pub pairs: usize,
    /// The words of its host block.
    pub block: usize,
    /// The minute of a poll or one of its windows is none.
    pub has_bad_windows: bool,
    pub run: Box<dyn FnOnce(&mut Talk, Port) -> Done>,
}

impl Operation {
    fn addressed(self, phy: u32, device: u32) -> Operation {
        Operation { addresses: vec![phy, device], ..self }
    }
}

/// An operation that leaves nothing beside its answer.
fn does<T: Words>(run: impl FnOnce(&mut Talk, Port) -> Result<T, Error<u32>> + 'static) -> Operation {
    let run = |talk: &mut Talk, port| Done { answer: run(talk, port).map(|answer| answer.words()), left: None };
    Operation { addresses: vec![], pairs: 0, block: 0, has_bad_windows: false, run: Box::new(run) }
}

type Group = fn(&[u8], &mut Arguments) -> Option<Operation>;
const GROUPS: [Group; 7] = [of_port, of_locks, of_firmware, of_phy, of_list, of_phy_register, of_kr];

/// The operation of the second line.
pub fn read(line: &[u8]) -> Option<Operation> {
    let line = lines::words(line);
    let (name, rest) = line.split_first()?;
    let words = rest.iter().map(|word| lines::word(word)).collect::<Option<Vec<u32>>>()?;
    GROUPS.iter().find_map(|group| {
        let mut arguments = Arguments::new(&words);
        group(name, &mut arguments).filter(|_| arguments.is_empty())
    })
}

fn of_port(name: &[u8], a: &mut Arguments) -> Option<Operation> {
    Some(match name {
        b"veto" => does(|talk, _| hw::veto(talk)),
        b"link" => does(|talk, port| hw::link(talk, port.family)),
        b"after_reset" => does(|talk, port| match port.family {
            Family::X553 => x553::after_reset(talk, port),
            _ => x552::after_reset(talk, port),
        }),
        b"bringup" => bringup(a.truth()?),
        b"poll" => {
            let (phy, place, forced) = (a.word()?, a.truth()?, a.option(Arguments::half)?);
            let internal = if place { x552::Internal::Kr } else { x552::Internal::Ixfi };
            let (reforced, minute, windows) = (a.word()?, a.word(), a.rest());
            if windows.len() % 2 == 1 { return None }
            let has_bad_windows = minute.is_some_and(|minute| are_bad(minute, &windows));
            Operation { has_bad_windows, ..poll(phy, internal, forced, reforced) }
        }
        _ => return None,
    })
}

/// The family's own two steps, with nothing done between them.
fn bringup(veto: bool) -> Operation {
    does(move |talk, port| match port.family {
        Family::X553 => {
            let prepared = x553::prepare(talk, port, veto)?;
            x553::setup(talk, port, veto, prepared).map(|setup| setup.words())
        }
        _ => {
            let prepared = x552::prepare(talk, port, veto)?;
            x552::setup(talk, port, veto, prepared).map(|setup| setup.words())
        }
    })
}

/// More than 32 windows of two words each, or a minute that the week does not have, or a start that is its end.
fn are_bad(minute: u32, windows: &[u32]) -> bool {
    let is_none = |minute: &u32| *minute > 10_079;
    is_none(&minute) || windows.len() > 64 || windows.iter().any(is_none) || windows.chunks(2).any(|window| window[0] == window[1])
}

fn poll(phy: u32, internal: x552::Internal, forced: Option<u16>, reforced: u32) -> Operation {
    let run = move |talk: &mut Talk, port| {
        let mut watch = x552::Watch { phy: phy as u8, internal, forced, reforced };
        let copper = watch.poll(talk, port);
        let left = (watch.forced, watch.reforced).words();
        Done { answer: copper.map(|copper| [copper.words(), left.clone()].concat()), left: Some(left) }
    };
    Operation { addresses: vec![phy], pairs: 0, block: 0, has_bad_windows: false, run: Box::new(run) }
}

fn of_locks(name: &[u8], a: &mut Arguments) -> Option<Operation> {
    let mask = a.word()?;
    Some(match name {
        b"acquire" => does(move |talk, port| sync::acquire(talk, port, mask)),
        b"release" => does(move |talk, port| sync::release(talk, port, mask)),
        _ => return None,
    })
}

fn of_firmware(name: &[u8], a: &mut Arguments) -> Option<Operation> {
    Some(match name {
        b"command" => command(a.rest()),
        b"token" => {
            let take = a.truth()?;
            does(move |talk, port| hostif::token(talk, port, take))
        }
        b"phy_activity" => {
            let (activity, data) = (a.half()?, [a.word()?, a.word()?, a.word()?, a.word()?]);
            does(move |talk, port| hostif::phy_activity(talk, port, activity, data))
        }
        b"nvm_word" => {
            let word = a.half()?;
            does(move |talk, port| x552::nvm_word(talk, port, word))
        }
        _ => return None,
    })
}

fn command(mut block: Vec<u32>) -> Operation {
    let length = block.len();
    let run = move |talk: &mut Talk, port| {
        let status = hostif::command(talk, port, &mut block);
        Done { answer: status.map(|status| [status.words(), block.clone()].concat()), left: Some(block) }
    };
    Operation { addresses: vec![], pairs: 0, block: length, has_bad_windows: false, run: Box::new(run) }
}

/// What is done with a PHY, or to find one.
fn of_phy(name: &[u8], a: &mut Arguments) -> Option<Operation> {
    if name == b"scan" { return Some(does(|talk, port| mdio::scan(talk, port))) }
    let address = a.word()?;
    let phy = address as u8;
    let operation = match name {
        b"probe" => does(move |talk, port| mdio::probe(talk, port, phy)),
        b"abilities" => does(move |talk, port| mdio::abilities(talk, port, phy)),
        b"an_link" => does(move |talk, port| mdio::an_link(talk, port, phy)),
        b"reset" => {
            let is_x557 = a.truth()?;
            does(move |talk, port| mdio::reset(talk, port, phy, is_x557))
        }
        b"advertise" => {
            let speeds = mdio::Speeds { g10: a.truth()?, g1: a.truth()?, m100: a.truth()? };
            let (nbase, veto) = (a.option(Arguments::truth)?, a.truth()?);
            does(move |talk, port| mdio::advertise(talk, port, phy, speeds, nbase, veto))
        }
        _ => return None,
    };
    Some(operation.addressed(address, 0))
}

/// Registers of one PHY under one hold, which the Rust does not have: its `locked` over the body of its `read_reg`, once for each pair.
/// The words that are left are the values: after an error of a read those before it, after one of acquire or release none.
fn of_list(name: &[u8], a: &mut Arguments) -> Option<Operation> {
    if name != b"mdio_list" { return None }
    let (phy, words) = (a.word()?, a.rest());
    let pairs = words.chunks(2).map(|pair| Some((pair[0], u16::try_from(*pair.get(1)?).ok()?))).collect::<Option<Vec<_>>>()?;
    let addresses = std::iter::once(phy).chain(pairs.iter().map(|pair| pair.0)).collect();
    let (count, mut values) = (pairs.len(), vec![]);
    let run = move |talk: &mut Talk, port: Port| {
        if count == 0 { return Done { answer: Ok(vec![]), left: Some(vec![]) } }
        let token = if port.family == Family::X553 { sync::TOKEN } else { 0 };
        let result = sync::locked(talk, port, sync::phy(port.lan) | token, |talk| {
            for (device, register) in pairs {
                let word = mdio::read_reg(&mut Body::of(talk), BODY, phy as u8, device as u8, register)?;
                values.push(word as u32);
            }
            Ok(())
        });
        if result.is_err() && values.len() == count { values.clear() }
        Done { answer: result.map(|()| values.clone()), left: Some(values) }
    };
    Some(Operation { addresses, pairs: count, block: 0, has_bad_windows: false, run: Box::new(run) })
}

fn of_phy_register(name: &[u8], a: &mut Arguments) -> Option<Operation> {
    let addresses = (a.word()?, a.word()?);
    let (phy, device, register) = (addresses.0 as u8, addresses.1 as u8, a.half()?);
    let operation = match name {
        b"read_reg" => does(move |talk, port| mdio::read_reg(talk, port, phy, device, register)),
        b"write_reg" => {
            let value = a.half()?;
            does(move |talk, port| mdio::write_reg(talk, port, phy, device, register, value))
        }
        b"modify" => {
            let (keep, set) = (a.half()?, a.half()?);
            does(move |talk, port| mdio::modify(talk, port, phy, device, register, |old| old & keep | set))
        }
        _ => return None,
    };
    Some(operation.addressed(addresses.0, addresses.1))
}

fn of_kr(name: &[u8], a: &mut Arguments) -> Option<Operation> {
    Some(match name {
        b"kr_read" => {
            let address = a.word()?;
            does(move |talk, port| x552::kr_read(talk, port, address))
        }
        b"kr_write" => {
            let (address, value) = (a.word()?, a.word()?);
            does(move |talk, port| x552::kr_write(talk, port, address, value))
        }
        b"kr_modify" => {
            let (address, keep, set) = (a.word()?, a.word()?, a.word()?);
            does(move |talk, port| x552::kr_modify(talk, port, address, |old| old & keep | set))
        }
        b"restart_an" => does(|talk, port| x552::restart_an(talk, port)),
        b"kr_autoneg" => {
            let (kr, kx) = (a.truth()?, a.truth()?);
            does(move |talk, port| x552::kr_autoneg(talk, port, kr, kx))
        }
        _ => return None,
    })
}
