//! What the operations answer, and their errors, as the words of the listing's last line. An option is 0, or 1 and what it
//! holds; an enum is the place of its variant, counted from 0, and what that holds.
use crate::hw::{mdio, x552, x553, Error, Link};

pub trait Words {
    fn words(&self) -> Vec<u32>;
}

macro_rules! one_word {
    ($($number:ty)*) => { $(impl Words for $number {
        fn words(&self) -> Vec<u32> { vec![*self as u32] }
    })* };
}
one_word!(bool u8 u16 u32);

impl Words for () {
    fn words(&self) -> Vec<u32> { vec![] }
}

impl<T: Words> Words for Option<T> {
    fn words(&self) -> Vec<u32> { self.as_ref().map_or(vec![0], |held| place(1, &[held])) }
}

impl<A: Words, B: Words> Words for (A, B) {
    fn words(&self) -> Vec<u32> { [self.0.words(), self.1.words()].concat() }
}

impl<T: Words, const N: usize> Words for [T; N] {
    fn words(&self) -> Vec<u32> { self.iter().flat_map(T::words).collect() }
}

impl Words for Vec<u32> {
    fn words(&self) -> Vec<u32> { self.clone() }
}

/// A variant's place, and the words of what it holds.
fn place(number: u32, held: &[&dyn Words]) -> Vec<u32> {
    std::iter::once(number).chain(held.iter().flat_map(|part| part.words())).collect()
}

impl Words for Link {
    fn words(&self) -> Vec<u32> {
        match self {
            Link::Down => place(0, &[]),
            Link::Up { megabits } => place(1, &[megabits]),
        }
    }
}

impl Words for mdio::Speeds {
    fn words(&self) -> Vec<u32> { [self.g10, self.g1, self.m100].words() }
}

impl Words for x552::Internal {
    fn words(&self) -> Vec<u32> { (*self == x552::Internal::Kr).words() }
}

impl Words for x552::Copper {
    fn words(&self) -> Vec<u32> {
        match self {
            x552::Copper::Down => place(0, &[]),
            x552::Copper::Up { megabits } => place(1, &[megabits]),
            x552::Copper::Invalid { status } => place(2, &[status]),
        }
    }
}

impl Words for x552::Setup {
    fn words(&self) -> Vec<u32> {
        use x552::Setup;
        match self {
            Setup::Kx4 => place(0, &[]),
            Setup::Xfi => place(1, &[]),
            Setup::FirmwarePhy => place(2, &[]),
            Setup::Kr { link_ctrl } => place(3, &[link_ctrl]),
            Setup::ManageabilityVeto => place(4, &[]),
            Setup::Sfp { .. } => unreachable!("5: a fiber port is refused"),
            Setup::Copper { phy, id, sel, unstalled, reset, internal, advertised, restarted } =>
                place(6, &[phy, id, sel, unstalled, reset, internal, advertised, restarted]),
        }
    }
}

impl Words for x553::Setup {
    fn words(&self) -> Vec<u32> {
        use x553::Setup;
        match self {
            Setup::Kr { link_ctrl } => place(0, &[link_ctrl]),
            Setup::Kr2500 { sel } => place(1, &[sel]),
            Setup::Sgmii { link_ctrl, sgmii, flx } => place(2, &[link_ctrl, sgmii, flx]),
            Setup::ManageabilityVeto => place(3, &[]),
            Setup::Sfp { .. } => unreachable!("4: a fiber port is refused"),
            Setup::X557(setup) => place(5, &[setup]),
            Setup::Firmware { id, speeds, internal, overtemp } => place(6, &[id, speeds, internal, overtemp]),
        }
    }
}

/// The number of an error, and its words.
pub fn error(error: Error<u32>) -> (u32, Vec<u32>) {
    match error {
        Error::Io(code) => (1, vec![code]),
        Error::Removed => (2, vec![]),
        Error::Timeout { register, mask, expected, last } => (3, vec![register, mask, expected, last]),
        Error::Sideband { address, ctrl } => (4, vec![address, ctrl]),
        Error::Semaphore { held } => (5, vec![held]),
        Error::HostInterface { hicr } => (6, vec![hicr]),
        Error::Firmware { command, status } => (7, [command.words(), status.words()].concat()),
        Error::NoPhy => (8, vec![]),
        Error::PhyReset => (9, vec![]),
        other => unreachable!("{other:?} is of no operation here"),
    }
}
