//! The oracle: the published Rust behind the tracer's input and listing, so that what the two print can be compared.
//!
//! tools/oracle/build puts the published files into the folder `rust` beside this one, and the stubs of those that were not
//! published; nothing of the Rust stands here. An argument, if any, is one of two that the tracer does not have in this form:
//! `ask` names each read and write on standard error before its reply line is taken, and each wait as it is done, so that a
//! simulated chip can answer; `left` adds a line behind the last one, with what the Rust leaves in a host block or a watch.
//!
//! What document 01 leaves open is read so:
//! - An action whose reply is missing (26) or unreadable (25) was not done: it has no line and is not counted.
//! - The first two lines are read before anything is refused: where one is missing or unreadable it is 25, with any lan.
//! - An `end no` line has its number's fields alone, also those of `command` and `poll`.
//! - A pause that the port line names is looked at (25, 32) and not used: the Rust waits 10. Nor are the minute and the windows
//!   that a poll's line names (25, 40): the Rust forces at any time.
//! - Fiber goes by family and device id together: X552 with 15c4 is not fiber.
//! - Lines behind the end are not read. The exit status is 0.
mod answers;
mod body;
mod lines;
mod operations;
mod talk;
#[path = "rust/hardware.rs"]
#[allow(dead_code, unused_imports)]
mod hw;

use hw::{Family, Port};
use lines::PortLine;
use operations::Operation;
use talk::Talk;

/// The number of the refusal, 20, 21, 22, 31, 23, 32 and 40 in this order, where the port or the operation is refused before any
/// action. The port's 35, a KR address above ffff, is not there: the Rust sends such an address, and runs beside it leave it out.
fn refusal(port: &PortLine, operation: &Operation) -> Option<u32> {
    let is_fiber = match port.family {
        Family::X553 => [0x15c4, 0x15ce].contains(&port.device),
        _ => port.device == 0x15ac,
    };
    let refusals = [
        (20, port.lan > 1),
        (21, is_fiber),
        (22, operation.addresses.iter().any(|address| *address > 31)),
        (31, operation.pairs > 64),
        (23, operation.block > 448),
        (32, port.pause == 0 || port.pause > 100),
        (40, operation.has_bad_windows),
    ];
    refusals.into_iter().find(|(_, refused)| *refused).map(|(number, _)| number)
}

fn main() {
    let mut talk = Talk::new(std::env::args().nth(1).as_deref());
    let (first, second) = (talk.line(), talk.line());
    let port = first.as_deref().and_then(lines::port);
    let operation = second.as_deref().and_then(operations::read);
    let (Some(port), Some(operation)) = (port, operation) else { talk.end_no(25, &[], None) };
    if let Some(number) = refusal(&port, &operation) { talk.end_no(number, &[], None) }
    let port = Port { family: port.family, device: port.device, lan: port.lan as u8 };
    let done = (operation.run)(&mut talk, port);
    match done.answer {
        Ok(words) => talk.end_ok(&words, done.left),
        Err(error) => {
            let (number, words) = answers::error(error);
            talk.end_no(number, &words, done.left)
        }
    }
}
