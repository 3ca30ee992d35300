//! The host that the published Rust runs on: each action is answered by the next line of the input and stands in the listing.
use crate::hw::Registers;
use crate::lines;
use std::fmt::{Arguments, Write as _};
use std::io::{BufRead, BufWriter, StdinLock, Stdout, Write};

pub struct Talk {
    input: StdinLock<'static>,
    output: BufWriter<Stdout>,
    is_asking: bool,
    shows_left: bool,
    actions: u64,
    micros: u64,
}

fn joined(words: &[u32]) -> String {
    words.iter().fold(String::new(), |mut text, word| {
        write!(text, " {word:08x}").expect("a string takes all text");
        text
    })
}

impl Talk {
    pub fn new(argument: Option<&str>) -> Talk {
        Talk {
            input: std::io::stdin().lock(),
            output: BufWriter::with_capacity(0x10000, std::io::stdout()),
            is_asking: argument == Some("ask"),
            shows_left: argument == Some("left"),
            actions: 0,
            micros: 0,
        }
    }

    /// The next line without its end, a line feed or a carriage return and one; None at the end of the input.
    pub fn line(&mut self) -> Option<Vec<u8>> {
        let mut line = Vec::new();
        let count = self.input.read_until(b'\n', &mut line).expect("standard input is read");
        for end in [b'\n', b'\r'] {
            if line.last() == Some(&end) { line.pop(); }
        }
        (count > 0).then_some(line)
    }

    fn print(&mut self, line: Arguments) {
        self.output.write_fmt(line).and_then(|()| self.output.write_all(b"\n")).expect("standard output is written");
    }

    /// The last line, and the end of the program: also from within an action, where the Rust could not be left otherwise.
    fn end(&mut self, head: Arguments, words: &[u32], left: Option<Vec<u32>>) -> ! {
        let (words, actions, micros) = (joined(words), self.actions, self.micros);
        self.print(format_args!("end {head}{words} actions {actions} micros {micros}"));
        if let Some(left) = left.filter(|_| self.shows_left) {
            self.print(format_args!("left{}", joined(&left)));
        }
        self.output.flush().expect("standard output is written");
        std::process::exit(0)
    }

    pub fn end_ok(&mut self, words: &[u32], left: Option<Vec<u32>>) -> ! {
        self.end(format_args!("ok"), words, left)
    }

    pub fn end_no(&mut self, number: u32, words: &[u32], left: Option<Vec<u32>>) -> ! {
        self.end(format_args!("no {number}"), words, left)
    }

    /// One action: it is named where that is asked for, its reply is taken if it has one, and only then is it done.
    fn act(&mut self, action: Arguments, has_reply: bool) -> Result<u32, u32> {
        if self.is_asking { eprintln!("{action}"); }
        let reply = if has_reply { self.reply() } else { Ok(0) };
        self.print(action);
        self.actions += 1;
        reply
    }

    fn reply(&mut self) -> Result<u32, u32> {
        let Some(line) = self.line() else { self.end_no(26, &[], None) };
        let Some(reply) = lines::reply(&line) else { self.end_no(25, &[], None) };
        reply
    }
}

impl Registers for Talk {
    type Error = u32;

    fn read(&mut self, register: u32) -> Result<u32, u32> {
        self.act(format_args!("r {register:08x}"), true)
    }

    fn write(&mut self, register: u32, value: u32) -> Result<(), u32> {
        self.act(format_args!("w {register:08x} {value:08x}"), true)?;
        Ok(())
    }

    fn delay_us(&mut self, micros: usize) {
        self.act(format_args!("d {micros}"), false).expect("a wait does not fail");
        self.micros += micros as u64;
    }
}
