//! What `rd_replay` does with a made trace, as a plain Rust program: `plain [--make N | --show N]`.
//!
//! It reads the text of a trace from standard input and writes the same lines as `rd_replay`. With
//! `--make N` it makes the trace of `N` devices and writes what is counted of it, as `rd_replay`
//! does. With `--show N` it writes that trace. README.md says what it does not handle.

mod characters;
mod directory;
mod exchanges;
mod generator;
mod index;
mod kept;
mod links;
mod machine;
mod message;
mod outbox;
mod peer;
mod query;
mod record;
mod request;
mod tables;
mod trace;
mod watching;

use crate::generator::made;
use crate::machine::Machine;
use crate::trace::{put_sent, Lines};
use std::fmt;
use std::io::{self, Read, Write};
use std::process::ExitCode;

/// What a made trace never holds, and this program does not handle.
#[derive(Clone, Copy, Debug)]
struct Unhandled(&'static str);

/// Why a run ended early.
#[derive(Debug)]
enum Trouble {
    /// The words are not those of the program.
    Usage,
    /// Reading or writing failed.
    Io(io::Error),
    /// A line of the trace is not handled.
    Line(u64, Unhandled),
}

impl From<io::Error> for Trouble {
    fn from(error: io::Error) -> Trouble {
        Trouble::Io(error)
    }
}

impl fmt::Display for Trouble {
    fn fmt(&self, f: &mut fmt::Formatter<'_>) -> fmt::Result {
        match self {
            Trouble::Usage => write!(f, "usage: plain [--make N | --show N]"),
            Trouble::Io(error) => write!(f, "{error}"),
            Trouble::Line(line, Unhandled(what)) => write!(f, "line {line}: {what}"),
        }
    }
}

/// What the words of the program ask for.
enum Words {
    /// The trace of standard input.
    Read,
    /// The trace of so many devices, and what is counted of it.
    Make(u32),
    /// The text of that trace.
    Show(u32),
}

/// What the words ask for.
fn words() -> Result<Words, Trouble> {
    let given: Vec<String> = std::env::args().skip(1).collect();
    let pieces: Vec<&str> = given.iter().flat_map(|word| word.split('=')).collect();
    let devices = |text: &str| match text.parse() {
        Ok(devices @ 1..=4_000) => Ok(devices),
        _ => Err(Trouble::Usage),
    };
    match pieces.as_slice() {
        [] => Ok(Words::Read),
        ["--make", number] => Ok(Words::Make(devices(number)?)),
        ["--show", number] => Ok(Words::Show(devices(number)?)),
        _ => Err(Trouble::Usage),
    }
}

/// Does the lines of a trace one after the other; `after` is told what each sent.
fn do_lines(
    machine: &mut Machine,
    trace: &[u8],
    mut after: impl FnMut(&Machine),
) -> Result<u64, Trouble> {
    let mut lines = Lines::of(trace);
    let mut count = 0;
    loop {
        let line = lines.next().map_err(|why| Trouble::Line(count + 1, why))?;
        let Some(line) = line else {
            return Ok(count);
        };
        machine
            .perform(line)
            .map_err(|why| Trouble::Line(count + 1, why))?;
        count += 1;
        after(machine);
    }
}

/// What is written of a trace: a line for each datagram that is sent, and the last line.
fn replayed(trace: &[u8]) -> Result<Vec<u8>, Trouble> {
    let mut machine = Machine::new();
    let mut text = Vec::new();
    do_lines(&mut machine, trace, |machine| {
        put_sent(&mut text, machine.sent())
    })?;
    writeln!(text, "{}", machine.end())?;
    Ok(text)
}

/// What is written of the trace of so many devices: what is counted, and the last line.
fn counted(devices: u32) -> Result<Vec<u8>, Trouble> {
    let mut machine = Machine::new();
    let (mut datagrams, mut octets) = (0, 0);
    let lines = do_lines(&mut machine, &made(devices), |machine| {
        datagrams += machine.sent().len();
        octets += machine.sent().octets();
    })?;
    let mut text = Vec::new();
    writeln!(
        text,
        "made {lines}\nsent {datagrams} {octets}\n{}",
        machine.end()
    )?;
    Ok(text)
}

/// Does what the words ask for, and writes what comes of it.
fn run() -> Result<(), Trouble> {
    let text = match words()? {
        Words::Read => {
            let mut trace = Vec::new();
            io::stdin().lock().read_to_end(&mut trace)?;
            replayed(&trace)?
        }
        Words::Make(devices) => counted(devices)?,
        Words::Show(devices) => made(devices),
    };
    io::stdout().lock().write_all(&text)?;
    Ok(())
}

fn main() -> ExitCode {
    match run() {
        Ok(()) => ExitCode::SUCCESS,
        Err(trouble) => {
            eprintln!("{trouble}");
            ExitCode::FAILURE
        }
    }
}
