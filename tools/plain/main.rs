//! A plain program that does what `arpasim` does, written from the rules without contracts and proofs, so that the proved program
//! can be compared with it: `rustc -O --edition 2021 tools/plain/main.rs -o FILE`.
//!
//! It reads a topology and a script from standard input, or from the file that a word names, replays the script, and prints what
//! the hosts see. Of the options it has `--book`, `--check` and `--texts`, and `--search` of its own (search.rs). It keeps what the proved program keeps: all that
//! crossed with its texts, what users were told, what services reported, and the lives of connections with their bits.
//!
//! It leaves out
//!
//! - most of TOML: it reads the spelling that topologies here have, one key a line, and takes some documents that TOML refuses;
//! - `--log`, `--trace`, `--audit` and `--live`;
//! - running out of memory, which ends it.

mod bits;
mod book;
mod boxes;
mod carrier;
mod commands;
mod hash;
mod imp;
mod line;
mod names;
mod pair;
mod pattern;
mod place;
mod printing;
mod program;
mod raw;
mod script;
mod search;
mod services;
mod spelling;
mod subnet;
mod topology;
mod world;

use boxes::Boxes;
use carrier::Carrier;
use printing::Printer;
use script::Event;
use std::fs::File;
use std::io::Read;
use std::process::ExitCode;
use subnet::Subnet;
use topology::Topology;
use world::{Replay, World};

/// The most octets that an input may have.
const MOST_OCTETS: usize = 268_435_456;

/// What ends the program early: its status, and what it says.
struct Fault(u8, String);

/// Which options were given.
#[derive(Default)]
struct Options {
    book: bool,
    check: bool,
    texts: bool,
}

fn main() -> ExitCode {
    match run() {
        Ok(()) => ExitCode::SUCCESS,
        Err(Fault(status, words)) => {
            eprintln!("arpasim: {words}");
            ExitCode::from(status)
        }
    }
}

/// The whole program.
fn run() -> Result<(), Fault> {
    let words: Vec<String> = std::env::args().skip(1).collect();
    if words.first().is_some_and(|it| it == "--search") {
        return search::run(&words[1..], &read_input("-")?).map_err(|why| Fault(1, why));
    }
    let (names, words): (Vec<String>, Vec<String>) = words.into_iter().partition(|it| names_input(it));
    if names.len() > 1 {
        return Err(Fault(1, "bad arguments".into()));
    }
    let options = read_options(words)?;
    let bad_topology = || Fault(1, "bad topology".into());
    let input = read_input(names.first().map_or("-", String::as_str))?;
    let (document, script) = split(&input).ok_or_else(bad_topology)?;
    let topology = Topology::read(document).ok_or_else(bad_topology)?;
    let events = script::read(script, topology.is_raw).map_err(|line| Fault(2, format!("bad script line {line}")))?;
    drop(input);
    let mut printer = Printer::new(options.texts);
    if options.check {
        printer.word(b"ok").end();
    } else if topology.is_plain {
        replay(Boxes::new(topology.hosts()), &topology, events, &options, &mut printer);
    } else {
        replay(Subnet::new(&topology), &topology, events, &options, &mut printer);
    }
    if printer.finish() {
        Ok(())
    } else {
        Err(Fault(3, "stopped".into()))
    }
}

/// Replays events over a carrier, and prints what is seen of them.
fn replay(carrier: impl Carrier, topology: &Topology, events: Vec<Event>, options: &Options, printer: &mut Printer) {
    if topology.is_raw {
        raw::replay(carrier, events, printer);
    } else {
        let mut replay = Replay { world: &mut World::new(carrier), printer };
        replay.replay(events);
        if options.book {
            replay.print_lives();
        }
    }
    printer.word(b"end").end();
}

/// Reads the options.
fn read_options(words: Vec<String>) -> Result<Options, Fault> {
    let mut options = Options::default();
    for word in words {
        let option = match word.as_str() {
            "--book" => &mut options.book,
            "--check" => &mut options.check,
            "--texts" => &mut options.texts,
            _ => return Err(Fault(1, "bad arguments".into())),
        };
        if std::mem::replace(option, true) {
            return Err(Fault(1, "bad arguments".into()));
        }
    }
    Ok(options)
}

/// Whether a word names the input: `-` does, and each word that does not begin with it.
fn names_input(word: &str) -> bool {
    word == "-" || !word.is_empty() && !word.starts_with('-')
}

/// Reads the input of a name, which may not be too long: `-` is standard input, and any other name that of a file.
fn read_input(name: &str) -> Result<Vec<u8>, Fault> {
    let cannot_read = |_| Fault(1, "cannot read".into());
    let opened: Box<dyn Read> = match name {
        "-" => Box::new(std::io::stdin().lock()),
        _ => Box::new(File::open(name).map_err(cannot_read)?),
    };
    let mut input = Vec::new();
    opened.take(MOST_OCTETS as u64 + 1).read_to_end(&mut input).map_err(cannot_read)?;
    if input.len() > MOST_OCTETS {
        Err(Fault(1, "input too long".into()))
    } else {
        Ok(input)
    }
}

/// What is before and after the first line that is exactly `%`.
fn split(input: &[u8]) -> Option<(&[u8], &[u8])> {
    let mut start = 0;
    for line in input.split(|it| *it == b'\n') {
        if line == b"%" {
            return Some((&input[..start], input.get(start + 2..).unwrap_or_default()));
        }
        start += line.len() + 1;
    }
    None
}
