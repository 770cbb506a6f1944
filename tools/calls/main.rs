//! Makes the calls that standard input names, a row each, and prints each row with what it answers.
//!
//! Input is text: blocks, with an empty line between two. A block's first row says of what the others are calls, as `imp 1 2 1` (the layers
//! are in `played`; the module of each has its rows). After a call is what it answers, in rows that begin with `= `: these are passed
//! over, and what the call answers is printed in their place. Rows that begin with `# ` are only printed. So what is printed is an input with
//! the same output. Rows between `repeat COUNT` and `end` are made so often; what they answer is printed once, and once more where
//! they answer something else. Octets are in upper case hexadecimal, `-` for none, and `3F*61` is 61 octets 3F, with a comma between
//! two parts. Faults are printed by their texts.
//!
//! `./check rows` compares what is printed for stored rows with the rows, and the checks of single layers do so for random ones.
#![tactic(auto)]

mod allocation_calls;
mod bit_calls;
mod box_calls;
mod fault_calls;
mod flow_calls;
mod host_calls;
mod imp_calls;
mod line_calls;
mod piece_calls;
mod program_calls;
mod reader_calls;
mod route_calls;
mod service_calls;
mod subnet_calls;
mod table_calls;
mod words;
mod world_calls;
mod writer_calls;

use crate::words::Words;
use link_table::{DestFlows, SourceFlows};
use packetiser::Reassembly;
use std::alloc::Global;
use std::io::Read;

/// What calls are made of.
pub trait Layer: Drop {
    /// Makes the call of a row and puts what it answers into `answer`, each part a line. `None` where the row is no call, or memory ran out.
    fn call(&mut self, alloc: Global, words: Words<'_>, answer: &mut String) -> Option<()>;
}

fn main(rt: HostRuntime) {
    let mut octets = Vec::new(rt.alloc());
    let mut reader = rt.reader();
    if reader.read_to_end(&mut octets).is_err() {
        return;
    }
    let Ok(text) = str::from_utf8(&octets) else {
        return;
    };
    let mut said = String::new(rt.alloc());
    if made(rt.alloc(), text, &mut said).is_none() {
        let _ = println!(rt; "{said}(this row was not read, or memory ran out)");
        return;
    }
    let _ = print!(rt; "{said}");
}

/// What is printed for an input.
fn made(alloc: Global, text: &str, said: &mut String) -> Option<()> {
    let mut joint = "";
    for block in text.split("\n\n") {
        said.push_str(joint).ok()?;
        joint = "\n";
        let mut rows = Vec::new(alloc);
        for row in block.lines() {
            rows.push(row).ok()?;
        }
        let opening = said_before(&rows, said)?;
        played(alloc, *rows.get(opening)?, rows.get(opening + 1..)?, said)?;
    }
    Some(())
}

/// Prints the rows of a block up to its first that is no comment, and gives the place of that.
fn said_before(rows: &[&str], said: &mut String) -> Option<usize> {
    for (place, row) in rows.iter().enumerate() {
        writeln!(said, "{row}").ok()?;
        if !row.starts_with("#") {
            return Some(place);
        }
    }
    None
}

/// Opens the layer that a block's first row names, and makes the calls of the other rows.
fn played(alloc: Global, opening: &str, rows: &[&str], said: &mut String) -> Option<()> {
    let mut words = Words { rest: opening };
    match words.word()? {
        "allocation" => play(alloc, &mut allocation_calls::opened()?, rows, said),
        "bits" => play(alloc, &mut bit_calls::opened(alloc), rows, said),
        "boxes" => play(alloc, &mut box_calls::opened(alloc, words)?, rows, said),
        "destinations" => play(alloc, &mut DestFlows::new(alloc), rows, said),
        "faults" => play(alloc, &mut fault_calls::Faults, rows, said),
        "line" => play(alloc, &mut line_calls::opened(alloc)?, rows, said),
        "pieces" => play(alloc, &mut Reassembly::new(alloc).ok()?, rows, said),
        "routes" => play(alloc, &mut route_calls::opened(alloc, words)?, rows, said),
        "sources" => play(alloc, &mut SourceFlows::new(alloc), rows, said),
        "writers" => play(alloc, &mut writer_calls::Writers, rows, said),
        "imp" => play(alloc, &mut imp_calls::opened(alloc, words)?, rows, said),
        "tables" => play(alloc, &mut table_calls::Tables, rows, said),
        "readers" => play(alloc, &mut reader_calls::Readers, rows, said),
        "subnet" => play(alloc, &mut subnet_calls::opened(alloc, words)?, rows, said),
        "hosts" => play(alloc, &mut host_calls::opened(alloc, words)?, rows, said),
        "world" => world_calls::played(alloc, words, rows, said),
        "program" => play(alloc, &mut program_calls::opened(alloc, words)?, rows, said),
        name => {
            let mut answer = String::new(alloc);
            let mut machine = service_calls::started(alloc, name, words, &mut answer)?;
            tell(&answer, said)?;
            play(alloc, &mut machine, rows, said)
        }
    }
}

/// Makes the calls of rows.
pub fn play<L: Layer>(alloc: Global, layer: &mut L, rows: &[&str], said: &mut String) -> Option<()> {
    let mut at = 0;
    while at < rows.len() {
        let row = *rows.get(at)?;
        at += 1;
        if row.starts_with("= ") {
            continue;
        }
        writeln!(said, "{row}").ok()?;
        if row.starts_with("#") {
            continue;
        }
        let mut words = Words { rest: row };
        if words.word()? == "repeat" {
            let rest = rows.get(at..)?;
            let length = rest.iter().position(|row| *row == "end")?;
            repeat(alloc, layer, words.number()?, rest.get(..length)?, said)?;
            at += length;
        } else if row != "end" {
            let mut answer = String::new(alloc);
            layer.call(alloc, Words { rest: row }, &mut answer)?;
            tell(&answer, said)?;
        }
    }
    Some(())
}

/// Makes the calls of rows so often, and prints them as they went at first, and from then on where they went otherwise.
fn repeat<L: Layer>(alloc: Global, layer: &mut L, count: u32, rows: &[&str], said: &mut String) -> Option<()> {
    let mut last = String::new(alloc);
    for time in 0..count {
        let mut now = String::new(alloc);
        play(alloc, layer, rows, &mut now)?;
        if now.as_str() != last.as_str() {
            if time > 0 {
                writeln!(said, "# otherwise after {time}").ok()?;
            }
            said.push_str(&now).ok()?;
            last = now;
        }
    }
    Some(())
}

/// Prints the parts of an answer.
pub fn tell(answer: &str, said: &mut String) -> Option<()> {
    for part in answer.lines() {
        writeln!(said, "= {part}").ok()?;
    }
    Some(())
}
