//! Reads octets, and prints what each reader gives.
//!
//! A block begins with `readers`. A row is a reader and octets: `from_host` or `from_imp` (a leader), `packet`, `frame`, `command`, or `commands` (a whole
//! control text); or `header` or `body`, a number of bits, and their octets. Printed is what was read, and after ` = ` how a copy of that
//! is written again; or the fault. After a command its octets follow in brackets. The commands of a control text are printed one
//! after the other, up to its end or to the fault that ends reading. `prefixes READER OCTETS` and `changed VALUE READER OCTETS` read each shorter prefix of
//! octets, and octets of which each in turn has this value: printed is `read` where the same octets are written again, or what was read, or the fault.
//! `check readers` compares all this with an independent reader of the formats.

use crate::Layer;
use crate::words::{Words, spell_bits, spell_octets};
use imp_channel::{Content, Frame};
use interface::{Answer, Flow};
use leader1822::{Leader, LeaderFault};
use ncp_control::{Command, ControlFault, DataHeader, read_one};
use packetiser::{Packet, PacketKind};
use std::alloc::Global;

/// All readers.
#[derive(Drop)]
pub struct Readers;

impl Layer for Readers {
    fn call(&mut self, alloc: Global, mut words: Words<'_>, answer: &mut String) -> Option<()> {
        match words.word()? {
            "prefixes" => tell_prefixes(alloc, answer, words.word()?, &words.octets(alloc)?),
            "changed" => {
                let value = *words.octets(alloc)?.first()?;
                tell_changed(alloc, answer, value, words.word()?, &words.octets(alloc)?)
            }
            reader => tell_reading(alloc, reader, words, answer),
        }
    }
}

/// What a reader gives for each shorter prefix of octets, the empty one first.
fn tell_prefixes(alloc: Global, said: &mut String, reader: &str, octets: &[u8]) -> Option<()> {
    let mut runs = Runs { last: String::new(alloc), count: 0 };
    for length in 0..octets.len() {
        runs.put(said, short_reading(alloc, reader, octets.get(..length)?)?)?;
    }
    runs.end(said)
}

/// What a reader gives for octets of which each is changed to a value, the first one first.
fn tell_changed(alloc: Global, said: &mut String, value: u8, reader: &str, octets: &[u8]) -> Option<()> {
    let mut runs = Runs { last: String::new(alloc), count: 0 };
    for place in 0..octets.len() {
        let mut changed = octets.to_vec(alloc).ok()?;
        changed[place] = value;
        runs.put(said, short_reading(alloc, reader, &changed)?)?;
    }
    runs.end(said)
}

/// Readings that come one after the other: the last one, and how often it came.
#[derive(Drop)]
struct Runs {
    last: String,
    count: usize,
}

impl Runs {
    /// Prints the last reading where this is another one.
    fn put(&mut self, said: &mut String, next: String) -> Option<()> {
        if self.count > 0 && next.as_str() != self.last.as_str() {
            self.end(said)?;
            said.push_str(", ").ok()?;
            self.count = 0;
        }
        self.last = next;
        self.count += 1;
        Some(())
    }

    /// Prints the last reading, and how often it came.
    fn end(&self, said: &mut String) -> Option<()> {
        match self.count {
            0 => said.push_str("nothing").ok(),
            1 => said.push_str(&self.last).ok(),
            count => write!(said, "{count} times {}", self.last).ok(),
        }
    }
}

/// What a reader gives: `read` where that is written as the same octets.
fn short_reading(alloc: Global, reader: &str, octets: &[u8]) -> Option<String> {
    let mut row = String::new(alloc);
    spell_octets(alloc, &mut row, octets)?;
    let mut reading = String::new(alloc);
    tell_reading(alloc, reader, Words { rest: &row }, &mut reading)?;
    let is_same = match (reading.split_once(" = "), reading.split_once(" (")) {
        (Some((_, written)), _) => written == row.as_str(),
        (None, Some((_, written))) => written.strip_suffix(')') == Some(row.as_str()),
        (None, None) => false,
    };
    if is_same {
        reading.clear();
        reading.push_str("read").ok()?;
    }
    Some(reading)
}

/// What a reader gives.
fn tell_reading(alloc: Global, reader: &str, mut words: Words<'_>, said: &mut String) -> Option<()> {
    match reader {
        "from_host" => tell_leader(alloc, said, Leader::read_from_host(&words.octets(alloc)?)),
        "from_imp" => tell_leader(alloc, said, Leader::read_from_imp(&words.octets(alloc)?)),
        "packet" => {
            let octets = words.octets(alloc)?;
            match Packet::read(alloc, &octets) {
                Ok(packet) => {
                    tell_packet(alloc, said, &packet)?;
                    tell_written(alloc, said, &packet.clone().ok()?.write(alloc).ok()?)
                }
                Err(fault) => write!(said, "{fault}").ok(),
            }
        }
        "frame" => {
            let octets = words.octets(alloc)?;
            match Frame::read(alloc, &octets) {
                Ok(frame) => {
                    tell_frame(alloc, said, &frame)?;
                    tell_written(alloc, said, &frame.clone().ok()?.write(alloc).ok()?)
                }
                Err(fault) => write!(said, "{fault}").ok(),
            }
        }
        "command" => tell_command(alloc, said, &words.octets(alloc)?),
        "commands" => tell_commands(alloc, said, &words.octets(alloc)?),
        "header" => match DataHeader::read(&words.bits(alloc)?) {
            Some(header) => {
                write!(said, "{} {} = ", header.count, header.size).ok()?;
                spell_bits(alloc, said, &header.write(alloc).ok()?)
            }
            None => said.push_str("malformed").ok(),
        },
        "body" => match words.bits(alloc)?.strip(alloc) {
            Ok(text) => {
                spell_bits(alloc, said, &text)?;
                said.push_str(" = ").ok()?;
                spell_bits(alloc, said, &text.pad16(alloc).ok()?)
            }
            Err(fault) => write!(said, "{fault}").ok(),
        },
        _ => None,
    }
}

/// How something is written again.
fn tell_written(alloc: Global, said: &mut String, octets: &[u8]) -> Option<()> {
    said.push_str(" = ").ok()?;
    spell_octets(alloc, said, octets)
}

/// A leader.
fn tell_leader(alloc: Global, said: &mut String, read: Result<Leader, LeaderFault>) -> Option<()> {
    let leader = match read {
        Ok(leader) => leader,
        Err(fault) => return write!(said, "{fault}").ok(),
    };
    match leader {
        Leader::Nop => said.push_str("nop").ok()?,
        Leader::Regular { address, link } => write!(said, "regular {address} {}", link.0).ok()?,
        Leader::Answer { kind, address, link } => {
            let name = match kind {
                Answer::Rfnm => "rfnm",
                Answer::Incomplete => "incomplete",
                Answer::Dead => "dead",
                Answer::NotTaken => "nottaken",
            };
            write!(said, "{name} {address} {}", link.0).ok()?
        }
    }
    tell_written(alloc, said, &leader.write())
}

/// A packet: its kind, flow, number and place, whether it is the last, and its bits.
fn tell_packet(alloc: Global, said: &mut String, packet: &Packet) -> Option<()> {
    let name = match packet.kind() {
        PacketKind::Data => "data",
        PacketKind::Rfnm => "rfnm",
        PacketKind::Dead => "dead",
        PacketKind::Ask => "ask",
        PacketKind::Never => "never",
    };
    let Flow { source, destination, link } = packet.flow();
    let last = if packet.is_last() { "last" } else { "more" };
    write!(said, "{name} {source} {destination} {} {} {} {last} ", link.0, packet.number(), packet.place()).ok()?;
    spell_bits(alloc, said, packet.bits())
}

/// A frame: its kind, the channels whose acknowledgement bits are one, and what it brings.
fn tell_frame(alloc: Global, said: &mut String, frame: &Frame) -> Option<()> {
    let name = match frame.content {
        Content::Packet(_) => "packet",
        Content::Nothing => "acknowledgements",
        Content::Routes(_) => "routes",
    };
    write!(said, "{name} ").ok()?;
    for (channel, bit) in frame.acks.iter().enumerate() {
        if *bit {
            write!(said, "{channel}").ok()?;
        }
    }
    match &frame.content {
        Content::Nothing => Some(()),
        Content::Packet(carried) => {
            write!(said, " on {} under {} ", carried.channel(), u8::from(carried.bit())).ok()?;
            tell_packet(alloc, said, carried.packet())
        }
        Content::Routes(vector) => {
            for distance in vector.distances() {
                write!(said, " {distance}").ok()?;
            }
            Some(())
        }
    }
}

/// The command that octets begin with.
fn tell_command(alloc: Global, said: &mut String, octets: &[u8]) -> Option<()> {
    match read_one(octets) {
        Ok((command, used)) => tell_read(alloc, said, &command, used),
        Err(fault) => tell_fault(said, fault),
    }
}

/// The commands of a control text. After an erroneous one reading goes on.
fn tell_commands(alloc: Global, said: &mut String, octets: &[u8]) -> Option<()> {
    let mut rest = octets;
    while !rest.is_empty() {
        let used = match read_one(rest) {
            Ok((command, used)) => {
                tell_read(alloc, said, &command, used)?;
                used
            }
            Err(fault) => {
                tell_fault(said, fault)?;
                let ControlFault::Erroneous { quoted } = fault else {
                    return Some(());
                };
                quoted
            }
        };
        said.push_str(", ").ok()?;
        rest = rest.get(used..)?;
    }
    said.push_str("end").ok()
}

/// Why octets begin with no command.
fn tell_fault(said: &mut String, fault: ControlFault) -> Option<()> {
    let quoted = match fault {
        ControlFault::IllegalCode { quoted } | ControlFault::Short { quoted } | ControlFault::Erroneous { quoted } => quoted,
        ControlFault::OutOfMemory => return None,
    };
    write!(said, "{fault} {quoted}").ok()
}

/// A command that was read, and how it is written, which has to be as many octets as were read.
fn tell_read(alloc: Global, said: &mut String, command: &Command, used: usize) -> Option<()> {
    tell_fields(alloc, said, command)?;
    let written = command.write(alloc).ok()?;
    said.push_str(" (").ok()?;
    spell_octets(alloc, said, &written)?;
    said.push_str(")").ok()?;
    if used != written.len() || used != command.spelled_len() { write!(said, " of {used} octets").ok() } else { Some(()) }
}

/// A command's name and fields.
fn tell_fields(alloc: Global, said: &mut String, command: &Command) -> Option<()> {
    match command {
        Command::Nop => said.push_str("NOP").ok(),
        Command::Rts { receive, send, link } => {
            write!(said, "RTS {} {} {}", receive.number(), send.number(), link.number()).ok()
        }
        Command::Str { send, receive, size } => {
            write!(said, "STR {} {} {}", send.number(), receive.number(), size.bits()).ok()
        }
        Command::Cls { own, foreign } => write!(said, "CLS {own} {foreign}").ok(),
        Command::All { link, messages, bits } => write!(said, "ALL {link} {messages} {bits}").ok(),
        Command::Gvb { link, messages, bits } => write!(said, "GVB {link} {messages} {bits}").ok(),
        Command::Ret { link, messages, bits } => write!(said, "RET {link} {messages} {bits}").ok(),
        Command::Inr { link } => write!(said, "INR {link}").ok(),
        Command::Ins { link } => write!(said, "INS {link}").ok(),
        Command::Eco { octet } => write!(said, "ECO {octet}").ok(),
        Command::Erp { octet } => write!(said, "ERP {octet}").ok(),
        Command::Err { code, detail } => {
            write!(said, "ERR {code} ").ok()?;
            spell_octets(alloc, said, detail)
        }
        Command::Rst => said.push_str("RST").ok(),
        Command::Rrp => said.push_str("RRP").ok(),
    }
}
