//! Calls that make what is sent, and print the octets of it.
//!
//! A block begins with `writers`. `leader KIND HOST LINK` and `nop` are leaders, `packet KIND FLOW NUMBER` an answer or a question, `header SIZE COUNT`
//! what a message begins with and how many bits of data it announces, and `error CODE OCTETS` an ERR that quotes these octets. `pack OCTETS` packs the
//! commands that octets spell, and prints how many went into one message, and its octets; `single OCTETS` tells whether a command is the only one of its message. `imp NUMBER`,
//! `host NUMBER IMP` and `address OCTET` tell the names of IMPs and hosts.

use crate::Layer;
use crate::words::{Words, spell_bits, spell_octets};
use bit_messages::Bits;
use interface::{Answer, HostAddr, ImpNumber, Link};
use leader1822::Leader;
use ncp_control::{Command, DataHeader, pack, packed_count, read_one};
use packetiser::{Packet, PacketKind};
use std::alloc::Global;

/// All that is written.
#[derive(Drop)]
pub struct Writers;

impl Layer for Writers {
    fn call(&mut self, alloc: Global, mut words: Words<'_>, answer: &mut String) -> Option<()> {
        match words.word()? {
            "leader" => spell_octets(alloc, answer, &leader(words)?.write()),
            "nop" => spell_octets(alloc, answer, &Leader::Nop.write()),
            "packet" => spell_octets(alloc, answer, &packet(alloc, words)?.write(alloc).ok()?),
            "header" => {
                let header = DataHeader { size: words.octet()?, count: words.messages()? };
                spell_bits(alloc, answer, &header.write(alloc).ok()?)?;
                write!(answer, ", data {}", header.data_bits()).ok()
            }
            "error" => {
                let code = words.octet()?;
                let command = Command::error(code, &words.octets(alloc)?);
                spell_octets(alloc, answer, &command.write(alloc).ok()?)
            }
            "pack" => tell_packed(alloc, &commands(alloc, words)?, answer),
            "single" => write!(answer, "{}", read_one(&words.octets(alloc)?).ok()?.0.is_alone()).ok(),
            "imp" => match words.imp() {
                Some(imp) => write!(answer, "{}", imp.number()).ok(),
                None => answer.push_str("nothing").ok(),
            },
            "host" => match HostAddr::new(words.octet()?, words.octet()?) {
                Some(host) => write!(answer, "{host} {:02X}", host.octet()).ok(),
                None => answer.push_str("nothing").ok(),
            },
            "address" => match HostAddr::from_octet(*words.octets(alloc)?.first()?) {
                Some(host) => write!(answer, "{host}, host {} of {}", host.host(), host.imp()).ok(),
                None => answer.push_str("nothing").ok(),
            },
            _ => None,
        }
    }
}

/// A leader of a kind.
fn leader(mut words: Words<'_>) -> Option<Leader> {
    let name = words.word()?;
    let address = words.host()?;
    let link = Link(words.octet()?);
    let kind = match name {
        "regular" => return Some(Leader::Regular { address, link }),
        "rfnm" => Answer::Rfnm,
        "dead" => Answer::Dead,
        "incomplete" => Answer::Incomplete,
        "nottaken" => Answer::NotTaken,
        _ => return None,
    };
    Some(Leader::Answer { kind, address, link })
}

/// A packet without bits.
fn packet(alloc: Global, mut words: Words<'_>) -> Option<Packet> {
    let kind = match words.word()? {
        "rfnm" => PacketKind::Rfnm,
        "dead" => PacketKind::Dead,
        "ask" => PacketKind::Ask,
        "never" => PacketKind::Never,
        _ => return None,
    };
    let flow = words.flow()?;
    Some(Packet::new(kind, flow, words.message_number()?, 0, true, Bits::new(alloc)))
}

/// The commands that octets spell.
fn commands(alloc: Global, mut words: Words<'_>) -> Option<Vec<Command>> {
    let octets = words.octets(alloc)?;
    let mut commands = Vec::new(alloc);
    let mut at = 0;
    while at < octets.len() {
        let (command, used) = read_one(octets.get(at..)?).ok()?;
        commands.push(command).ok()?;
        at += used;
    }
    Some(commands)
}

/// How many commands go into one message, and its octets; `None` where one has to be the only one.
fn tell_packed(alloc: Global, commands: &[Command], answer: &mut String) -> Option<()> {
    if commands.iter().any(|command| command.is_alone()) {
        return None;
    }
    let (octets, count) = pack(alloc, commands).ok()?;
    if count != packed_count(commands) {
        answer.push_str("not ").ok()?;
    }
    write!(answer, "{count} ").ok()?;
    spell_octets(alloc, answer, &octets)
}
