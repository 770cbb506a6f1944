//! Calls that cut messages into pieces, and on the messages that are put together again.
//!
//! A block begins with `pieces`, where nothing is held. `cut FLOW NUMBER BITS OCTETS` prints the packets of a message. `add PACKET` takes a piece: it is
//! `kept`, `old`, or finds the slots `full`, or the body is `whole`. `marked PACKET` tells whether it or what is held of its message has a bit 1. `held` are the flows and numbers of the messages that are held, in the order
//! of their flows; `discard FLOW` throws pieces away.

use crate::Layer;
use crate::words::{Words, spell_bits, spell_octets};
use interface::{Flow, HostMessage, Number, Text};
use packetiser::{Added, Outcome, Packet, PacketKind, Reassembly, cut};
use std::alloc::Global;
use std::collections::BTreeMap;

impl Layer for Reassembly {
    fn call(&mut self, alloc: Global, mut words: Words<'_>, answer: &mut String) -> Option<()> {
        match words.word()? {
            "cut" => {
                let flow = words.flow()?;
                let number = words.message_number()?;
                let text = Text::new(words.bits(alloc)?)?;
                answer.push_str("ok").ok()?;
                for packet in &cut(alloc, &HostMessage { flow, text }, number).ok()? {
                    answer.push_str("\n").ok()?;
                    spell_octets(alloc, answer, &packet.write(alloc).ok()?)?;
                }
                Some(())
            }
            "add" => add(alloc, self, Packet::read(alloc, &words.octets(alloc)?).ok()?, answer),
            "discard" => {
                self.discard(words.flow()?);
                answer.push_str("ok").ok()
            }
            "marked" => {
                let packet = Packet::read(alloc, &words.octets(alloc)?).ok()?;
                write!(answer, "{}", self.is_marked(&packet)).ok()
            }
            "held" => tell_held(alloc, self, answer),
            _ => None,
        }
    }
}

/// Takes a piece, and prints what becomes of it, and whether that was foretold otherwise.
fn add(alloc: Global, slots: &mut Reassembly, packet: Packet, answer: &mut String) -> Option<()> {
    if packet.kind() != PacketKind::Data {
        return None;
    }
    let foretold = slots.outcome(&packet);
    let came = match slots.add(alloc, packet).ok()? {
        Added::Kept => {
            answer.push_str("kept").ok()?;
            Outcome::Kept
        }
        Added::Old => {
            answer.push_str("old").ok()?;
            Outcome::Old
        }
        Added::Full => {
            answer.push_str("full").ok()?;
            Outcome::Full
        }
        Added::Whole(body) => {
            answer.push_str("whole ").ok()?;
            spell_bits(alloc, answer, &body)?;
            Outcome::Whole
        }
    };
    if came == foretold { Some(()) } else { answer.push_str(" (foretold otherwise)").ok() }
}

/// How many messages are looked at; fewer are held.
const MOST_LOOKED_AT: usize = 16;

/// The messages that are held.
fn tell_held(alloc: Global, slots: &Reassembly, answer: &mut String) -> Option<()> {
    let mut held: BTreeMap<Flow, Number> = BTreeMap::new(alloc);
    for at in 0..MOST_LOOKED_AT {
        if let Some(message) = slots.held(at) {
            held.insert(message.flow, message.number).ok()?;
        }
    }
    write!(answer, "{}", slots.count()).ok()?;
    for (flow, number) in held.iter() {
        write!(answer, "\n{flow} {number}{}", if slots.has_slot(flow) { "" } else { " without a slot" }).ok()?;
    }
    Some(())
}
