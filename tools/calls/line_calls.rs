//! Calls on the two ends of a line between IMPs.
//!
//! A block begins with `line`, where both ends were just reset. A row is `left` or `right`, and then a call with octets of packets or frames:
//! `submit PACKET`, `hear FRAME`, `acknowledge`, `resend`, `again CHANNEL`, `packet CHANNEL`, `reset`, `tell DISTANCES`, or `busy`. Printed are the
//! octets of what comes of it.

use crate::Layer;
use crate::words::{Words, spell_octets};
use imp_channel::{Frame, Line, Received, SubmitFault};
use packetiser::Packet;
use routing::Vector;
use std::alloc::Global;

/// The ends of a line.
#[derive(Drop)]
pub struct LineCalls {
    left: Line,
    right: Line,
}

/// Ends that were just reset.
pub fn opened(alloc: Global) -> Option<LineCalls> {
    Some(LineCalls { left: Line::new(alloc).ok()?, right: Line::new(alloc).ok()? })
}

impl Layer for LineCalls {
    fn call(&mut self, alloc: Global, mut words: Words<'_>, answer: &mut String) -> Option<()> {
        match words.word()? {
            "left" => called(alloc, &mut self.left, words, answer),
            "right" => called(alloc, &mut self.right, words, answer),
            _ => None,
        }
    }
}

/// Makes a call at an end, and prints what comes of it.
fn called(alloc: Global, line: &mut Line, mut words: Words<'_>, answer: &mut String) -> Option<()> {
    match words.word()? {
        "submit" => submit(alloc, line, Packet::read(alloc, &words.octets(alloc)?).ok()?, answer),
        "hear" => hear(alloc, line, Frame::read(alloc, &words.octets(alloc)?).ok()?, answer),
        "acknowledge" => tell_frame(alloc, answer, &line.ack_frame()),
        "tell" => {
            let vector = Vector::from_slice(&words.octets(alloc)?)?;
            tell_frame(alloc, answer, &line.routes_frame(vector))
        }
        "resend" => {
            answer.push_str("ok").ok()?;
            for frame in &line.resend(alloc).ok()? {
                answer.push_str("\n").ok()?;
                tell_frame(alloc, answer, frame)?;
            }
            Some(())
        }
        "again" => {
            let channel = words.octet()?;
            if channel >= 8 {
                return None;
            }
            match line.again(channel).ok()? {
                Some(frame) => tell_frame(alloc, answer, &frame),
                None => answer.push_str("nothing").ok(),
            }
        }
        "packet" => match line.packet(words.octet()?) {
            Some(packet) => tell_packet(alloc, answer, packet),
            None => answer.push_str("nothing").ok(),
        },
        "reset" => {
            answer.push_str("ok").ok()?;
            for packet in &line.reset(alloc).ok()? {
                answer.push_str("\n").ok()?;
                tell_packet(alloc, answer, packet)?;
            }
            Some(())
        }
        "busy" => write!(answer, "{}{}", line.busy_channels(), if line.is_full() { ", full" } else { "" }).ok(),
        _ => None,
    }
}

/// Submits a packet, and prints the frame or the packet that comes back.
fn submit(alloc: Global, line: &mut Line, packet: Packet, answer: &mut String) -> Option<()> {
    match line.submit(packet) {
        Ok(frame) => tell_frame(alloc, answer, &frame),
        Err(SubmitFault::AllBusy(packet)) => {
            answer.push_str("all busy ").ok()?;
            tell_packet(alloc, answer, &packet)
        }
        Err(SubmitFault::OutOfMemory(_)) => None,
    }
}

/// Takes a frame, and prints what it brings, and whether an end that was asked before answer otherwise.
fn hear(alloc: Global, line: &mut Line, frame: Frame, answer: &mut String) -> Option<()> {
    let foretold = (line.is_fresh(&frame), line.is_repeat(&frame));
    let came = match line.receive(frame) {
        Received::Fresh(packet) => {
            answer.push_str("fresh ").ok()?;
            tell_packet(alloc, answer, &packet)?;
            (true, false)
        }
        Received::Repeat => {
            answer.push_str("repeat").ok()?;
            (false, true)
        }
        Received::AckOnly => {
            answer.push_str("acknowledgements").ok()?;
            (false, false)
        }
        Received::Routes(vector) => {
            answer.push_str("distances ").ok()?;
            spell_octets(alloc, answer, vector.distances())?;
            (false, false)
        }
    };
    if came == foretold { Some(()) } else { answer.push_str(" (foretold otherwise)").ok() }
}

/// A frame's octets.
fn tell_frame(alloc: Global, answer: &mut String, frame: &Frame) -> Option<()> {
    spell_octets(alloc, answer, &frame.write(alloc).ok()?)
}

/// A packet's octets.
fn tell_packet(alloc: Global, answer: &mut String, packet: &Packet) -> Option<()> {
    spell_octets(alloc, answer, &packet.write(alloc).ok()?)
}
