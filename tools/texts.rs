//! Makes one public call on a body of 8,064 bits over and over: `texts CALL COUNT`.
//!
//! CALL is `pad16` or `strip` (a body from its text of 8,063 bits, and back), `cut` (that text into eight packets), `write`
//! or `read` (the eight packets into octets, and back). `measure texts` proves and builds this program in a folder of its
//! own, for each of the two states of the repository that it compares.
#![tactic(auto)]

ghost use Rattle.std.specs.Prelude.{◌≤◌};

use bit_messages::{BitFault, Bits};
use interface::{Flow, HostAddr, HostMessage, Link, Text};
use packetiser::{Packet, PacketFault, cut};
use std::alloc::Global;
use std::env;
use std::rt::Env;

fn main(rt: HostRuntime) {
    let Some((call, count)) = asked(&rt) else {
        return;
    };
    let done = match call.as_str() {
        "pad16" => padded(rt.alloc(), count),
        "strip" => stripped(rt.alloc(), count),
        "cut" => pieces(rt.alloc(), count),
        "write" => written(rt.alloc(), count),
        "read" => read(rt.alloc(), count),
        _ => Err(PacketFault::Short),
    };
    match done {
        Ok(total) => {
            let _ = println!(rt; "{total}");
        }
        Err(fault) => {
            let _ = eprintln!(rt; "{fault}");
        }
    }
}

/// The call and how often it is made.
fn asked<R: Env + AllocGlobal>(rt: &R) -> Option<(String, u32)> {
    let mut words = env::args(rt).ok()?.skip(1);
    let call = words.next()?;
    let count = words.next()?;
    Some((call, count.as_str().parse::<u32>().ok()?))
}

/// What a fault of bits is for packets.
fn fault_of(fault: BitFault) -> PacketFault {
    match fault {
        BitFault::OutOfMemory => PacketFault::OutOfMemory,
        BitFault::NoMark | BitFault::TooLong | BitFault::Range => PacketFault::BadLength,
    }
}

/// A text of 8,063 bits.
fn text(alloc: Global) -> Result<Bits, PacketFault> {
    let mut octets = Vec::new(alloc);
    for place in 0..1008u32 {
        octets.push((place % 251) as u8)?;
    }
    Bits::from_octets(alloc, &octets, 8063).map_err(fault_of)
}

/// The flow from 0/1 to 0/2 on link 5.
fn flow() -> Flow
    ensures source { result.source.imp ≤ 63 }
    ensures destination { result.destination.imp ≤ 63 }
{
    Flow {
        source: HostAddr::new(0, 1).unwrap(),
        destination: HostAddr::new(0, 2).unwrap(),
        link: Link(5),
    }
}

/// The packets of a message with that text.
fn packets(alloc: Global) -> Result<Vec<Packet>, PacketFault> {
    let Some(text) = Text::new(text(alloc)?) else {
        return Err(PacketFault::BadLength);
    };
    cut(alloc, &HostMessage { flow: flow(), text }, 0)
}

/// Pads the text this many times.
fn padded(alloc: Global, count: u32) -> Result<u64, PacketFault> {
    let text = text(alloc)?;
    let mut total = 0u64;
    for _ in 0..count {
        let body = text.pad16(alloc).map_err(fault_of)?;
        total = total.wrapping_add(body.len() as u64);
    }
    Ok(total)
}

/// Strips its body this many times.
fn stripped(alloc: Global, count: u32) -> Result<u64, PacketFault> {
    let body = text(alloc)?.pad16(alloc).map_err(fault_of)?;
    let mut total = 0u64;
    for _ in 0..count {
        let text = body.strip(alloc).map_err(fault_of)?;
        total = total.wrapping_add(text.len() as u64);
    }
    Ok(total)
}

/// Cuts a message with that text this many times.
fn pieces(alloc: Global, count: u32) -> Result<u64, PacketFault> {
    let Some(text) = Text::new(text(alloc)?) else {
        return Err(PacketFault::BadLength);
    };
    let message = HostMessage { flow: flow(), text };
    let mut total = 0u64;
    for _ in 0..count {
        let packets = cut(alloc, &message, 0)?;
        total = total.wrapping_add(packets.len() as u64);
    }
    Ok(total)
}

/// Writes its packets this many times.
fn written(alloc: Global, count: u32) -> Result<u64, PacketFault> {
    let packets = packets(alloc)?;
    let mut total = 0u64;
    for _ in 0..count {
        for packet in packets.iter() {
            let octets = packet.write(alloc)?;
            total = total.wrapping_add(octets.len() as u64);
        }
    }
    Ok(total)
}

/// Reads its packets this many times.
fn read(alloc: Global, count: u32) -> Result<u64, PacketFault> {
    let mut spelled = Vec::new(alloc);
    for packet in packets(alloc)?.iter() {
        spelled.push(packet.write(alloc)?)?;
    }
    let mut total = 0u64;
    for _ in 0..count {
        for octets in spelled.iter() {
            let packet = Packet::read(alloc, octets.as_slice())?;
            total = total.wrapping_add(packet.bits().len() as u64);
        }
    }
    Ok(total)
}
