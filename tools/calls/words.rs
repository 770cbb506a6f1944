//! The words of a line that names a call.

use bit_messages::Bits;
use interface::{Direction, Flow, HostAddr, ImpNumber, Link, Number};
use std::alloc::Global;

/// An octet that comes so often in a row is spelled once, with its count.
const SHORTEST_RUN: usize = 8;

/// The words of a line that are left.
#[derive(Drop)]
pub struct Words<'a> {
    pub rest: &'a str,
}

impl<'a> Words<'a> {
    /// The next word.
    pub fn word(&mut self) -> Option<&'a str> {
        if self.rest.is_empty() {
            return None;
        }
        match self.rest.split_once(' ') {
            Some((word, rest)) => {
                self.rest = rest;
                Some(word)
            }
            None => {
                let word = self.rest;
                self.rest = "";
                Some(word)
            }
        }
    }

    /// The next word as a number of eight bits.
    pub fn octet(&mut self) -> Option<u8> {
        self.word()?.parse::<u8>().ok()
    }

    /// The next word as the number of a message.
    pub fn message_number(&mut self) -> Option<Number> {
        self.word()?.parse::<Number>().ok()
    }

    /// The next word as a number of messages.
    pub fn messages(&mut self) -> Option<u16> {
        self.word()?.parse::<u16>().ok()
    }

    /// The next word as a socket, a number of bits, or a place on a line.
    pub fn number(&mut self) -> Option<u32> {
        self.word()?.parse::<u32>().ok()
    }

    /// The next word as a place in the log or in a list.
    pub fn place(&mut self) -> Option<usize> {
        self.word()?.parse::<usize>().ok()
    }

    /// The next word as an IMP.
    pub fn imp(&mut self) -> Option<ImpNumber> {
        ImpNumber::new(self.octet()?)
    }

    /// The next word as a host.
    pub fn host(&mut self) -> Option<HostAddr> {
        let (host, imp) = self.word()?.split_once('/')?;
        HostAddr::new(host.parse::<u8>().ok()?, imp.parse::<u8>().ok()?)
    }

    /// All words that are left, as hosts.
    pub fn hosts(&mut self, alloc: Global) -> Option<Vec<HostAddr>> {
        let mut hosts = Vec::new(alloc);
        while !self.rest.is_empty() {
            hosts.push(self.host()?).ok()?;
        }
        Some(hosts)
    }

    /// The next three words as a flow.
    pub fn flow(&mut self) -> Option<Flow> {
        Some(Flow {
            source: self.host()?,
            destination: self.host()?,
            link: Link(self.octet()?),
        })
    }

    /// The next word as a direction.
    pub fn direction(&mut self) -> Option<Direction> {
        match self.word()? {
            "+" => Some(Direction::Forward),
            "-" => Some(Direction::Back),
            _ => None,
        }
    }

    /// The next word as octets.
    pub fn octets(&mut self, alloc: Global) -> Option<Vec<u8>> {
        let word = self.word()?;
        let mut octets = Vec::new(alloc);
        if word == "-" {
            return Some(octets);
        }
        for part in word.split(',') {
            put_part(alloc, part, &mut octets)?;
        }
        Some(octets)
    }

    /// The next two words as bits: their count, and their octets.
    pub fn bits(&mut self, alloc: Global) -> Option<Bits> {
        let count = self.place()?;
        let octets = self.octets(alloc)?;
        Bits::from_octets(alloc, &octets, count).ok()
    }
}

/// Puts the octets of a part after those that are there: digits, or an octet, `*` and how often it comes.
fn put_part(alloc: Global, part: &str, octets: &mut Vec<u8>) -> Option<()> {
    let (digits, times) = match part.split_once('*') {
        Some((digits, times)) => (digits, times.parse::<u16>().ok()?),
        None => (part, 1),
    };
    let some = hex::decode(alloc, digits.as_bytes()).ok()?;
    for _ in 0..times {
        octets.extend_from_slice(&some).ok()?;
    }
    Some(())
}

/// Bits, as their count and their octets.
pub fn spell_bits(alloc: Global, answer: &mut String, bits: &Bits) -> Option<()> {
    write!(answer, "{} ", bits.len()).ok()?;
    spell_octets(alloc, answer, bits.as_octets())
}

/// Octets in upper case hexadecimal, `-` for none. One that comes eight times or more in a row is there once, with its count.
pub fn spell_octets(alloc: Global, answer: &mut String, octets: &[u8]) -> Option<()> {
    if octets.is_empty() {
        return answer.push_str("-").ok();
    }
    let mut at = 0;
    let mut joint = "";
    while at < octets.len() {
        let single = octets.len() - at - without_run(octets.get(at..)?).len();
        if single > 0 {
            let digits = hex::encode_upper(alloc, octets.get(at..at + single)?).ok()?;
            write!(answer, "{joint}{digits}").ok()?;
            joint = ",";
            at += single;
        }
        let run = run_of(octets.get(at..)?);
        if run > 0 {
            write!(answer, "{joint}{:02X}*{run}", octets.get(at)?).ok()?;
            joint = ",";
            at += run;
        }
    }
    Some(())
}

/// The octets from the first run of eight or more on.
fn without_run(octets: &[u8]) -> &[u8] {
    let mut at = 0;
    while at < octets.len() {
        let run = run_of(&octets[at..]);
        if run >= SHORTEST_RUN {
            break;
        }
        at += run;
    }
    &octets[at..]
}

/// How often the first octet comes before another one.
fn run_of(octets: &[u8]) -> usize {
    octets.iter().take_while(|octet| **octet == octets[0]).count()
}
