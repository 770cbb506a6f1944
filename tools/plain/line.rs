//! Packets, frames, and the end of a line with its eight channels.

use crate::names::{Answer, Flow, MOST_IMPS};
use crate::spelling::Spell;
use std::rc::Rc;

/// How many channels a line has each way.
pub const CHANNELS: usize = 8;

/// The distances to all IMPs, by number. Place 0 is not used.
pub type Distances = [u8; MOST_IMPS as usize + 1];

/// What a packet is.
#[derive(Clone, Copy, PartialEq, Eq, Debug)]
pub enum Kind {
    Data,
    Rfnm,
    Dead,
    Ask,
    Never,
}

impl Kind {
    /// Whether such a packet travels to its message's destination. All others travel to the source.
    pub fn is_request(self) -> bool {
        matches!(self, Kind::Data | Kind::Ask)
    }

    /// The word of this kind in a trace.
    pub fn word(self) -> &'static str {
        match self {
            Kind::Data => "data",
            Kind::Rfnm => "rfnm",
            Kind::Dead => "dead",
            Kind::Ask => "ask",
            Kind::Never => "never",
        }
    }

    /// What an answer tells the source of its message.
    pub fn answer(self) -> Answer {
        match self {
            Kind::Dead => Answer::Dead,
            Kind::Never => Answer::NotTaken,
            _ => Answer::Rfnm,
        }
    }
}

/// A piece of a message, an answer to one, or a question about one. Pieces alone have octets. Whoever keeps a packet shares it.
#[derive(Debug)]
pub struct Packet {
    pub kind: Kind,
    pub flow: Flow,
    pub number: u16,
    pub place: u8,
    pub is_last: bool,
    pub octets: Box<[u8]>,
}

impl Packet {
    /// An answer or a question.
    pub fn bare(kind: Kind, flow: Flow, number: u16) -> Rc<Packet> {
        Rc::new(Packet { kind, flow, number, place: 0, is_last: true, octets: Box::default() })
    }

    /// The IMP to which this packet travels.
    pub fn target(&self) -> u8 {
        if self.kind.is_request() {
            self.flow.destination.imp
        } else {
            self.flow.source.imp
        }
    }
}

/// What a frame carries beside its acknowledgements.
#[derive(Clone, Debug)]
pub enum Content {
    Acknowledgements,
    Routes(Rc<Distances>),
    Packet { channel: u8, bit: bool, packet: Rc<Packet> },
}

/// What is put on a line. Bit `c` of the acknowledgements is the one that the sender expects next on channel `c`.
#[derive(Clone, Debug)]
pub struct Frame {
    pub acknowledged: u8,
    pub content: Content,
}

/// One end of a line: eight channels to send on, each with its bit, and the bits that are expected from the other end.
#[derive(Clone, Default, Debug)]
pub struct LineEnd {
    busy: [Option<Rc<Packet>>; CHANNELS],
    /// Which channels are busy, a bit for each.
    busy_bits: u8,
    next_bits: u8,
    expected: u8,
}

impl LineEnd {
    /// Puts a packet into the lowest free channel and gives its frame, or gives the packet back if all are busy.
    pub fn submit(&mut self, packet: Rc<Packet>) -> Result<Frame, Rc<Packet>> {
        let channel = self.busy_bits.trailing_ones() as usize;
        if channel >= CHANNELS {
            return Err(packet);
        }
        self.busy_bits |= 1 << channel;
        let content = self.content(channel, packet.clone());
        self.busy[channel] = Some(packet);
        Ok(self.frame(content))
    }

    /// A frame with the present acknowledgements.
    pub fn frame(&self, content: Content) -> Frame {
        Frame { acknowledged: self.expected, content }
    }

    /// What the frame of a channel carries.
    fn content(&self, channel: usize, packet: Rc<Packet>) -> Content {
        Content::Packet { channel: channel as u8, bit: self.next_bits >> channel & 1 == 1, packet }
    }

    /// Whether this is the bit that is expected on a channel, so that its packet has not come before.
    pub fn is_fresh(&self, channel: u8, bit: bool) -> bool {
        (self.expected >> channel & 1 == 1) == bit
    }

    /// A fresh packet was taken from a channel.
    pub fn took(&mut self, channel: u8) {
        self.expected ^= 1 << channel;
    }

    /// Frees each busy channel whose packet is acknowledged, and says how many these are.
    pub fn take_acknowledgements(&mut self, bits: u8) -> usize {
        let freed = self.busy_bits & (bits ^ self.next_bits);
        for channel in (0..CHANNELS).filter(|it| freed >> it & 1 == 1) {
            self.busy[channel] = None;
        }
        self.busy_bits &= !freed;
        self.next_bits ^= freed;
        freed.count_ones() as usize
    }

    /// The frames of all busy channels, in their order.
    pub fn frames_again(&self) -> impl Iterator<Item = Frame> + '_ {
        let busy = self.busy.iter().enumerate();
        busy.filter_map(|(channel, it)| it.as_ref().map(|packet| self.frame(self.content(channel, packet.clone()))))
    }

    /// Whether no channel is busy.
    pub fn is_free(&self) -> bool {
        self.busy_bits == 0
    }

    /// The packets in the channels.
    pub fn held(&self) -> impl Iterator<Item = &Rc<Packet>> {
        self.busy.iter().flatten()
    }
}

impl Spell for Packet {
    fn spell(&self, to: &mut Vec<u8>) {
        to.push(self.kind as u8);
        self.flow.spell(to);
        self.number.spell(to);
        to.extend([self.place, self.is_last as u8]);
        self.octets.spell(to);
    }
}

/// Spells the distances that are not infinite, with their IMPs.
pub fn spell_distances(distances: &Distances, infinite: u8, to: &mut Vec<u8>) {
    let finite = distances.iter().enumerate().filter(|it| *it.1 != infinite);
    to.extend(finite.flat_map(|(imp, distance)| [imp as u8, *distance]));
    to.push(u8::MAX);
}

impl Spell for LineEnd {
    fn spell(&self, to: &mut Vec<u8>) {
        to.extend([self.busy_bits, self.next_bits, self.expected]);
        self.held().for_each(|it| it.spell(to));
    }
}

impl Frame {
    /// Spells a frame. Distances that are as far as this are infinite.
    pub fn spell(&self, infinite: u8, to: &mut Vec<u8>) {
        to.push(self.acknowledged);
        match &self.content {
            Content::Acknowledgements => to.push(0),
            Content::Routes(distances) => {
                to.push(1);
                spell_distances(distances, infinite, to);
            }
            Content::Packet { channel, bit, packet } => {
                to.extend([2, *channel, *bit as u8]);
                packet.spell(to);
            }
        }
    }
}
