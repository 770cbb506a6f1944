//! Hosts, flows, what crosses an interface, and why something is refused.

use crate::bits::Bits;
use std::hash::{Hash, Hasher};
use std::rc::Rc;

/// The greatest number of an IMP.
pub const MOST_IMPS: u8 = 63;

/// This many places a table needs in which each of these hosts is found by `Host::index`.
pub fn places_of(hosts: &[Host]) -> usize {
    hosts.iter().map(|it| it.index() + 1).max().unwrap_or_default()
}

/// A host: the number of its IMP, and its own number there. The order of hosts is that of IMPs first.
#[derive(Clone, Copy, PartialEq, Eq, PartialOrd, Ord, Debug)]
pub struct Host {
    pub imp: u8,
    pub number: u8,
}

impl Host {
    /// The place of this host in a table of all hosts that there can be.
    pub fn index(self) -> usize {
        4 * self.imp as usize + self.number as usize
    }

    /// The octet that names this host in messages: no two hosts have the same. Peers are looked at in its order.
    pub fn address(self) -> u8 {
        self.number << 6 | self.imp
    }
}

/// A flow: the messages from one host to another on one link.
#[derive(Clone, Copy, PartialEq, Eq, PartialOrd, Ord, Debug)]
pub struct Flow {
    pub source: Host,
    pub destination: Host,
    pub link: u8,
}

impl Hash for Flow {
    /// Hashes a flow as one word, which is faster than field by field.
    fn hash<H: Hasher>(&self, state: &mut H) {
        state.write_u32(u32::from_be_bytes([0, self.source.address(), self.destination.address(), self.link]));
    }
}

/// What a source is told of its message.
#[derive(Clone, Copy, PartialEq, Eq, Debug)]
pub enum Answer {
    Rfnm,
    Dead,
    Incomplete,
    NotTaken,
}

/// The text of a message. Whoever keeps it shares it.
pub type Text = Rc<Bits>;

/// What crosses the interface between a host and its IMP.
#[derive(Clone, Debug)]
pub enum Crossing {
    Out(Flow, Text),
    In(Flow, Text),
    Answer(Answer, Flow),
    Down(Host),
    Up(Host),
}

/// What a host is given when it takes.
#[derive(Clone, Debug)]
pub enum Inbound {
    Message(Flow, Text),
    Answer(Answer, Flow),
}

/// Why an event is refused. Its name is printed.
#[derive(Clone, Copy, PartialEq, Eq, Debug)]
pub enum Refusal {
    NoSuch,
    StillAlive,
    IsDown,
    IsUp,
    Unsettled,
    NotOutstanding,
    Blocked,
    NoRoom,
    NotContacted,
    WrongEnd,
    InUse,
    NoSuchSocket,
    NotOpen,
    BadSize,
    Closing,
    NoLink,
    OverGrant,
}
