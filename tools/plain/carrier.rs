//! What every carrier of messages can do.

use crate::names::{Crossing, Flow, Host, Inbound, Refusal, Text};
use crate::spelling::Spell;

/// The way of a line: 0 from its first IMP to its second, 1 the other way.
pub type Way = usize;

/// What may happen inside a network, or to a host of it.
#[derive(Clone, Copy, Debug)]
pub enum NetEvent {
    GiveUp(Flow),
    Ask(Flow),
    Abandon(Flow),
    HostDown(Host),
    HostUp(Host),
    Deliver(u32, Way, u32),
    Drop(u32, Way, u32),
    Resend(u8),
    Route(u8),
    Claim(u8),
    ImpDown(u8),
    ImpUp(u8),
    EndDown(u8, u32),
    EndUp(u8, u32),
    Forget(u8, u8),
}

/// What only the inside of a network shows: a message is noted with a fate, or a packet arrives for the first time where it is
/// for.
#[derive(Clone, PartialEq, Eq, PartialOrd, Ord, Debug)]
pub enum Sight {
    Noted(&'static str, Flow, u16),
    /// The packet's kind, its flow and number, and all of it as octets.
    Arrived(&'static str, Flow, u16, Vec<u8>),
}

/// A network that carries messages between hosts. A refusal changes nothing.
pub trait Carrier: Clone + Spell {
    /// All hosts, in their order.
    fn hosts(&self) -> Vec<Host>;

    /// Whether a host is there and up.
    fn is_up(&self, host: Host) -> bool;

    /// All that crossed so far, the oldest first.
    fn log(&self) -> &[Crossing];

    /// Forgets what crossed.
    fn forget_log(&mut self);

    /// From now on the inside is watched, where it has one.
    fn watch(&mut self) {}

    /// What was seen inside since this was asked last, in order.
    fn sights(&mut self) -> Vec<Sight> {
        Vec::new()
    }

    /// Whether everything is up.
    fn is_all_up(&self) -> bool;

    /// Whether packets are held inside that are not yet where they are for.
    fn holds_packets(&self) -> bool {
        false
    }

    /// A host hands in a message.
    fn offer(&mut self, flow: Flow, text: Text) -> Result<(), Refusal>;

    /// A host takes what waits for it.
    fn take(&mut self, host: Host) -> Result<Option<Inbound>, Refusal>;

    /// Something else happens.
    fn happen(&mut self, event: NetEvent) -> Result<(), Refusal>;

    /// A quiet round. If this answers true, and nothing crosses before the next quiet round, then that one and all that follow
    /// change nothing either.
    fn quiet_round(&mut self) -> bool;
}
