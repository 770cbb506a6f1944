//! What a host keeps about one peer: the reset, the ends of connections, and the commands that wait.

use crate::bits::{BitQueue, Bits};
use crate::book::Notice;
use crate::commands::{control_message, header, Command, CONTROL_TEXT, HEADER, LINKS};
use crate::names::Host;
use crate::spelling::{spell_sorted, Spell};
use std::collections::{HashMap, VecDeque};

/// The most bits of data in a message.
const DATA_TEXT: usize = 8023;
/// One more than the greatest link of a connection.
const LINK_PLACES: usize = 32;

/// How far the reset with the peer has come. While the RST is out, an RRP may come that belongs to an older one.
#[derive(Clone, Copy, PartialEq, Eq, Debug)]
pub enum Phase {
    Closed,
    Want,
    Gone { early: bool },
    Heard,
    Ready,
}

/// The two sockets of an end: the own one and the foreign one.
pub type Key = (u32, u32);

/// What a socket of a host is used for: it listens, and would send with this size, or it has an end of the host's own.
#[derive(Clone, Copy, Debug)]
pub enum Use {
    Listens(u8),
    End(Host, u32),
}

/// The sockets of a host that are in use.
pub type Sockets = HashMap<u32, Use>;

/// One end of a connection.
#[derive(Clone, Default)]
pub struct End {
    /// Whether it is the host's own, and not only a request that is refused.
    pub is_mine: bool,
    /// The places in the log of both requests, once they have crossed.
    pub own_stamp: Option<usize>,
    pub partner_stamp: Option<usize>,
    /// Whether a request of the partner was taken, also one that was refused.
    pub was_asked: bool,
    pub close_asked: bool,
    pub close_queued: bool,
    pub close_sent: bool,
    pub close_taken: bool,
    pub link: Option<u8>,
    /// The byte size, 0 while it isn't known.
    pub size: u8,
    /// What is granted and not used.
    pub messages: u16,
    pub bits: u32,
    /// What waits to be sent.
    pub waiting: BitQueue,
}

impl End {
    /// Whether a CLS was queued or taken.
    pub fn is_closing(&self) -> bool {
        self.close_queued || self.close_taken
    }

    /// Whether both requests have crossed, and no CLS.
    pub fn is_open(&self) -> bool {
        self.own_stamp.is_some() && self.partner_stamp.is_some() && !self.is_closing()
    }

    /// How many bytes of a sending end may go in a message now.
    fn bytes_to_send(&self) -> usize {
        if !self.is_open() || self.messages == 0 {
            return 0;
        }
        self.waiting.len().min(self.bits as usize).min(DATA_TEXT) / self.size as usize
    }
}

/// Whether an end with this own socket receives.
pub fn receives(own: u32) -> bool {
    own % 2 == 0
}

/// What goes out next to a peer.
pub enum Parcel {
    Reset,
    Reply,
    /// This many of the commands that wait.
    Commands(usize),
    /// This many bytes of a sending end.
    Data(Key, usize),
}

/// What a host keeps about one peer.
#[derive(Clone)]
pub struct Pair {
    pub phase: Phase,
    /// Whether an RRP is owed to the peer.
    pub owed: bool,
    /// The links on which a message has no answer yet, a bit for each.
    pub busy: u32,
    /// The commands that wait to go out.
    pub queue: VecDeque<Command>,
    ends: HashMap<Key, End>,
    /// The end on each link that receives, and that sends.
    receivers: [Option<Key>; LINK_PLACES],
    senders: [Option<Key>; LINK_PLACES],
    /// The links whose sending end may send something, a bit for each.
    sendable: u32,
}

impl Pair {
    /// A pair with which nothing was done yet.
    pub fn new() -> Pair {
        let links = [None; LINK_PLACES];
        let (queue, ends) = Default::default();
        Pair { phase: Phase::Closed, owed: false, busy: 0, queue, ends, receivers: links, senders: links, sendable: 0 }
    }

    /// Forgets all connections and all commands that wait.
    pub fn forget(&mut self, sockets: &mut Sockets) {
        for (key, end) in self.ends.drain() {
            if end.is_mine {
                sockets.remove(&key.0);
            }
        }
        self.queue.clear();
        (self.receivers, self.senders, self.sendable) = ([None; LINK_PLACES], [None; LINK_PLACES], 0);
    }

    /// The end with these sockets.
    pub fn end(&mut self, key: Key) -> Option<&mut End> {
        self.ends.get_mut(&key)
    }

    /// Whether there is an end with these sockets.
    pub fn has_end(&self, key: Key) -> bool {
        self.ends.contains_key(&key)
    }

    /// Whether the end with these sockets is there and open.
    pub fn has_open(&self, key: Key) -> bool {
        self.ends.get(&key).is_some_and(End::is_open)
    }

    /// Adds an end.
    pub fn add(&mut self, key: Key, end: End) {
        self.ends.insert(key, end);
    }

    /// The end on a link, in one direction.
    pub fn on_link(&mut self, receiving: bool, link: u8) -> Option<(Key, &mut End)> {
        let ends = if receiving { &self.receivers } else { &self.senders };
        let key = (*ends.get(link as usize)?)?;
        self.ends.get_mut(&key).map(|end| (key, end))
    }

    /// The lowest link on which no end receives.
    pub fn free_link(&self) -> Option<u8> {
        LINKS.into_iter().find(|link| self.receivers[*link as usize].is_none())
    }

    /// Puts an end on a link.
    pub fn link(&mut self, key: Key, link: u8) {
        let ends = if receives(key.0) { &mut self.receivers } else { &mut self.senders };
        ends[link as usize] = Some(key);
        if let Some(end) = self.ends.get_mut(&key) {
            end.link = Some(link);
        }
    }

    /// Looks again whether an end may send something. This has to be called whenever the answer may be another one.
    pub fn refresh(&mut self, key: Key) {
        let Some(end) = self.ends.get(&key) else { return };
        let Some(link) = end.link.filter(|_| !receives(key.0)) else { return };
        let bit = 1 << link;
        if end.bytes_to_send() > 0 {
            self.sendable |= bit;
        } else {
            self.sendable &= !bit;
        }
    }

    /// Whether no message on this link lacks its answer.
    fn is_free(&self, link: Option<u8>) -> bool {
        link.is_none_or(|link| self.busy >> link & 1 == 0)
    }

    /// Queues the CLS of an end that is to be closed and has nothing left to do.
    pub fn settle(&mut self, key: Key) {
        let Some(end) = self.ends.get(&key) else { return };
        let is_due = (end.close_asked || end.close_taken) && !end.close_queued;
        let is_drained = receives(key.0) || (end.waiting.is_empty() && self.is_free(end.link));
        if is_due && is_drained {
            self.queue.push_back(Command::Cls { own: key.0, foreign: key.1 });
            if let Some(end) = self.ends.get_mut(&key) {
                end.close_queued = true;
            }
        }
        self.refresh(key);
    }

    /// Takes an end away whose CLS have passed both ways, and tells its user if it was the host's own.
    pub fn sweep(&mut self, peer: Host, key: Key, sockets: &mut Sockets, notices: &mut Vec<Notice>) {
        if !self.ends.get(&key).is_some_and(|it| it.close_sent && it.close_taken) {
            return;
        }
        let Some(end) = self.ends.remove(&key) else { return };
        if let Some(link) = end.link {
            let ends = if receives(key.0) { &mut self.receivers } else { &mut self.senders };
            ends[link as usize] = None;
            if !receives(key.0) {
                self.sendable &= !(1 << link);
            }
        }
        if end.is_mine {
            sockets.remove(&key.0);
            notices.push(Notice::Ended { socket: key.0, peer, foreign: key.1 });
        }
    }

    /// Tells the user that an end is open, if it is.
    pub fn tell_opening(&mut self, peer: Host, key: Key, notices: &mut Vec<Notice>) {
        let Some(end) = self.ends.get(&key).filter(|it| it.is_open()) else { return };
        if let (Some(own), Some(partner)) = (end.own_stamp, end.partner_stamp) {
            notices.push(Notice::Opened { socket: key.0, peer, foreign: key.1, own, partner });
        }
        self.refresh(key);
    }

    /// What goes out next, with its link. A reset and its reply wait until no message lacks its answer; while one of them waits,
    /// nothing else goes.
    pub fn next(&self) -> Option<(u8, Parcel)> {
        let if_silent = |parcel| (self.busy == 0).then_some((0, parcel));
        if self.phase == Phase::Want {
            return if_silent(Parcel::Reset);
        }
        if self.owed {
            return if_silent(Parcel::Reply);
        }
        if self.phase != Phase::Ready {
            return None;
        }
        if !self.queue.is_empty() && self.busy & 1 == 0 {
            return Some((0, Parcel::Commands(self.fitting())));
        }
        let ready = self.sendable & !self.busy;
        if ready == 0 {
            return None;
        }
        let link = ready.trailing_zeros() as u8;
        let key = self.senders[link as usize]?;
        Some((link, Parcel::Data(key, self.ends.get(&key)?.bytes_to_send())))
    }

    /// How many of the first commands fit in one message.
    fn fitting(&self) -> usize {
        let mut total = 0;
        let fits = |command: &&Command| {
            total += command.length();
            total <= CONTROL_TEXT
        };
        self.queue.iter().take_while(fits).count()
    }

    /// The text of what goes out.
    pub fn text_of(&self, parcel: &Parcel) -> Bits {
        match parcel {
            Parcel::Reset => control_message([Command::Rst].iter()),
            Parcel::Reply => control_message([Command::Rrp].iter()),
            Parcel::Commands(count) => control_message(self.queue.iter().take(*count)),
            Parcel::Data(key, count) => {
                let end = &self.ends[key];
                let mut octets = Vec::with_capacity(HEADER + (count * end.size as usize).div_ceil(8));
                octets.extend(header(end.size, *count as u16));
                let mut text = Bits::whole(octets);
                end.waiting.copy_front(count * end.size as usize, &mut text);
                text
            }
        }
    }
}

impl Phase {
    /// The word of this phase in a trace.
    pub fn word(self) -> &'static str {
        ["closed", "want", "gone", "early", "heard", "ready"][self.code() as usize]
    }

    /// A number for each phase.
    fn code(self) -> u8 {
        match self {
            Phase::Closed => 0,
            Phase::Want => 1,
            Phase::Gone { early: false } => 2,
            Phase::Gone { early: true } => 3,
            Phase::Heard => 4,
            Phase::Ready => 5,
        }
    }
}

impl Spell for Use {
    fn spell(&self, to: &mut Vec<u8>) {
        match self {
            Use::Listens(size) => to.extend([0, *size]),
            Use::End(peer, foreign) => {
                to.extend([1, peer.address()]);
                foreign.spell(to);
            }
        }
    }
}

impl Spell for End {
    fn spell(&self, to: &mut Vec<u8>) {
        let flags = [
            self.is_mine,
            self.own_stamp.is_some(),
            self.partner_stamp.is_some(),
            self.was_asked,
            self.close_asked,
            self.close_queued,
            self.close_sent,
            self.close_taken,
        ];
        to.push(flags.iter().fold(0, |sum, it| 2 * sum + *it as u8));
        self.link.spell(to);
        to.push(self.size);
        self.messages.spell(to);
        self.bits.spell(to);
        self.waiting.spell(to);
    }
}

impl Spell for Pair {
    fn spell(&self, to: &mut Vec<u8>) {
        to.extend([self.phase.code(), self.owed as u8]);
        self.busy.spell(to);
        self.queue.len().spell(to);
        self.queue.iter().for_each(|it| it.write(to));
        spell_sorted(self.ends.iter(), to);
    }
}

impl Pair {
    /// The places in the log of its ends' requests.
    pub fn stamps(&self) -> impl Iterator<Item = (&Key, [Option<usize>; 2])> {
        self.ends.iter().map(|(key, end)| (key, [end.own_stamp, end.partner_stamp]))
    }

    /// Whether it is as one with which nothing was done yet.
    pub fn is_new(&self) -> bool {
        self.phase == Phase::Closed && !self.owed && self.busy == 0 && self.queue.is_empty() && self.ends.is_empty()
    }

    /// Whether it waits in the midst of a reset, where nothing can come any more.
    pub fn is_in_reset(&self) -> bool {
        !matches!(self.phase, Phase::Closed | Phase::Ready)
    }
}
