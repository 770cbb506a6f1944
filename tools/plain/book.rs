//! The book of a world: what users were told, what services reported, and the lives of connections.

use crate::bits::Bits;
use crate::names::{Host, Text};
use crate::printing::Printer;
use crate::spelling::Spell;
use std::collections::BTreeMap;
use std::rc::Rc;

/// What a program tells the user of its host.
#[derive(Clone, Debug)]
pub enum Notice {
    Ready(Host),
    ContactFailed(Host),
    PairReset(Host),
    Opened {
        socket: u32,
        peer: Host,
        foreign: u32,
        own: usize,
        partner: usize,
    },
    Ended {
        socket: u32,
        peer: Host,
        foreign: u32,
    },
    Sent(u32, Text),
    Arrived(u32, Text),
    Returned {
        socket: u32,
        messages: u16,
        bits: u32,
    },
    Interrupt(u32),
    Echoed(Host, u8),
    /// The quoted octets are kept, but not printed.
    Error(Host, u8, #[allow(dead_code)] [u8; 10]),
}

/// Whether a machine of the initial connection serves or uses.
#[derive(Clone, Copy, Debug)]
pub enum Role {
    Server,
    User,
}

/// Why there is no initial connection.
#[derive(Clone, Copy, Debug)]
pub enum Reason {
    BadSocket,
    Refused,
    Reset,
    Stranger,
    Local,
}

/// What a service of a host reports.
#[derive(Clone, Debug)]
pub enum Report {
    Done { role: Role, receives: u32, sends: u32 },
    Failed(Role, Reason),
    Line(Vec<u8>),
}

/// One opening of one end of a connection, from the moment at which its user is told of it to its end.
#[derive(Clone)]
pub struct Life {
    host: Host,
    socket: u32,
    peer: Host,
    foreign: u32,
    /// The places in the log where the own request went out, and where the partner's was taken.
    own: usize,
    partner: usize,
    /// What was sent or taken, and in how many messages.
    bits: Bits,
    messages: u64,
    /// Messages and bits.
    granted: (u64, u64),
    returned: (u64, u64),
    has_ended: bool,
    /// What the user handed over to be sent.
    handed: Bits,
}

impl Life {
    /// Adds what was sent or taken in a message.
    fn carry(&mut self, bits: &Bits) {
        self.bits.append_all(bits);
        self.messages += 1;
    }
}

/// What is kept of all hosts. Notices and contacts are with the number of crossings before them, reports with that of notices.
/// Copies share the lives.
#[derive(Clone, Default)]
pub struct Book {
    notices: Vec<(Host, usize, Notice)>,
    contacts: Vec<(Host, Host, usize)>,
    reports: Vec<(Host, usize, Report)>,
    lives: Rc<Vec<Life>>,
    /// The lives that haven't ended: a socket has at most one.
    open: Rc<BTreeMap<(Host, u32), usize>>,
}

impl Book {
    /// The life of a host's socket that hasn't ended.
    fn life(&mut self, host: Host, socket: u32) -> Option<&mut Life> {
        self.open.get(&(host, socket)).map(|at| &mut Rc::make_mut(&mut self.lives)[*at])
    }

    /// A user asked for a contact.
    pub fn contact(&mut self, host: Host, peer: Host, place: usize) {
        self.contacts.push((host, peer, place));
    }

    /// A user handed over bits to be sent.
    pub fn hand(&mut self, host: Host, socket: u32, bits: &Bits) {
        if let Some(life) = self.life(host, socket) {
            life.handed.append_all(bits);
        }
    }

    /// A receiver granted messages and bits.
    pub fn grant(&mut self, host: Host, socket: u32, messages: u32, bits: u32) {
        if let Some(life) = self.life(host, socket) {
            life.granted.0 += u64::from(messages);
            life.granted.1 += u64::from(bits);
        }
    }

    /// A service reported something.
    pub fn report(&mut self, host: Host, report: Report) {
        self.reports.push((host, self.notices.len(), report));
    }

    /// A user was told something: it is written down, and changes the lives.
    pub fn tell(&mut self, host: Host, place: usize, notice: Notice) {
        match &notice {
            Notice::Opened { socket, peer, foreign, own, partner } => self.open(host, *socket, *peer, *foreign, *own, *partner),
            Notice::Ended { socket, .. } => self.end((host, *socket)),
            Notice::PairReset(peer) => self.end_all(host, |life| life.peer == *peer),
            Notice::Sent(socket, bits) | Notice::Arrived(socket, bits) => {
                if let Some(life) = self.life(host, *socket) {
                    life.carry(bits);
                }
            }
            Notice::Returned { socket, messages, bits } => {
                if let Some(life) = self.life(host, *socket) {
                    life.returned.0 += u64::from(*messages);
                    life.returned.1 += u64::from(*bits);
                }
            }
            _ => (),
        }
        self.notices.push((host, place, notice));
    }

    /// A life begins.
    fn open(&mut self, host: Host, socket: u32, peer: Host, foreign: u32, own: usize, partner: usize) {
        Rc::make_mut(&mut self.open).insert((host, socket), self.lives.len());
        let (bits, handed) = Default::default();
        let (granted, returned) = ((0, 0), (0, 0));
        let life =
            Life { host, socket, peer, foreign, own, partner, bits, messages: 0, granted, returned, has_ended: false, handed };
        Rc::make_mut(&mut self.lives).push(life);
    }

    /// Ends the life of a socket, if it has one.
    fn end(&mut self, key: (Host, u32)) {
        if let Some(life) = self.life(key.0, key.1) {
            life.has_ended = true;
            Rc::make_mut(&mut self.open).remove(&key);
        }
    }

    /// Ends those lives of a host that are as asked for.
    fn end_all(&mut self, host: Host, is_wanted: impl Fn(&Life) -> bool) {
        let open = self.open.range((host, 0)..=(host, u32::MAX));
        let ended: Vec<(Host, u32)> = open.filter(|(_, at)| is_wanted(&self.lives[**at])).map(|it| *it.0).collect();
        ended.into_iter().for_each(|key| self.end(key));
    }

    /// A host stops.
    pub fn stop(&mut self, host: Host) {
        self.end_all(host, |_| true);
    }

    /// Prints all lives, in the order of their opening.
    pub fn print_lives(&self, printer: &mut Printer) {
        for life in self.lives.iter() {
            printer.word(b"life").host(life.host).number(life.socket.into()).host(life.peer).number(life.foreign.into());
            printer.number(life.own as u64).number(life.partner as u64);
            printer.word(if life.socket % 2 == 0 { b"receive" } else { b"send" });
            printer.number(life.messages).number(life.bits.len() as u64);
            printer.number(life.granted.0).number(life.granted.1).number(life.returned.0).number(life.returned.1);
            printer.word(if life.has_ended { b"ended" } else { b"open" }).end();
        }
    }
}

impl Book {
    /// Forgets what users were told and what was reported; lives only if that is said.
    pub fn forget(&mut self, forgets_lives: bool) {
        self.notices.clear();
        self.contacts.clear();
        self.reports.clear();
        if forgets_lives && !self.lives.is_empty() {
            (self.lives, self.open) = Default::default();
        }
    }

    /// The places in the log of the requests of lives.
    pub fn stamps(&self) -> impl Iterator<Item = usize> + '_ {
        self.lives.iter().flat_map(|it| [it.own, it.partner])
    }

    /// Spells the lives, with places in the log by the order in which they are in a list.
    pub fn spell(&self, stamps: &[usize], to: &mut Vec<u8>) {
        let place = |stamp: usize| stamps.partition_point(|it| *it < stamp) as u8;
        self.lives.len().spell(to);
        for life in self.lives.iter() {
            to.extend([life.host.address(), life.peer.address(), life.has_ended as u8, place(life.own), place(life.partner)]);
            (life.socket, life.foreign).spell(to);
            life.bits.spell(to);
            (life.messages, life.granted, life.returned).spell(to);
            life.handed.spell(to);
        }
    }
}
