//! What runs on a host beside its program: servers and users of the initial connection, and what follows them.

use crate::bits::Bits;
use crate::book::{Notice, Reason, Report, Role};
use crate::names::Host;
use crate::script::Request;
use crate::spelling::Spell;
use std::collections::BTreeSet;
use std::rc::Rc;

/// This many messages a terminal or an echo service grants first.
const FIRST_MESSAGES: u32 = 4;
/// And this many bits.
const FIRST_BITS: u32 = 4096;

/// How it is with a machine of the initial connection.
#[derive(Clone, Copy, Debug, Default)]
enum Outcome {
    #[default]
    None,
    Done,
    Failed(Reason),
    /// The outcome was reported, so the machine does nothing more.
    Told,
}

impl Outcome {
    /// The first outcome counts.
    fn fail(&mut self, reason: Reason) {
        if matches!(self, Outcome::None) {
            *self = Outcome::Failed(reason);
        }
    }
}

/// A server of the initial connection: users ask it on `listens`, and it serves one of them on `base` and the socket above.
#[derive(Clone)]
pub struct Server {
    outcome: Outcome,
    listens: u32,
    base: u32,
    /// With what peer and socket `listens`, `base` and the socket above were opened first.
    opened: [Option<(Host, u32)>; 3],
}

/// A user of the initial connection: from `own` it asks the socket `server` of a peer.
#[derive(Clone)]
pub struct User {
    outcome: Outcome,
    peer: Host,
    server: u32,
    own: u32,
    is_open: bool,
    bits: Bits,
    base: Option<u32>,
    has_receiver: bool,
    has_sender: bool,
}

/// An echo service: it sends back what arrives.
#[derive(Clone)]
pub struct Echo {
    receives: u32,
    sends: u32,
}

/// A line terminal.
#[derive(Clone)]
pub struct Terminal {
    receives: u32,
    pub sends: u32,
    /// The bits after the last whole octet, and the octets after the last whole line.
    part: Bits,
    kept: Vec<u8>,
    lines: Vec<Vec<u8>>,
}

/// One of the four. A machine that is done gives its place to what follows it.
#[derive(Clone)]
pub enum Service {
    Server(Server),
    User(User),
    Echo(Echo),
    Terminal(Terminal),
}

impl Service {
    /// A server.
    pub fn server(listens: u32, base: u32) -> Service {
        Service::Server(Server { outcome: Outcome::None, listens, base, opened: [None; 3] })
    }

    /// A user.
    pub fn user(peer: Host, server: u32, own: u32) -> Service {
        let (bits, base) = Default::default();
        Service::User(User {
            outcome: Outcome::None,
            peer,
            server,
            own,
            is_open: false,
            bits,
            base,
            has_receiver: false,
            has_sender: false,
        })
    }

    /// What it asks for first.
    pub fn start(&mut self) -> Vec<Request> {
        match self {
            Service::Server(it) => it.start(),
            Service::User(it) => it.start(),
            Service::Echo(Echo { receives, .. }) | Service::Terminal(Terminal { receives, .. }) => {
                vec![Request::Grant { socket: *receives, messages: FIRST_MESSAGES, bits: FIRST_BITS }]
            }
        }
    }

    /// The sockets of whose notices it wants to hear.
    fn sockets(&self) -> Vec<u32> {
        match self {
            Service::Server(it) => vec![it.listens, it.base, it.base.wrapping_add(1)],
            Service::User(it) => vec![it.own, it.own.wrapping_add(2), it.own.wrapping_add(3)],
            Service::Echo(it) => vec![it.receives, it.sends],
            Service::Terminal(it) => vec![it.receives, it.sends],
        }
    }

    /// What it asks for when its host's user is told something.
    pub fn hear(&mut self, notice: &Notice) -> Vec<Request> {
        match self {
            Service::Server(it) => it.hear(notice),
            Service::User(it) => it.hear(notice),
            Service::Echo(it) => follow(it.receives, it.sends, notice, |bits| {
                if bits.is_empty() {
                    None
                } else {
                    Some(Request::Send(it.sends, bits.clone()))
                }
            }),
            Service::Terminal(it) => follow(it.receives, it.sends, notice, |bits| {
                read_lines(&mut it.part, &mut it.kept, &mut it.lines, bits);
                None
            }),
        }
    }

    /// One of its requests was refused. Answers whether those after it are passed over.
    pub fn refused(&mut self) -> bool {
        match self {
            Service::Server(Server { outcome, .. }) | Service::User(User { outcome, .. }) => {
                outcome.fail(Reason::Local);
                true
            }
            Service::Echo(_) | Service::Terminal(_) => false,
        }
    }

    /// What it has to report. Each thing is reported once.
    pub fn reports(&mut self) -> Vec<Report> {
        let (outcome, role, receives, sends) = match self {
            Service::Server(it) => (&mut it.outcome, Role::Server, it.base, it.base.wrapping_add(1)),
            Service::User(it) => (&mut it.outcome, Role::User, it.own.wrapping_add(2), it.own.wrapping_add(3)),
            Service::Echo(_) => return Vec::new(),
            Service::Terminal(it) => return it.lines.drain(..).map(Report::Line).collect(),
        };
        let report = match *outcome {
            Outcome::None | Outcome::Told => return Vec::new(),
            Outcome::Done => Report::Done { role, receives, sends },
            Outcome::Failed(reason) => Report::Failed(role, reason),
        };
        *outcome = Outcome::Told;
        vec![report]
    }
}

/// What follows a machine that is done: the echo service at a server, the terminal at a user.
pub fn follower(role: Role, receives: u32, sends: u32) -> Service {
    match role {
        Role::Server => Service::Echo(Echo { receives, sends }),
        Role::User => Service::Terminal(Terminal { receives, sends, part: Bits::default(), kept: Vec::new(), lines: Vec::new() }),
    }
}

impl Server {
    /// It listens on its three sockets.
    fn start(&mut self) -> Vec<Request> {
        if self.listens % 2 == 0 || self.base % 2 == 1 {
            self.outcome.fail(Reason::BadSocket);
            return Vec::new();
        }
        let listen = |socket, size| Request::Listen { socket, size };
        vec![listen(self.listens, 32), listen(self.base, 8), listen(self.base + 1, 8)]
    }

    /// Hears of openings, ends and resets.
    fn hear(&mut self, notice: &Notice) -> Vec<Request> {
        if !matches!(self.outcome, Outcome::None) {
            return Vec::new();
        }
        match *notice {
            Notice::Opened { socket, peer, foreign, .. } => return self.hear_opened(socket, peer, foreign),
            Notice::Ended { socket, .. } => {
                let is_pair = socket == self.base || socket == self.base + 1;
                if is_pair || (socket == self.listens && self.opened[0].is_none()) {
                    self.outcome.fail(Reason::Refused);
                }
            }
            Notice::PairReset(peer) if self.opened.iter().flatten().any(|it| it.0 == peer) => self.outcome.fail(Reason::Reset),
            _ => (),
        }
        Vec::new()
    }

    /// One of its sockets is open. The first user is told the base.
    fn hear_opened(&mut self, socket: u32, peer: Host, foreign: u32) -> Vec<Request> {
        let sockets = [self.listens, self.base, self.base + 1];
        let Some(place) = sockets.iter().position(|it| *it == socket) else { return Vec::new() };
        if self.opened[place].is_some() {
            return Vec::new();
        }
        self.opened[place] = Some((peer, foreign));
        if place == 0 {
            let base = Rc::new(Bits::whole(self.base.to_be_bytes().to_vec()));
            return vec![Request::Send(socket, base), Request::Close(socket)];
        }
        if let [asked, Some(receiver), Some(sender)] = self.opened {
            let is_of =
                |it: (Host, u32), above| asked.is_some_and(|asked| it.0 == asked.0 && asked.1.checked_add(above) == Some(it.1));
            if is_of(receiver, 3) && is_of(sender, 2) {
                self.outcome = Outcome::Done;
            } else {
                self.outcome.fail(Reason::Stranger);
            }
        }
        Vec::new()
    }
}

impl User {
    /// It asks for a connection from the server's socket.
    fn start(&mut self) -> Vec<Request> {
        if self.server % 2 == 0 || self.own % 2 == 1 || self.own > u32::MAX - 3 {
            self.outcome.fail(Reason::BadSocket);
            return Vec::new();
        }
        vec![Request::OpenReceive { peer: self.peer, own: self.own, foreign: self.server }]
    }

    /// Hears of openings, bits, ends and resets.
    fn hear(&mut self, notice: &Notice) -> Vec<Request> {
        if !matches!(self.outcome, Outcome::None) {
            return Vec::new();
        }
        match notice {
            Notice::Opened { socket, peer, foreign, .. } if *peer == self.peer => return self.hear_opened(*socket, *foreign),
            Notice::Arrived(socket, bits) if *socket == self.own && self.base.is_none() && self.is_open => {
                return self.hear_bits(bits)
            }
            Notice::Ended { socket, .. } => {
                let is_mine = match self.base {
                    None => *socket == self.own,
                    Some(_) => *socket == self.own + 2 || *socket == self.own + 3,
                };
                if is_mine {
                    self.outcome.fail(Reason::Refused);
                }
            }
            Notice::PairReset(peer) if *peer == self.peer => self.outcome.fail(Reason::Reset),
            _ => (),
        }
        Vec::new()
    }

    /// A connection with the server's host is open.
    fn hear_opened(&mut self, socket: u32, foreign: u32) -> Vec<Request> {
        let Some(base) = self.base else {
            if socket == self.own && foreign == self.server && !self.is_open {
                self.is_open = true;
                return vec![Request::Grant { socket, messages: 1, bits: 32 }];
            }
            return Vec::new();
        };
        self.has_receiver |= (socket, foreign) == (self.own + 2, base + 1);
        self.has_sender |= (socket, foreign) == (self.own + 3, base);
        if self.has_receiver && self.has_sender {
            self.outcome = Outcome::Done;
        }
        Vec::new()
    }

    /// Bits arrive until there are 32: these are the base.
    fn hear_bits(&mut self, bits: &Bits) -> Vec<Request> {
        self.bits.append_all(bits);
        let Some(octets) = self.bits.octets().first_chunk().filter(|_| self.bits.len() >= 32) else { return Vec::new() };
        let base = u32::from_be_bytes(*octets);
        self.base = Some(base);
        let close = Request::Close(self.own);
        if base % 2 == 1 {
            self.outcome.fail(Reason::BadSocket);
            return vec![close];
        }
        let (peer, own) = (self.peer, self.own);
        let receiver = Request::OpenReceive { peer, own: own + 2, foreign: base + 1 };
        let sender = Request::OpenSend { peer, own: own + 3, foreign: base, size: 8 };
        vec![close, receiver, sender]
    }
}

/// What terminals and echo services have in common: what arrives is granted again, and when one connection has ended the other is
/// closed.
fn follow(receives: u32, sends: u32, notice: &Notice, arrived: impl FnOnce(&Rc<Bits>) -> Option<Request>) -> Vec<Request> {
    match notice {
        Notice::Arrived(socket, bits) if *socket == receives => {
            let granted = Request::Grant { socket: receives, messages: 1, bits: bits.len() as u32 };
            [Some(granted), arrived(bits)].into_iter().flatten().collect()
        }
        Notice::Ended { socket, .. } if *socket == receives => vec![Request::Close(sends)],
        Notice::Ended { socket, .. } if *socket == sends => vec![Request::Close(receives)],
        _ => Vec::new(),
    }
}

/// Reads the bits that arrive at a terminal as octets, and these as lines that end in 13 and 10.
fn read_lines(part: &mut Bits, kept: &mut Vec<u8>, lines: &mut Vec<Vec<u8>>, bits: &Bits) {
    part.append_all(bits);
    let whole = part.len() / 8;
    let mut from = kept.len().saturating_sub(1);
    kept.extend_from_slice(&part.octets()[..whole]);
    let mut rest = Bits::default();
    rest.append(part.octets(), 8 * whole, part.len() - 8 * whole);
    *part = rest;
    while let Some(at) = kept[from..].windows(2).position(|it| it == b"\r\n") {
        let behind = kept.split_off(from + at + 2);
        kept.truncate(from + at);
        lines.push(std::mem::replace(kept, behind));
        from = 0;
    }
}

/// All services of a host, in the order in which they began.
#[derive(Clone, Default)]
pub struct Services {
    list: Vec<Service>,
    /// Which of them want to hear of a socket.
    by_socket: BTreeSet<(u32, u32)>,
    /// The machines of the initial connection that may have no outcome yet.
    beginning: BTreeSet<u32>,
}

impl Services {
    /// Adds a service, and gives its place.
    pub fn add(&mut self, service: Service) -> usize {
        let place = self.list.len();
        self.by_socket.extend(service.sockets().into_iter().map(|socket| (socket, place as u32)));
        self.beginning.insert(place as u32);
        self.list.push(service);
        place
    }

    /// The service at a place.
    pub fn at(&mut self, place: usize) -> &mut Service {
        &mut self.list[place]
    }

    /// A machine has reported its outcome. What follows it takes its place, and hears of sockets that it heard of too.
    pub fn ended(&mut self, place: usize, follower: Option<Service>) {
        self.beginning.remove(&(place as u32));
        if let Some(service) = follower {
            self.list[place] = service;
        }
    }

    /// The places of those that a notice may be about, in order.
    pub fn listeners(&self, notice: &Notice) -> Vec<usize> {
        match notice {
            Notice::Opened { socket, .. } | Notice::Ended { socket, .. } | Notice::Arrived(socket, _) => {
                let heard = self.by_socket.range((*socket, 0)..=(*socket, u32::MAX));
                heard.map(|it| it.1 as usize).collect()
            }
            Notice::PairReset(_) => self.beginning.iter().map(|it| *it as usize).collect(),
            _ => Vec::new(),
        }
    }
}

impl Outcome {
    /// A number for each outcome.
    fn code(self) -> u8 {
        match self {
            Outcome::None => 0,
            Outcome::Done => 1,
            Outcome::Told => 2,
            Outcome::Failed(reason) => 3 + reason as u8,
        }
    }
}

impl Spell for Service {
    fn spell(&self, to: &mut Vec<u8>) {
        match self {
            Service::Server(it) => {
                to.extend([0, it.outcome.code()]);
                (it.listens, it.base).spell(to);
                it.opened.spell(to);
            }
            Service::User(it) => {
                to.extend([1, it.outcome.code(), it.peer.address()]);
                (it.server, it.own).spell(to);
                it.bits.spell(to);
                it.base.spell(to);
                to.extend([it.is_open as u8, it.has_receiver as u8, it.has_sender as u8]);
            }
            Service::Echo(it) => {
                to.push(2);
                (it.receives, it.sends).spell(to);
            }
            Service::Terminal(it) => {
                to.push(3);
                (it.receives, it.sends).spell(to);
                it.part.spell(to);
                it.kept.spell(to);
            }
        }
    }
}

impl Spell for Services {
    fn spell(&self, to: &mut Vec<u8>) {
        self.list.spell(to);
    }
}
