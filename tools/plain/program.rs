//! The program of one host, which opens connections and sends data over them.

use crate::bits::Bits;
use crate::book::Notice;
use crate::commands::{read_header, Command, Fault, CONTROL_TEXT, ERRONEOUS, HEADER, LINKS, NOT_CONNECTED, NO_SOCKET};
use crate::names::{Answer, Flow, Host, Inbound, Refusal};
use crate::pair::{receives, End, Key, Pair, Parcel, Phase, Sockets, Use};
use crate::script::Request;
use crate::spelling::{spell_sorted, Spell};
use std::collections::hash_map::Entry;
use std::collections::BTreeMap;
use std::rc::Rc;

/// The fraction that means the whole, where some of a grant is asked back.
const WHOLE: u64 = 128;

/// A message that has to go out next.
pub struct Outgoing {
    pub flow: Flow,
    pub text: Bits,
    parcel: Parcel,
}

/// What a host's program keeps: its peers in order of their addresses, and its sockets. Copies share the pairs that are the same.
#[derive(Clone)]
pub struct Program {
    own: Host,
    pairs: BTreeMap<u8, (Host, Rc<Pair>)>,
    sockets: Sockets,
}

/// One pair while something is done in it, and what the user is told of it.
struct Turn<'a> {
    peer: Host,
    pair: &'a mut Pair,
    sockets: &'a mut Sockets,
    /// The place in the log of the message that is sent or taken.
    stamp: usize,
    notices: Vec<Notice>,
}

impl Program {
    /// A program that has dealt with nobody.
    pub fn new(own: Host) -> Program {
        Program { own, pairs: BTreeMap::new(), sockets: Sockets::new() }
    }

    /// A turn with a peer, which may be unknown so far.
    fn turn(&mut self, peer: Host, stamp: usize) -> Turn<'_> {
        let (_, pair) = self.pairs.entry(peer.address()).or_insert_with(|| (peer, Rc::new(Pair::new())));
        Turn { peer, pair: Rc::make_mut(pair), sockets: &mut self.sockets, stamp, notices: Vec::new() }
    }

    // What a user asks for.

    /// Does what a user asks for, and gives what the user is told.
    pub fn ask(&mut self, request: &Request) -> Result<Vec<Notice>, Refusal> {
        match *request {
            Request::Contact(peer) => return Ok(self.contact(peer)),
            Request::Echo(peer, octet) => self.ready(peer)?.queue.push_back(Command::Eco(octet)),
            Request::Listen { socket, size } => self.listen(socket, size)?,
            Request::OpenSend { peer, own, foreign, size } => self.open_send(peer, own, foreign, size)?,
            Request::OpenReceive { peer, own, foreign } => self.open_receive(peer, own, foreign)?,
            Request::Send(socket, ref bits) => self.send(socket, bits)?,
            Request::Grant { socket, messages, bits } => self.grant(socket, messages, bits)?,
            Request::AskBack { socket, messages, bits } => {
                let (pair, key) = self.open_end(socket, 0)?;
                let link = link_of(pair, key);
                pair.queue.push_back(Command::Gvb { link, messages, bits });
            }
            Request::Interrupt(socket) => self.interrupt(socket)?,
            Request::Close(socket) => self.close(socket)?,
        }
        Ok(Vec::new())
    }

    /// Everything between this host and a peer is to be reset.
    fn contact(&mut self, peer: Host) -> Vec<Notice> {
        let turn = self.turn(peer, 0);
        let was_ready = turn.pair.phase == Phase::Ready;
        turn.pair.forget(turn.sockets);
        turn.pair.phase = Phase::Want;
        if was_ready {
            vec![Notice::PairReset(peer)]
        } else {
            Vec::new()
        }
    }

    /// The pair with a peer, which has to be through a reset.
    fn ready(&mut self, peer: Host) -> Result<&mut Pair, Refusal> {
        let pair = self.pairs.get_mut(&peer.address()).map(|it| &mut it.1);
        pair.filter(|it| it.phase == Phase::Ready).map(Rc::make_mut).ok_or(Refusal::NotContacted)
    }

    /// A socket listens.
    fn listen(&mut self, socket: u32, size: u8) -> Result<(), Refusal> {
        let Entry::Vacant(free) = self.sockets.entry(socket) else { return Err(Refusal::InUse) };
        if size == 0 {
            return Err(Refusal::BadSize);
        }
        free.insert(Use::Listens(size));
        Ok(())
    }

    /// A connection may be asked for only in a ready pair, between sockets of the right kinds that are not in use.
    fn check_open(&mut self, peer: Host, (own, foreign): Key, is_receiver: bool) -> Result<(), Refusal> {
        let has_end = self.ready(peer)?.has_end((own, foreign));
        if receives(own) != is_receiver || receives(foreign) == is_receiver {
            return Err(Refusal::WrongEnd);
        }
        if has_end || self.sockets.contains_key(&own) {
            Err(Refusal::InUse)
        } else {
            Ok(())
        }
    }

    /// Asks a peer for a connection to send on.
    fn open_send(&mut self, peer: Host, own: u32, foreign: u32, size: u8) -> Result<(), Refusal> {
        self.check_open(peer, (own, foreign), false)?;
        if size == 0 {
            return Err(Refusal::BadSize);
        }
        self.turn(peer, 0).ask_to_send((own, foreign), size);
        Ok(())
    }

    /// Asks a peer for a connection to receive on.
    fn open_receive(&mut self, peer: Host, own: u32, foreign: u32) -> Result<(), Refusal> {
        self.check_open(peer, (own, foreign), true)?;
        let link = self.ready(peer)?.free_link().ok_or(Refusal::NoLink)?;
        self.turn(peer, 0).ask_to_receive((own, foreign), link);
        Ok(())
    }

    /// The open end of a socket of this parity.
    fn open_end(&mut self, socket: u32, parity: u32) -> Result<(&mut Pair, Key), Refusal> {
        if socket % 2 != parity {
            return Err(Refusal::WrongEnd);
        }
        let Some(&Use::End(peer, foreign)) = self.sockets.get(&socket) else { return Err(Refusal::NoSuchSocket) };
        let (_, pair) = self.pairs.get_mut(&peer.address()).ok_or(Refusal::NoSuchSocket)?;
        let key = (socket, foreign);
        if pair.has_open(key) {
            Ok((Rc::make_mut(pair), key))
        } else {
            Err(Refusal::NotOpen)
        }
    }

    /// Hands over bits to be sent.
    fn send(&mut self, socket: u32, bits: &Bits) -> Result<(), Refusal> {
        let (pair, key) = self.open_end(socket, 1)?;
        let end = pair.end(key).ok_or(Refusal::NoSuchSocket)?;
        if bits.len() % end.size as usize != 0 {
            return Err(Refusal::BadSize);
        }
        if end.close_asked {
            return Err(Refusal::Closing);
        }
        end.waiting.append(bits);
        pair.refresh(key);
        Ok(())
    }

    /// Lets the sender of a connection send more.
    fn grant(&mut self, socket: u32, messages: u32, bits: u32) -> Result<(), Refusal> {
        let (pair, key) = self.open_end(socket, 0)?;
        let end = pair.end(key).ok_or(Refusal::NoSuchSocket)?;
        let granted = u16::try_from(messages).map_err(|_| Refusal::OverGrant)?;
        let all_messages = end.messages.checked_add(granted).ok_or(Refusal::OverGrant)?;
        end.bits = end.bits.checked_add(bits).ok_or(Refusal::OverGrant)?;
        end.messages = all_messages;
        let link = link_of(pair, key);
        pair.queue.push_back(Command::All { link, messages: granted, bits });
        Ok(())
    }

    /// Interrupts the other end of a connection.
    fn interrupt(&mut self, socket: u32) -> Result<(), Refusal> {
        let (pair, key) = self.open_end(socket, socket % 2)?;
        if pair.end(key).is_some_and(|it| it.close_asked) {
            return Err(Refusal::Closing);
        }
        let link = link_of(pair, key);
        pair.queue.push_back(if receives(socket) { Command::Inr { link } } else { Command::Ins { link } });
        Ok(())
    }

    /// Closes a connection, or stops listening.
    fn close(&mut self, socket: u32) -> Result<(), Refusal> {
        let (peer, foreign) = match self.sockets.get(&socket) {
            None => return Err(Refusal::NoSuchSocket),
            Some(&Use::End(peer, foreign)) => (peer, foreign),
            Some(Use::Listens(_)) => {
                self.sockets.remove(&socket);
                return Ok(());
            }
        };
        let pair = self.turn(peer, 0).pair;
        let end = pair.end((socket, foreign)).ok_or(Refusal::NoSuchSocket)?;
        if end.close_asked || end.close_taken {
            return Err(Refusal::Closing);
        }
        end.close_asked = true;
        pair.settle((socket, foreign));
        Ok(())
    }

    // What goes out.

    /// The next message: that of the first peer for which something can go.
    pub fn next(&self) -> Option<Outgoing> {
        self.pairs.values().find_map(|(peer, pair)| {
            let (link, parcel) = pair.next()?;
            let flow = Flow { source: self.own, destination: *peer, link };
            Some(Outgoing { flow, text: pair.text_of(&parcel), parcel })
        })
    }

    /// The network has taken the next message, and this is its place in the log.
    pub fn gone(&mut self, flow: Flow, parcel: Parcel, stamp: usize) -> Vec<Notice> {
        let mut turn = self.turn(flow.destination, stamp);
        turn.pair.busy |= 1 << flow.link;
        match parcel {
            Parcel::Reset => turn.pair.phase = Phase::Gone { early: false },
            Parcel::Reply => turn.pair.owed = false,
            Parcel::Commands(count) => turn.commands_gone(count),
            Parcel::Data(key, count) => turn.data_gone(key, count),
        }
        turn.notices
    }

    // What comes in.

    /// Something was taken from the network, and this is its place in the log.
    pub fn accept(&mut self, inbound: &Inbound, stamp: usize) -> Vec<Notice> {
        match inbound {
            Inbound::Message(flow, text) if flow.destination == self.own => {
                let mut turn = self.turn(flow.source, stamp);
                turn.take_message(flow.link, text);
                turn.notices
            }
            Inbound::Answer(answer, flow) if flow.source == self.own => {
                let is_busy = |pair: &Pair| flow.link < 32 && pair.busy >> flow.link & 1 == 1;
                if !self.pairs.get(&flow.destination.address()).is_some_and(|it| is_busy(&it.1)) {
                    return Vec::new();
                }
                let mut turn = self.turn(flow.destination, stamp);
                turn.take_answer(*answer, flow.link);
                turn.notices
            }
            _ => Vec::new(),
        }
    }
}

impl Outgoing {
    /// What has to be done once the network has taken it.
    pub fn into_parcel(self) -> Parcel {
        self.parcel
    }
}

/// The link of an end that is open.
fn link_of(pair: &mut Pair, key: Key) -> u8 {
    pair.end(key).and_then(|it| it.link).expect("an open end has a link")
}

impl Turn<'_> {
    /// Adds an end of the host's own.
    fn add_mine(&mut self, key: Key, size: u8) {
        self.pair.add(key, End { is_mine: true, size, ..End::default() });
        self.sockets.insert(key.0, Use::End(self.peer, key.1));
    }

    /// A new end asks to send.
    fn ask_to_send(&mut self, key: Key, size: u8) {
        self.add_mine(key, size);
        self.pair.queue.push_back(Command::Str { own: key.0, foreign: key.1, size });
    }

    /// A new end asks to receive.
    fn ask_to_receive(&mut self, key: Key, link: u8) {
        self.add_mine(key, 0);
        self.pair.link(key, link);
        self.pair.queue.push_back(Command::Rts { own: key.0, foreign: key.1, link });
    }

    /// The first commands have gone out: requests may open their ends, and CLS may end them.
    fn commands_gone(&mut self, count: usize) {
        for _ in 0..count {
            let Some(command) = self.pair.queue.pop_front() else { return };
            match command {
                Command::Rts { own, foreign, .. } | Command::Str { own, foreign, .. } => {
                    if let Some(end) = self.pair.end((own, foreign)) {
                        end.own_stamp = Some(self.stamp);
                    }
                    self.pair.tell_opening(self.peer, (own, foreign), &mut self.notices);
                }
                Command::Cls { own, foreign } => {
                    if let Some(end) = self.pair.end((own, foreign)) {
                        end.close_sent = true;
                    }
                    self.pair.sweep(self.peer, (own, foreign), self.sockets, &mut self.notices);
                }
                _ => (),
            }
        }
    }

    /// Bytes of a sending end have gone out.
    fn data_gone(&mut self, key: Key, count: usize) {
        let Some(end) = self.pair.end(key) else { return };
        let count = count * end.size as usize;
        let mut bits = Bits::default();
        end.waiting.copy_front(count, &mut bits);
        end.waiting.drop_front(count);
        end.messages -= 1;
        end.bits -= count as u32;
        self.pair.refresh(key);
        self.notices.push(Notice::Sent(key.0, Rc::new(bits)));
    }

    /// An answer to a message came in.
    fn take_answer(&mut self, answer: Answer, link: u8) {
        self.pair.busy &= !(1 << link);
        match (self.pair.phase, answer) {
            (Phase::Gone { early }, Answer::Rfnm) => self.pair.phase = if early { Phase::Want } else { Phase::Heard },
            (_, Answer::Rfnm) => (),
            (Phase::Gone { .. }, _) => self.contact_failed(),
            (Phase::Heard, _) if !self.pair.owed => self.contact_failed(),
            (Phase::Ready, _) if !self.pair.owed => {
                self.pair.forget(self.sockets);
                self.pair.phase = Phase::Closed;
                self.notices.push(Notice::PairReset(self.peer));
            }
            _ => (),
        }
        if let Some((key, _)) = self.pair.on_link(false, link) {
            self.pair.settle(key);
        }
    }

    /// The peer did not answer a contact.
    fn contact_failed(&mut self) {
        self.pair.phase = Phase::Closed;
        self.notices.push(Notice::ContactFailed(self.peer));
    }

    /// The pair is through a reset.
    fn ready(&mut self) {
        self.pair.phase = Phase::Ready;
        self.notices.push(Notice::Ready(self.peer));
    }

    /// Whether the pair is through a reset. If not, nearly everything is ignored.
    fn is_ready(&self) -> bool {
        self.pair.phase == Phase::Ready
    }

    /// Answers by an error that quotes these octets.
    fn answer_error(&mut self, code: Fault, octets: &[u8]) {
        self.pair.queue.push_back(Command::error(code, octets));
    }

    /// A message came in.
    fn take_message(&mut self, link: u8, text: &Bits) {
        if link != 0 {
            if self.is_ready() {
                self.take_data(link, text);
            }
            return;
        }
        let mut left = match read_header(text) {
            Some((8, count)) if count as usize <= CONTROL_TEXT => &text.octets()[HEADER..HEADER + count as usize],
            _ => {
                if self.is_ready() {
                    self.answer_error(ERRONEOUS, text.octets());
                }
                return;
            }
        };
        while !left.is_empty() {
            match Command::read(left) {
                Ok((command, own)) => {
                    self.take_command(command, own);
                    left = &left[own.len()..];
                }
                Err(fault) => {
                    if self.is_ready() {
                        self.answer_error(fault, left);
                    }
                    return;
                }
            }
        }
    }

    /// A command came in.
    fn take_command(&mut self, command: Command, octets: &[u8]) {
        match command {
            Command::Rst => {
                self.pair.owed = true;
                self.pair.forget(self.sockets);
                match self.pair.phase {
                    Phase::Ready => self.notices.push(Notice::PairReset(self.peer)),
                    Phase::Closed => self.ready(),
                    _ => (),
                }
            }
            Command::Rrp => match self.pair.phase {
                Phase::Heard => self.ready(),
                Phase::Gone { .. } => self.pair.phase = Phase::Gone { early: true },
                _ => (),
            },
            command if self.is_ready() => {
                if let Err(fault) = self.take_ready(command) {
                    self.answer_error(fault, octets);
                }
            }
            _ => (),
        }
    }

    /// A command other than a reset came in, in a ready pair.
    fn take_ready(&mut self, command: Command) -> Result<(), Fault> {
        match command {
            Command::Rts { own: foreign, foreign: own, link } => self.take_rts((own, foreign), link),
            Command::Str { own: foreign, foreign: own, size } => self.take_str((own, foreign), size),
            Command::Cls { own: foreign, foreign: own } => self.take_cls((own, foreign)),
            Command::All { link, .. } | Command::Gvb { link, .. } | Command::Inr { link } => {
                self.take_on_link(false, link, command)
            }
            Command::Ret { link, .. } | Command::Ins { link } => self.take_on_link(true, link, command),
            Command::Eco(octet) => {
                self.pair.queue.push_back(Command::Erp(octet));
                Ok(())
            }
            Command::Erp(octet) => {
                self.notices.push(Notice::Echoed(self.peer, octet));
                Ok(())
            }
            Command::Err { code, quoted } => {
                self.notices.push(Notice::Error(self.peer, code, quoted));
                Ok(())
            }
            Command::Nop | Command::Rst | Command::Rrp => Ok(()),
        }
    }

    /// The size with which a socket listens, if it does.
    fn listens(&self, socket: u32) -> Option<u8> {
        match self.sockets.get(&socket) {
            Some(Use::Listens(size)) => Some(*size),
            _ => None,
        }
    }

    /// Whether a request of the partner was taken for an end, if there is such an end.
    fn was_asked(&mut self, key: Key) -> Option<bool> {
        self.pair.end(key).map(|it| it.was_asked)
    }

    /// The peer asks to receive.
    fn take_rts(&mut self, key: Key, link: u8) -> Result<(), Fault> {
        let is_wrong = receives(key.0) || !receives(key.1) || !LINKS.contains(&link);
        if is_wrong || self.pair.on_link(false, link).is_some() {
            return Err(ERRONEOUS);
        }
        match (self.was_asked(key), self.listens(key.0)) {
            (Some(true), _) => return Err(ERRONEOUS),
            (Some(false), _) => (),
            (None, Some(size)) => self.ask_to_send(key, size),
            (None, None) => {
                self.refuse(key);
                return Ok(());
            }
        }
        self.pair.link(key, link);
        self.matched(key);
        Ok(())
    }

    /// The peer asks to send.
    fn take_str(&mut self, key: Key, size: u8) -> Result<(), Fault> {
        if !receives(key.0) || receives(key.1) || size == 0 {
            return Err(ERRONEOUS);
        }
        match (self.was_asked(key), self.listens(key.0), self.pair.free_link()) {
            (Some(true), _, _) => return Err(ERRONEOUS),
            (Some(false), _, _) => (),
            (None, Some(_), Some(link)) => self.ask_to_receive(key, link),
            (None, _, _) => {
                self.refuse(key);
                return Ok(());
            }
        }
        if let Some(end) = self.pair.end(key) {
            end.size = size;
        }
        self.matched(key);
        Ok(())
    }

    /// The partner's request has come to an end.
    fn matched(&mut self, key: Key) {
        if let Some(end) = self.pair.end(key) {
            end.was_asked = true;
            end.partner_stamp = Some(self.stamp);
        }
        self.pair.tell_opening(self.peer, key, &mut self.notices);
    }

    /// A request is refused by a CLS. Its end holds the two sockets until both CLS have passed.
    fn refuse(&mut self, key: Key) {
        self.pair.add(key, End { was_asked: true, close_asked: true, close_queued: true, ..End::default() });
        self.pair.queue.push_back(Command::Cls { own: key.0, foreign: key.1 });
    }

    /// The peer closes a connection.
    fn take_cls(&mut self, key: Key) -> Result<(), Fault> {
        let end = self.pair.end(key).ok_or(NO_SOCKET)?;
        if !end.close_taken {
            end.close_taken = true;
            end.waiting.clear();
        }
        self.pair.settle(key);
        self.pair.sweep(self.peer, key, self.sockets, &mut self.notices);
        Ok(())
    }

    /// A command names a link. An end that isn't open yet counts as none; one that is closing ignores it.
    fn take_on_link(&mut self, receiving: bool, link: u8, command: Command) -> Result<(), Fault> {
        let (key, end) = self.pair.on_link(receiving, link).ok_or(NOT_CONNECTED)?;
        if !end.is_open() {
            return if end.is_closing() { Ok(()) } else { Err(NOT_CONNECTED) };
        }
        match command {
            Command::All { messages, bits, .. } => {
                end.messages = end.messages.saturating_add(messages);
                end.bits = end.bits.saturating_add(bits);
            }
            Command::Gvb { messages, bits, .. } => {
                let part = |all: u64, fraction: u8| all * u64::from(fraction).min(WHOLE) / WHOLE;
                let messages = part(end.messages.into(), messages) as u16;
                let bits = part(end.bits.into(), bits) as u32;
                end.messages -= messages;
                end.bits -= bits;
                self.pair.queue.push_back(Command::Ret { link, messages, bits });
            }
            Command::Ret { messages, bits, .. } => {
                if messages > end.messages || bits > end.bits {
                    return Err(ERRONEOUS);
                }
                end.messages -= messages;
                end.bits -= bits;
                self.notices.push(Notice::Returned { socket: key.0, messages, bits });
            }
            _ => self.notices.push(Notice::Interrupt(key.0)),
        }
        self.pair.refresh(key);
        Ok(())
    }

    /// Data came in, in a ready pair.
    fn take_data(&mut self, link: u8, text: &Bits) {
        match self.data_of(link, text) {
            Ok(Some((socket, count))) => {
                let mut bits = Bits::default();
                bits.append(text.octets(), 8 * HEADER, count);
                self.notices.push(Notice::Arrived(socket, Rc::new(bits)));
            }
            Ok(None) => (),
            Err(fault) => self.answer_error(fault, text.octets()),
        }
    }

    /// The socket for which data came in, and the number of their bits. What was granted is used.
    fn data_of(&mut self, link: u8, text: &Bits) -> Result<Option<(u32, usize)>, Fault> {
        let (key, end) = self.pair.on_link(true, link).ok_or(NOT_CONNECTED)?;
        if !end.is_open() {
            return if end.is_closing() { Ok(None) } else { Err(NOT_CONNECTED) };
        }
        let (size, count) = read_header(text).ok_or(ERRONEOUS)?;
        let bits = size as u32 * u32::from(count);
        if size != end.size || end.messages == 0 || end.bits < bits {
            return Err(ERRONEOUS);
        }
        end.messages -= 1;
        end.bits -= bits;
        Ok(Some((key.0, bits as usize)))
    }
}

impl Spell for Program {
    fn spell(&self, to: &mut Vec<u8>) {
        for (address, (_, pair)) in self.pairs.iter().filter(|it| !it.1 .1.is_new()) {
            to.push(*address);
            pair.spell(to);
        }
        to.push(u8::MAX);
        spell_sorted(self.sockets.iter(), to);
    }
}

impl Program {
    /// Its pairs, in order of their addresses.
    pub fn pairs(&self) -> impl Iterator<Item = (Host, &Pair)> {
        self.pairs.values().map(|it| (it.0, &*it.1))
    }
}
