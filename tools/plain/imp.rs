//! One IMP: its hosts, its ends of lines, and the packets that it keeps.

use crate::bits::Bits;
use crate::line::{spell_distances, Content, Distances, Frame, Kind, LineEnd, Packet};
use crate::names::{Answer, Flow, Host, Inbound, Refusal, Text, MOST_IMPS};
use crate::spelling::{spell_sorted, Spell};
use std::collections::{HashMap, VecDeque};
use std::rc::Rc;

/// Most packets that an IMP keeps.
const STORE: usize = 32;
/// Most messages that wait for a host.
const QUEUE: usize = 16;
/// Most messages in reassembly.
const SLOTS: usize = 8;
/// Most pieces of a message.
const PIECES: usize = 8;
/// The octets of a full piece.
const PIECE: usize = 126;
/// The distance that means no route.
pub const INFINITE: u8 = 63;
/// How many numbers ahead of the one noted last are new.
const WINDOW: u16 = 32_767;

/// A message that waits for its host.
#[derive(Clone)]
struct Queued {
    flow: Flow,
    number: u16,
    text: Text,
}

/// A host of this IMP.
#[derive(Clone)]
struct LocalHost {
    is_up: bool,
    answers: VecDeque<(Answer, Flow)>,
    messages: VecDeque<Queued>,
    /// How many messages of this host have no answer yet.
    outstanding: usize,
}

/// An end of a line, and the distances that the neighbour there has told.
#[derive(Clone, Default)]
struct Port {
    is_down: bool,
    end: LineEnd,
    heard: Option<Rc<Distances>>,
}

/// How it is with the message of a flow that was begun last.
#[derive(Clone, Copy, PartialEq, Default)]
enum Standing {
    /// The host has its answer, or nothing was begun.
    #[default]
    Idle,
    Outstanding,
    /// The answer waits for the host.
    Answered,
}

/// A flow at its source: how many messages it has begun, and how it is with the last of them.
#[derive(Clone, Copy, Default)]
struct Source {
    begun: u64,
    standing: Standing,
}

impl Source {
    /// The number that was begun last.
    fn last(self) -> u16 {
        self.begun.wrapping_sub(1) as u16
    }
}

/// What became of a message that was noted.
#[derive(Clone, Copy, PartialEq)]
pub enum Fate {
    Waits,
    Taken,
    Dead,
    Never,
}

/// A flow at its destination: the number noted last, and the fate of its message.
#[derive(Clone, Copy, PartialEq)]
struct Kept {
    number: u16,
    fate: Fate,
}

/// A message in reassembly, and the pieces of it that came, by place.
#[derive(Clone)]
struct Slot {
    flow: Flow,
    number: u16,
    pieces: [Option<Rc<Packet>>; PIECES],
}

/// What a fresh packet comes to.
enum Arrival {
    /// There is no room: the frame counts as lost.
    Lost,
    /// Nothing is to be done.
    Ignored,
    /// It passes through.
    Passing,
    /// It is an answer to a message of this IMP's hosts.
    Answer,
    /// Its number is noted with this fate, and its slot is cleared; an answer of this kind goes back, if a route leads there.
    TurnedDown(Fate, Option<Kind>),
    /// An answer of this kind goes back.
    Replied(Kind),
    /// It is one more piece of a message.
    Piece,
    /// It makes its message whole.
    Whole(Option<Bits>),
}

/// One IMP of the subnet.
#[derive(Clone)]
pub struct Imp {
    number: u8,
    hosts: Vec<LocalHost>,
    ports: Vec<Port>,
    /// The port that leads to each IMP.
    routes: [Option<u8>; MOST_IMPS as usize + 1],
    /// The distances that this IMP tells.
    told: Rc<Distances>,
    /// Whether it claims to be at distance 0 from every IMP.
    claims: bool,
    store: VecDeque<Rc<Packet>>,
    /// How many packets are in the store and in channels.
    stored: usize,
    slots: Vec<Slot>,
    sources: HashMap<Flow, Source>,
    kept: HashMap<Flow, Kept>,
    /// The frames that have to go on lines, with their ports.
    pub outbox: Vec<(u8, Frame)>,
    /// The fates that were noted since this was emptied, in order.
    pub noted: Vec<(Fate, Flow, u16)>,
}

impl Fate {
    /// The word of this fate in a trace.
    pub fn word(self) -> &'static str {
        match self {
            Fate::Waits => "waits",
            Fate::Taken => "taken",
            Fate::Dead => "dead",
            Fate::Never => "never",
        }
    }
}

impl Imp {
    /// A new IMP, with all its hosts up or down and all its ends of lines up.
    pub fn new(number: u8, hosts: u8, ports: usize, are_up: bool) -> Imp {
        let host = || LocalHost { is_up: are_up, answers: VecDeque::new(), messages: VecDeque::new(), outstanding: 0 };
        let mut imp = Imp {
            number,
            hosts: (0..hosts).map(|_| host()).collect(),
            ports: (0..ports).map(|_| Port::default()).collect(),
            routes: [None; MOST_IMPS as usize + 1],
            told: Rc::new([INFINITE; MOST_IMPS as usize + 1]),
            claims: false,
            store: VecDeque::new(),
            stored: 0,
            slots: Vec::new(),
            sources: HashMap::new(),
            kept: HashMap::new(),
            outbox: Vec::new(),
            noted: Vec::new(),
        };
        imp.learn();
        imp
    }

    // What it knows.

    /// Finds the routes, and the distances to be told, by those that were heard. Of equal distances the lowest port counts.
    fn learn(&mut self) {
        let mut told = [INFINITE; MOST_IMPS as usize + 1];
        for imp in 1..=MOST_IMPS as usize {
            self.routes[imp] = None;
            for (place, port) in self.ports.iter().enumerate() {
                let distance = port.heard.as_ref().map_or(INFINITE, |heard| heard[imp].saturating_add(1));
                if distance < told[imp] {
                    told[imp] = distance;
                    self.routes[imp] = Some(place as u8);
                }
            }
        }
        told[self.number as usize] = 0;
        self.routes[self.number as usize] = None;
        if self.claims {
            told[1..].fill(0);
        }
        self.told = Rc::new(told);
    }

    /// Whether a route leads to an IMP. None leads to this one itself.
    fn leads(&self, imp: u8) -> bool {
        self.routes[imp as usize].is_some()
    }

    /// Whether there is room for this many more packets.
    fn has_room(&self, count: usize) -> bool {
        self.stored + count <= STORE
    }

    /// A host of this IMP, which has to be there.
    fn host(&mut self, host: Host) -> Result<&mut LocalHost, Refusal> {
        self.hosts.get_mut(host.number as usize).ok_or(Refusal::NoSuch)
    }

    /// A host of this IMP, which has to be there and up.
    fn up(&mut self, host: Host) -> Result<&mut LocalHost, Refusal> {
        let found = self.host(host)?;
        if found.is_up {
            Ok(found)
        } else {
            Err(Refusal::IsDown)
        }
    }

    /// Whether a host is one of this IMP, and up.
    pub fn is_up(&self, host: Host) -> bool {
        host.imp == self.number && self.hosts.get(host.number as usize).is_some_and(|it| it.is_up)
    }

    /// The hosts of this IMP that are up.
    pub fn hosts_up(&self) -> impl Iterator<Item = Host> + '_ {
        let up = self.hosts.iter().enumerate().filter(|(_, it)| it.is_up);
        up.map(|(number, _)| Host { imp: self.number, number: number as u8 })
    }

    /// What is known of a flow at its source.
    fn source(&self, flow: Flow) -> Source {
        self.sources.get(&flow).copied().unwrap_or_default()
    }

    /// Whether a number is new for a flow at its destination.
    fn is_new(&self, flow: Flow, number: u16) -> bool {
        match self.kept.get(&flow) {
            None => true,
            Some(kept) => (1..=WINDOW).contains(&number.wrapping_sub(kept.number)),
        }
    }

    /// The number that is outstanding of a flow.
    pub fn outstanding(&self, flow: Flow) -> Option<u16> {
        let source = self.source(flow);
        (source.standing == Standing::Outstanding).then(|| source.last())
    }

    /// The number that a message of a flow would begin, if it would begin any, and the one that may not be alive then. That one
    /// is only looked for if the flow has begun enough that it may be.
    pub fn beginning(&self, flow: Flow) -> Option<(u16, Option<u16>)> {
        let source = self.source(flow);
        let here = flow.destination.imp == self.number;
        let goes = if here { self.is_up(flow.destination) } else { self.leads(flow.destination.imp) };
        let begins = self.is_up(flow.source) && source.standing == Standing::Idle && goes;
        let oldest = (source.begun > u64::from(WINDOW)).then(|| source.last().wrapping_sub(WINDOW));
        begins.then_some((source.begun as u16, oldest))
    }

    /// Whether this number is the one noted last of a flow.
    pub fn keeps(&self, flow: Flow, number: u16) -> bool {
        self.kept.get(&flow).is_some_and(|it| it.number == number)
    }

    /// Whether any flow from an IMP is noted.
    pub fn keeps_any_from(&self, imp: u8) -> bool {
        self.kept.keys().any(|flow| flow.source.imp == imp)
    }

    /// Whether a message to a host at an IMP has no answer yet.
    pub fn awaits(&self, imp: u8) -> bool {
        let mut flows = self.sources.iter();
        flows.any(|(flow, source)| flow.destination.imp == imp && source.standing == Standing::Outstanding)
    }

    /// Whether any packet or message here is as asked for: its flow, its number, and whether it is for the destination.
    pub fn holds(&self, mut wanted: impl FnMut(Flow, u16, bool) -> bool) -> bool {
        self.slots.iter().any(|it| wanted(it.flow, it.number, true))
            || self.hosts.iter().flat_map(|it| &it.messages).any(|it| wanted(it.flow, it.number, true))
            || self.packets().any(|it| wanted(it.flow, it.number, it.kind.is_request()))
    }

    /// Whether an end of a line at this port is up.
    pub fn has_end_up(&self, port: usize) -> bool {
        !self.ports[port].is_down
    }

    /// Whether all its hosts and ends of lines are up.
    pub fn is_all_up(&self) -> bool {
        self.hosts.iter().all(|it| it.is_up) && self.ports.iter().all(|it| !it.is_down)
    }

    /// Whether it holds a packet in its store, a channel or a slot.
    pub fn holds_packets(&self) -> bool {
        self.stored > 0 || !self.slots.is_empty()
    }

    /// The packets in store and channels.
    fn packets(&self) -> impl Iterator<Item = &Rc<Packet>> {
        self.store.iter().chain(self.ports.iter().flat_map(|it| it.end.held()))
    }

    // Its steps.

    /// Puts a frame on the line of a port.
    fn send(&mut self, port: usize, content: Content) {
        let frame = self.ports[port].end.frame(content);
        self.outbox.push((port as u8, frame));
    }

    /// Keeps a packet until it can go.
    fn keep(&mut self, packet: Rc<Packet>) {
        self.store.push_back(packet);
        self.stored += 1;
    }

    /// After every call: each packet that waits goes into a free channel of its route. Without a route it is dropped.
    pub fn pump(&mut self) {
        for _ in 0..self.store.len() {
            let Some(packet) = self.store.pop_front() else { return };
            let Some(port) = self.routes[packet.target() as usize] else {
                self.stored -= 1;
                continue;
            };
            match self.ports[port as usize].end.submit(packet) {
                Ok(frame) => self.outbox.push((port, frame)),
                Err(packet) => self.store.push_back(packet),
            }
        }
    }

    /// A flow begins its next message.
    fn begin(&mut self, flow: Flow) -> u16 {
        let source = self.sources.entry(flow).or_default();
        source.begun += 1;
        source.standing = Standing::Outstanding;
        self.hosts[flow.source.number as usize].outstanding += 1;
        source.last()
    }

    /// An answer comes to the outstanding number of a flow. If its source is down, the flow is idle at once.
    fn free(&mut self, answer: Answer, flow: Flow, number: u16) {
        if self.outstanding(flow) != Some(number) {
            return;
        }
        self.hosts[flow.source.number as usize].outstanding -= 1;
        if self.is_up(flow.source) {
            self.tell(answer, flow);
        } else {
            self.stand(flow, Standing::Idle);
        }
    }

    /// An answer waits for the source of a flow, which is up.
    fn tell(&mut self, answer: Answer, flow: Flow) {
        self.hosts[flow.source.number as usize].answers.push_back((answer, flow));
        self.stand(flow, Standing::Answered);
    }

    /// Changes how it is with a flow.
    fn stand(&mut self, flow: Flow, standing: Standing) {
        self.sources.entry(flow).or_default().standing = standing;
    }

    /// Notes a number as a flow's last one.
    fn note(&mut self, flow: Flow, number: u16, fate: Fate) {
        let kept = Kept { number, fate };
        if self.kept.insert(flow, kept) != Some(kept) {
            self.noted.push((fate, flow, number));
        }
    }

    /// A message that was noted has met its end. If another number was noted since, nothing changes.
    fn end(&mut self, flow: Flow, number: u16, fate: Fate) {
        if let Some(kept) = self.kept.get_mut(&flow).filter(|it| it.number == number && it.fate != fate) {
            kept.fate = fate;
            self.noted.push((fate, flow, number));
        }
    }

    // What hosts do.

    /// A host hands in a message.
    pub fn from_host(&mut self, flow: Flow, text: &Text) -> Result<(), Refusal> {
        self.up(flow.source)?;
        if self.source(flow).standing != Standing::Idle {
            return Err(Refusal::Blocked);
        }
        if flow.destination.imp == self.number {
            return self.from_host_to_host(flow, text);
        }
        if !self.leads(flow.destination.imp) {
            self.tell(Answer::Dead, flow);
            return Ok(());
        }
        let body = body_of(text);
        let count = body.len().div_ceil(PIECE);
        if !self.has_room(count) {
            return Err(Refusal::NoRoom);
        }
        let number = self.begin(flow);
        for (place, octets) in body.chunks(PIECE).enumerate() {
            let (is_last, octets) = (place + 1 == count, Box::from(octets));
            self.keep(Rc::new(Packet { kind: Kind::Data, flow, number, place: place as u8, is_last, octets }));
        }
        Ok(())
    }

    /// A host hands in a message for a host of the same IMP.
    fn from_host_to_host(&mut self, flow: Flow, text: &Text) -> Result<(), Refusal> {
        if !self.is_up(flow.destination) {
            self.tell(Answer::Dead, flow);
            return Ok(());
        }
        if self.hosts[flow.destination.number as usize].messages.len() == QUEUE {
            return Err(Refusal::NoRoom);
        }
        let number = self.begin(flow);
        self.note(flow, number, Fate::Waits);
        self.hosts[flow.destination.number as usize].messages.push_back(Queued { flow, number, text: text.clone() });
        Ok(())
    }

    /// A host takes what waits for it: an answer, or else a message.
    pub fn to_host(&mut self, host: Host) -> Result<Option<Inbound>, Refusal> {
        let found = self.up(host)?;
        if let Some((answer, flow)) = found.answers.pop_front() {
            self.stand(flow, Standing::Idle);
            return Ok(Some(Inbound::Answer(answer, flow)));
        }
        let Some(source) = found.messages.front().map(|it| it.flow.source) else {
            return Ok(None);
        };
        let replies = self.leads(source.imp);
        if replies && !self.has_room(1) {
            return Err(Refusal::NoRoom);
        }
        let Queued { flow, number, text } = self.up(host)?.messages.pop_front().expect("a message that waits");
        self.end(flow, number, Fate::Taken);
        if flow.source.imp == self.number {
            self.free(Answer::Rfnm, flow, number);
        } else if replies {
            self.keep(Packet::bare(Kind::Rfnm, flow, number));
        }
        Ok(Some(Inbound::Message(flow, text)))
    }

    /// A host stops. Each message that waited for it gives its source Dead, where there is room.
    pub fn host_down(&mut self, host: Host) -> Result<(), Refusal> {
        let found = self.up(host)?;
        found.is_up = false;
        let answers = std::mem::take(&mut found.answers);
        let messages = std::mem::take(&mut found.messages);
        for (_, flow) in answers {
            self.stand(flow, Standing::Idle);
        }
        for Queued { flow, number, .. } in messages {
            self.end(flow, number, Fate::Dead);
            if flow.source.imp == self.number {
                self.free(Answer::Dead, flow, number);
            } else if self.leads(flow.source.imp) && self.has_room(1) {
                self.keep(Packet::bare(Kind::Dead, flow, number));
            }
        }
        Ok(())
    }

    /// A host starts, unless one of its messages has no answer yet.
    pub fn host_up(&mut self, host: Host) -> Result<(), Refusal> {
        let found = self.host(host)?;
        if found.is_up {
            return Err(Refusal::IsUp);
        }
        if found.outstanding > 0 {
            return Err(Refusal::Unsettled);
        }
        found.is_up = true;
        Ok(())
    }

    /// The outstanding message of a flow is given up.
    pub fn give_up(&mut self, flow: Flow) -> Result<(), Refusal> {
        self.host(flow.source)?;
        let number = self.outstanding(flow).ok_or(Refusal::NotOutstanding)?;
        self.free(Answer::Incomplete, flow, number);
        Ok(())
    }

    /// Asks the destination's IMP what became of the outstanding message of a flow.
    pub fn ask(&mut self, flow: Flow) -> Result<(), Refusal> {
        self.host(flow.source)?;
        let number = self.outstanding(flow).ok_or(Refusal::NotOutstanding)?;
        if !self.leads(flow.destination.imp) {
            return Ok(());
        }
        if !self.has_room(1) {
            return Err(Refusal::NoRoom);
        }
        self.keep(Packet::bare(Kind::Ask, flow, number));
        Ok(())
    }

    /// Drops what is noted of the flows from another IMP.
    pub fn forget(&mut self, imp: u8) {
        self.kept.retain(|flow, _| flow.source.imp != imp);
    }

    /// Throws away the pieces of a flow.
    pub fn abandon(&mut self, flow: Flow) -> Result<(), Refusal> {
        let at = self.slots.iter().position(|it| it.flow == flow).ok_or(Refusal::NoSuch)?;
        self.slots.remove(at);
        Ok(())
    }

    // What lines do.

    /// A frame comes in at a port. Answers whether it told anything but distances that were known.
    pub fn from_line(&mut self, port: usize, frame: Frame) -> bool {
        if self.ports[port].is_down {
            return false;
        }
        match frame.content {
            Content::Acknowledgements => self.acknowledge(port, frame.acknowledged),
            Content::Routes(distances) => {
                self.acknowledge(port, frame.acknowledged);
                return self.hear(port, distances);
            }
            Content::Packet { channel, bit, packet } => self.packet_in(port, frame.acknowledged, channel, bit, packet),
        }
        true
    }

    /// Frees the channels of a port that are acknowledged.
    fn acknowledge(&mut self, port: usize, bits: u8) {
        self.stored -= self.ports[port].end.take_acknowledgements(bits);
    }

    /// A neighbour tells its distances. Answers whether they are other ones than before.
    fn hear(&mut self, port: usize, distances: Rc<Distances>) -> bool {
        let heard = &mut self.ports[port].heard;
        if heard.as_ref().is_some_and(|it| Rc::ptr_eq(it, &distances) || *it == distances) {
            return false;
        }
        *heard = Some(distances);
        self.learn();
        true
    }

    /// A packet comes in. If it is fresh and has no room, its whole frame counts as lost.
    fn packet_in(&mut self, port: usize, acknowledged: u8, channel: u8, bit: bool, packet: Rc<Packet>) {
        let is_fresh = self.ports[port].end.is_fresh(channel, bit);
        let arrival = if is_fresh { self.arrival_of(&packet) } else { Arrival::Ignored };
        if matches!(arrival, Arrival::Lost) {
            return;
        }
        if is_fresh {
            self.ports[port].end.took(channel);
        }
        self.acknowledge(port, acknowledged);
        self.send(port, Content::Acknowledgements);
        self.arrive(arrival, packet);
    }

    /// What a fresh packet comes to.
    fn arrival_of(&self, packet: &Packet) -> Arrival {
        let (flow, number) = (packet.flow, packet.number);
        if packet.target() != self.number {
            return match (self.leads(packet.target()), self.has_room(1)) {
                (false, _) => Arrival::Ignored,
                (true, true) => Arrival::Passing,
                (true, false) => Arrival::Lost,
            };
        }
        match packet.kind {
            Kind::Ask => self.question_of(flow, number),
            Kind::Data if !self.is_new(flow, number) => Arrival::Ignored,
            Kind::Data if !self.is_up(flow.destination) => self.turned_down(flow, Fate::Dead, Kind::Dead),
            Kind::Data => self.piece_of(packet),
            _ => Arrival::Answer,
        }
    }

    /// What a question about a message comes to.
    fn question_of(&self, flow: Flow, number: u16) -> Arrival {
        if self.is_new(flow, number) {
            return self.turned_down(flow, Fate::Never, Kind::Never);
        }
        let kind = match self.kept.get(&flow).filter(|it| it.number == number).map(|it| it.fate) {
            None | Some(Fate::Waits) => return Arrival::Ignored,
            Some(Fate::Taken) => Kind::Rfnm,
            Some(Fate::Dead) => Kind::Dead,
            Some(Fate::Never) => Kind::Never,
        };
        match (self.leads(flow.source.imp), self.has_room(1)) {
            (false, _) => Arrival::Ignored,
            (true, true) => Arrival::Replied(kind),
            (true, false) => Arrival::Lost,
        }
    }

    /// A message that can't be taken any more: an answer goes back, which needs room if a route leads there.
    fn turned_down(&self, flow: Flow, fate: Fate, kind: Kind) -> Arrival {
        match (self.leads(flow.source.imp), self.has_room(1)) {
            (false, _) => Arrival::TurnedDown(fate, None),
            (true, true) => Arrival::TurnedDown(fate, Some(kind)),
            (true, false) => Arrival::Lost,
        }
    }

    /// What a piece comes to whose number is new and whose host is up.
    fn piece_of(&self, packet: &Packet) -> Arrival {
        let slot = self.slots.iter().find(|it| it.flow == packet.flow);
        let held = slot.filter(|it| it.number == packet.number).map_or(&[][..], |it| &it.pieces);
        let (place, is_last) = (packet.place, packet.is_last);
        let others = || held.iter().flatten().map(|it| (it.place, it.is_last));
        if others().any(|other| other.0 == place || (other.1 && other.0 < place) || (is_last && place < other.0)) {
            return Arrival::Ignored;
        }
        let last = if is_last { Some(place) } else { others().find(|it| it.1).map(|it| it.0) };
        let count = 1 + others().count();
        if last.is_none_or(|last| count != last as usize + 1) {
            return if slot.is_none() && self.slots.len() == SLOTS { Arrival::Lost } else { Arrival::Piece };
        }
        let before = held.iter().take(place as usize).flatten().map(|it| &*it.octets);
        let behind = held.iter().skip(place as usize + 1).flatten().map(|it| &*it.octets);
        let text = text_of(before.chain([&*packet.octets]).chain(behind).collect::<Vec<&[u8]>>().concat());
        if text.is_some() && self.hosts[packet.flow.destination.number as usize].messages.len() == QUEUE {
            return Arrival::Lost;
        }
        Arrival::Whole(text)
    }

    /// Does what is to be done about a fresh packet.
    fn arrive(&mut self, arrival: Arrival, packet: Rc<Packet>) {
        let (flow, number) = (packet.flow, packet.number);
        match arrival {
            Arrival::Lost | Arrival::Ignored => (),
            Arrival::Passing => self.keep(packet),
            Arrival::Answer => self.free(packet.kind.answer(), flow, number),
            Arrival::Replied(kind) => self.keep(Packet::bare(kind, flow, number)),
            Arrival::TurnedDown(fate, kind) => {
                self.note(flow, number, fate);
                self.slots.retain(|it| it.flow != flow);
                if let Some(kind) = kind {
                    self.keep(Packet::bare(kind, flow, number));
                }
            }
            Arrival::Piece => self.keep_piece(packet),
            Arrival::Whole(text) => {
                self.slots.retain(|it| it.flow != flow);
                self.note(flow, number, if text.is_some() { Fate::Waits } else { Fate::Never });
                if let Some(text) = text {
                    let queued = Queued { flow, number, text: Rc::new(text) };
                    self.hosts[flow.destination.number as usize].messages.push_back(queued);
                }
            }
        }
    }

    /// Keeps a piece in the slot of its flow. A slot of another number is emptied.
    fn keep_piece(&mut self, packet: Rc<Packet>) {
        let at = self.slots.iter().position(|it| it.flow == packet.flow).unwrap_or(self.slots.len());
        if at == self.slots.len() || self.slots[at].number != packet.number {
            let slot = Slot { flow: packet.flow, number: packet.number, pieces: Default::default() };
            if at == self.slots.len() {
                self.slots.push(slot)
            } else {
                self.slots[at] = slot
            }
        }
        let place = packet.place as usize;
        self.slots[at].pieces[place] = Some(packet);
    }

    /// Sends the packets of all busy channels again.
    pub fn resend(&mut self) {
        for (place, port) in self.ports.iter().enumerate() {
            if !port.is_down && !port.end.is_free() {
                self.outbox.extend(port.end.frames_again().map(|frame| (place as u8, frame)));
            }
        }
    }

    /// Claims from now on to be at distance 0 from every IMP.
    pub fn claim(&mut self) {
        self.claims = true;
        self.learn();
    }

    /// Tells the neighbours the distances of this IMP.
    pub fn tell_routes(&mut self) {
        for (place, port) in self.ports.iter().enumerate() {
            if !port.is_down {
                self.outbox.push((place as u8, port.end.frame(Content::Routes(self.told.clone()))));
            }
        }
    }

    /// An end of a line stops: the packets of its channels wait for other routes, and what was heard there is forgotten.
    pub fn end_down(&mut self, port: usize) -> Result<(), Refusal> {
        if self.ports[port].is_down {
            return Err(Refusal::IsDown);
        }
        let stopped = std::mem::replace(&mut self.ports[port], Port { is_down: true, ..Port::default() });
        self.store.extend(stopped.end.held().cloned());
        self.learn();
        Ok(())
    }

    /// An end of a line starts.
    pub fn end_up(&mut self, port: usize) -> Result<(), Refusal> {
        if !self.ports[port].is_down {
            return Err(Refusal::IsUp);
        }
        self.ports[port].is_down = false;
        Ok(())
    }
}

/// The body of a text: a bit 1 marks its end, and zeros fill the last two octets.
fn body_of(text: &Bits) -> Vec<u8> {
    let mut body = Vec::with_capacity(text.octets().len() + 2);
    body.extend_from_slice(text.octets());
    if text.len() % 8 == 0 {
        body.push(0x80);
    } else {
        body[text.len() / 8] |= 0x80 >> (text.len() % 8);
    }
    body.resize(body.len().next_multiple_of(2), 0);
    body
}

/// The text of a body: what is before its last bit 1. There is none if all bits are zero.
fn text_of(body: Vec<u8>) -> Option<Bits> {
    let last = body.iter().rposition(|it| *it != 0)?;
    let len = 8 * last + 7 - body[last].trailing_zeros() as usize;
    Some(if len == 0 { Bits::default() } else { Bits::new(body, len) })
}

impl Spell for Imp {
    fn spell(&self, to: &mut Vec<u8>) {
        self.claims.spell(to);
        for host in &self.hosts {
            host.is_up.spell(to);
            host.answers.spell(to);
            host.messages.len().spell(to);
            for Queued { flow, number, text } in &host.messages {
                flow.spell(to);
                number.spell(to);
                text.spell(to);
            }
        }
        for port in &self.ports {
            port.is_down.spell(to);
            port.end.spell(to);
            port.heard.is_some().spell(to);
            if let Some(heard) = &port.heard {
                spell_distances(heard, INFINITE, to);
            }
        }
        self.store.spell(to);
        self.spell_tables(to);
    }
}

impl Imp {
    /// Spells what is known of flows.
    fn spell_tables(&self, to: &mut Vec<u8>) {
        let mut slots: Vec<&Slot> = self.slots.iter().collect();
        slots.sort_unstable_by_key(|it| it.flow);
        slots.len().spell(to);
        for slot in slots {
            slot.flow.spell(to);
            slot.pieces.spell(to);
        }
        spell_sorted(self.sources.iter().filter(|it| it.1.begun > 0 || it.1.standing != Standing::Idle), to);
        spell_sorted(self.kept.iter(), to);
    }
}

impl Spell for Source {
    fn spell(&self, to: &mut Vec<u8>) {
        self.begun.spell(to);
        to.push(self.standing as u8);
    }
}

impl Spell for Kept {
    fn spell(&self, to: &mut Vec<u8>) {
        self.number.spell(to);
        to.push(self.fate as u8);
    }
}
