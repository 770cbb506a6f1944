//! The subnet: IMPs, and lines with the frames that are in transit on them.

use crate::carrier::{Carrier, NetEvent, Sight, Way};
use crate::imp::{Imp, INFINITE};
use crate::line::{Content, Frame};
use crate::names::{Crossing, Flow, Host, Inbound, Refusal, Text, MOST_IMPS};
use crate::spelling::Spell;
use crate::topology::Topology;
use std::collections::VecDeque;
use std::rc::Rc;

/// Most frames that are in transit on a line, each way.
const PLACES: usize = 256;

/// Where a line ends: an IMP, and its port there.
#[derive(Clone, Copy)]
struct LinePort {
    imp: u8,
    port: usize,
}

/// A line: its two ends, and the frames in transit each way, the oldest first.
#[derive(Clone)]
struct Line {
    ends: [LinePort; 2],
    live: [VecDeque<Frame>; 2],
}

/// A place where an IMP may be.
#[derive(Default)]
struct Site {
    exists: bool,
    hosts: u8,
    /// The lines at the IMP's ports, and the way that leads from it.
    ports: Vec<(usize, Way)>,
}

/// All IMPs and lines. Copies share the IMPs that are the same.
#[derive(Clone)]
pub struct Subnet {
    sites: Rc<[Site]>,
    /// The numbers of the IMPs that there are, in order.
    numbers: Rc<[u8]>,
    /// The IMPs that are up, by number.
    imps: Vec<Option<Rc<Imp>>>,
    lines: Vec<Line>,
    log: Vec<Crossing>,
    is_watched: bool,
    sights: Vec<Sight>,
}

impl Subnet {
    /// A subnet in which everything is up and nothing is in transit.
    pub fn new(topology: &Topology) -> Subnet {
        let mut sites: Vec<Site> = (0..=MOST_IMPS).map(|_| Site::default()).collect();
        for &(number, hosts) in &topology.imps {
            let site = &mut sites[number as usize];
            (site.exists, site.hosts) = (true, hosts);
        }
        let mut lines = Vec::new();
        for &(a, b) in &topology.lines {
            let mut end = |imp: u8, way| {
                let ports = &mut sites[imp as usize].ports;
                ports.push((lines.len(), way));
                LinePort { imp, port: ports.len() - 1 }
            };
            let ends = [end(a, 0), end(b, 1)];
            lines.push(Line { ends, live: Default::default() });
        }
        let numbers: Vec<u8> = (1..=MOST_IMPS).filter(|it| sites[*it as usize].exists).collect();
        let mut imps = vec![None; numbers.last().map_or(0, |it| *it as usize + 1)];
        for number in &numbers {
            let site = &sites[*number as usize];
            imps[*number as usize] = Some(Rc::new(Imp::new(*number, site.hosts, site.ports.len(), true)));
        }
        let (sites, numbers) = (sites.into(), numbers.into());
        Subnet { sites, numbers, imps, lines, log: Vec::new(), is_watched: false, sights: Vec::new() }
    }

    // What is there.

    /// The IMP of a number, if it is there and up.
    fn imp(&self, number: u8) -> Option<&Imp> {
        self.imps.get(number as usize)?.as_deref()
    }

    /// All IMPs that are up.
    fn imps(&self) -> impl Iterator<Item = &Imp> {
        self.numbers.iter().filter_map(|it| self.imp(*it))
    }

    /// There has to be an IMP of this number.
    fn check_site(&self, number: u8) -> Result<(), Refusal> {
        if self.sites[number as usize].exists {
            Ok(())
        } else {
            Err(Refusal::NoSuch)
        }
    }

    /// There has to be such a host.
    fn check_host(&self, host: Host) -> Result<(), Refusal> {
        if host.number < self.sites[host.imp as usize].hosts {
            Ok(())
        } else {
            Err(Refusal::NoSuch)
        }
    }

    /// The port of an IMP on a line.
    fn port_of(&self, number: u8, line: u32) -> Result<usize, Refusal> {
        self.check_site(number)?;
        let ports = &self.sites[number as usize].ports;
        ports.iter().position(|it| it.0 == line as usize).ok_or(Refusal::NoSuch)
    }

    /// Lets an IMP, which has to be up, do something, and puts its frames on its lines.
    fn at<T>(&mut self, number: u8, call: impl FnOnce(&mut Imp) -> Result<T, Refusal>) -> Result<T, Refusal> {
        let imp = Rc::make_mut(self.imps.get_mut(number as usize).and_then(Option::as_mut).ok_or(Refusal::IsDown)?);
        let given = call(imp)?;
        imp.pump();
        let noted = imp.noted.drain(..).map(|(fate, flow, number)| Sight::Noted(fate.word(), flow, number));
        if self.is_watched {
            self.sights.extend(noted);
        }
        let ports = &self.sites[number as usize].ports;
        for (port, frame) in imp.outbox.drain(..) {
            let (line, way) = ports[port as usize];
            let live = &mut self.lines[line].live[way];
            if live.len() < PLACES {
                live.push_back(frame);
            }
        }
        Ok(given)
    }

    // What is alive.

    /// Whether any packet or message is alive that is as asked for: its flow, its number, and whether it is for the destination.
    fn is_alive(&self, mut wanted: impl FnMut(Flow, u16, bool) -> bool) -> bool {
        self.imps().any(|imp| imp.holds(&mut wanted))
            || self.lines.iter().flat_map(|it| it.live.iter().flatten()).any(|frame| match &frame.content {
                Content::Packet { packet, .. } => wanted(packet.flow, packet.number, packet.kind.is_request()),
                _ => false,
            })
    }

    /// A message may not begin a number that could be mistaken for one that is still alive.
    fn check_offer(&self, flow: Flow) -> Result<(), Refusal> {
        let Some((next, oldest)) = self.imp(flow.source.imp).and_then(|it| it.beginning(flow)) else {
            return Ok(());
        };
        let lives = oldest.is_some_and(|oldest| self.is_alive(|it, number, _| (it, number) == (flow, oldest)));
        let is_kept = self.imp(flow.destination.imp).is_some_and(|it| it.keeps(flow, next));
        if lives || is_kept {
            Err(Refusal::StillAlive)
        } else {
            Ok(())
        }
    }

    // What happens to IMPs.

    /// The outstanding message of a flow is given up, unless it is still alive.
    fn give_up(&mut self, flow: Flow) -> Result<(), Refusal> {
        self.check_host(flow.source)?;
        if let Some(number) = self.imp(flow.source.imp).and_then(|it| it.outstanding(flow)) {
            if self.is_alive(|it, alive, _| (it, alive) == (flow, number)) {
                return Err(Refusal::StillAlive);
            }
        }
        self.at(flow.source.imp, |imp| imp.give_up(flow))
    }

    /// The IMP of a flow's source asks what became of its message.
    fn ask(&mut self, flow: Flow) -> Result<(), Refusal> {
        self.check_host(flow.source)?;
        self.at(flow.source.imp, |imp| imp.ask(flow))
    }

    /// The IMP of a flow's destination throws its pieces away. One that is down has none.
    fn abandon(&mut self, flow: Flow) -> Result<(), Refusal> {
        self.imp(flow.destination.imp).ok_or(Refusal::NoSuch)?;
        self.at(flow.destination.imp, |imp| imp.abandon(flow))
    }

    /// An IMP forgets the flows from another one.
    fn forget(&mut self, at: u8, other: u8) -> Result<(), Refusal> {
        self.check_site(at)?;
        self.check_site(other)?;
        if at == other {
            return Err(Refusal::NoSuch);
        }
        let is_awaited = self.imp(other).is_some_and(|it| it.awaits(at));
        if is_awaited || self.is_alive(|flow, _, is_request| is_request && (flow.source.imp, flow.destination.imp) == (other, at)) {
            return Err(Refusal::StillAlive);
        }
        self.at(at, |imp| {
            imp.forget(other);
            Ok(())
        })
    }

    /// An IMP stops, and its hosts with it. What it held is gone.
    fn imp_down(&mut self, number: u8) -> Result<(), Refusal> {
        self.check_site(number)?;
        let imp = self.imps.get_mut(number as usize).and_then(Option::take).ok_or(Refusal::IsDown)?;
        self.log.extend(imp.hosts_up().map(Crossing::Down));
        Ok(())
    }

    /// An IMP starts anew, once nothing is left of its flows.
    fn imp_up(&mut self, number: u8) -> Result<(), Refusal> {
        self.check_site(number)?;
        let others = || self.numbers.iter().filter(|it| **it != number).filter_map(|it| self.imp(*it));
        let is_known = others().any(|it| it.keeps_any_from(number) || it.awaits(number));
        if is_known || self.is_alive(|flow, _, _| flow.source.imp == number || flow.destination.imp == number) {
            return Err(Refusal::StillAlive);
        }
        if self.imp(number).is_some() {
            return Err(Refusal::IsUp);
        }
        let site = &self.sites[number as usize];
        self.imps[number as usize] = Some(Rc::new(Imp::new(number, site.hosts, site.ports.len(), false)));
        Ok(())
    }

    /// A host stops.
    fn host_down(&mut self, host: Host) -> Result<(), Refusal> {
        self.check_host(host)?;
        self.at(host.imp, |imp| imp.host_down(host))?;
        self.log.push(Crossing::Down(host));
        Ok(())
    }

    /// A host starts.
    fn host_up(&mut self, host: Host) -> Result<(), Refusal> {
        self.check_host(host)?;
        self.at(host.imp, |imp| imp.host_up(host))?;
        self.log.push(Crossing::Up(host));
        Ok(())
    }

    // What happens on lines.

    /// The frame at a place of a line, and where the line leads.
    fn frame(&self, line: u32, way: Way, place: u32) -> Result<(LinePort, &Frame), Refusal> {
        let line = self.lines.get(line as usize).ok_or(Refusal::NoSuch)?;
        let frame = line.live[way].get(place as usize).ok_or(Refusal::NoSuch)?;
        Ok((line.ends[1 - way], frame))
    }

    /// A frame arrives, and stays on its line.
    fn deliver(&mut self, line: u32, way: Way, place: u32) -> Result<(), Refusal> {
        let (end, frame) = self.frame(line, way, place)?;
        let frame = frame.clone();
        self.arrive(end, frame);
        Ok(())
    }

    /// A frame comes to an end of a line. Answers whether it told anything but distances that were known.
    fn arrive(&mut self, end: LinePort, frame: Frame) -> bool {
        self.see_arrival(end, &frame);
        self.at(end.imp, |imp| Ok(imp.from_line(end.port, frame))).unwrap_or(false)
    }

    /// A packet that is for this IMP is seen, if anybody watches.
    fn see_arrival(&mut self, end: LinePort, frame: &Frame) {
        let Content::Packet { packet, .. } = &frame.content else { return };
        let is_up = || self.imp(end.imp).is_some_and(|it| it.has_end_up(end.port));
        if self.is_watched && packet.target() == end.imp && is_up() {
            let mut octets = Vec::new();
            packet.spell(&mut octets);
            self.sights.push(Sight::Arrived(packet.kind.word(), packet.flow, packet.number, octets));
        }
    }

    /// A frame is lost.
    fn drop_frame(&mut self, line: u32, way: Way, place: u32) -> Result<(), Refusal> {
        self.frame(line, way, place)?;
        self.lines[line as usize].live[way].remove(place as usize);
        Ok(())
    }
}

impl Carrier for Subnet {
    fn hosts(&self) -> Vec<Host> {
        let all = self.numbers.iter().flat_map(|imp| (0..self.sites[*imp as usize].hosts).map(|number| Host { imp: *imp, number }));
        all.collect()
    }

    fn is_up(&self, host: Host) -> bool {
        self.imp(host.imp).is_some_and(|it| it.is_up(host))
    }

    fn log(&self) -> &[Crossing] {
        &self.log
    }

    fn forget_log(&mut self) {
        self.log.clear();
    }

    fn watch(&mut self) {
        self.is_watched = true;
    }

    fn sights(&mut self) -> Vec<Sight> {
        std::mem::take(&mut self.sights)
    }

    fn is_all_up(&self) -> bool {
        self.numbers.iter().all(|it| self.imp(*it).is_some_and(Imp::is_all_up))
    }

    fn holds_packets(&self) -> bool {
        self.imps().any(Imp::holds_packets)
    }

    fn offer(&mut self, flow: Flow, text: Text) -> Result<(), Refusal> {
        self.check_host(flow.source)?;
        self.check_offer(flow)?;
        self.at(flow.source.imp, |imp| imp.from_host(flow, &text))?;
        self.log.push(Crossing::Out(flow, text));
        Ok(())
    }

    fn take(&mut self, host: Host) -> Result<Option<Inbound>, Refusal> {
        self.check_host(host)?;
        let given = self.at(host.imp, |imp| imp.to_host(host))?;
        match &given {
            Some(Inbound::Message(flow, text)) => self.log.push(Crossing::In(*flow, text.clone())),
            Some(Inbound::Answer(answer, flow)) => self.log.push(Crossing::Answer(*answer, *flow)),
            None => (),
        }
        Ok(given)
    }

    fn happen(&mut self, event: NetEvent) -> Result<(), Refusal> {
        match event {
            NetEvent::GiveUp(flow) => self.give_up(flow),
            NetEvent::Ask(flow) => self.ask(flow),
            NetEvent::Abandon(flow) => self.abandon(flow),
            NetEvent::HostDown(host) => self.host_down(host),
            NetEvent::HostUp(host) => self.host_up(host),
            NetEvent::Deliver(line, way, place) => self.deliver(line, way, place),
            NetEvent::Drop(line, way, place) => self.drop_frame(line, way, place),
            NetEvent::ImpDown(number) => self.imp_down(number),
            NetEvent::ImpUp(number) => self.imp_up(number),
            NetEvent::Forget(at, other) => self.forget(at, other),
            NetEvent::Resend(number) => {
                self.check_site(number)?;
                self.at(number, |imp| Ok(imp.resend()))
            }
            NetEvent::Route(number) => {
                self.check_site(number)?;
                self.at(number, |imp| Ok(imp.tell_routes()))
            }
            NetEvent::Claim(number) => {
                self.check_site(number)?;
                self.at(number, |imp| {
                    imp.claim();
                    Ok(())
                })
            }
            NetEvent::EndDown(number, line) => {
                let port = self.port_of(number, line)?;
                self.at(number, |imp| imp.end_down(port))
            }
            NetEvent::EndUp(number, line) => {
                let port = self.port_of(number, line)?;
                self.at(number, |imp| imp.end_up(port))
            }
        }
    }

    fn quiet_round(&mut self) -> bool {
        for place in 0..self.numbers.len() {
            let number = self.numbers[place];
            if self.imp(number).is_some() {
                let told = self.at(number, |imp| {
                    imp.tell_routes();
                    imp.resend();
                    Ok(())
                });
                told.expect("an IMP that is up");
            }
        }
        let mut is_settled = true;
        for line in 0..self.lines.len() {
            for way in 0..2 {
                for _ in 0..self.lines[line].live[way].len() {
                    let Some(frame) = self.lines[line].live[way].pop_front() else { break };
                    let end = self.lines[line].ends[1 - way];
                    is_settled &= !self.arrive(end, frame);
                }
            }
        }
        is_settled && self.lines.iter().all(|it| it.live.iter().all(VecDeque::is_empty))
    }
}

impl Spell for Subnet {
    fn spell(&self, to: &mut Vec<u8>) {
        for number in self.numbers.iter() {
            let imp = self.imp(*number);
            imp.is_some().spell(to);
            if let Some(imp) = imp {
                imp.spell(to);
            }
        }
        for live in self.lines.iter().flat_map(|it| &it.live) {
            live.len().spell(to);
            live.iter().for_each(|it| it.spell(INFINITE, to));
        }
    }
}
