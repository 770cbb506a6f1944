//! Hosts that run their programs over a carrier, what else runs on them, and the book of their connections.

use crate::book::{Book, Notice, Reason, Report, Role};
use crate::carrier::Carrier;
use crate::names::{places_of, Crossing, Host, Refusal, Text};
use crate::printing::Printer;
use crate::program::Program;
use crate::raw::TAKES;
use crate::script::{Event, Request};
use crate::services::{follower, Service, Services};
use crate::spelling::Spell;
use std::rc::Rc;

/// So often a host offers in a round of a calm at most.
const OFFERS: usize = 32;

/// A host of the network.
#[derive(Clone)]
struct Seat {
    /// Its program, while it is up.
    program: Option<Program>,
    services: Services,
    /// The send socket of the terminal whose user was done last.
    terminal: Option<u32>,
}

/// A carrier, the hosts, and the book. Copies share the hosts that are the same.
#[derive(Clone)]
pub struct World<C: Carrier> {
    pub carrier: C,
    hosts: Rc<[Host]>,
    seats: Vec<Option<Rc<Seat>>>,
    pub book: Book,
    /// How many crossings the carrier's log had before those that it has now.
    past: usize,
}

impl<C: Carrier> World<C> {
    /// A world whose hosts are all up.
    pub fn new(carrier: C) -> World<C> {
        let hosts = carrier.hosts();
        let mut seats = vec![None; places_of(&hosts)];
        for host in &hosts {
            let seat = Seat { program: Some(Program::new(*host)), services: Services::default(), terminal: None };
            seats[host.index()] = Some(Rc::new(seat));
        }
        World { carrier, hosts: hosts.into(), seats, book: Book::default(), past: 0 }
    }

    /// How many crossings there were.
    fn place(&self) -> usize {
        self.past + self.carrier.log().len()
    }

    /// Forgets what crossed, what users were told, and lives too if that is said.
    pub fn forget(&mut self, forgets_lives: bool) {
        self.past = self.place();
        self.carrier.forget_log();
        self.book.forget(forgets_lives);
    }

    /// The programs of hosts that are up, with their hosts.
    pub fn programs(&self) -> impl Iterator<Item = (Host, &Program)> {
        let seats = self.hosts.iter().filter_map(|it| Some((*it, self.seats[it.index()].as_ref()?)));
        seats.filter_map(|(host, seat)| Some((host, seat.program.as_ref()?)))
    }

    /// Appends the state of the carrier and of all hosts as octets. Lives, and the places of requests in the log by their order,
    /// only if that is said.
    pub fn spell(&self, with_lives: bool, to: &mut Vec<u8>) {
        self.carrier.spell(to);
        for seat in self.seats.iter().flatten() {
            seat.program.is_some().spell(to);
            if let Some(program) = &seat.program {
                program.spell(to);
            }
            seat.services.spell(to);
            seat.terminal.spell(to);
        }
        if with_lives {
            self.spell_lives(to);
        }
    }

    /// Appends the lives, and the places of requests.
    fn spell_lives(&self, to: &mut Vec<u8>) {
        let mut ends: Vec<_> = self
            .programs()
            .flat_map(|(host, program)| program.pairs().map(move |it| (host, it)))
            .flat_map(|(host, (peer, pair))| pair.stamps().map(move |(key, stamps)| ((host, peer, *key), stamps)))
            .collect();
        ends.sort_unstable();
        let mut stamps: Vec<usize> = ends.iter().flat_map(|it| it.1).flatten().chain(self.book.stamps()).collect();
        stamps.sort_unstable();
        stamps.dedup();
        for stamp in ends.iter().flat_map(|it| it.1).flatten() {
            to.push(stamps.partition_point(|it| *it < stamp) as u8);
        }
        self.book.spell(&stamps, to);
    }
}

/// A world in which events happen, and what is printed of them.
pub struct Replay<'a, C: Carrier> {
    pub world: &'a mut World<C>,
    pub printer: &'a mut Printer,
}

impl<C: Carrier> Replay<'_, C> {
    /// Replays events.
    pub fn replay(&mut self, events: Vec<Event>) {
        for event in events {
            if let Err(refusal) = self.happen(&event) {
                self.printer.refused(refusal);
            }
            if self.printer.has_failed() {
                return;
            }
        }
    }

    /// Prints the lives of connections.
    pub fn print_lives(&mut self) {
        self.world.book.print_lives(self.printer);
    }

    /// Lets an event happen.
    pub fn happen(&mut self, event: &Event) -> Result<(), Refusal> {
        match *event {
            Event::Net(event) => self.carry(|carrier| carrier.happen(event)),
            Event::Take(host) => self.take(host).map(|_| ()),
            Event::Offer(host) => self.offer(host).map(|_| ()),
            Event::Calm(rounds) => {
                self.calm(rounds);
                Ok(())
            }
            Event::Ask(host, ref request) => self.ask(host, request),
            Event::Server { host, listens, base } => self.start(host, Service::server(listens, base)),
            Event::User { host, peer, server, own } => self.start(host, Service::user(peer, server, own)),
            Event::Typed(host, ref text) => self.typed(host, text.clone()),
            Event::Out(..) => Ok(()),
        }
    }

    /// The seat of a host that is known to be there.
    fn seat(&mut self, host: Host) -> &mut Seat {
        Rc::make_mut(self.world.seats[host.index()].as_mut().expect("a host of the network"))
    }

    /// The program of a host, which has to be there and up, as it is.
    fn running(&self, host: Host) -> Result<&Program, Refusal> {
        let seat = self.world.seats.get(host.index()).and_then(Option::as_deref).ok_or(Refusal::NoSuch)?;
        seat.program.as_ref().ok_or(Refusal::IsDown)
    }

    /// The program of a host, which has to be there and up, to be changed.
    fn program(&mut self, host: Host) -> Result<&mut Program, Refusal> {
        let seat = self.world.seats.get_mut(host.index()).and_then(Option::as_mut).ok_or(Refusal::NoSuch)?;
        Rc::make_mut(seat).program.as_mut().ok_or(Refusal::IsDown)
    }

    // What the carrier does.

    /// Lets the carrier do something, prints what crosses, and stops and starts programs.
    fn carry<T>(&mut self, call: impl FnOnce(&mut C) -> Result<T, Refusal>) -> Result<T, Refusal> {
        let before = self.world.carrier.log().len();
        let given = call(&mut self.world.carrier)?;
        let crossed = &self.world.carrier.log()[before..];
        for crossing in crossed {
            let (Crossing::Down(host) | Crossing::Up(host)) = *crossing else { continue };
            let is_up = matches!(crossing, Crossing::Up(_));
            let program = is_up.then(|| Program::new(host));
            self.world.seats[host.index()] = Some(Rc::new(Seat { program, services: Services::default(), terminal: None }));
            self.world.book.stop(host);
        }
        self.printer.crossings(crossed);
        Ok(given)
    }

    /// A host's next message goes out. Answers whether there was one.
    fn offer(&mut self, host: Host) -> Result<bool, Refusal> {
        let Some(mut next) = self.running(host)?.next() else { return Ok(false) };
        let (flow, text) = (next.flow, Text::new(std::mem::take(&mut next.text)));
        let place = self.world.place();
        self.carry(|carrier| carrier.offer(flow, text))?;
        let notices = self.program(host)?.gone(flow, next.into_parcel(), place);
        self.tell(host, notices);
        Ok(true)
    }

    /// A host takes what waits for it. Answers whether there was something.
    fn take(&mut self, host: Host) -> Result<bool, Refusal> {
        self.running(host)?;
        let place = self.world.place();
        let Some(inbound) = self.carry(|carrier| carrier.take(host))? else { return Ok(false) };
        let notices = self.program(host)?.accept(&inbound, place);
        self.tell(host, notices);
        Ok(true)
    }

    /// This many rounds, in each of which every host that is up takes what waits and then offers what it has, until one changes
    /// nothing.
    fn calm(&mut self, rounds: u32) {
        for _ in 0..rounds {
            if self.round() || self.printer.has_failed() {
                return;
            }
        }
    }

    /// A round of a calm. Answers whether it changed nothing, so that no further one would.
    pub fn round(&mut self) -> bool {
        let hosts = self.world.hosts.clone();
        let before = self.world.carrier.log().len();
        let is_settled = self.world.carrier.quiet_round();
        for host in hosts.iter() {
            if self.world.carrier.is_up(*host) {
                repeat(TAKES, || self.take(*host));
                repeat(OFFERS, || self.offer(*host));
            }
        }
        is_settled && self.world.carrier.log().len() == before
    }

    // What users ask for.

    /// A user asks for something, and is told what comes of it.
    fn ask(&mut self, host: Host, request: &Request) -> Result<(), Refusal> {
        let notices = self.request(host, request)?;
        self.tell(host, notices);
        Ok(())
    }

    /// A request to a host's program, and what the book has of it.
    fn request(&mut self, host: Host, request: &Request) -> Result<Vec<Notice>, Refusal> {
        let notices = self.program(host)?.ask(request)?;
        match *request {
            Request::Contact(peer) => self.world.book.contact(host, peer, self.world.place()),
            Request::Send(socket, ref bits) => self.world.book.hand(host, socket, bits),
            Request::Grant { socket, messages, bits } => self.world.book.grant(host, socket, messages, bits),
            _ => (),
        }
        Ok(notices)
    }

    /// A line is typed at the terminal of a host.
    fn typed(&mut self, host: Host, text: Text) -> Result<(), Refusal> {
        self.running(host)?;
        let socket = self.seat(host).terminal.ok_or(Refusal::NotOpen)?;
        self.request(host, &Request::Send(socket, text)).map(|_| ())
    }

    // What runs on hosts.

    /// A service begins.
    fn start(&mut self, host: Host, service: Service) -> Result<(), Refusal> {
        self.running(host)?;
        let place = self.seat(host).services.add(service);
        let requests = self.seat(host).services.at(place).start();
        self.run(host, place, requests);
        Ok(())
    }

    /// Writes notices into the book; then prints each, and what the host's services make of it.
    fn tell(&mut self, host: Host, notices: Vec<Notice>) {
        let crossings = self.world.place();
        for notice in &notices {
            self.world.book.tell(host, crossings, notice.clone());
        }
        for notice in notices {
            self.print_notice(host, &notice);
            for place in self.seat(host).services.listeners(&notice) {
                let requests = self.seat(host).services.at(place).hear(&notice);
                self.run(host, place, requests);
            }
        }
    }

    /// Runs what a service asks for, and prints what it reports.
    fn run(&mut self, host: Host, place: usize, requests: Vec<Request>) {
        for request in &requests {
            if self.request(host, request).is_err() && self.seat(host).services.at(place).refused() {
                break;
            }
        }
        for report in self.seat(host).services.at(place).reports() {
            self.report(host, place, report);
        }
    }

    /// A service reports something. What follows a machine that is done begins at once.
    fn report(&mut self, host: Host, place: usize, report: Report) {
        self.print_report(host, &report);
        self.world.book.report(host, report.clone());
        match report {
            Report::Line(_) => (),
            Report::Failed(..) => self.seat(host).services.ended(place, None),
            Report::Done { role, receives, sends } => {
                self.seat(host).services.ended(place, Some(follower(role, receives, sends)));
                if let Role::User = role {
                    self.seat(host).terminal = Some(sends);
                }
                let requests = self.seat(host).services.at(place).start();
                self.run(host, place, requests);
            }
        }
    }

    // What is printed of it.

    /// Prints what a user is told.
    fn print_notice(&mut self, host: Host, notice: &Notice) {
        let printer = &mut *self.printer;
        match *notice {
            Notice::Ready(peer) => printer.word(b"ready").host(host).host(peer),
            Notice::ContactFailed(peer) => printer.word(b"contactfailed").host(host).host(peer),
            Notice::PairReset(peer) => printer.word(b"pairreset").host(host).host(peer),
            Notice::Opened { socket, peer, foreign, .. } => {
                printer.word(b"opened").host(host).number(socket.into()).host(peer).number(foreign.into())
            }
            Notice::Ended { socket, peer, foreign } => {
                printer.word(b"ended").host(host).number(socket.into()).host(peer).number(foreign.into())
            }
            Notice::Sent(socket, ref bits) => printer.word(b"sent").host(host).number(socket.into()).number(bits.len() as u64),
            Notice::Arrived(socket, ref bits) => {
                printer.word(b"arrived").host(host).number(socket.into()).number(bits.len() as u64)
            }
            Notice::Returned { socket, messages, bits } => {
                printer.word(b"returned").host(host).number(socket.into()).number(messages.into()).number(bits.into())
            }
            Notice::Interrupt(socket) => printer.word(b"interrupt").host(host).number(socket.into()),
            Notice::Echoed(peer, octet) => printer.word(b"echoed").host(host).host(peer).number(octet.into()),
            Notice::Error(peer, code, _) => printer.word(b"error").host(host).host(peer).number(code.into()),
        };
        printer.end();
    }

    /// Prints what a service reports.
    fn print_report(&mut self, host: Host, report: &Report) {
        let printer = &mut *self.printer;
        match report {
            Report::Done { role, receives, sends } => {
                printer.word(b"done").word(role_name(*role)).host(host).number((*receives).into()).number((*sends).into())
            }
            Report::Failed(role, reason) => printer.word(b"failed").word(role_name(*role)).host(host).word(reason_name(*reason)),
            Report::Line(text) => {
                let shown: Vec<u8> = text.iter().map(|it| if (32..=126).contains(it) { *it } else { b'?' }).collect();
                printer.word(b"line").host(host).word(&shown)
            }
        };
        printer.end();
    }
}

/// Repeats something until it has nothing to do or is refused, so often at most.
fn repeat(times: usize, mut event: impl FnMut() -> Result<bool, Refusal>) {
    for _ in 0..times {
        if !matches!(event(), Ok(true)) {
            return;
        }
    }
}

/// The word of a machine of the initial connection.
fn role_name(role: Role) -> &'static [u8] {
    match role {
        Role::Server => b"server",
        Role::User => b"user",
    }
}

/// The word of a reason.
fn reason_name(reason: Reason) -> &'static [u8] {
    match reason {
        Reason::BadSocket => b"badsocket",
        Reason::Refused => b"refused",
        Reason::Reset => b"reset",
        Reason::Stranger => b"stranger",
        Reason::Local => b"local",
    }
}
