//! Lets what standard input names happen event by event until memory runs out, and looks at what is left then.
//!
//! The first line says where: `world plain IMPS` or `world subnet IMPS`, a host with its program at each of this many IMPs, over
//! mailboxes or over IMPs in a row; or `raw plain IMPS` or `raw subnet IMPS`, that carrier by itself. The others are lines of a script;
//! of a calm each round is a quiet round, and in a world then three takings and two offers of each host, all of them single
//! events.
//! Where an event runs out of memory, the book, and of a carrier the log, has to be what it was before that event, and every later
//! call has to be refused as `Stopped`: the status is 3 then. It is 4 where memory ran out anywhere else, as in making the
//! world. In every other case it is 0, and what was seen is printed. `check steps` makes each allocation fail in turn.
#![tactic(auto)]

use interface::{Carrier, CarrierFault, Direction, HostAddr, NetEvent};
use leader1822::PlainBoxes;
use net_sim::{BitLog, Book, Event, World, WorldFault};
use script::{RawEvent, read_script};
use sockets::{NcpFault, Request};
use std::alloc::Global;
use std::io::Read;
use std::process::ExitCode;
use subnet::{Ends, Subnet};
use world_script::{WorldEvent, read_world_script};

/// How many octets a text has room for from the start.
const ROOM: usize = 1 << 16;

/// What was seen.
#[derive(Clone, Copy, Drop, PartialEq)]
enum Seen {
    /// Every event happened or was refused.
    End,
    /// Memory ran out in an event, and all was as it has to be.
    Stopped,
    /// Memory ran out in an event that changed the book or the log.
    Changed,
    /// A call after that was not refused as it has to be.
    GoesOn,
}

fn main(rt: HostRuntime) -> ExitCode {
    let (said, status) = match seen(&rt, rt.alloc()) {
        None => ("no memory outside of events", 4),
        Some(Seen::Stopped) => ("stopped", 3),
        Some(Seen::End) => ("end", 0),
        Some(Seen::Changed) => ("what happened before has changed", 0),
        Some(Seen::GoesOn) => ("a later call goes on", 0),
    };
    let _ = println!(rt; "{said}");
    ExitCode::from(status)
}

/// What is seen of the input. `None` where memory runs out elsewhere.
fn seen<R: Input + AllocGlobal>(rt: &R, alloc: Global) -> Option<Seen> {
    let mut octets = Vec::new(alloc);
    let mut reader = rt.reader();
    reader.read_to_end(&mut octets).ok()?;
    let text = str::from_utf8(&octets).ok()?;
    let (place, script) = text.split_once('\n')?;
    let (place, count) = place.rsplit_once(' ')?;
    let count = count.parse::<u8>().ok()?;
    let mut hosts = Vec::new(alloc);
    for imp in 1..=count {
        hosts.push(HostAddr::new(0, imp)?).ok()?;
    }
    match place {
        "world plain" => of_world(alloc, PlainBoxes::new(alloc, hosts), script),
        "world subnet" => of_world(alloc, in_a_row(alloc, hosts, count)?, script),
        "raw plain" => of_carrier(alloc, PlainBoxes::new(alloc, hosts), script),
        "raw subnet" => of_carrier(alloc, in_a_row(alloc, hosts, count)?, script),
        _ => None,
    }
}

/// The host at IMP 1.
fn first() -> Option<HostAddr> {
    HostAddr::new(0, 1)
}

/// The host at IMP 2.
fn second() -> Option<HostAddr> {
    HostAddr::new(0, 2)
}

/// This many IMPs in a row, with a host each.
fn in_a_row(alloc: Global, hosts: Vec<HostAddr>, count: u8) -> Option<Subnet> {
    let mut sites = Vec::new(alloc);
    let mut ends = Vec::new(alloc);
    sites.push(None).ok()?;
    for imp in 1..=count {
        sites.push(Some(1)).ok()?;
        if imp < count {
            ends.push(Ends { a: imp, b: imp + 1 }).ok()?;
        }
    }
    Subnet::new(alloc, hosts, sites, &ends).ok()
}

/// What is seen of a world over a carrier.
fn of_world<C: Carrier>(alloc: Global, carrier: C, script: &str) -> Option<Seen> {
    let mut events = Vec::new(alloc);
    for event in read_world_script(alloc, script.as_bytes(), false).ok()? {
        match event {
            WorldEvent::Happen(event) => events.push(event).ok()?,
            WorldEvent::Calm(rounds) => {
                for _ in 0..rounds {
                    add_round(&mut events)?;
                }
            }
        }
    }
    let mut world = World::new(alloc, carrier).ok()?;
    let mut sizes = sizes_of(&world.book());
    let mut before = told(alloc, &world.book())?;
    for event in events {
        let is_asked = !matches!(event, Event::Quiet | Event::Take(_) | Event::Offer(_));
        let done = world.step(event);
        if done == Err(WorldFault::Carrier(CarrierFault::OutOfMemory)) || done == Err(WorldFault::Program(NcpFault::OutOfMemory)) {
            let same = told(alloc, &world.book())?.as_str() == before.as_str();
            return Some(if !same { Seen::Changed } else if is_stopped(alloc, &mut world)? { Seen::Stopped } else { Seen::GoesOn });
        }
        let now = sizes_of(&world.book());
        if is_asked || now != sizes {
            sizes = now;
            before = told(alloc, &world.book())?;
        }
    }
    Some(Seen::End)
}

/// Puts the events of a calm's round after others.
fn add_round(events: &mut Vec<Event>) -> Option<()> {
    events.push(Event::Quiet).ok()?;
    for host in [first()?, second()?] {
        for _ in 0..3 {
            events.push(Event::Take(host)).ok()?;
        }
        for _ in 0..2 {
            events.push(Event::Offer(host)).ok()?;
        }
    }
    Some(())
}

/// How much is in a book. Where nothing is asked for, lives change only where something is reported.
fn sizes_of(book: &Book) -> [usize; 6] {
    let mut handed = 0;
    for bits in book.handed() {
        handed += bits.len();
    }
    [
        book.crossings().len(),
        book.notices().len(),
        book.contacts().len(),
        book.reports().len(),
        book.lives().len(),
        handed,
    ]
}

/// All that is in a book, as text.
fn told(alloc: Global, book: &Book) -> Option<String> {
    let mut text = String::with_capacity(alloc, ROOM).ok()?;
    write!(text, "{:?} {:?} {:?} ", book.crossings(), book.notices(), book.contacts()).ok()?;
    write!(text, "{:?}", book.reports()).ok()?;
    for life in book.lives() {
        write!(text, " {:?} {} {:?} {}", life.host, life.socket, life.peer, life.foreign).ok()?;
        write!(text, " {} {} {}", life.own_stamp, life.partner_stamp, life.messages).ok()?;
        write!(text, " {:?} {:?} {} ", life.granted, life.returned, life.ended).ok()?;
        tell_bits(&life.bits, &mut text)?;
    }
    for bits in book.handed() {
        write!(text, " ").ok()?;
        tell_bits(bits, &mut text)?;
    }
    Some(text)
}

/// The bits of a list, and not what it holds after them since it was cut back.
fn tell_bits(bits: &BitLog, text: &mut String) -> Option<()> {
    for place in 0..bits.len() {
        let digit = if bits.get(place)? { "1" } else { "0" };
        write!(text, "{digit}").ok()?;
    }
    Some(())
}

/// Whether a world refuses its calls as stopped.
fn is_stopped<C: Carrier>(alloc: Global, world: &mut World<C>) -> Option<bool> {
    let (host, peer) = (first()?, second()?);
    let answers = [
        world.step(Event::Quiet),
        world.step(Event::Take(host)),
        world.step(Event::Offer(host)),
        world.step(Event::Ask(host, Request::Contact { peer })),
        world.step(Event::Net(NetEvent::HostDown(peer))),
        world.run(Vec::new(alloc)),
        world.calm(0),
    ];
    Some(answers.iter().all(|it| *it == Err(WorldFault::Carrier(CarrierFault::Stopped))))
}

/// All that is in a carrier's log, as text.
fn logged<C: Carrier>(alloc: Global, carrier: &C) -> Option<String> {
    let mut text = String::with_capacity(alloc, ROOM).ok()?;
    write!(text, "{:?}", carrier.log()).ok()?;
    Some(text)
}

/// What is seen of a carrier by itself.
fn of_carrier<C: Carrier>(alloc: Global, mut carrier: C, script: &str) -> Option<Seen> {
    for event in read_script(alloc, script.as_bytes()).ok()? {
        let rounds = if let RawEvent::Calm(rounds) = event { rounds } else { 0 };
        let mut done = match event {
            RawEvent::Calm(_) => Ok(()),
            other => after(alloc, &mut carrier, other)?,
        };
        for _ in 0..rounds {
            if done.is_ok() {
                done = after(alloc, &mut carrier, RawEvent::Calm(1))?;
            }
        }
        if let Err(seen) = done {
            return Some(seen);
        }
    }
    Some(Seen::End)
}

/// Lets one event happen. What is seen, where memory runs out in it.
fn after<C: Carrier>(alloc: Global, carrier: &mut C, event: RawEvent) -> Option<Result<(), Seen>> {
    let before = logged(alloc, carrier)?;
    let done = match event {
        RawEvent::Out(message) => carrier.offer_out(message),
        RawEvent::Take(host) => carrier.take_in(host).map(|_| ()),
        RawEvent::Net(event) => carrier.step(event),
        RawEvent::Calm(_) => carrier.quiet_round(),
    };
    if done != Err(CarrierFault::OutOfMemory) {
        return Some(Ok(()));
    }
    if logged(alloc, carrier)?.as_str() != before.as_str() {
        return Some(Err(Seen::Changed));
    }
    let (host, stopped) = (first()?, Err(CarrierFault::Stopped));
    let frame = NetEvent::Deliver { line: 0, direction: Direction::Forward, frame: 0 };
    let is_stopped = carrier.quiet_round() == stopped
        && carrier.step(NetEvent::HostDown(host)) == stopped
        && carrier.step(frame) == stopped
        && carrier.take_in(host).map(|_| ()) == stopped;
    Some(Err(if is_stopped { Seen::Stopped } else { Seen::GoesOn }))
}
