//! Calls on worlds: hosts with their programs, and strangers.
//!
//! A block begins with `world` and a network, as `subnet` has it; without `/` it is one of plain boxes. Where `foreign` and hosts follow, these are
//! strangers, or it is answered why there is no such world. What happens is written as in a script, and `calm COUNT` is that many rounds. `run EVENTS` lets
//! several happen, with ` ; ` between them, and doesn't say which are refused; `turn EVENT` lets one happen as in a calm. Answers are `ok` or `refused FAULT`,
//! and then what the book has more: each crossing, as the simulator prints it, `told HOST PLACE NOTICE`, `called HOST PLACE PEER` and
//! `reported HOST NOTICES REPORT`. `rests`, `silent` and `strangers` ask the world, and `log` gives the log of its book. `audit CHANGES` says what an
//! audit finds in that log, in which `LINE TEXT` puts a text in the place of a line, `+LINE TEXT` puts it before that line, and `LINE` takes it away, with ` ; ` between them.

use crate::Layer;
use crate::host_calls;
use crate::service_calls::spell_end;
use crate::subnet_calls::{Network, network};
use crate::words::Words;
use crate::{play, tell};
use book_log::{LogFault, print_log, read_log};
use interface::{Carrier, HostAddr};
use leader1822::PlainBoxes;
use net_sim::{Audit, BitLog, Book, Event, Finding, MixedWorld, Report, Reported, StrangersFault, World, WorldFault, audit, locate};
use replay::Printer;
use std::alloc::Global;
use subnet::Subnet;
use world_script::{WorldEvent, read_world_script};

/// What stands between two events, or between two changes of a log.
const JOINT: &str = " ; ";

/// A world, with strangers or without.
trait Hosted: Drop {
    fn step(&mut self, event: Event) -> Result<(), WorldFault>;
    fn turn(&mut self, event: Event) -> Result<(), WorldFault>;
    fn run(&mut self, events: Vec<Event>) -> Result<(), WorldFault>;
    fn calm(&mut self, rounds: u32) -> Result<(), WorldFault>;
    fn book(&self) -> Book<'_>;
    fn handed(&self) -> &[BitLog];
    fn strangers(&self) -> &[HostAddr];
    fn rests(&self) -> bool;
    fn is_silent(&self) -> bool;
}

impl<C: Carrier> Hosted for World<C> {
    fn step(&mut self, event: Event) -> Result<(), WorldFault> {
        World::step(self, event)
    }

    fn turn(&mut self, event: Event) -> Result<(), WorldFault> {
        World::step(self, event)
    }

    fn run(&mut self, events: Vec<Event>) -> Result<(), WorldFault> {
        World::run(self, events)
    }

    fn calm(&mut self, rounds: u32) -> Result<(), WorldFault> {
        World::calm(self, rounds)
    }

    fn book(&self) -> Book<'_> {
        World::book(self)
    }

    fn handed(&self) -> &[BitLog] {
        World::handed(self)
    }

    fn strangers(&self) -> &[HostAddr] {
        &[]
    }

    fn rests(&self) -> bool {
        World::rests(self)
    }

    fn is_silent(&self) -> bool {
        World::is_silent(self)
    }
}

impl<C: Carrier> Hosted for MixedWorld<C> {
    fn step(&mut self, event: Event) -> Result<(), WorldFault> {
        MixedWorld::step(self, event)
    }

    fn turn(&mut self, event: Event) -> Result<(), WorldFault> {
        MixedWorld::turn(self, &event)
    }

    fn run(&mut self, events: Vec<Event>) -> Result<(), WorldFault> {
        MixedWorld::run(self, events)
    }

    fn calm(&mut self, rounds: u32) -> Result<(), WorldFault> {
        MixedWorld::calm(self, rounds)
    }

    fn book(&self) -> Book<'_> {
        MixedWorld::book(self)
    }

    fn handed(&self) -> &[BitLog] {
        MixedWorld::handed(self)
    }

    fn strangers(&self) -> &[HostAddr] {
        MixedWorld::strangers(self)
    }

    fn rests(&self) -> bool {
        MixedWorld::rests(self)
    }

    fn is_silent(&self) -> bool {
        MixedWorld::is_silent(self)
    }
}

impl<C: Carrier> Layer for World<C> {
    fn call(&mut self, alloc: Global, words: Words<'_>, answer: &mut String) -> Option<()> {
        called(alloc, self, words, answer)
    }
}

impl<C: Carrier> Layer for MixedWorld<C> {
    fn call(&mut self, alloc: Global, words: Words<'_>, answer: &mut String) -> Option<()> {
        called(alloc, self, words, answer)
    }
}

/// Opens the world that a block's first row names, and makes the calls of the other rows.
pub fn played(alloc: Global, mut words: Words<'_>, rows: &[&str], said: &mut String) -> Option<()> {
    let Network { hosts, sites, lines, has_strangers } = network(alloc, &mut words)?;
    match lines {
        None => played_over(alloc, PlainBoxes::new(alloc, hosts), has_strangers, words, rows, said),
        Some(lines) => {
            let subnet = Subnet::new(alloc, hosts, sites, &lines).ok()?;
            played_over(alloc, subnet, has_strangers, words, rows, said)
        }
    }
}

/// Opens a world over a carrier, with the strangers that words name if it has some, and makes calls.
fn played_over<C: Carrier>(
    alloc: Global,
    carrier: C,
    has_strangers: bool,
    mut words: Words<'_>,
    rows: &[&str],
    said: &mut String,
) -> Option<()> {
    if !has_strangers {
        return play(alloc, &mut World::new(alloc, carrier).ok()?, rows, said);
    }
    let mut named = Vec::new(alloc);
    while !words.rest.is_empty() {
        named.push(words.host()?).ok()?;
    }
    match MixedWorld::new(alloc, carrier, &named) {
        Ok(mut world) => play(alloc, &mut world, rows, said),
        Err(StrangersFault::OutOfMemory) => None,
        Err(StrangersFault::NoSuch(host)) => {
            let mut answer = String::new(alloc);
            write!(answer, "refused {}: {host}", StrangersFault::NoSuch(host)).ok()?;
            tell(&answer, said)
        }
    }
}

/// Makes a call.
fn called<W: Hosted>(alloc: Global, world: &mut W, mut words: Words<'_>, answer: &mut String) -> Option<()> {
    let Words { rest } = words;
    let before = counted(&world.book());
    let done = match words.word()? {
        "rests" => return write!(answer, "{}", world.rests()).ok(),
        "silent" => return write!(answer, "{}", world.is_silent()).ok(),
        "strangers" => return spell_hosts(world.strangers(), answer),
        "log" => return answer.push_str(&log_of(alloc, world)?).ok(),
        "audit" => return judge(alloc, &changed(alloc, &log_of(alloc, world)?, words.rest)?, answer),
        "run" => world.run(events(alloc, words.rest)?),
        "turn" => world.turn(event(alloc, words.rest)?),
        "calm" => world.calm(words.number()?),
        _ => world.step(event(alloc, rest)?),
    };
    match done {
        Ok(()) => answer.push_str("ok").ok()?,
        Err(fault) => write!(answer, "refused {fault}").ok()?,
    }
    tell_news(alloc, &world.book(), before, answer)
}

// ---- what happens

/// The event of a line.
fn event(alloc: Global, line: &str) -> Option<Event> {
    match read_world_script(alloc, line.as_bytes(), true).ok()?.pop()? {
        WorldEvent::Happen(event) => Some(event),
        WorldEvent::Calm(_) => None,
    }
}

/// The events of lines.
fn events(alloc: Global, lines: &str) -> Option<Vec<Event>> {
    let mut events = Vec::new(alloc);
    for line in lines.split(JOINT) {
        events.push(event(alloc, line)?).ok()?;
    }
    Some(events)
}

/// How many crossings, notices, contacts and reports a book has.
fn counted(book: &Book<'_>) -> [usize; 4] {
    [book.crossings().len(), book.notices().len(), book.contacts().len(), book.reports().len()]
}

/// Prints what a book has after that many of each.
fn tell_news(alloc: Global, book: &Book<'_>, before: [usize; 4], answer: &mut String) -> Option<()> {
    let [crossings, notices, contacts, reports] = before;
    for crossing in book.crossings().get(crossings..)? {
        write!(answer, "\n{crossing}").ok()?;
    }
    for told in book.notices().get(notices..)? {
        write!(answer, "\ntold {} {} ", told.host, told.place).ok()?;
        host_calls::tell(alloc, answer, &told.notice)?;
    }
    for called in book.contacts().get(contacts..)? {
        write!(answer, "\ncalled {} {} {}", called.host, called.place, called.peer).ok()?;
    }
    for reported in book.reports().get(reports..)? {
        write!(answer, "\nreported {} {} ", reported.host, reported.notices).ok()?;
        tell_report(answer, reported)?;
    }
    Some(())
}

/// A report. An octet of a line that is no printable ASCII character is a question mark.
fn tell_report(answer: &mut String, reported: &Reported) -> Option<()> {
    match &reported.report {
        Report::Server(outcome) => {
            answer.push_str("server ").ok()?;
            spell_end(answer, outcome)
        }
        Report::User(outcome) => {
            answer.push_str("user ").ok()?;
            spell_end(answer, outcome)
        }
        Report::Line(line) => {
            answer.push_str("line ").ok()?;
            for octet in line.as_octets() {
                let shown = if matches!(*octet, 32..=126) { *octet } else { b'?' };
                answer.push(char::from(shown)).ok()?;
            }
            Some(())
        }
    }
}

/// Hosts, a space between two.
fn spell_hosts(hosts: &[HostAddr], answer: &mut String) -> Option<()> {
    let mut joint = "";
    for host in hosts {
        write!(answer, "{joint}{host}").ok()?;
        joint = " ";
    }
    if hosts.is_empty() { answer.push_str("nobody").ok() } else { Some(()) }
}

// ---- its log

/// The log of a world's book, with what the world says was handed over.
fn log_of<W: Hosted>(alloc: Global, world: &W) -> Option<String> {
    let book = world.book();
    let mut writer = Printer::new(Vec::new(alloc));
    print_log(book.crossings(), book.lives(), world.handed(), book.fates(), &mut writer).ok()?;
    str::from_utf8(&writer.into_inner()).ok()?.to_string(alloc).ok()
}

/// A log after changes.
fn changed(alloc: Global, log: &str, changes: &str) -> Option<String> {
    let mut now = log.to_string(alloc).ok()?;
    if !changes.is_empty() {
        for change in changes.split(JOINT) {
            now = with_change(alloc, &now, change)?;
        }
    }
    Some(now)
}

/// A log after one change.
fn with_change(alloc: Global, log: &str, change: &str) -> Option<String> {
    let (place, text) = match change.split_once(' ') {
        Some((place, text)) => (place, Some(text)),
        None => (change, None),
    };
    let (place, is_new) = match place.split_once('+') {
        Some((_, place)) => (place, true),
        None => (place, false),
    };
    let place = place.parse::<usize>().ok()?;
    let mut now = String::new(alloc);
    for (at, line) in log.lines().enumerate() {
        if at + 1 == place {
            if let Some(text) = text {
                writeln!(now, "{text}").ok()?;
            }
        }
        if at + 1 != place || is_new {
            writeln!(now, "{line}").ok()?;
        }
    }
    Some(now)
}

/// What an audit says of a log, and where it shows: places are counted from 0, each in its own list.
fn judge(alloc: Global, log: &str, answer: &mut String) -> Option<()> {
    let book = match read_log(alloc, log.as_bytes()) {
        Ok(log) => log.book,
        Err(LogFault::BadLine(line)) => return write!(answer, "bad line {line}").ok(),
        Err(LogFault::OutOfMemory) => return None,
    };
    let said = audit(book.crossings(), book.lives(), book.handed());
    match said {
        Audit::Kept => answer.push_str("kept").ok()?,
        Audit::Malformed => answer.push_str("malformed").ok()?,
        Audit::Broken(part) => write!(answer, "broken {part}, which is part {}", part.number()).ok()?,
    }
    match locate(said, book.crossings(), book.lives(), book.handed()) {
        None => Some(()),
        Some(Finding::Crossing(place)) => write!(answer, ", crossing {place}").ok(),
        Some(Finding::Life(place)) => write!(answer, ", life {place}").ok(),
        Some(Finding::Lives(first, second)) => write!(answer, ", lives {first} and {second}").ok(),
        Some(Finding::List(place)) => write!(answer, ", list {place}").ok(),
    }
}
