//! What happens in a subnet.
//!
//! A block begins with `subnet`, the IMPs, as `IMP:HOSTS` by rising number, `/`, and the lines, as `IMP-IMP`. What happens is
//! written as in a script; `rounds COUNT` are quiet rounds in which no host takes. Answers are `ok`, what a host took or `refused FAULT`, and then
//! each crossing as the simulator prints it; within `calm` refusals are not printed. `alive FLOW NUMBER` asks whether that message or a packet of it is alive,
//! `rests HOSTS` whether the network is known to rest beside these hosts, `hosts`, `lines` and `number IMP` what it has. `check subnet` compares all this with an independent model of the rules.

use crate::Layer;
use crate::imp_calls::{refused, spell_given};
use crate::words::Words;
use interface::{Carrier, CarrierFault, HostAddr, HostMessage, Inbound, NetEvent, Text};
use std::alloc::Global;
use subnet::{Ends, Subnet};

/// How often a host takes in a round of `calm` at most.
const TAKES: usize = 16;

impl Layer for Subnet {
    fn call(&mut self, alloc: Global, mut words: Words<'_>, answer: &mut String) -> Option<()> {
        let Words { rest } = words;
        let before = self.log().len();
        let name = words.word()?;
        match name {
            "alive" => {
                let flow = words.flow()?;
                write!(answer, "{}", self.alive(&flow, words.message_number()?)).ok()?;
            }
            "rests" => write!(answer, "{}", self.rests_beside(&words.hosts(alloc)?)).ok()?,
            "hosts" => spell_hosts(self, answer)?,
            "lines" => write!(answer, "{}", self.line_count()).ok()?,
            "number" => match self.imp_number(words.octet()?) {
                Some(number) => write!(answer, "{}", number.number()).ok()?,
                None => answer.push_str("-").ok()?,
            },
            _ => match happened(alloc, self, Words { rest })? {
                Ok(None) => answer.push_str(if name == "take" { "nothing" } else { "ok" }).ok()?,
                Ok(given) => spell_given(alloc, given, answer)?,
                Err(fault) => refused(fault, answer)?,
            },
        }
        for crossing in self.log().get(before..)? {
            write!(answer, "\n{crossing}").ok()?;
        }
        Some(())
    }
}

/// The hosts of a subnet.
fn spell_hosts(subnet: &Subnet, answer: &mut String) -> Option<()> {
    let mut joint = "";
    for host in subnet.hosts() {
        write!(answer, "{joint}{host}").ok()?;
        joint = " ";
    }
    Some(())
}

/// The network that a block's first row asks for, and whether it is followed by hosts that are strangers.
#[derive(Drop)]
pub struct Network {
    pub hosts: Vec<HostAddr>,
    pub sites: Vec<Option<u8>>,
    /// None of plain boxes.
    pub lines: Option<Vec<Ends>>,
    pub has_strangers: bool,
}

/// Reads a network.
pub fn network(alloc: Global, words: &mut Words<'_>) -> Option<Network> {
    let mut found = Network { hosts: Vec::new(alloc), sites: Vec::new(alloc), lines: None, has_strangers: false };
    while let Some(word) = words.word() {
        if word == "foreign" {
            found.has_strangers = true;
            break;
        }
        if word == "/" {
            found.lines = Some(Vec::new(alloc));
        } else if let Some(lines) = &mut found.lines {
            let (a, b) = word.split_once('-')?;
            lines.push(Ends { a: a.parse::<u8>().ok()?, b: b.parse::<u8>().ok()? }).ok()?;
        } else {
            add_site(&mut found.sites, &mut found.hosts, word)?;
        }
    }
    Some(found)
}

/// Adds an IMP and its hosts.
fn add_site(sites: &mut Vec<Option<u8>>, hosts: &mut Vec<HostAddr>, word: &str) -> Option<()> {
    let (imp, count) = word.split_once(':')?;
    let number = imp.parse::<usize>().ok()?;
    let count = count.parse::<u8>().ok()?;
    while sites.len() < number {
        sites.push(None).ok()?;
    }
    sites.push(Some(count)).ok()?;
    for host in 0..count {
        hosts.push(HostAddr::new(host, imp.parse::<u8>().ok()?)?).ok()?;
    }
    Some(())
}

/// The subnet that a block's first row asks for.
pub fn opened(alloc: Global, mut words: Words<'_>) -> Option<Subnet> {
    let Network { hosts, sites, lines, .. } = network(alloc, &mut words)?;
    Subnet::new(alloc, hosts, sites, &lines?).ok()
}

/// What became of a row, with what a host took; `None` where it can't be read.
fn happened(alloc: Global, subnet: &mut Subnet, mut words: Words<'_>) -> Option<Result<Option<Inbound>, CarrierFault>> {
    let name = words.word()?;
    let done = match name {
        "take" => return Some(subnet.take_in(words.host()?)),
        "out" => {
            let flow = words.flow()?;
            let text = Text::new(words.bits(alloc)?)?;
            subnet.offer_out(HostMessage { flow, text })
        }
        "rounds" => rounds(subnet, words.number()?),
        "calm" => {
            for _ in 0..words.number()? {
                calm(subnet);
            }
            Ok(())
        }
        _ => subnet.step(event(name, words)?),
    };
    Some(done.map(|_| None))
}

/// Quiet rounds, up to the first that is refused.
fn rounds(subnet: &mut Subnet, count: u32) -> Result<(), CarrierFault> {
    for _ in 0..count {
        subnet.quiet_round()?;
    }
    Ok(())
}

/// One round, and then every host takes what waits for it.
fn calm(subnet: &mut Subnet) {
    let _ = subnet.quiet_round();
    for at in 0..subnet.hosts().len() {
        for _ in 0..TAKES {
            let host = subnet.hosts()[at];
            match subnet.take_in(host) {
                Ok(Some(_)) => {}
                _ => break,
            }
        }
    }
}

/// What happens inside the network.
fn event(name: &str, mut words: Words<'_>) -> Option<NetEvent> {
    Some(match name {
        "deliver" => NetEvent::Deliver { line: words.number()?, direction: words.direction()?, frame: words.number()? },
        "drop" => NetEvent::Drop { line: words.number()?, direction: words.direction()?, frame: words.number()? },
        "garble" => NetEvent::Garble { line: words.number()?, direction: words.direction()?, frame: words.number()? },
        "resend" => NetEvent::Resend(words.imp()?),
        "route" => NetEvent::Route(words.imp()?),
        "claim" => NetEvent::Claim(words.imp()?),
        "enddown" => NetEvent::EndDown { imp: words.imp()?, line: words.number()? },
        "endup" => NetEvent::EndUp { imp: words.imp()?, line: words.number()? },
        "impdown" => NetEvent::ImpDown(words.imp()?),
        "impup" => NetEvent::ImpUp(words.imp()?),
        "hostdown" => NetEvent::HostDown(words.host()?),
        "hostup" => NetEvent::HostUp(words.host()?),
        "giveup" => NetEvent::GiveUp(words.flow()?),
        "ask" => NetEvent::Ask(words.flow()?),
        "forget" => NetEvent::Forget { at: words.imp()?, from: words.imp()? },
        "abandon" => NetEvent::Abandon(words.flow()?),
        _ => return None,
    })
}
