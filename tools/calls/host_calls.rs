//! Calls on hosts' programs.
//!
//! A block begins with `hosts` and the hosts, as `HOST/IMP`. Every row has the place of a host in it and a call with its arguments,
//! as `0 listen 33 8`. Each call of a user is made by its name, and as a request on a second program of that host: where that answers something else,
//! it is printed too. What comes in is written `accept STAMP message FLOW BITS OCTETS` or
//! `accept STAMP rfnm FLOW`. `own` gives the host's address, and `spent` whether memory has run out. Other answers are `ok` or `refused FAULT`, each notice, and what `next_out` gives then.
//! `check hosts` compares all this with an independent model of the rules.

use crate::Layer;
use crate::words::{Words, spell_bits, spell_octets};
use interface::{Answer, HostMessage, Inbound, Text};
use sockets::{Ncp, NcpFault, Notice, Request};
use std::alloc::Global;

/// The programs of hosts.
#[derive(Drop)]
pub struct Hosts {
    programs: Vec<Ncp>,
    /// The same programs once more, whose users make requests.
    asked: Vec<Ncp>,
}

/// The programs of the hosts that a block's first row names.
pub fn opened(alloc: Global, mut words: Words<'_>) -> Option<Hosts> {
    let mut programs = Vec::new(alloc);
    let mut asked = Vec::new(alloc);
    while !words.rest.is_empty() {
        let host = words.host()?;
        programs.push(Ncp::new(alloc, host)).ok()?;
        asked.push(Ncp::new(alloc, host)).ok()?;
    }
    Some(Hosts { programs, asked })
}

impl Layer for Hosts {
    fn call(&mut self, alloc: Global, mut words: Words<'_>, answer: &mut String) -> Option<()> {
        let place = words.place()?;
        let Words { rest } = words;
        match rest {
            "own" => return write!(answer, "{}", self.programs.get(place)?.own()).ok(),
            "spent" => return write!(answer, "{}", self.programs.get(place)?.is_spent()).ok(),
            _ => {}
        }
        let by_name = answered(alloc, self.programs.get_mut(place)?, Words { rest }, false)?;
        let as_request = answered(alloc, self.asked.get_mut(place)?, Words { rest }, true)?;
        answer.push_str(&by_name).ok()?;
        if as_request.as_str() != by_name.as_str() {
            for part in as_request.lines() {
                write!(answer, "\nas a request: {part}").ok()?;
            }
        }
        Some(())
    }
}

/// What a program answers to a call, and what goes out next.
fn answered(alloc: Global, host: &mut Ncp, words: Words<'_>, asks: bool) -> Option<String> {
    let mut answer = String::new(alloc);
    match called(alloc, host, words, asks)? {
        Ok(notices) => {
            answer.push_str("ok").ok()?;
            for notice in &notices {
                answer.push_str("\n").ok()?;
                tell(alloc, &mut answer, notice)?;
            }
        }
        Err(fault) => write!(answer, "refused {fault}").ok()?,
    }
    tell_next(alloc, host, &mut answer)?;
    Some(answer)
}

/// What goes out next.
fn tell_next(alloc: Global, host: &Ncp, answer: &mut String) -> Option<()> {
    match host.next_out().ok()? {
        None => answer.push_str("\nnext nothing").ok(),
        Some(message) => {
            write!(answer, "\nnext {} ", message.flow).ok()?;
            spell_bits(alloc, answer, message.text.bits())
        }
    }
}

/// Makes a call: where it is one of the user and `asks` is true, as a request.
fn called(alloc: Global, host: &mut Ncp, mut words: Words<'_>, asks: bool) -> Option<Result<Vec<Notice>, NcpFault>> {
    let Words { rest } = words;
    let name = words.word()?;
    match name {
        "offered" => Some(host.offered(words.place()?)),
        "accept" => {
            let stamp = words.place()?;
            Some(host.accept(inbound(alloc, words)?, stamp))
        }
        _ if asks => Some(host.ask(request(alloc, Words { rest })?)),
        "contact" => Some(host.contact(words.host()?)),
        _ => {
            let done = asked(alloc, host, name, words)?;
            Some(done.map(|_| Vec::new(alloc)))
        }
    }
}

/// Makes a call of the user that tells nothing.
fn asked(alloc: Global, host: &mut Ncp, name: &str, mut words: Words<'_>) -> Option<Result<(), NcpFault>> {
    Some(match name {
        "listen" => host.listen(words.number()?, words.octet()?),
        "open_send" => host.open_send(words.host()?, words.number()?, words.number()?, words.octet()?),
        "open_receive" => host.open_receive(words.host()?, words.number()?, words.number()?),
        "send" => host.send(words.number()?, words.bits(alloc)?),
        "grant" => host.grant(words.number()?, words.messages()?, words.number()?),
        "ask_back" => host.ask_back(words.number()?, words.octet()?, words.octet()?),
        "interrupt" => host.interrupt(words.number()?),
        "close" => host.close(words.number()?),
        "echo" => host.echo(words.host()?, words.octet()?),
        _ => return None,
    })
}

/// A call of the user as a request.
fn request(alloc: Global, mut words: Words<'_>) -> Option<Request> {
    let name = words.word()?;
    Some(match name {
        "contact" => Request::Contact { peer: words.host()? },
        "listen" => Request::Listen { socket: words.number()?, size: words.octet()? },
        "open_send" => {
            Request::OpenSend { peer: words.host()?, own: words.number()?, foreign: words.number()?, size: words.octet()? }
        }
        "open_receive" => Request::OpenReceive { peer: words.host()?, own: words.number()?, foreign: words.number()? },
        "send" => Request::Send { socket: words.number()?, bits: words.bits(alloc)? },
        "grant" => Request::Grant { socket: words.number()?, messages: words.messages()?, bits: words.number()? },
        "ask_back" => Request::AskBack { socket: words.number()?, messages: words.octet()?, bits: words.octet()? },
        "interrupt" => Request::Interrupt { socket: words.number()? },
        "close" => Request::Close { socket: words.number()? },
        "echo" => Request::Echo { peer: words.host()?, octet: words.octet()? },
        _ => return None,
    })
}

/// What comes in.
fn inbound(alloc: Global, mut words: Words<'_>) -> Option<Inbound> {
    let kind = words.word()?;
    let flow = words.flow()?;
    Some(match kind {
        "message" => Inbound::Message(HostMessage { flow, text: Text::new(words.bits(alloc)?)? }),
        "rfnm" => Inbound::Answer(Answer::Rfnm, flow),
        "incomplete" => Inbound::Answer(Answer::Incomplete, flow),
        "dead" => Inbound::Answer(Answer::Dead, flow),
        "nottaken" => Inbound::Answer(Answer::NotTaken, flow),
        _ => return None,
    })
}

/// A notice.
pub fn tell(alloc: Global, answer: &mut String, notice: &Notice) -> Option<()> {
    match notice {
        Notice::Ready { peer } => write!(answer, "ready {peer}").ok(),
        Notice::ContactFailed { peer } => write!(answer, "contactfailed {peer}").ok(),
        Notice::PairReset { peer } => write!(answer, "pairreset {peer}").ok(),
        Notice::Opened { socket, peer, foreign, own_stamp, partner_stamp } => {
            write!(answer, "opened {socket} {peer} {foreign} {own_stamp} {partner_stamp}").ok()
        }
        Notice::Ended { socket, peer, foreign } => write!(answer, "ended {socket} {peer} {foreign}").ok(),
        Notice::Sent { socket, bits } => {
            write!(answer, "sent {socket} ").ok()?;
            spell_bits(alloc, answer, bits)
        }
        Notice::Arrived { socket, bits } => {
            write!(answer, "arrived {socket} ").ok()?;
            spell_bits(alloc, answer, bits)
        }
        Notice::Returned { socket, messages, bits } => write!(answer, "returned {socket} {messages} {bits}").ok(),
        Notice::Interrupt { socket } => write!(answer, "interrupt {socket}").ok(),
        Notice::Echoed { peer, octet } => write!(answer, "echoed {peer} {octet}").ok(),
        Notice::RemoteError { peer, code, detail } => {
            write!(answer, "error {peer} {code} ").ok()?;
            spell_octets(alloc, answer, detail)
        }
    }
}
