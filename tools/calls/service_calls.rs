//! Calls on a machine of the initial connection, a terminal or an echo service.
//!
//! A block's first row has the machine: `server LISTEN BASE`, `user PEER LISTEN OWN`, `echo RECEIVE SEND` or `terminal RECEIVE SEND`;
//! it is answered by the first requests. Every other row is a notice of its host's program, as `opened 7 0/1 16 3 4`, or `refused`, which tells it that a request of
//! it was refused; and of a terminal `type OCTETS` gives the line of a text. `spent` says whether memory has run out. Answers are the requests, then the outcome or the lines that have ended, or `nothing`. `check services` compares all this with an independent model of the rules.

use crate::Layer;
use crate::words::{Words, spell_bits, spell_octets};
use icp::{Failure, Outcome, Said, Server, StartFault, User};
use ncp_control::{ReceiveSocket, SendSocket};
use sockets::{NcpFault, Notice, Request};
use std::alloc::Global;
use terminal::{EchoService, LineTerminal};

/// What is told.
#[derive(Drop)]
pub enum Machine {
    Server(Server),
    User(User),
    Echo(EchoService),
    Terminal(LineTerminal),
    /// It failed as it was made.
    None,
}

impl Machine {
    /// Whether memory has run out in it.
    fn is_spent(&self) -> bool {
        match self {
            Machine::Server(server) => server.is_spent(),
            Machine::User(user) => user.is_spent(),
            Machine::Echo(service) => service.is_spent(),
            Machine::Terminal(terminal) => terminal.is_spent(),
            Machine::None => false,
        }
    }
}

impl Layer for Machine {
    fn call(&mut self, alloc: Global, words: Words<'_>, answer: &mut String) -> Option<()> {
        let Words { rest } = words;
        if rest == "spent" {
            return write!(answer, "{}", self.is_spent()).ok();
        }
        match (self, rest.split_once(' ')) {
            (Machine::Terminal(terminal), Some(("type", octets))) => return typed(alloc, terminal, Words { rest: octets }, answer),
            (machine, _) => tell(alloc, machine, words, answer)?,
        }
        or_nothing(answer)
    }
}

/// Prints the line of a text that is typed.
fn typed(alloc: Global, terminal: &LineTerminal, mut words: Words<'_>, answer: &mut String) -> Option<()> {
    match terminal.line(&words.octets(alloc)?) {
        Ok(line) => spell_octets(alloc, answer, &line),
        Err(fault) => write!(answer, "refused {fault}").ok(),
    }
}

/// The machine that a block's first row names, and its first requests.
pub fn started(alloc: Global, name: &str, mut words: Words<'_>, answer: &mut String) -> Option<Machine> {
    let machine = match name {
        "server" => match Server::start(alloc, words.number()?, words.number()?) {
            Ok((server, requests)) => {
                spell_requests(alloc, answer, &requests)?;
                Machine::Server(server)
            }
            Err(fault) => failed_at_once(fault, answer)?,
        },
        "user" => match User::start(alloc, words.host()?, words.number()?, words.number()?) {
            Ok((user, requests)) => {
                spell_requests(alloc, answer, &requests)?;
                Machine::User(user)
            }
            Err(fault) => failed_at_once(fault, answer)?,
        },
        "echo" | "terminal" => {
            let receive = ReceiveSocket::new(words.number()?)?;
            started_service(alloc, name, receive, SendSocket::new(words.number()?)?, answer)?
        }
        _ => return None,
    };
    or_nothing(answer)?;
    Some(machine)
}

/// The echo service or the terminal between two sockets, and its first requests.
fn started_service(alloc: Global, name: &str, receive: ReceiveSocket, send: SendSocket, answer: &mut String) -> Option<Machine> {
    if name == "echo" {
        let (service, requests) = EchoService::start(alloc, receive, send).ok()?;
        spell_requests(alloc, answer, &requests)?;
        return Some(Machine::Echo(service));
    }
    let (terminal, requests) = LineTerminal::start(alloc, receive, send).ok()?;
    spell_requests(alloc, answer, &requests)?;
    Some(Machine::Terminal(terminal))
}

fn failed_at_once(fault: StartFault, answer: &mut String) -> Option<Machine> {
    writeln!(answer, "refused {fault}").ok()?;
    Some(Machine::None)
}

/// Says that nothing is answered.
fn or_nothing(answer: &mut String) -> Option<()> {
    if answer.is_empty() { answer.push_str("nothing").ok() } else { Some(()) }
}

/// Tells a machine what a row says.
fn tell(alloc: Global, machine: &mut Machine, words: Words<'_>, answer: &mut String) -> Option<()> {
    if words.rest == "refused" {
        let outcome = match machine {
            Machine::Server(server) => server.refused(NcpFault::InUse),
            Machine::User(user) => user.refused(NcpFault::InUse),
            _ => None,
        };
        return spell_outcome(answer, outcome);
    }
    let notice = read_notice(alloc, words)?;
    match machine {
        Machine::Server(server) => spell_said(alloc, answer, server.notice(&notice).ok()?),
        Machine::User(user) => spell_said(alloc, answer, user.notice(&notice).ok()?),
        Machine::Echo(service) => spell_requests(alloc, answer, &service.notice(&notice).ok()?),
        Machine::Terminal(terminal) => {
            let told = terminal.notice(&notice).ok()?;
            spell_requests(alloc, answer, &told.requests)?;
            for line in &told.lines {
                answer.push_str("line ").ok()?;
                spell_octets(alloc, answer, line.as_octets())?;
                answer.push_str("\n").ok()?;
            }
            Some(())
        }
        Machine::None => Some(()),
    }
}

/// A notice.
fn read_notice(alloc: Global, mut words: Words<'_>) -> Option<Notice> {
    let kind = words.word()?;
    Some(match kind {
        "ready" => Notice::Ready { peer: words.host()? },
        "contactfailed" => Notice::ContactFailed { peer: words.host()? },
        "pairreset" => Notice::PairReset { peer: words.host()? },
        "opened" => Notice::Opened {
            socket: words.number()?,
            peer: words.host()?,
            foreign: words.number()?,
            own_stamp: words.place()?,
            partner_stamp: words.place()?,
        },
        "ended" => Notice::Ended { socket: words.number()?, peer: words.host()?, foreign: words.number()? },
        "sent" => Notice::Sent { socket: words.number()?, bits: words.bits(alloc)? },
        "arrived" => Notice::Arrived { socket: words.number()?, bits: words.bits(alloc)? },
        "interrupt" => Notice::Interrupt { socket: words.number()? },
        _ => return None,
    })
}

fn spell_said(alloc: Global, answer: &mut String, said: Said) -> Option<()> {
    spell_requests(alloc, answer, &said.requests)?;
    spell_outcome(answer, said.outcome)
}

fn spell_outcome(answer: &mut String, outcome: Option<Outcome>) -> Option<()> {
    match outcome {
        None => Some(()),
        Some(Outcome::Failed(Failure::Local(fault))) => writeln!(answer, "failed {}: {fault}", Failure::Local(fault)).ok(),
        Some(outcome) => {
            spell_end(answer, &outcome)?;
            answer.push_str("\n").ok()
        }
    }
}

/// How an initial connection ended.
pub fn spell_end(answer: &mut String, outcome: &Outcome) -> Option<()> {
    match outcome {
        Outcome::Done { receive, send } => write!(answer, "done {} {}", receive.number(), send.number()).ok(),
        Outcome::Failed(failure) => write!(answer, "failed {failure}").ok(),
    }
}

fn spell_requests(alloc: Global, answer: &mut String, requests: &Vec<Request>) -> Option<()> {
    for request in requests {
        match request {
            Request::Listen { socket, size } => writeln!(answer, "listen {socket} {size}").ok()?,
            Request::OpenSend { peer, own, foreign, size } => writeln!(answer, "opensend {peer} {own} {foreign} {size}").ok()?,
            Request::OpenReceive { peer, own, foreign } => writeln!(answer, "openrecv {peer} {own} {foreign}").ok()?,
            Request::Grant { socket, messages, bits } => writeln!(answer, "grant {socket} {messages} {bits}").ok()?,
            Request::Close { socket } => writeln!(answer, "close {socket}").ok()?,
            Request::Send { socket, bits } => {
                write!(answer, "send {socket} ").ok()?;
                spell_bits(alloc, answer, bits)?;
                answer.push_str("\n").ok()?;
            }
            _ => answer.push_str("another\n").ok()?,
        }
    }
    Some(())
}
