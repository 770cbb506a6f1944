//! The lines of a script, and the events that they ask for.

use crate::bits::Bits;
use crate::carrier::{NetEvent, Way};
use crate::names::{Flow, Host, Text, MOST_IMPS};
use std::rc::Rc;

/// The most bits of a message's text.
const MOST_TEXT: usize = 8063;

/// What a user or a service asks a host's program for.
#[derive(Clone, Debug)]
pub enum Request {
    Contact(Host),
    Echo(Host, u8),
    Listen { socket: u32, size: u8 },
    OpenSend { peer: Host, own: u32, foreign: u32, size: u8 },
    OpenReceive { peer: Host, own: u32, foreign: u32 },
    Send(u32, Text),
    Grant { socket: u32, messages: u32, bits: u32 },
    AskBack { socket: u32, messages: u8, bits: u8 },
    Interrupt(u32),
    Close(u32),
}

/// An event of a script.
#[derive(Debug)]
pub enum Event {
    Out(Flow, Text),
    Take(Host),
    Calm(u32),
    Net(NetEvent),
    Offer(Host),
    Ask(Host, Request),
    Server { host: Host, listens: u32, base: u32 },
    User { host: Host, peer: Host, server: u32, own: u32 },
    Typed(Host, Text),
}

/// A line that is no event.
pub struct BadLine;

/// All events of a script, or the number of its first bad line, counted from 1.
pub fn read(script: &[u8], is_raw: bool) -> Result<Vec<Event>, usize> {
    let mut events = Vec::new();
    for (at, line) in script.split(|it| *it == b'\n').enumerate() {
        if !line.is_empty() && line[0] != b'#' {
            events.push(read_line(line, is_raw).map_err(|_| at + 1)?);
        }
    }
    Ok(events)
}

/// The words of a line that are left to be read.
struct Words<'a> {
    left: Option<&'a [u8]>,
}

impl<'a> Words<'a> {
    /// The next word, up to a space or the end of the line.
    fn word(&mut self) -> Result<&'a [u8], BadLine> {
        let left = self.left.ok_or(BadLine)?;
        match left.iter().position(|it| *it == b' ') {
            Some(at) => {
                self.left = Some(&left[at + 1..]);
                Ok(&left[..at])
            }
            None => {
                self.left = None;
                Ok(left)
            }
        }
    }

    /// The next word as a number of 32 bits, in decimal and without leading zeros.
    fn number(&mut self) -> Result<u32, BadLine> {
        number_of(self.word()?)
    }

    /// The next word as a number that fits into a smaller type.
    fn small<T: TryFrom<u32>>(&mut self) -> Result<T, BadLine> {
        self.number()?.try_into().map_err(|_| BadLine)
    }

    /// The next word as an IMP.
    fn imp(&mut self) -> Result<u8, BadLine> {
        imp_of(self.word()?)
    }

    /// The next word as a host.
    fn host(&mut self) -> Result<Host, BadLine> {
        match self.word()? {
            [number @ b'0'..=b'3', b'/', imp @ ..] => Ok(Host { imp: imp_of(imp)?, number: number - b'0' }),
            _ => Err(BadLine),
        }
    }

    /// The next three words as a flow.
    fn flow(&mut self) -> Result<Flow, BadLine> {
        Ok(Flow { source: self.host()?, destination: self.host()?, link: self.small()? })
    }

    /// The next word as the way of a line.
    fn way(&mut self) -> Result<Way, BadLine> {
        match self.word()? {
            b"+" => Ok(0),
            b"-" => Ok(1),
            _ => Err(BadLine),
        }
    }

    /// The next two words as bits: their number and their octets, the last one filled with zeros.
    fn bits(&mut self) -> Result<Bits, BadLine> {
        let count = self.number()? as usize;
        let digits = match self.word()? {
            b"" => return Err(BadLine),
            b"-" => b"",
            digits => digits,
        };
        if digits.len() != 2 * count.div_ceil(8) {
            return Err(BadLine);
        }
        let octets = octets_of(digits)?;
        let rest = octets.last().map_or(0, |it| it & !(0xFF_u16 << (8 * octets.len() - count)) as u8);
        if rest == 0 {
            Ok(Bits::new(octets, count))
        } else {
            Err(BadLine)
        }
    }

    /// A line ends here.
    fn end(&self) -> Result<(), BadLine> {
        if self.left.is_none() {
            Ok(())
        } else {
            Err(BadLine)
        }
    }
}

/// A number of 32 bits.
fn number_of(word: &[u8]) -> Result<u32, BadLine> {
    if word.is_empty() || word.len() > 10 || (word.len() > 1 && word[0] == b'0') {
        return Err(BadLine);
    }
    let mut number = 0_u64;
    for digit in word {
        if !digit.is_ascii_digit() {
            return Err(BadLine);
        }
        number = 10 * number + u64::from(digit - b'0');
    }
    number.try_into().map_err(|_| BadLine)
}

/// The number of an IMP.
fn imp_of(word: &[u8]) -> Result<u8, BadLine> {
    let number: u8 = number_of(word)?.try_into().map_err(|_| BadLine)?;
    if (1..=MOST_IMPS).contains(&number) {
        Ok(number)
    } else {
        Err(BadLine)
    }
}

/// What is in the table of digits for an octet that is none.
const NO_DIGIT: u8 = 16;

/// The value of each hexadecimal digit in upper case.
const HEX: [u8; 256] = {
    let (mut values, mut value) = ([NO_DIGIT; 256], 0);
    while value < 16 {
        values[b"0123456789ABCDEF"[value] as usize] = value as u8;
        value += 1;
    }
    values
};

/// The octets that these digits spell, two for each. By a table, since whether a digit is a letter can't be foreseen.
fn octets_of(digits: &[u8]) -> Result<Vec<u8>, BadLine> {
    let mut all = 0;
    let octet = |pair: &[u8]| {
        let (high, low) = (HEX[pair[0] as usize], HEX[pair[1] as usize]);
        all |= high | low;
        high << 4 | low
    };
    let octets = digits.chunks_exact(2).map(octet).collect();
    if all < NO_DIGIT {
        Ok(octets)
    } else {
        Err(BadLine)
    }
}

/// The event of a line.
fn read_line(line: &[u8], is_raw: bool) -> Result<Event, BadLine> {
    let mut words = Words { left: Some(line) };
    let name = words.word()?;
    if name == b"type" && !is_raw {
        return read_typed(words);
    }
    let event = match read_net(name, &mut words)? {
        Some(event) => Event::Net(event),
        None => match name {
            b"take" => Event::Take(words.host()?),
            b"calm" => Event::Calm(words.number()?),
            b"out" if is_raw => read_out(&mut words)?,
            _ if is_raw => return Err(BadLine),
            _ => read_world(name, &mut words)?,
        },
    };
    words.end()?;
    Ok(event)
}

/// The event of a line that is about the network.
fn read_net(name: &[u8], words: &mut Words) -> Result<Option<NetEvent>, BadLine> {
    Ok(Some(match name {
        b"giveup" => NetEvent::GiveUp(words.flow()?),
        b"ask" => NetEvent::Ask(words.flow()?),
        b"abandon" => NetEvent::Abandon(words.flow()?),
        b"hostdown" => NetEvent::HostDown(words.host()?),
        b"hostup" => NetEvent::HostUp(words.host()?),
        b"deliver" => NetEvent::Deliver(words.number()?, words.way()?, words.number()?),
        b"drop" | b"garble" => NetEvent::Drop(words.number()?, words.way()?, words.number()?),
        b"resend" => NetEvent::Resend(words.imp()?),
        b"route" => NetEvent::Route(words.imp()?),
        b"claim" => NetEvent::Claim(words.imp()?),
        b"impdown" => NetEvent::ImpDown(words.imp()?),
        b"impup" => NetEvent::ImpUp(words.imp()?),
        b"enddown" => NetEvent::EndDown(words.imp()?, words.number()?),
        b"endup" => NetEvent::EndUp(words.imp()?, words.number()?),
        b"forget" => NetEvent::Forget(words.imp()?, words.imp()?),
        _ => return Ok(None),
    }))
}

/// A message of a raw network.
fn read_out(words: &mut Words) -> Result<Event, BadLine> {
    let flow = words.flow()?;
    let text = words.bits()?;
    if text.len() > MOST_TEXT {
        Err(BadLine)
    } else {
        Ok(Event::Out(flow, Rc::new(text)))
    }
}

/// An event of a network with host programs.
fn read_world(name: &[u8], words: &mut Words) -> Result<Event, BadLine> {
    let host = words.host()?;
    let request = match name {
        b"offer" => return Ok(Event::Offer(host)),
        b"server" => return Ok(Event::Server { host, listens: words.number()?, base: words.number()? }),
        b"user" => return Ok(Event::User { host, peer: words.host()?, server: words.number()?, own: words.number()? }),
        b"contact" => Request::Contact(words.host()?),
        b"echo" => Request::Echo(words.host()?, words.small()?),
        b"listen" => Request::Listen { socket: words.number()?, size: words.small()? },
        b"opensend" => {
            Request::OpenSend { peer: words.host()?, own: words.number()?, foreign: words.number()?, size: words.small()? }
        }
        b"openrecv" => Request::OpenReceive { peer: words.host()?, own: words.number()?, foreign: words.number()? },
        b"send" => Request::Send(words.number()?, Rc::new(words.bits()?)),
        b"grant" => {
            let (socket, messages) = (words.number()?, words.small::<u16>()?.into());
            Request::Grant { socket, messages, bits: words.number()? }
        }
        b"askback" => Request::AskBack { socket: words.number()?, messages: words.small()?, bits: words.small()? },
        b"interrupt" => Request::Interrupt(words.number()?),
        b"close" => Request::Close(words.number()?),
        _ => return Err(BadLine),
    };
    Ok(Event::Ask(host, request))
}

/// A line that is typed: all that is after the space after the host, and its end.
fn read_typed(mut words: Words) -> Result<Event, BadLine> {
    let host = words.host()?;
    let text = words.left.ok_or(BadLine)?;
    if !text.iter().all(|it| (32..=126).contains(it)) {
        return Err(BadLine);
    }
    Ok(Event::Typed(host, Rc::new(Bits::whole([text, b"\r\n"].concat()))))
}
