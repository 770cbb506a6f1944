//! Calls on one IMP.
//!
//! A block begins with `imp IMP HOSTS PORTS`. Calls are written with their arguments, as `from_line PORT OCTETS`; a flow is
//! `SOURCE DESTINATION LINK`, a host `HOST/IMP`. Answers are `ok`, what a host took or `refused FAULT`, and then each frame with its port.
//! `query FLOW NUMBER` tells what is so of that message: whether the flow would begin it, the IMP holds it or a packet of it or about it, holds data
//! between the flow's IMPs, holds anything of a flow from or to the destination's IMP, and keeps a number of a flow from the source's; then the flow's outstanding number
//! and its last. `check imp` compares all this with an independent model of the rules.

use crate::Layer;
use crate::words::{Words, spell_bits, spell_octets};
use imp_channel::Frame;
use imp_node::{Imp, Outgoing};
use interface::{Answer, CarrierFault, HostMessage, ImpNumber, Inbound, Number, Text};
use std::alloc::Global;

/// The IMP that a block's first row asks for.
pub fn opened(alloc: Global, mut words: Words<'_>) -> Option<Imp> {
    let own = words.imp()?;
    Imp::new(alloc, own, words.octet()?, words.octet()?).ok()
}

impl Layer for Imp {
    fn call(&mut self, alloc: Global, mut words: Words<'_>, answer: &mut String) -> Option<()> {
        let Words { rest } = words;
        let name = words.word()?;
        if asked(alloc, self, Words { rest }, answer)?.is_some() {
            return Some(());
        }
        if name == "to_host" {
            return match self.to_host(words.octet()?) {
                Ok((given, frames)) => printed(alloc, given, &frames, answer),
                Err(fault) => refused(fault, answer),
            };
        }
        match called(alloc, self, name, words)? {
            Ok(frames) => {
                answer.push_str("ok").ok()?;
                with_frames(alloc, answer, &frames)
            }
            Err(fault) => refused(fault, answer),
        }
    }
}

/// Prints what a query tells; `Some(None)` where a row is another call.
fn asked(alloc: Global, imp: &mut Imp, mut words: Words<'_>, answer: &mut String) -> Option<Option<()>> {
    let name = words.word()?;
    match name {
        "query" => tell_flow(imp, words, answer)?,
        "kept" => number_or_dash(answer, imp.kept(&words.flow()?))?,
        "awaits" => write!(answer, "{}", imp.awaits(words.imp()?)).ok()?,
        "is_up" => write!(answer, "{}", imp.is_up(words.octet()?)).ok()?,
        "has_nothing_for" => write!(answer, "{}", imp.has_nothing_for(words.octet()?)).ok()?,
        "has_heard" => {
            let port = words.octet()?;
            let other = opened(alloc, words)?;
            write!(answer, "{}", imp.has_heard(port, &other, 0)).ok()?;
        }
        "takes" => {
            let port = words.octet()?;
            let frame = frame(alloc, words)?;
            write!(answer, "{}", imp.takes(port, &frame)).ok()?;
        }
        "answers" => {
            let port = words.octet()?;
            let frame = frame(alloc, words)?;
            match imp.answers(port, &frame) {
                Some(frame) => spell_octets(alloc, answer, &frame.write(alloc).ok()?)?,
                None => answer.push_str("false").ok()?,
            }
        }
        _ => return Some(None),
    }
    Some(Some(()))
}

/// Makes a call that answers frames.
fn called(alloc: Global, imp: &mut Imp, name: &str, mut words: Words<'_>) -> Option<Result<Vec<Outgoing>, CarrierFault>> {
    Some(match name {
        "from_host" => imp.from_host(message(alloc, words)?),
        "from_line" => {
            let port = words.octet()?;
            imp.from_line(port, frame(alloc, words)?)
        }
        "resend" => imp.resend(),
        "route" => imp.route(),
        "claim" => imp.claim(),
        "end_down" => imp.end_down(words.octet()?),
        "end_up" => imp.end_up(words.octet()?),
        "give_up" => imp.give_up(words.flow()?),
        "ask" => imp.ask(words.flow()?),
        "forget" => imp.forget(ImpNumber::new(words.octet()?)?),
        "abandon" => imp.abandon(words.flow()?),
        "host_down" => imp.host_down(words.octet()?),
        "host_up" => imp.host_up(words.octet()?),
        _ => return None,
    })
}

/// The frame of the octets that the next word spells.
fn frame(alloc: Global, mut words: Words<'_>) -> Option<Frame> {
    let octets = words.octets(alloc)?;
    Frame::read(alloc, &octets).ok()
}

/// A message: its flow, its length and its octets.
fn message(alloc: Global, mut words: Words<'_>) -> Option<HostMessage> {
    let flow = words.flow()?;
    let text = Text::new(words.bits(alloc)?)?;
    Some(HostMessage { flow, text })
}

/// Prints what a host took, and the frames.
fn printed(alloc: Global, given: Option<Inbound>, frames: &[Outgoing], answer: &mut String) -> Option<()> {
    spell_given(alloc, given, answer)?;
    with_frames(alloc, answer, frames)
}

/// Prints what a host took.
pub fn spell_given(alloc: Global, given: Option<Inbound>, answer: &mut String) -> Option<()> {
    match given {
        None => answer.push_str("nothing").ok(),
        Some(Inbound::Answer(kind, flow)) => write!(answer, "{} {flow}", answer_name(kind)).ok(),
        Some(Inbound::Message(message)) => {
            write!(answer, "message {} ", message.flow).ok()?;
            spell_bits(alloc, answer, message.text.bits())
        }
    }
}

/// The name of an answer. Two answers are printed alike, and are kept apart here.
fn answer_name(kind: Answer) -> &'static str {
    match kind {
        Answer::Rfnm => "rfnm",
        Answer::Dead => "dead",
        Answer::Incomplete => "incomplete",
        Answer::NotTaken => "nottaken",
    }
}

/// Prints frames, each with its port.
fn with_frames(alloc: Global, answer: &mut String, frames: &[Outgoing]) -> Option<()> {
    for out in frames {
        write!(answer, "\n{} ", out.port).ok()?;
        spell_octets(alloc, answer, &out.frame.write(alloc).ok()?)?;
    }
    Some(())
}

/// Prints a refusal.
pub fn refused(fault: CarrierFault, answer: &mut String) -> Option<()> {
    write!(answer, "refused {fault}").ok()
}

/// Prints what is so of a flow and a number of it.
fn tell_flow(imp: &Imp, mut words: Words<'_>, answer: &mut String) -> Option<()> {
    let flow = words.flow()?;
    let number = words.message_number()?;
    let from = ImpNumber::new(flow.source.imp())?;
    let to = ImpNumber::new(flow.destination.imp())?;
    for (is_so, name) in [
        (imp.begins(&flow), "begins "),
        (imp.holds(&flow, number), "holds "),
        (imp.holds_data(from, to), "data "),
        (imp.touches(to), "touches "),
        (imp.keeps(from), "keeps "),
    ] {
        if is_so {
            answer.push_str(name).ok()?;
        }
    }
    answer.push_str("outstanding ").ok()?;
    number_or_dash(answer, imp.outstanding(&flow))?;
    answer.push_str(" last ").ok()?;
    number_or_dash(answer, imp.last(&flow))
}

/// A number that may be there.
fn number_or_dash(answer: &mut String, number: Option<Number>) -> Option<()> {
    match number {
        Some(number) => write!(answer, "{number}").ok(),
        None => answer.push_str("-").ok(),
    }
}
