//! Calls on plain mailboxes.
//!
//! A block begins with `boxes` and the hosts. What happens is written as in a script; `waiting HOST` counts the messages and the answers that wait,
//! `message HOST PLACE` and `answer HOST PLACE` are those at a place, `down PLACE` is a host that is down, `crossings` counts what is on the
//! log, and `rests HOSTS` tells whether the network rests beside these hosts. Answers are `ok`, what a host takes, or `refused` and why.

use crate::Layer;
use crate::words::{Words, spell_bits};
use interface::{Answer, Carrier, CarrierFault, Flow, HostMessage, Inbound, NetEvent, Text};
use leader1822::PlainBoxes;
use std::alloc::Global;

/// The boxes of the hosts that a block's first row names.
pub fn opened(alloc: Global, mut words: Words<'_>) -> Option<PlainBoxes> {
    Some(PlainBoxes::new(alloc, words.hosts(alloc)?))
}

impl Layer for PlainBoxes {
    fn call(&mut self, alloc: Global, mut words: Words<'_>, answer: &mut String) -> Option<()> {
        let name = words.word()?;
        match name {
            "take" => match self.take_in(words.host()?) {
                Ok(None) => answer.push_str("nothing").ok(),
                Ok(Some(Inbound::Answer(kind, flow))) => tell_answer(answer, kind, flow),
                Ok(Some(Inbound::Message(message))) => tell_message(alloc, answer, &message),
                Err(fault) => write!(answer, "refused {fault}").ok(),
            },
            "waiting" => {
                let host = words.host()?;
                write!(answer, "{} messages, {} answers", self.message_count(&host), self.answer_count(&host)).ok()
            }
            "message" => match self.message_at(&words.host()?, words.place()?) {
                Some(message) => tell_message(alloc, answer, message),
                None => answer.push_str("nothing").ok(),
            },
            "answer" => match self.answer_at(&words.host()?, words.place()?) {
                Some((kind, flow)) => tell_answer(answer, kind, flow),
                None => answer.push_str("nothing").ok(),
            },
            "down" => match self.down().get(words.place()?) {
                Some(host) => write!(answer, "{host}").ok(),
                None => answer.push_str("nothing").ok(),
            },
            "hosts" => write!(answer, "{}", self.hosts().len()).ok(),
            "crossings" => write!(answer, "{}", self.log().len()).ok(),
            "rests" => {
                let beside = words.hosts(alloc)?;
                let rests = self.rests_beside(&beside);
                write!(answer, "{}", rests && (!beside.is_empty() || self.is_empty())).ok()
            }
            _ => match happened(alloc, self, name, words)? {
                Ok(()) => answer.push_str("ok").ok(),
                Err(fault) => write!(answer, "refused {fault}").ok(),
            },
        }
    }
}

/// What becomes of what happens; `None` where it is nothing that can.
fn happened(alloc: Global, boxes: &mut PlainBoxes, name: &str, mut words: Words<'_>) -> Option<Result<(), CarrierFault>> {
    let event = match name {
        "out" => {
            let flow = words.flow()?;
            let text = Text::new(words.bits(alloc)?)?;
            let message = HostMessage { flow, text };
            return Some(boxes.offer_out(message.clone().ok()?));
        }
        "calm" => return Some(boxes.quiet_round()),
        "giveup" => NetEvent::GiveUp(words.flow()?),
        "abandon" => NetEvent::Abandon(words.flow()?),
        "ask" => NetEvent::Ask(words.flow()?),
        "hostdown" => NetEvent::HostDown(words.host()?),
        "hostup" => NetEvent::HostUp(words.host()?),
        "impup" => NetEvent::ImpUp(words.imp()?),
        _ => return None,
    };
    Some(boxes.step(event))
}

/// A message: its flow and its bits.
fn tell_message(alloc: Global, answer: &mut String, message: &HostMessage) -> Option<()> {
    write!(answer, "message {} ", message.flow).ok()?;
    spell_bits(alloc, answer, message.text.bits())
}

/// An answer, and the flow that it is about.
fn tell_answer(answer: &mut String, kind: Answer, flow: Flow) -> Option<()> {
    let name = match kind {
        Answer::Rfnm => "rfnm",
        Answer::Dead => "dead",
        Answer::Incomplete => "incomplete",
        Answer::NotTaken => "nottaken",
    };
    write!(answer, "{name} {flow}").ok()
}
