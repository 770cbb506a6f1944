//! Calls on what an IMP keeps of flows: at their source, and at their destination.
//!
//! A block begins with `sources` or `destinations`, and nothing is kept then. `know FLOW` tells whether a flow is idle, its outstanding number
//! and its last one. `numbers FLOW COUNT` begins that many messages, each given up and handed to its host before the next, and prints their
//! numbers, with those that follow each other as `FIRST-LAST`. `judge FLOW FIRST LAST` prints how many of these numbers in a row are new and how
//! many are old. `next`, `oldest` and `is_new KEPT NUMBER` are the numbers' own rules.

use crate::Layer;
use crate::words::Words;
use interface::{Flow, Number};
use link_table::numbers::{is_new, next, oldest};
use link_table::{Age, Asked, DestFlows, Fate, Release, SourceFlows};
use std::alloc::Global;

impl Layer for SourceFlows {
    fn call(&mut self, _: Global, mut words: Words<'_>, answer: &mut String) -> Option<()> {
        match words.word()? {
            "outstanding" => return write!(answer, "{}", self.has_outstanding(words.host()?)).ok(),
            "awaits" => return write!(answer, "{}", self.has_outstanding_to(words.imp()?)).ok(),
            "begin" => match self.begin(&words.flow()?) {
                Ok(number) => write!(answer, "{number}").ok(),
                Err(fault) => write!(answer, "refused {fault}").ok(),
            },
            "answer" => answer
                .push_str(match self.answer(&words.flow()?, words.message_number()?) {
                    Release::Freed => "freed",
                    Release::Stale => "stale",
                })
                .ok(),
            "giveup" => {
                self.give_up(&words.flow()?);
                answer.push_str("ok").ok()
            }
            "handed" => {
                self.handed(&words.flow()?);
                answer.push_str("ok").ok()
            }
            "know" => {
                let flow = words.flow()?;
                answer.push_str(if self.is_idle(&flow) { "idle" } else { "busy" }).ok()?;
                answer.push_str(", outstanding ").ok()?;
                tell_number(answer, self.outstanding(&flow))?;
                answer.push_str(", last ").ok()?;
                tell_number(answer, self.last(&flow))
            }
            "numbers" => tell_numbers(self, &words.flow()?, words.number()?, answer),
            _ => None,
        }
    }
}

/// A number that may be there.
fn tell_number(answer: &mut String, number: Option<Number>) -> Option<()> {
    match number {
        Some(number) => write!(answer, "{number}").ok(),
        None => answer.push_str("-").ok(),
    }
}

/// The numbers of the next messages of a flow, each of which is given up.
fn tell_numbers(flows: &mut SourceFlows, flow: &Flow, count: u32, answer: &mut String) -> Option<()> {
    let mut run: Option<(Number, Number)> = None;
    for _ in 0..count {
        let number = flows.begin(flow).ok()?;
        flows.give_up(flow);
        flows.handed(flow);
        run = match run {
            Some((first, last)) if u32::from(last) + 1 == u32::from(number) => Some((first, number)),
            Some((first, last)) => {
                write!(answer, "{first}-{last} ").ok()?;
                Some((number, number))
            }
            None => Some((number, number)),
        };
    }
    let (first, last) = run?;
    write!(answer, "{first}-{last}").ok()
}

impl Layer for DestFlows {
    fn call(&mut self, _: Global, mut words: Words<'_>, answer: &mut String) -> Option<()> {
        match words.word()? {
            "judge" => tell_ages(self, &words.flow()?, words.message_number()?, words.message_number()?, answer),
            "note" => {
                let flow = words.flow()?;
                let number = words.message_number()?;
                self.note(&flow, number, fate(words)?).ok()?;
                answer.push_str("ok").ok()
            }
            "end" => {
                let flow = words.flow()?;
                let number = words.message_number()?;
                self.end(&flow, number, fate(words)?);
                answer.push_str("ok").ok()
            }
            "asked" => answer
                .push_str(match self.asked(&words.flow()?, words.message_number()?) {
                    Asked::Note => "note",
                    Asked::Silent => "silent",
                    Asked::Rfnm => "rfnm",
                    Asked::Dead => "dead",
                    Asked::Never => "never",
                })
                .ok(),
            "forget" => {
                self.forget(words.imp()?);
                answer.push_str("ok").ok()
            }
            "keeps" => write!(answer, "{}", self.keeps(words.imp()?)).ok(),
            "kept" => tell_number(answer, self.kept(&words.flow()?)),
            "next" => write!(answer, "{}", next(words.message_number()?)).ok(),
            "oldest" => write!(answer, "{}", oldest(words.message_number()?)).ok(),
            "is_new" => {
                let kept = words.word()?.parse::<Number>().ok();
                write!(answer, "{}", is_new(kept, words.message_number()?)).ok()
            }
            _ => None,
        }
    }
}

/// The next word as what became of a message.
fn fate(mut words: Words<'_>) -> Option<Fate> {
    Some(match words.word()? {
        "waits" => Fate::Waits,
        "taken" => Fate::Taken,
        "dead" => Fate::Dead,
        "never" => Fate::Never,
        _ => return None,
    })
}

/// How old the numbers from one to another are, those of one age in a row together.
fn tell_ages(flows: &DestFlows, flow: &Flow, first: Number, last: Number, answer: &mut String) -> Option<()> {
    let mut run: Option<(Age, u32)> = None;
    for number in first..=last {
        let age = flows.judge(flow, number);
        run = match run {
            Some((before, count)) if before == age => Some((age, count + 1)),
            Some((before, count)) => {
                write!(answer, "{} {count}, ", age_name(before)).ok()?;
                Some((age, 1))
            }
            None => Some((age, 1)),
        };
    }
    let (age, count) = run?;
    write!(answer, "{} {count}", age_name(age)).ok()
}

/// The name of an age.
fn age_name(age: Age) -> &'static str {
    match age {
        Age::New => "new",
        Age::Old => "old",
    }
}
