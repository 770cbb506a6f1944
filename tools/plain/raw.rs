//! The replay of a raw network, whose script itself sends and takes messages.

use crate::carrier::Carrier;
use crate::names::Refusal;
use crate::printing::Printer;
use crate::script::Event;

/// So often a host takes in a round of a calm at most.
pub const TAKES: usize = 16;

/// Replays events over a carrier.
pub fn replay(mut carrier: impl Carrier, events: Vec<Event>, printer: &mut Printer) {
    for event in events {
        let before = carrier.log().len();
        let ended = match event {
            Event::Calm(rounds) => {
                calm(&mut carrier, rounds, printer);
                continue;
            }
            other => happen(&mut carrier, &other),
        };
        printer.crossings(&carrier.log()[before..]);
        if let Err(refusal) = ended {
            printer.refused(refusal);
        }
        if printer.has_failed() {
            return;
        }
    }
}

/// Lets an event happen that is not a calm. Scripts of raw networks have no events of host programs.
pub fn happen(carrier: &mut impl Carrier, event: &Event) -> Result<(), Refusal> {
    match *event {
        Event::Out(flow, ref text) => carrier.offer(flow, text.clone()),
        Event::Take(host) => carrier.take(host).map(|_| ()),
        Event::Net(event) => carrier.happen(event),
        _ => Ok(()),
    }
}

/// This many rounds, in each of which every host that is up takes what waits for it, until one changes nothing.
fn calm(carrier: &mut impl Carrier, rounds: u32, printer: &mut Printer) {
    let hosts = carrier.hosts();
    for _ in 0..rounds {
        let before = carrier.log().len();
        let is_settled = carrier.quiet_round();
        for host in &hosts {
            if carrier.is_up(*host) {
                for _ in 0..TAKES {
                    if !matches!(carrier.take(*host), Ok(Some(_))) {
                        break;
                    }
                }
            }
        }
        let crossed = &carrier.log()[before..];
        printer.crossings(crossed);
        if (crossed.is_empty() && is_settled) || printer.has_failed() {
            return;
        }
    }
}
