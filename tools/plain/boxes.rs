//! Plain mailboxes: a network that loses nothing and delays nothing.

use crate::carrier::{Carrier, NetEvent};
use crate::names::{places_of, Answer, Crossing, Flow, Host, Inbound, Refusal, Text};
use crate::spelling::Spell;
use std::collections::{HashMap, VecDeque};
use std::rc::Rc;

/// What waits of a flow, and the number under which it is in its queue. A flow has at most one thing that waits.
#[derive(Clone, Copy)]
struct Waiting {
    what: What,
    id: u64,
}

/// A message that waits for its destination, or an answer that waits for its source.
#[derive(Clone, Copy, PartialEq)]
enum What {
    Message,
    Answer(Answer),
}

/// One host: whether it is up, and what waits for it, each queue in order of the numbers.
#[derive(Clone)]
struct HostBox {
    is_up: bool,
    messages: VecDeque<(u64, Flow, Text)>,
    answers: VecDeque<(u64, Answer, Flow)>,
    /// How many messages of this host wait for others, or for itself.
    outstanding: usize,
}

/// All hosts and what waits for them. Copies share what is the same.
#[derive(Clone)]
pub struct Boxes {
    boxes: Vec<Option<Rc<HostBox>>>,
    hosts: Rc<[Host]>,
    waiting: Rc<HashMap<Flow, Waiting>>,
    next_id: u64,
    log: Vec<Crossing>,
}

impl Boxes {
    /// The mailboxes of these hosts, all of them up.
    pub fn new(hosts: Vec<Host>) -> Boxes {
        let mut boxes = vec![None; places_of(&hosts)];
        for host in &hosts {
            let new = HostBox { is_up: true, messages: VecDeque::new(), answers: VecDeque::new(), outstanding: 0 };
            boxes[host.index()] = Some(Rc::new(new));
        }
        Boxes { boxes, hosts: hosts.into(), waiting: Rc::default(), next_id: 0, log: Vec::new() }
    }

    /// The box of a host, which has to be there.
    fn host(&self, host: Host) -> Result<&HostBox, Refusal> {
        self.boxes.get(host.index()).and_then(Option::as_deref).ok_or(Refusal::NoSuch)
    }

    /// The box of a host, which has to be there and up.
    fn up(&self, host: Host) -> Result<&HostBox, Refusal> {
        let found = self.host(host)?;
        if found.is_up {
            Ok(found)
        } else {
            Err(Refusal::IsDown)
        }
    }

    /// The box of a host of which it is known that it is there, to be changed.
    fn known(&mut self, host: Host) -> &mut HostBox {
        Rc::make_mut(self.boxes[host.index()].as_mut().expect("a host of the network"))
    }

    /// What waits of each flow, to be changed.
    fn waiting(&mut self) -> &mut HashMap<Flow, Waiting> {
        Rc::make_mut(&mut self.waiting)
    }

    /// A number that is greater than all before.
    fn new_id(&mut self) -> u64 {
        self.next_id += 1;
        self.next_id
    }

    /// Puts an answer after the others, if the source is up. Otherwise nothing waits of the flow any more.
    fn tell(&mut self, answer: Answer, flow: Flow) {
        let id = self.new_id();
        let source = self.known(flow.source);
        if source.is_up {
            source.answers.push_back((id, answer, flow));
            self.waiting().insert(flow, Waiting { what: What::Answer(answer), id });
        } else {
            self.waiting().remove(&flow);
        }
    }

    /// Takes a message that waits out of its queue.
    fn withdraw_message(&mut self, flow: Flow, id: u64) {
        let queue = &mut self.known(flow.destination).messages;
        let at = queue.binary_search_by_key(&id, |it| it.0).expect("a message that waits");
        queue.remove(at);
        self.known(flow.source).outstanding -= 1;
    }

    /// The network gives up a message that waits, or the RFNM of one.
    fn give_up(&mut self, flow: Flow) -> Result<(), Refusal> {
        self.host(flow.source)?;
        match self.waiting.get(&flow) {
            Some(&Waiting { what: What::Message, id }) => self.withdraw_message(flow, id),
            Some(&Waiting { what: What::Answer(Answer::Rfnm), id }) => {
                let queue = &mut self.known(flow.source).answers;
                let at = queue.binary_search_by_key(&id, |it| it.0).expect("an answer that waits");
                queue.remove(at);
            }
            _ => return Err(Refusal::NotOutstanding),
        }
        self.tell(Answer::Incomplete, flow);
        Ok(())
    }

    /// A host stops: what waits for it is lost, and its messages give their sources Dead.
    fn host_down(&mut self, host: Host) -> Result<(), Refusal> {
        self.up(host)?;
        let found = self.known(host);
        found.is_up = false;
        let answers = std::mem::take(&mut found.answers);
        let messages = std::mem::take(&mut found.messages);
        for (_, _, flow) in answers {
            self.waiting().remove(&flow);
        }
        for (_, flow, _) in messages {
            self.known(flow.source).outstanding -= 1;
            self.tell(Answer::Dead, flow);
        }
        self.log.push(Crossing::Down(host));
        Ok(())
    }

    /// A host starts, once none of its messages waits any more.
    fn host_up(&mut self, host: Host) -> Result<(), Refusal> {
        let found = self.host(host)?;
        if found.is_up {
            return Err(Refusal::IsUp);
        }
        if found.outstanding > 0 {
            return Err(Refusal::Unsettled);
        }
        self.known(host).is_up = true;
        self.log.push(Crossing::Up(host));
        Ok(())
    }
}

impl Carrier for Boxes {
    fn hosts(&self) -> Vec<Host> {
        self.hosts.to_vec()
    }

    fn is_up(&self, host: Host) -> bool {
        self.up(host).is_ok()
    }

    fn log(&self) -> &[Crossing] {
        &self.log
    }

    fn forget_log(&mut self) {
        self.log.clear();
    }

    fn is_all_up(&self) -> bool {
        self.boxes.iter().flatten().all(|it| it.is_up)
    }

    fn offer(&mut self, flow: Flow, text: Text) -> Result<(), Refusal> {
        self.up(flow.source)?;
        if self.waiting.contains_key(&flow) {
            return Err(Refusal::Blocked);
        }
        self.log.push(Crossing::Out(flow, text.clone()));
        if self.is_up(flow.destination) {
            let id = self.new_id();
            self.known(flow.source).outstanding += 1;
            self.known(flow.destination).messages.push_back((id, flow, text));
            self.waiting().insert(flow, Waiting { what: What::Message, id });
        } else {
            self.tell(Answer::Dead, flow);
        }
        Ok(())
    }

    fn take(&mut self, host: Host) -> Result<Option<Inbound>, Refusal> {
        let waits = self.up(host)?;
        if waits.answers.is_empty() && waits.messages.is_empty() {
            return Ok(None);
        }
        let found = self.known(host);
        if let Some((_, answer, flow)) = found.answers.pop_front() {
            self.waiting().remove(&flow);
            self.log.push(Crossing::Answer(answer, flow));
            return Ok(Some(Inbound::Answer(answer, flow)));
        }
        let Some((_, flow, text)) = found.messages.pop_front() else {
            return Ok(None);
        };
        self.known(flow.source).outstanding -= 1;
        self.log.push(Crossing::In(flow, text.clone()));
        self.tell(Answer::Rfnm, flow);
        Ok(Some(Inbound::Message(flow, text)))
    }

    fn happen(&mut self, event: NetEvent) -> Result<(), Refusal> {
        match event {
            NetEvent::GiveUp(flow) => self.give_up(flow),
            NetEvent::HostDown(host) => self.host_down(host),
            NetEvent::HostUp(host) => self.host_up(host),
            _ => Err(Refusal::NoSuch),
        }
    }

    fn quiet_round(&mut self) -> bool {
        true
    }
}

impl Spell for Boxes {
    fn spell(&self, to: &mut Vec<u8>) {
        for found in self.boxes.iter().flatten() {
            found.is_up.spell(to);
            found.messages.len().spell(to);
            for (_, flow, text) in &found.messages {
                flow.spell(to);
                text.spell(to);
            }
            found.answers.len().spell(to);
            for (_, answer, flow) in &found.answers {
                answer.spell(to);
                flow.spell(to);
            }
        }
    }
}
