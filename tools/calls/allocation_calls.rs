//! Calls on an allocation.
//!
//! A block begins with `allocation`, and nothing is granted then. `set MESSAGES BITS`, `grant MESSAGES BITS` and `spend BITS` print what is granted
//! then, and `give_back F G` what is given back of it before that. `may_send SIZE BYTES` is how many of these bytes may go now.

use crate::Layer;
use crate::words::Words;
use ncp_control::Allocation;
use std::alloc::Global;

/// An allocation in which nothing is granted, which is the default too.
pub fn opened() -> Option<Allocation> {
    let allocation = Allocation::new();
    if allocation == Allocation::default() { Some(allocation) } else { None }
}

impl Layer for Allocation {
    fn call(&mut self, _: Global, mut words: Words<'_>, answer: &mut String) -> Option<()> {
        match words.word()? {
            "may_send" => {
                let size = words.octet()?;
                let bytes = words.place()?;
                if size == 0 {
                    return None;
                }
                return write!(answer, "{}", self.may_send(size, bytes)).ok();
            }
            "set" => *self = Allocation { messages: words.messages()?, bits: words.number()? },
            "grant" => self.grant(words.messages()?, words.number()?),
            "spend" => {
                let bits = words.number()?;
                if self.messages == 0 || bits > self.bits {
                    return None;
                }
                self.spend(bits);
            }
            "give_back" => {
                let (messages, bits) = self.give_back(words.octet()?, words.octet()?);
                write!(answer, "{messages} {bits}, left ").ok()?;
            }
            _ => return None,
        }
        write!(answer, "{} {}", self.messages, self.bits).ok()
    }
}
