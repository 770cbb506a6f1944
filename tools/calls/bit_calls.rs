//! Calls on a list of bits.
//!
//! A block begins with `bits`, and the list is empty then. `read`, `push`, `append`, `cut`, `pad` and `strip` change the list, and what it is then
//! is printed: how many bits, and their octets. All other rows ask. `copy` takes a copy, which `same` compares with what the list is
//! then. `anew` builds the list again bit by bit; `parts FROM COUNT` does so for each part of less than COUNT bits from there on,
//! and for what such parts are appended to, and counts how often that is what `slice` and `append` give.

use crate::Layer;
use crate::words::{Words, spell_bits, spell_octets};
use bit_messages::{BitFault, Bits};
use std::alloc::Global;

/// The list, and the last copy of it.
#[derive(Drop)]
pub struct BitCalls {
    list: Bits,
    copy: Bits,
}

/// No bits.
pub fn opened(alloc: Global) -> BitCalls {
    BitCalls { list: Bits::new(alloc), copy: Bits::new(alloc) }
}

impl Layer for BitCalls {
    fn call(&mut self, alloc: Global, mut words: Words<'_>, answer: &mut String) -> Option<()> {
        let name = words.word()?;
        match name {
            "get" => match self.list.get(words.place()?) {
                Some(bit) => write!(answer, "{}", u8::from(bit)).ok(),
                None => answer.push_str("nothing").ok(),
            },
            "empty" => write!(answer, "{}", self.list.is_empty()).ok(),
            "mark" => write!(answer, "{}", self.list.has_mark()).ok(),
            "is" => write!(answer, "{}", self.list == words.bits(alloc)?).ok(),
            "same" => write!(answer, "{}", self.list == self.copy).ok(),
            "anew" => {
                let anew = one_by_one(alloc, &self.list, 0, self.list.len())?;
                write!(answer, "{}", anew == self.list).ok()
            }
            "parts" => write!(answer, "{}", alike(alloc, &self.list, words.place()?, words.place()?)?).ok(),
            "octets" => spell_octets(alloc, answer, &self.list.to_octets(alloc).ok()?),
            "octets_at" => match self.list.octets_at(alloc, words.place()?, words.place()?) {
                Ok(octets) => spell_octets(alloc, answer, &octets),
                Err(fault) => write!(answer, "refused {fault}").ok(),
            },
            "copy" => {
                self.copy = self.list.clone().ok()?;
                spell_bits(alloc, answer, &self.copy)
            }
            _ => {
                if let Err(fault) = changed(alloc, &mut self.list, name, words)? {
                    return write!(answer, "refused {fault}").ok();
                }
                spell_bits(alloc, answer, &self.list)
            }
        }
    }
}

/// Changes a list; `None` where that is no call.
fn changed(alloc: Global, list: &mut Bits, name: &str, mut words: Words<'_>) -> Option<Result<(), BitFault>> {
    let new = match name {
        "push" => return Some(list.push(words.octet()? == 1)),
        "append" => return Some(list.append(&words.bits(alloc)?)),
        "read" => {
            let count = words.place()?;
            Bits::from_octets(alloc, &words.octets(alloc)?, count)
        }
        "cut" => list.slice(alloc, words.place()?, words.place()?),
        "pad" => list.pad16(alloc),
        "strip" => list.strip(alloc),
        _ => return None,
    };
    Some(match new {
        Ok(new) => {
            *list = new;
            Ok(())
        }
        Err(fault) => Err(fault),
    })
}

/// The bits of a list between two places, put one at a time.
fn one_by_one(alloc: Global, list: &Bits, from: usize, to: usize) -> Option<Bits> {
    let mut bits = Bits::new(alloc);
    for place in from..to {
        bits.push(list.get(place)?).ok()?;
    }
    Some(bits)
}

/// How many parts from a place on, of less than this many bits, are the same cut out at once and bit by bit, and so is what they are
/// appended to.
fn alike(alloc: Global, list: &Bits, from: usize, lengths: usize) -> Option<usize> {
    let mut count = 0;
    for length in 0..lengths {
        let to = from + length;
        let part = list.slice(alloc, from, to).ok()?;
        let mut joined = one_by_one(alloc, list, 0, from)?;
        joined.append(&part).ok()?;
        if part == one_by_one(alloc, list, from, to)? && joined == one_by_one(alloc, list, 0, to)? {
            count += 1;
        }
    }
    Some(count)
}
