//! States as octets, so that equal states can be known by them: two are equal in all that decides what comes exactly where their
//! octets are. What crossed and what was printed before is no part of a state.

use crate::bits::Bits;
use crate::names::{Answer, Flow, Host};
use std::collections::VecDeque;
use std::rc::Rc;

/// What can be spelled. No spelling is the beginning of another one of the same type.
pub trait Spell {
    /// Appends the octets.
    fn spell(&self, to: &mut Vec<u8>);
}

/// Spells types by the octets of a number, seven bits each.
macro_rules! numbers {
    ($($name:ty),*) => {
        $(impl Spell for $name {
            fn spell(&self, to: &mut Vec<u8>) {
                let mut left = *self as u64;
                while left > 127 {
                    to.push(left as u8 | 128);
                    left >>= 7;
                }
                to.push(left as u8);
            }
        })*
    };
}

numbers!(u16, u32, u64, usize);

impl Spell for u8 {
    fn spell(&self, to: &mut Vec<u8>) {
        to.push(*self);
    }
}

impl Spell for bool {
    fn spell(&self, to: &mut Vec<u8>) {
        to.push(*self as u8);
    }
}

impl Spell for Answer {
    fn spell(&self, to: &mut Vec<u8>) {
        to.push(*self as u8);
    }
}

impl Spell for Host {
    fn spell(&self, to: &mut Vec<u8>) {
        to.push(self.address());
    }
}

impl Spell for Flow {
    fn spell(&self, to: &mut Vec<u8>) {
        to.extend([self.source.address(), self.destination.address(), self.link]);
    }
}

impl Spell for Bits {
    fn spell(&self, to: &mut Vec<u8>) {
        self.len().spell(to);
        to.extend_from_slice(self.octets());
    }
}

impl<T: Spell> Spell for Rc<T> {
    fn spell(&self, to: &mut Vec<u8>) {
        (**self).spell(to);
    }
}

impl<T: Spell> Spell for Option<T> {
    fn spell(&self, to: &mut Vec<u8>) {
        self.is_some().spell(to);
        if let Some(it) = self {
            it.spell(to);
        }
    }
}

impl<T: Spell> Spell for [T] {
    fn spell(&self, to: &mut Vec<u8>) {
        self.len().spell(to);
        self.iter().for_each(|it| it.spell(to));
    }
}

impl<T: Spell> Spell for Vec<T> {
    fn spell(&self, to: &mut Vec<u8>) {
        self[..].spell(to);
    }
}

impl<T: Spell> Spell for VecDeque<T> {
    fn spell(&self, to: &mut Vec<u8>) {
        self.len().spell(to);
        self.iter().for_each(|it| it.spell(to));
    }
}

impl<A: Spell, B: Spell> Spell for (A, B) {
    fn spell(&self, to: &mut Vec<u8>) {
        self.0.spell(to);
        self.1.spell(to);
    }
}

impl<A: Spell, B: Spell, C: Spell> Spell for (A, B, C) {
    fn spell(&self, to: &mut Vec<u8>) {
        self.0.spell(to);
        self.1.spell(to);
        self.2.spell(to);
    }
}

/// Spells what a table has, in the order of its keys.
pub fn spell_sorted<'a, K: Spell + Ord + 'a, V: Spell + 'a>(table: impl Iterator<Item = (&'a K, &'a V)>, to: &mut Vec<u8>) {
    let mut pairs: Vec<(&K, &V)> = table.collect();
    pairs.sort_unstable_by_key(|it| it.0);
    pairs.len().spell(to);
    for (key, value) in pairs {
        key.spell(to);
        value.spell(to);
    }
}
