//! Calls on the table of distances of one IMP.
//!
//! A block begins with `routes IMP PORTS`, where nothing is heard. `ports` counts them; `hear PORT DISTANCES`, `lost PORT` and `claim` change the table. Printed is what
//! it announces, its distances to IMPs 1 to 63, as octets, and then the ports of the next lines to IMPs, as `IMP:PORT` or `FIRST-LAST:PORT`. `vector OCTETS` tells whether
//! these are distances, `same OCTETS OCTETS` and `equal OCTETS OCTETS` whether two such lists are the same.

use crate::Layer;
use crate::words::{Words, spell_octets};
use interface::MOST_IMPS;
use routing::{RouteTable, Vector};
use std::alloc::Global;

/// The table of the IMP that a block's first row names.
pub fn opened(alloc: Global, mut words: Words<'_>) -> Option<RouteTable> {
    RouteTable::new(alloc, words.octet()?, words.octet()?).ok()
}

impl Layer for RouteTable {
    fn call(&mut self, alloc: Global, mut words: Words<'_>, answer: &mut String) -> Option<()> {
        match words.word()? {
            "hear" => {
                let port = words.octet()?;
                let vector = vector(alloc, &mut words)?;
                if usize::from(port) >= self.heard().len() {
                    return None;
                }
                self.hear(port, vector);
            }
            "lost" => {
                let port = words.octet()?;
                if usize::from(port) >= self.heard().len() {
                    return None;
                }
                self.lost(port);
            }
            "claim" => self.claim(),
            "look" => {}
            "ports" => return write!(answer, "{}", self.heard().len()).ok(),
            "vector" => return match vector(alloc, &mut words) {
                Some(vector) => spell_octets(alloc, answer, vector.clone().ok()?.distances()),
                None => answer.push_str("nothing").ok(),
            },
            "same" => {
                let first = vector(alloc, &mut words)?;
                let second = vector(alloc, &mut words)?;
                return write!(answer, "{}", first.is_same(&second)).ok();
            }
            "equal" => return write!(answer, "{}", vector(alloc, &mut words)? == vector(alloc, &mut words)?).ok(),
            _ => return None,
        }
        tell_table(alloc, answer, self)
    }
}

/// The next word as distances.
fn vector(alloc: Global, words: &mut Words<'_>) -> Option<Vector> {
    Vector::from_slice(&words.octets(alloc)?)
}

/// What a table says: the distances that it announces, and its next lines, those of IMPs in a row over the same port together.
pub fn tell_table(alloc: Global, answer: &mut String, table: &RouteTable) -> Option<()> {
    spell_octets(alloc, answer, table.vector().distances())?;
    let last = MOST_IMPS as u8 + 1;
    let mut imp = 0;
    while imp <= last {
        let next = table.next(imp);
        let first = imp;
        while imp < last && table.next(imp + 1) == next {
            imp += 1;
        }
        if let Some(port) = next {
            write!(answer, " {first}").ok()?;
            if first < imp {
                write!(answer, "-{imp}").ok()?;
            }
            write!(answer, ":{port}").ok()?;
        }
        imp += 1;
    }
    if !table.vector().is_same(table.distances()) {
        answer.push_str(" (not what is kept)").ok()?;
    }
    Some(())
}
