//! Lists of bits, kept eight an octet, the first bit the most significant one.

use crate::spelling::Spell;

/// A list of bits. What is left of the last octet is zero.
#[derive(Clone, Default, PartialEq, Eq, Debug)]
pub struct Bits {
    octets: Vec<u8>,
    len: usize,
}

impl Bits {
    /// The first `len` bits of octets, which have at least that many.
    pub fn new(mut octets: Vec<u8>, len: usize) -> Bits {
        octets.truncate(len.div_ceil(8));
        clear_rest(&mut octets, len);
        Bits { octets, len }
    }

    /// All bits of whole octets.
    pub fn whole(octets: Vec<u8>) -> Bits {
        let len = 8 * octets.len();
        Bits { octets, len }
    }

    /// How many bits there are.
    pub fn len(&self) -> usize {
        self.len
    }

    /// Whether there is no bit.
    pub fn is_empty(&self) -> bool {
        self.len == 0
    }

    /// The octets, the last one filled with zeros.
    pub fn octets(&self) -> &[u8] {
        &self.octets
    }

    /// Appends `count` bits of octets, from the bit `from` on.
    pub fn append(&mut self, octets: &[u8], from: usize, count: usize) {
        if self.len % 8 == 0 && from % 8 == 0 {
            let first = from / 8;
            self.octets.extend_from_slice(&octets[first..first + count.div_ceil(8)]);
            self.len += count;
            clear_rest(&mut self.octets, self.len);
            return;
        }
        let (mut at, end) = (from, from + count);
        while at < end {
            let taken = (end - at).min(8);
            self.push(octet_at(octets, at) & !(0xFF_u8.checked_shr(taken as u32).unwrap_or(0)), taken);
            at += taken;
        }
    }

    /// Appends all bits of another list.
    pub fn append_all(&mut self, other: &Bits) {
        self.append(&other.octets, 0, other.len);
    }

    /// Appends the first bits of an octet, whose others are zero.
    fn push(&mut self, octet: u8, count: usize) {
        let used = self.len % 8;
        if used == 0 {
            self.octets.push(octet);
        } else {
            *self.octets.last_mut().expect("a part of an octet") |= octet >> used;
            if used + count > 8 {
                self.octets.push(octet << (8 - used));
            }
        }
        self.len += count;
    }
}

/// Sets the bits after the first `len` to zero. There is at most a part of an octet of them.
fn clear_rest(octets: &mut [u8], len: usize) {
    if len % 8 != 0 {
        if let Some(last) = octets.last_mut() {
            *last &= 0xFF << (8 - len % 8);
        }
    }
}

/// Eight bits from a place on, with zeros after the last octet.
fn octet_at(octets: &[u8], bit: usize) -> u8 {
    let (at, shift) = (bit / 8, bit % 8);
    let next = octets.get(at + 1).copied().unwrap_or(0) as u16;
    (((octets[at] as u16) << 8 | next) << shift >> 8) as u8
}

/// Bits that are appended at one end and taken from the other.
#[derive(Clone, Default, Debug)]
pub struct BitQueue {
    bits: Bits,
    start: usize,
}

impl BitQueue {
    /// How many bits wait.
    pub fn len(&self) -> usize {
        self.bits.len - self.start
    }

    /// Whether no bit waits.
    pub fn is_empty(&self) -> bool {
        self.len() == 0
    }

    /// Appends bits.
    pub fn append(&mut self, bits: &Bits) {
        self.bits.append_all(bits);
    }

    /// Appends a copy of the first bits to a list.
    pub fn copy_front(&self, count: usize, to: &mut Bits) {
        to.append(&self.bits.octets, self.start, count);
    }

    /// Appends how many bits wait, and these as octets.
    pub fn spell(&self, to: &mut Vec<u8>) {
        self.len().spell(to);
        if self.start % 8 == 0 {
            to.extend_from_slice(&self.bits.octets[self.start / 8..]);
        } else {
            let mut left = Bits::default();
            self.copy_front(self.len(), &mut left);
            to.extend_from_slice(left.octets());
        }
    }

    /// Takes the first bits away. Their octets are given up once they are more than half of all.
    pub fn drop_front(&mut self, count: usize) {
        self.start += count;
        if self.is_empty() {
            self.clear();
        } else if self.start > self.bits.len / 2 {
            let whole = self.start / 8;
            self.bits.octets.drain(..whole);
            self.bits.len -= 8 * whole;
            self.start -= 8 * whole;
        }
    }

    /// Takes all bits away.
    pub fn clear(&mut self) {
        *self = BitQueue::default();
    }
}
