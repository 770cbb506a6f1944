//! MurmurHash3 of 128 bits: two different states have the same hash once in far more states than there is memory for.

const FIRST: u64 = 0x87c3_7b91_1142_53d5;
const SECOND: u64 = 0x4cf5_ad43_2745_937f;

/// The hash of octets.
pub fn hash_of(octets: &[u8]) -> u128 {
    let (mut one, mut two) = (0_u64, 0_u64);
    let blocks = octets.chunks_exact(16);
    let mut last = [0; 16];
    last[..blocks.remainder().len()].copy_from_slice(blocks.remainder());
    for block in blocks.chain((octets.len() % 16 > 0).then_some(&last[..])) {
        let (low, high) = (word(&block[..8]), word(&block[8..]));
        one ^= low.wrapping_mul(FIRST).rotate_left(31).wrapping_mul(SECOND);
        one = one.rotate_left(27).wrapping_add(two).wrapping_mul(5).wrapping_add(0x52dc_e729);
        two ^= high.wrapping_mul(SECOND).rotate_left(33).wrapping_mul(FIRST);
        two = two.rotate_left(31).wrapping_add(one).wrapping_mul(5).wrapping_add(0x3849_5ab5);
    }
    one ^= octets.len() as u64;
    two ^= octets.len() as u64;
    one = one.wrapping_add(two);
    two = two.wrapping_add(one);
    (one, two) = (mixed(one), mixed(two));
    one = one.wrapping_add(two);
    two = two.wrapping_add(one);
    u128::from(one) << 64 | u128::from(two)
}

/// Eight octets as a number.
fn word(octets: &[u8]) -> u64 {
    u64::from_le_bytes(octets.try_into().expect("eight octets"))
}

/// A number all of whose bits depend on all bits of another one.
fn mixed(mut it: u64) -> u64 {
    it = (it ^ it >> 33).wrapping_mul(0xff51_afd7_ed55_8ccd);
    it = (it ^ it >> 33).wrapping_mul(0xc4ce_b9fe_1a85_ec53);
    it ^ it >> 33
}
