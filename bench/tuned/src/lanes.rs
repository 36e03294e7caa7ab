//! Two words side by side. Written so, most of the work on them is done for
//! both at once.

pub type Lanes = [u64; 2];

pub const NONE: Lanes = [0; 2];

/// The upper part of some words changes places with the lower part of others:
/// the mask holds the lower part, and the shift leads from one to the other.
#[inline(always)]
pub fn swap(some: &mut Lanes, others: &mut Lanes, shift: usize, mask: u64) {
    for k in 0..2 {
        let moved = ((some[k] >> shift) ^ others[k]) & mask;
        some[k] ^= moved << shift;
        others[k] ^= moved;
    }
}

/// A full adder in each bit: adds two bits to a plane and gives the carry.
#[inline(always)]
pub fn full_add(plane: &mut Lanes, a: Lanes, b: Lanes) -> Lanes {
    let mut carry = NONE;
    for k in 0..2 {
        let odd = a[k] ^ b[k];
        carry[k] = a[k] & b[k] | plane[k] & odd;
        plane[k] ^= odd;
    }
    carry
}

/// A half adder in each bit: adds one bit to a plane and gives the carry.
#[inline(always)]
pub fn half_add(plane: &mut Lanes, a: Lanes) -> Lanes {
    let carry = [plane[0] & a[0], plane[1] & a[1]];
    *plane = [plane[0] ^ a[0], plane[1] ^ a[1]];
    carry
}

#[inline(always)]
pub fn or(a: Lanes, b: Lanes) -> Lanes {
    [a[0] | b[0], a[1] | b[1]]
}

/// Both words, with the same done to each.
#[inline(always)]
pub fn each(lanes: Lanes, done: impl Fn(u64) -> u64) -> Lanes {
    [done(lanes[0]), done(lanes[1])]
}
