//! Damage to the rosters of a rack that is sound but for it.

use crate::asked::Asked;
use reference::calls::change_rack;
use reference::checks::random::Random;
use reference::Rack;

/// Where the rosters start, and where one starts after another.
const ROSTERS: usize = 9_992;
const ROSTER: usize = 32;

/// What is amiss.
#[derive(Clone, Copy, Debug, PartialEq, Eq)]
pub enum Kind {
    /// Any one byte.
    Byte,
    /// A vertex is in another roster than that of its level.
    Moved,
    /// A vertex is in the roster of its level and in another.
    Twice,
    /// A vertex is in no roster.
    Missing,
    /// Two vertices are each in the roster of the other's level, so that every
    /// roster has as many as it should.
    Exchanged,
    /// A bit from n on is set.
    Past,
    /// A change was made and the rosters stayed behind.
    Stale,
}

/// Damages the rosters in the bytes of a rack. It comes to nothing where there is
/// no bit from n on, where all vertices are at one level, and after a change that
/// moves none.
pub fn damage(random: &mut Random, bytes: &mut [u8], rack: &Rack, kind: Kind) {
    let v = random.below(rack.n);
    match kind {
        Kind::Byte => bytes[ROSTERS + random.below(5 * ROSTER)] = random.bits() as u8,
        Kind::Moved => {
            turn(bytes, rack.level[v], v);
            turn(bytes, another(random, rack.level[v]), v);
        }
        Kind::Twice => turn(bytes, another(random, rack.level[v]), v),
        Kind::Missing => turn(bytes, rack.level[v], v),
        Kind::Exchanged => exchange(random, bytes, rack),
        Kind::Past if rack.n == 256 => {}
        Kind::Past => {
            let past = random.between(rack.n, 255);
            turn(bytes, random.below(5) as i32 - 1, past);
        }
        Kind::Stale => stale(random, bytes, rack),
    }
}

/// Turns the bit of a vertex in the roster of a level.
pub fn turn(bytes: &mut [u8], level: i32, v: usize) {
    let roster = ROSTERS + ROSTER * (level + 1) as usize;
    bytes[roster + v / 8] ^= 1 << (v % 8);
}

/// A level that there is, other than this one.
fn another(random: &mut Random, level: i32) -> i32 {
    let others: Vec<i32> = (-1..=3).filter(|&other| other != level).collect();
    random.pick(&others)
}

fn exchange(random: &mut Random, bytes: &mut [u8], rack: &Rack) {
    let v = random.below(rack.n);
    let elsewhere: Vec<usize> = (0..rack.n)
        .filter(|&w| rack.level[w] != rack.level[v])
        .collect();
    if elsewhere.is_empty() {
        return;
    }
    let w = random.pick(&elsewhere);
    for vertex in [v, w] {
        turn(bytes, rack.level[v], vertex);
        turn(bytes, rack.level[w], vertex);
    }
}

/// The bytes after a change, with the rosters from before it. A few changes are
/// tried for one by which a vertex changes its level.
fn stale(random: &mut Random, bytes: &mut [u8], rack: &Rack) {
    for _ in 0..5 {
        let mut after = rack.clone();
        let asked = Asked::any(random, rack, 40);
        change_rack(&mut after, asked.code, asked.a, asked.b, &asked.words);
        if after.level != rack.level {
            let changed = after.to_bytes();
            return bytes[..ROSTERS].copy_from_slice(&changed[..ROSTERS]);
        }
    }
}
