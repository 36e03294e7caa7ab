//! Damage to the bytes of a rack, field by field, and such that only one thing
//! is amiss.

// With its path, so that the tests of the tuned program find it too.
#[path = "roster_damage.rs"]
pub mod roster_damage;

use reference::checks::random::Random;
use reference::Rack;
use roster_damage::Kind;

/// What is damaged: a field of the bytes, or the rack that they tell of.
#[derive(Clone, Copy, Debug, PartialEq, Eq)]
pub enum Damage {
    Header,
    Growth,
    Top,
    Settings,
    Spare,
    Ranks,
    Mates,
    Counts,
    Rows,
    Past,
    Sly,
    Owner,
    Model,
    Rosters(Kind),
}

pub const DAMAGES: [(&str, Damage); 20] = [
    ("header", Damage::Header),
    ("growth", Damage::Growth),
    ("top level", Damage::Top),
    ("settings with right counts", Damage::Settings),
    ("spare bytes", Damage::Spare),
    ("levels", Damage::Ranks),
    ("mates", Damage::Mates),
    ("counts", Damage::Counts),
    ("rows", Damage::Rows),
    ("entries past n", Damage::Past),
    ("two fields that agree", Damage::Sly),
    ("an owner, counted from its level", Damage::Owner),
    (
        "levels, mates, owners with right counts and rosters",
        Damage::Model,
    ),
    ("bytes of rosters", Damage::Rosters(Kind::Byte)),
    ("rosters: a board moved", Damage::Rosters(Kind::Moved)),
    ("rosters: a board in two", Damage::Rosters(Kind::Twice)),
    ("rosters: a board in none", Damage::Rosters(Kind::Missing)),
    (
        "rosters: two boards for each other",
        Damage::Rosters(Kind::Exchanged),
    ),
    ("rosters: a bit from n on", Damage::Rosters(Kind::Past)),
    (
        "rosters: those before a change",
        Damage::Rosters(Kind::Stale),
    ),
];

/// The bytes of a rack with damage of one kind. At times the damage comes to
/// nothing, and at times the rack is still sound.
pub fn damaged(random: &mut Random, rack: &Rack, damage: Damage) -> Vec<u8> {
    if damage == Damage::Model {
        let mut rack = rack.clone();
        for _ in 0..random.between(1, 2) {
            damage_model(random, &mut rack);
        }
        return rack.to_bytes();
    }
    if damage == Damage::Settings {
        return other_settings(random, rack.clone()).to_bytes();
    }
    let mut bytes = rack.to_bytes();
    match damage {
        Damage::Sly if random.percent(15) => high_ranks(random, &mut bytes, rack),
        Damage::Sly => sly(random, &mut bytes, rack),
        Damage::Owner => lower_owner(random, &mut bytes, rack),
        Damage::Rosters(kind) => roster_damage::damage(random, &mut bytes, rack, kind),
        _ => {
            let at = field(random, rack.n, damage);
            damage_byte(random, &mut bytes[at]);
        }
    }
    bytes
}

/// A byte of a field. Those of the fields of vertices belong to a vertex of
/// the rack, those past n to no vertex.
fn field(random: &mut Random, n: usize, damage: Damage) -> usize {
    let v = random.below(n);
    match damage {
        Damage::Header => random.below(4),
        Damage::Growth => 4,
        Damage::Top => 5,
        Damage::Spare => 6 + random.below(2),
        Damage::Ranks => 8 + v,
        Damage::Mates => 264 + 2 * v + random.below(2),
        Damage::Counts => 776 + 4 * v + random.below(4),
        Damage::Rows => 1_800 + 32 * v + random.below(n) / 8,
        _ => past(random, n),
    }
}

/// A byte past the n entries of a field; of the spare bytes if n is 256.
fn past(random: &mut Random, n: usize) -> usize {
    if n == 256 {
        return 6 + random.below(2);
    }
    let v = if random.percent(30) {
        n
    } else {
        random.between(n, 255)
    };
    match random.below(6) {
        0 => 8 + v,
        1 => 264 + 2 * v + random.below(2),
        2 => 776 + 4 * v + random.below(4),
        3 => 1_800 + 32 * v + random.below(32),
        4 => 9_992 + 32 * random.below(5) + v / 8,
        _ => 1_800 + 32 * random.below(n) + v / 8,
    }
}

/// One bit turned, one up, one down, a small number or any.
fn damage_byte(random: &mut Random, byte: &mut u8) {
    *byte = match random.below(6) {
        0 => byte.wrapping_add(1),
        1 => byte.wrapping_sub(1),
        2 => random.below(6) as u8,
        3 => random.bits() as u8,
        _ => *byte ^ (1 << random.below(8)),
    };
}

/// Other settings, by which a level may be above the top or a count reach its
/// threshold; the counts are those of the new top level.
fn other_settings(random: &mut Random, mut rack: Rack) -> Rack {
    if random.percent(50) {
        rack.settings.growth = random.between(2, 8);
    } else {
        rack.settings.top = random.below(4) as i32;
    }
    rack
}

/// Damage after which the edge number, the counts and the rosters are still
/// right.
fn damage_model(random: &mut Random, rack: &mut Rack) {
    let (v, w) = (random.below(rack.n), random.below(rack.n));
    match random.below(7) {
        0 => rack.level[v] = random.below(5) as i32 - 1,
        1 => rack.mate[v] = Some(w),
        2 => rack.mate[v] = None,
        3 => change_owner(random, rack),
        4 => rack.owner[v][w] = !rack.owner[v][w] && !rack.owner[w][v] && v != w,
        5 => {
            // Two vertices become mates, linked or not, on one level or not.
            rack.mate[v] = Some(w);
            rack.mate[w] = Some(v);
        }
        _ => {
            // A vertex and its mate go to another level, at times to none that
            // there is, and the owners go with them.
            let level = random.pick(&[-1, 0, 1, 2, 3, 4, 5, 8, 64, 128, 254]);
            for end in [v, rack.mate[v].unwrap_or(v)] {
                rack.level[end] = level;
            }
            owners_by_level(rack);
        }
    }
}

/// An edge goes to its other end.
fn change_owner(random: &mut Random, rack: &mut Rack) {
    let v = random.below(rack.n);
    let neighbours = rack.neighbours_below(v, 4);
    if !neighbours.is_empty() {
        let w = random.pick(&neighbours);
        let owned = rack.owner[v][w];
        rack.owner[v][w] = !owned;
        rack.owner[w][v] = owned;
    }
}

fn owners_by_level(rack: &mut Rack) {
    for v in 0..rack.n {
        for w in 0..rack.n {
            if rack.owner[v][w] && rack.level[v] < rack.level[w] {
                rack.owner[v][w] = false;
                rack.owner[w][v] = true;
            }
        }
    }
}

/// One more bit in a row, with an edge number, and at times counts, that go
/// with it up to the top level: a second owner, a vertex's own bit, a vertex past n,
/// or an edge that may be one too many.
fn sly(random: &mut Random, bytes: &mut [u8], rack: &Rack) {
    let v = random.below(rack.n);
    let neighbours = rack.neighbours_below(v, 4);
    let w = match random.below(4) {
        0 => v,
        1 if rack.n < 256 => random.between(rack.n, 255),
        2 => random.below(rack.n),
        _ if neighbours.is_empty() => v,
        _ => random.pick(&neighbours),
    };
    let (v, w) = if owns(rack, v, w) { (w, v) } else { (v, w) };
    bytes[1_800 + 32 * v + w / 8] |= 1 << (w % 8);
    let edges = u16::from_le_bytes([bytes[2], bytes[3]]);
    let edges = edges.wrapping_add(random.pick(&[0, 1, 1, 1]));
    bytes[2..4].copy_from_slice(&edges.to_le_bytes());
    let above = bytes[8 + v].max(bytes[8 + w]);
    let ends = match random.below(3) {
        0 => vec![],
        1 => vec![v],
        _ => vec![v, w],
    };
    for end in ends {
        for j in usize::from(above)..=rack.settings.top as usize {
            let count = &mut bytes[776 + 4 * end + j];
            *count = count.wrapping_add(1);
        }
    }
}

/// A vertex and its mate get level bytes that are right but for their upper
/// bits.
fn high_ranks(random: &mut Random, bytes: &mut [u8], rack: &Rack) {
    let v = random.below(rack.n);
    let more = random.pick(&[8, 16, 32, 64, 128]);
    bytes[8 + v] |= more;
    if let Some(mate) = rack.mate[v] {
        bytes[8 + mate] |= more;
    }
}

/// An edge goes to its lower end, and both ends count it from there: right for
/// whoever takes the owner's level for the higher one.
fn lower_owner(random: &mut Random, bytes: &mut [u8], rack: &Rack) {
    let lower = |v: usize| rack.neighbours_below(v, rack.level[v]);
    let owners: Vec<usize> = (0..rack.n).filter(|&v| !lower(v).is_empty()).collect();
    if owners.is_empty() {
        return;
    }
    let v = random.pick(&owners);
    let w = random.pick(&lower(v));
    bytes[1_800 + 32 * v + w / 8] &= !(1 << (w % 8));
    bytes[1_800 + 32 * w + v / 8] |= 1 << (v % 8);
    for j in usize::from(bytes[8 + w])..usize::from(bytes[8 + v]) {
        for end in [v, w] {
            bytes[776 + 4 * end + j] += 1;
        }
    }
}

/// Whether v owns v-w; no vertex past n is owned.
fn owns(rack: &Rack, v: usize, w: usize) -> bool {
    w < rack.n && rack.owner[v][w]
}
