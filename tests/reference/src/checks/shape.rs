//! Soundness looked at another way: what a rack's bytes say is read into a
//! picture link by link, the picture is written out again, and the two must be
//! the same bytes; what the picture may not hold is looked for in it.

use super::settings::limits;

/// What the bytes of a rack say. A link stands as owner and other end.
struct Picture {
    n: usize,
    growth: u8,
    /// The thresholds, one for each level from 0 to the top level.
    limits: &'static [usize],
    links: Vec<(usize, usize)>,
    levels: Vec<u8>,
    mates: Vec<u16>,
}

const NONE: u16 = 65_535;

/// Whether these 10,152 bytes are a sound rack; if not, one thing amiss.
pub fn examine(bytes: &[u8]) -> Result<(), String> {
    let picture = look(bytes)?;
    let counts = tell_counts(&picture);
    if write(&picture, &counts) != bytes {
        return Err("bytes are not those of the links, levels and mates".into());
    }
    examine_links(&picture)?;
    examine_mates(&picture)?;
    for (v, count) in counts.iter().enumerate() {
        let mut both = count.iter().zip(picture.limits);
        if both.any(|(count, limit)| count >= limit) {
            return Err(format!("board {v} has counts {count:?}"));
        }
    }
    Ok(())
}

fn look(bytes: &[u8]) -> Result<Picture, String> {
    let n = usize::from(u16::from_le_bytes([bytes[0], bytes[1]]));
    if n == 0 || n > 256 {
        return Err(format!("{n} boards"));
    }
    let mates = bytes[264..264 + 2 * n].chunks(2);
    let picture = Picture {
        n,
        growth: bytes[4],
        limits: limits(bytes).ok_or(format!("settings {} {}", bytes[4], bytes[5]))?,
        links: look_at_rows(&bytes[1800..1800 + 32 * n], n),
        levels: bytes[8..8 + n].to_vec(),
        mates: mates
            .map(|two| u16::from_le_bytes([two[0], two[1]]))
            .collect(),
    };
    // There are as many levels from 0 on as the highest level byte is.
    let most = picture.limits.len();
    let high = |level: &&u8| usize::from(**level) > most;
    if let Some(high) = picture.levels.iter().find(high) {
        return Err(format!("level byte {high}"));
    }
    Ok(picture)
}

/// The links that the rows of boards 0 to n-1 name among boards 0 to n-1.
fn look_at_rows(rows: &[u8], n: usize) -> Vec<(usize, usize)> {
    let mut links = Vec::new();
    for (v, row) in rows.chunks(32).enumerate() {
        for (eighth, &byte) in row.iter().enumerate() {
            let mut left = byte;
            while left != 0 {
                let w = 8 * eighth + left.trailing_zeros() as usize;
                left &= left - 1;
                if w < n {
                    links.push((v, w));
                }
            }
        }
    }
    links
}

/// The counts of all boards, gathered by going through the links once: each
/// link counts for both its ends at every level above both, up to the top level.
fn tell_counts(picture: &Picture) -> Vec<[usize; 4]> {
    let mut counts = vec![[0; 4]; picture.n];
    for &(v, w) in &picture.links {
        // A level byte is the lowest level above the board.
        let above = picture.levels[v].max(picture.levels[w]);
        for end in [v, w] {
            for count in &mut counts[end][usize::from(above)..picture.limits.len()] {
                *count += 1;
            }
        }
    }
    counts
}

fn write(picture: &Picture, counts: &[[usize; 4]]) -> Vec<u8> {
    let mut head = Vec::with_capacity(10_152);
    head.extend((picture.n as u16).to_le_bytes());
    head.extend((picture.links.len() as u16).to_le_bytes());
    head.extend([picture.growth, picture.limits.len() as u8 - 1, 0, 0]);
    head.extend(&picture.levels);
    head.resize(264, 0);
    head.extend(picture.mates.iter().flat_map(|mate| mate.to_le_bytes()));
    head.resize(776, 255);
    head.extend(counts.iter().flatten().map(|&count| count as u8));
    head.resize(10_152, 0);
    for (v, w) in &picture.links {
        head[1800 + 32 * v + w / 8] |= 1 << (w % 8);
    }
    // A level byte is also the place of its roster among the five.
    for (v, level) in picture.levels.iter().enumerate() {
        head[9_992 + 32 * usize::from(*level) + v / 8] |= 1 << (v % 8);
    }
    head
}

fn examine_links(picture: &Picture) -> Result<(), String> {
    let mut seen = vec![false; 256 * 256];
    for &(v, w) in &picture.links {
        if v == w || seen[256 * w + v] {
            return Err(format!("link {v}-{w} to itself or twice"));
        }
        seen[256 * v + w] = true;
        if picture.levels[v] < picture.levels[w] {
            return Err(format!("link {v}-{w} has the lower end as owner"));
        }
        if picture.levels[v] + picture.levels[w] == 0 {
            return Err(format!("link {v}-{w} has two idle ends"));
        }
    }
    Ok(())
}

fn examine_mates(picture: &Picture) -> Result<(), String> {
    // Every pair is a link, so the links find all pairs there may be.
    let mut found = vec![NONE; picture.n];
    for &(v, w) in &picture.links {
        let named = usize::from(picture.mates[v]) == w && usize::from(picture.mates[w]) == v;
        if named && picture.levels[v] == picture.levels[w] {
            found[v] = w as u16;
            found[w] = v as u16;
        }
    }
    if found != picture.mates {
        return Err("a mate is not a linked board of one level that names it back".into());
    }
    for (v, &mate) in found.iter().enumerate() {
        if (mate == NONE) != (picture.levels[v] == 0) {
            return Err(format!("board {v} is idle above -1 or has a mate at -1"));
        }
    }
    Ok(())
}
