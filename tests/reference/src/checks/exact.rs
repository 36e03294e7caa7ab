//! The largest pairing and the smallest cover of few boards, by trying all.

/// The most boards for which all sets of boards are tried.
pub const MOST_BOARDS: u32 = 8;

/// The number of links in a largest set of links without a common board.
pub fn largest_pairing(n: u32, links: &[(u32, u32)]) -> u32 {
    // best[s] is the answer for links with both ends in the set s.
    let mut best = vec![0; 1 << n];
    for set in 0..1usize << n {
        for &(a, b) in links {
            let ends = 1usize << a | 1usize << b;
            if set & ends == ends {
                best[set] = best[set].max(best[set & !ends] + 1);
            }
        }
    }
    best[(1 << n) - 1]
}

/// The number of boards in a smallest set that holds an end of every link.
pub fn smallest_cover(n: u32, links: &[(u32, u32)]) -> u32 {
    let covers = |set: &u32| {
        links
            .iter()
            .all(|(a, b)| set & (1 << a) != 0 || set & (1 << b) != 0)
    };
    let sizes = (0..1u32 << n).filter(covers).map(u32::count_ones);
    sizes.min().unwrap_or(n)
}
