//! The edges of a rack with many of them, whole rows at a time.

use crate::bits::{self, Row, EMPTY};
use crate::blocks::no_edge_has_two_owners;
use crate::counts::are_right;
use crate::layout::{edges, roster, row, RackBytes, ROSTERS_AT, ROWS_AT};
use crate::planes::Columns;
use crate::settings::Setting;

/// The six lowest bits at each of the levels 0 to 3.
const SIX_BITS: u32 = 0x3f3f_3f3f;

/// The same as in `few`. Phi of a vertex at j is the size of its row and the
/// number of its owners of rank up to j; the owners are counted for all
/// vertices at once, rank by rank, in planes enough for the highest counts.
pub fn edges_are_right(rack: &RackBytes, setting: &Setting, n: usize, ownable: &[Row; 8]) -> bool {
    let mut rows = Rows {
        counts: [0; 256],
        found: 0,
        outside: EMPTY,
        list: [0; 256],
    };
    let mut owners = [[0; 256]; 4];
    let too_many = if setting.most & !SIX_BITS == 0 {
        add_counted::<6>(rack, setting, ownable, &mut rows, &mut owners)
    } else {
        add_counted::<8>(rack, setting, ownable, &mut rows, &mut owners)
    };
    for rank in [0, usize::from(setting.highest & 7)] {
        rows.add(rack, rank as u8, &ownable[rank]);
    }
    !too_many
        && empty_from(rack, n)
        && rows.outside == EMPTY
        && rows.found == u32::from(edges(rack))
        && counts_are_right(rack, setting, &rows.counts, &owners)
        && no_edge_has_two_owners(rack, n)
}

/// Adds the rows of the ranks that count, and the owners up to each of them. The
/// answer is whether some vertex has more than the planes can tell.
#[inline(always)]
fn add_counted<const P: usize>(
    rack: &RackBytes,
    setting: &Setting,
    ownable: &[Row; 8],
    rows: &mut Rows,
    owners: &mut [[u8; 256]; 4],
) -> bool {
    let mut columns = Columns::<P>::start();
    for rank in 1..usize::from(setting.highest).min(4) {
        let list = rows.add_counted(rack, setting, rank as u8);
        owners[rank] = columns.add_rows(rack, list);
        rows.note(&columns.some(), &ownable[rank]);
    }
    columns.too_many()
}

/// Whether the rows from vertex n on are empty.
fn empty_from(rack: &RackBytes, n: usize) -> bool {
    let rows = rack[ROWS_AT + 32 * n..ROSTERS_AT].iter();
    rows.fold(0, |all, byte| all | byte) == 0
}

/// What the rows come to.
struct Rows {
    /// The counts as far as they come from the vertex's own row.
    counts: [u32; 256],
    found: u32,
    /// Vertices that some row may not name.
    outside: Row,
    /// The vertices of one rank, by rising number.
    list: [u8; 256],
}

impl Rows {
    /// Adds the sizes of the rows of a rank's roster, and lists the roster.
    #[inline(always)]
    fn add_counted(&mut self, rack: &RackBytes, setting: &Setting, rank: u8) -> &[u8] {
        let one = setting.counted(rank);
        let (mut found, mut length) = (0, 0);
        bits::each(&roster(rack, rank), |v| {
            let size = bits::size(&row(rack, v));
            found += size;
            self.counts[usize::from(v)] = size.wrapping_mul(one);
            self.list[length & 255] = v;
            length += 1;
        });
        self.found += found;
        &self.list[..length]
    }

    /// Adds the rows of a rank at which none counts: those of rank 0 are empty, and
    /// no level is above that of the highest rank.
    #[inline(always)]
    fn add(&mut self, rack: &RackBytes, rank: u8, ownable: &Row) {
        let (mut found, mut named) = (0, EMPTY);
        bits::each(&roster(rack, rank), |v| {
            let row = row(rack, v);
            found += bits::size(&row);
            for k in 0..4 {
                named[k] |= row[k];
            }
        });
        self.found += found;
        self.note(&named, ownable);
    }

    /// Some rows name these vertices, and may name those.
    fn note(&mut self, named: &Row, ownable: &Row) {
        for k in 0..4 {
            self.outside[k] |= named[k] & !ownable[k];
        }
    }
}

/// Whether the counts in the rack are right and below their thresholds. No
/// count runs over its byte: a vertex has at most 255 neighbours, and if one is
/// counted twice its edge has two owners, so that the rack is unsound anyway.
fn counts_are_right(
    rack: &RackBytes,
    setting: &Setting,
    counts: &[u32; 256],
    owners: &[[u8; 256]; 4],
) -> bool {
    are_right(rack, setting, |v| {
        let [one, two, three] = [owners[1][v], owners[2][v], owners[3][v]].map(u32::from);
        counts[v].wrapping_add(one << 8 | two << 16 | three << 24)
    })
}
