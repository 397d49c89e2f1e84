//! The trailer: sizes, profile, counts and the distance back to the table's first byte.

use super::grid::{Grid, TRAILER_BYTES};
use super::profile::Profile;

#[derive(Clone, Copy, Debug, PartialEq, Eq)]
pub struct Trailer {
    pub grid: Grid,
    pub profile: Profile,
    pub taken: u32,
    pub delivered: u32,
}

impl Trailer {
    pub fn fresh(grid: Grid, profile: Profile) -> Trailer {
        Trailer {
            grid,
            profile,
            taken: 0,
            delivered: 0,
        }
    }

    /// The good trailer at the end of the slice, if there is one.
    pub fn decode(slice: &[u8]) -> Option<Trailer> {
        let bytes: &[u8; TRAILER_BYTES] = slice.last_chunk()?;
        let [width, height, depth, profile, counts @ ..] = *bytes;
        let [t0, t1, t2, t3, d0, d1, d2, d3, b0, b1, b2, b3] = counts;
        let trailer = Trailer {
            grid: Grid::new(width.into(), height.into(), depth.into())?,
            profile: Profile::new(profile.into())?,
            taken: u32::from_le_bytes([t0, t1, t2, t3]),
            delivered: u32::from_le_bytes([d0, d1, d2, d3]),
        };
        let distance = usize::try_from(u32::from_le_bytes([b0, b1, b2, b3])).ok()?;
        let good = trailer.delivered <= trailer.taken
            && distance == trailer.grid.table_bytes()
            && distance <= slice.len();
        good.then_some(trailer)
    }

    pub fn encode(&self) -> [u8; TRAILER_BYTES] {
        let grid = &self.grid;
        let [t0, t1, t2, t3] = self.taken.to_le_bytes();
        let [d0, d1, d2, d3] = self.delivered.to_le_bytes();
        // At most 61,456, so the low four bytes of the eight are the whole of it.
        let [b0, b1, b2, b3, ..] = (grid.table_bytes() as u64).to_le_bytes();
        [
            grid.width(),
            grid.height(),
            grid.depth(),
            self.profile.number(),
            t0,
            t1,
            t2,
            t3,
            d0,
            d1,
            d2,
            d3,
            b0,
            b1,
            b2,
            b3,
        ]
    }
}
