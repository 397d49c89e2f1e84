//! Clear: zeros and a fresh trailer in the last part of the slice.

use super::grid::Grid;
use super::profile::Profile;
use super::refusal::Refusal;
use super::trailer::Trailer;

const DEPTH_FOR_ZERO: u32 = 5;

pub fn clear(
    slice: &mut [u8],
    width: u32,
    height: u32,
    depth: u32,
    profile: u32,
) -> Result<(), Refusal> {
    let depth = if depth == 0 { DEPTH_FOR_ZERO } else { depth };
    let grid = Grid::new(width, height, depth).ok_or(Refusal::BoardNotAccepted)?;
    let profile = Profile::new(profile).ok_or(Refusal::BoardNotAccepted)?;
    let start = slice.len().checked_sub(grid.table_bytes());
    let start = start.ok_or(Refusal::WrongLength)?;
    let table = slice.get_mut(start..).ok_or(Refusal::WrongLength)?;
    table.fill(0);
    if let Some(trailer) = table.last_chunk_mut() {
        *trailer = Trailer::fresh(grid, profile).encode();
    }
    Ok(())
}
