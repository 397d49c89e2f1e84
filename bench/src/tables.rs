//! Tables to measure on: 16 by 16 of depth 7, fresh, in any profile, or with every slot held, or every fourth.

use crate::twin::{calls, layout};
use paneglove::profile::FULL;

pub const SIZE: usize = 61_456;

/// A packet that was taken in where it is and has made no hop: good in any queue, for a destination that B may hold.
fn packet(node: u8, serial: u32) -> [u8; 16] {
    let mut v = [0u8; 16];
    v[..4].copy_from_slice(&[1, node, node / 16 / 2 * 16 + node % 16 / 2, 0]);
    v[4..8].copy_from_slice(&serial.to_le_bytes());
    v[8..].fill(0x5a);
    v
}

/// The largest board, just cleared.
pub fn fresh(profile: u32) -> Vec<u8> {
    let mut t = vec![0u8; SIZE];
    assert_eq!(calls::clear(&mut t, 16, 16, 7, profile), 0);
    t
}

/// The largest board with one slot in `every` held.
pub fn board(every: usize) -> Vec<u8> {
    let mut t = fresh(FULL);
    let h = layout::head(&t).expect("a fresh table has a good trailer");
    let mut taken = 0u32;
    for k in (0..h.slots()).step_by(every) {
        let p = layout::place(&h, k);
        let node = (p.x + 16 * p.y) as u8;
        t[16 * k..16 * k + 16].copy_from_slice(&packet(node, taken));
        taken += 1;
    }
    t[SIZE - 12..SIZE - 8].copy_from_slice(&taken.to_le_bytes());
    t
}
