//! Mistakes in clearing, taking in and reading.

use super::slots::slot_bytes;
use crate::calls::Calls;
use crate::router::{clear, read_payload, take_in, Refusal, TakenIn, Trailer};

/// Zeros in the whole slice, not in the table alone.
pub struct ClearsBeforeTable;

impl Calls for ClearsBeforeTable {
    fn clear(&self, slice: &mut [u8], board: [u32; 4]) -> Result<(), Refusal> {
        let [width, height, depth, profile] = board;
        clear(slice, width, height, depth, profile)?;
        slice.fill(0);
        clear(slice, width, height, depth, profile)
    }
}

pub struct DepthZeroRefused;

impl Calls for DepthZeroRefused {
    fn clear(&self, slice: &mut [u8], board: [u32; 4]) -> Result<(), Refusal> {
        let [width, height, depth, profile] = board;
        match depth {
            0 => Err(Refusal::BoardNotAccepted),
            _ => clear(slice, width, height, depth, profile),
        }
    }
}

/// 6 before 7.
pub struct FullBeforeEnd;

impl Calls for FullBeforeEnd {
    fn take_in(&self, slice: &mut [u8], ends: [u8; 2], load: [u8; 8]) -> Result<TakenIn, Refusal> {
        let [source, destination] = ends;
        let answer = take_in(slice, source, destination, load);
        if answer != Err(Refusal::TakenAtItsEnd) {
            return answer;
        }
        let mut below_the_end = slice.to_vec();
        let trailer = Trailer::decode(slice).map(|trailer| Trailer {
            taken: 0,
            delivered: 0,
            ..trailer
        });
        if let (Some(end), Some(trailer)) = (below_the_end.last_chunk_mut(), trailer) {
            *end = trailer.encode();
        }
        let full = take_in(&mut below_the_end, source, destination, load).err();
        Err(full.unwrap_or(Refusal::TakenAtItsEnd))
    }
}

/// Delivered equal to taken overlooked where a slot is judged.
pub struct ReadsAtTheEnd;

impl Calls for ReadsAtTheEnd {
    fn read_payload(&self, slice: &[u8], slot: u32) -> Result<Vec<u8>, Refusal> {
        let answer = read_payload(slice, slot).map(<[u8]>::to_vec);
        if answer != Err(Refusal::SlotSpoiled) {
            return answer;
        }
        let mut undelivered = slice.to_vec();
        let trailer = Trailer::decode(slice).map(|trailer| Trailer {
            delivered: 0,
            ..trailer
        });
        if let (Some(end), Some(trailer)) = (undelivered.last_chunk_mut(), trailer) {
            *end = trailer.encode();
        }
        read_payload(&undelivered, slot)?;
        let number = usize::try_from(slot).unwrap_or_default();
        let payload = slot_bytes(slice, number);
        Ok(payload.into_iter().skip(8).collect())
    }
}
