//! Taking in and moving: the table is put back after each call, by the same few bytes on both sides.

use crate::tables::{self, SIZE};
use crate::timing::{race, Row};
use crate::twin::calls;
use paneglove::profile::{FULL, OBLIVIOUS};
use paneglove::Moved;
use std::hint::black_box;

const CALLS: u32 = 20_000;

pub fn rows() -> Vec<Row> {
    vec![
        take_in(),
        hop("move", FULL),
        hop("move, profile 2", OBLIVIOUS),
    ]
}

/// A fresh board takes a packet in, and its slot and its counts are put back.
fn take_in() -> Row {
    let fresh = tables::fresh(FULL);
    let put_back = |t: &mut [u8]| {
        t[..16].fill(0);
        t[SIZE - 12..SIZE - 8].fill(0);
    };
    let (mut ours, mut theirs) = (fresh.clone(), fresh);
    let answer = paneglove::take_in(&mut ours, 0, 255, [1; 8]).expect("there is room");
    let twin = calls::take_in(&mut theirs, 0, 255, &[1; 8]);
    assert_eq!(
        (answer.slot, answer.serial, answer.left),
        (twin.slot, twin.serial, twin.left)
    );
    assert_eq!(ours, theirs);
    put_back(&mut ours);
    put_back(&mut theirs);
    race(
        "take in",
        CALLS,
        || {
            black_box(paneglove::take_in(&mut ours, 0, 255, [1; 8])).expect("there is room");
            put_back(&mut ours);
        },
        || {
            let a = calls::take_in(&mut theirs, 0, 255, &[1; 8]);
            assert_eq!(black_box(a).number, 0);
            put_back(&mut theirs);
        },
    )
}

/// A packet in A hops right, and the two slots are put back.
fn hop(call: &'static str, profile: u32) -> Row {
    let mut t = tables::fresh(profile);
    calls::take_in(&mut t, 0, 255, &[1; 8]);
    let from = calls::make_move(&mut t, 0, 1).slot;
    let (mut ours, mut theirs) = (t.clone(), t.clone());
    let answer = paneglove::make_move(&mut ours, from, 2).expect("it is offered");
    let twin = calls::make_move(&mut theirs, from, 2);
    let (slot, left) = (twin.slot, twin.left);
    assert_eq!(answer, Moved::To { slot, left });
    assert_eq!((twin.packet, ours == theirs), ([0; 16], true));
    let (from_at, to_at) = (16 * from as usize, 16 * twin.slot as usize);
    let packet = t[from_at..from_at + 16].to_vec();
    let put_back = |t: &mut [u8]| {
        t[to_at..to_at + 16].fill(0);
        t[from_at..from_at + 16].copy_from_slice(&packet);
    };
    put_back(&mut ours);
    put_back(&mut theirs);
    race(
        call,
        CALLS,
        || {
            black_box(paneglove::make_move(&mut ours, from, 2)).expect("it is offered");
            put_back(&mut ours);
        },
        || {
            let a = calls::make_move(&mut theirs, from, 2);
            assert_eq!(black_box(a).number, 0);
            put_back(&mut theirs);
        },
    )
}
