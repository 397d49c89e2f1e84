//! The calls that read a whole table: 16 by 16 of depth 7, full and a quarter full.

use crate::tables::{self, SIZE};
use crate::timing::{race, Row};
use crate::twin::{list, survey};
use std::hint::black_box;

const CALLS: u32 = 40;

pub fn rows() -> Vec<Row> {
    let (full, quarter) = (tables::board(1), tables::board(4));
    vec![
        check("full check, full", &full),
        check("full check, a quarter full", &quarter),
        find("find, full", &full),
        find("find, a quarter full", &quarter),
        copy("outward copy, full", &full),
        copy("outward copy, a quarter full", &quarter),
        listed("list, full", &full),
        listed("list, a quarter full", &quarter),
    ]
}

fn check(call: &'static str, t: &[u8]) -> Row {
    assert_eq!(paneglove::full_check(t), Ok(()));
    assert!(survey::full_check(t).passes());
    race(
        call,
        CALLS,
        || {
            let _ = black_box(paneglove::full_check(black_box(t)));
        },
        || {
            black_box(survey::full_check(black_box(t)).passes());
        },
    )
}

fn find(call: &'static str, t: &[u8]) -> Row {
    let ours = paneglove::find(t).expect("a packet is held");
    let theirs = survey::find(t);
    assert_eq!(
        (0, ours.slot, ours.code),
        (theirs.number, theirs.slot, theirs.code)
    );
    race(
        call,
        CALLS,
        || {
            let _ = black_box(paneglove::find(black_box(t)));
        },
        || {
            black_box(survey::find(black_box(t)).slot);
        },
    )
}

fn copy(call: &'static str, t: &[u8]) -> Row {
    let (mut ours, mut theirs) = (vec![1; SIZE], vec![2; SIZE]);
    assert_eq!(paneglove::copy_outward(t, &mut ours), Ok(()));
    assert_eq!(survey::copy_outward(t, &mut theirs), (0, 0));
    assert_eq!(ours, theirs);
    race(
        call,
        CALLS,
        || {
            let _ = black_box(paneglove::copy_outward(black_box(t), &mut ours));
        },
        || {
            black_box(survey::copy_outward(black_box(t), &mut theirs));
        },
    )
}

fn listed(call: &'static str, t: &[u8]) -> Row {
    let mut ours = vec![0; paneglove::LISTING_ROOM];
    let mut theirs = ours.clone();
    let n = list::list(t, &mut theirs);
    assert_eq!(paneglove::list(t, &mut ours), Ok(&theirs[..n]));
    race(
        call,
        CALLS,
        || {
            let _ = black_box(paneglove::list(black_box(t), &mut ours));
        },
        || {
            black_box(list::list(black_box(t), &mut theirs));
        },
    )
}
