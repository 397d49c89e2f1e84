//! Meetings on a link: a packet in A that is offered code 3 or 5, and in the node's B queue a packet
//! that goes first, one that seems to, or none.

use super::acts;
use super::bench::Bench;
use super::forge;
use super::packed::set_counts;
use super::queues::{any_slot_of, fill, put_wanted, slots_of};
use super::sizes::{lend_cleared, Sizes};
use crate::answer::Answer;
use crate::router::{Kind, Node, Profile, Refusal};
use crate::script::Command;

/// A code, the other one that A and B share, and the two nodes of the link.
#[derive(Clone, Copy)]
struct Link {
    code: u32,
    other: u32,
    here: Node,
    ahead: Node,
}

pub fn make(bench: &mut Bench) {
    bench.use_whole_script();
    while bench.open() {
        let drawn = Sizes::up_to(&mut bench.dice, 3, 3, 3);
        // A board of one row or one column offers neither code in A.
        let sizes = Sizes {
            width: drawn.width + 1,
            height: drawn.height + 1,
            ..drawn
        };
        lend_cleared(bench, sizes, 0);
        // Nor do the other profiles.
        if bench.dice.percent(85) {
            bench.write_profile(Profile::Full.number());
        }
        meet(bench, sizes);
    }
}

fn meet(bench: &mut Bench, sizes: Sizes) {
    let link = draw_link(bench, sizes);
    let Some(slot) = any_slot_of(bench, link.here, Kind::A) else {
        return;
    };
    let mut serials = Vec::new();
    put_wanted(bench, slot, &mut serials, |codes| {
        codes.contains(&link.code)
    });
    put_in_b(bench, link, &mut serials);
    if bench.dice.percent(20) {
        fill(bench, link.here, Kind::B, &mut serials);
    }
    if bench.dice.percent(20) {
        fill(bench, link.here, Kind::A, &mut serials);
    }
    if bench.dice.percent(30) {
        fill(bench, link.ahead, Kind::A, &mut serials);
    }
    set_counts(bench, &serials);
    propose(bench, slot, link);
}

/// The move, again and again while it gives way: as the board is, with other things about it
/// changed, and once what goes first has gone.
fn propose(bench: &mut Bench, slot: u32, link: Link) {
    for _ in 0..bench.dice.between(1, 4) {
        if !gives_way(bench, slot, link) {
            return;
        }
        change(bench, link);
    }
    for first in slots_of(bench, link.here, Kind::B) {
        let code = link.code;
        bench.call(Command::Move { slot: first, code });
    }
    gives_way(bench, slot, link);
}

/// Looks at the table first now and then: find names another move where this one gives way.
fn gives_way(bench: &mut Bench, slot: u32, link: Link) -> bool {
    match bench.dice.below(8) {
        0..=1 => drop(bench.call(Command::Find)),
        2 => drop(bench.call(Command::Check)),
        3 => acts::every_code(bench, slot),
        _ => {}
    }
    let code = link.code;
    let answer = bench.call(Command::Move { slot, code });
    matches!(answer, Some(Answer::Move(Err(Refusal::GivesWay))))
}

/// From a node where the rule can offer the code in A: for code 3 neither in the first column nor in
/// the last row, for code 5 neither in the first row nor in the last column.
fn draw_link(bench: &mut Bench, sizes: Sizes) -> Link {
    let mut below = |size: u32| u8::try_from(bench.dice.number() % (size - 1)).unwrap_or_default();
    let (x, y) = (below(sizes.width), below(sizes.height));
    let node = |x, y| Node { x, y };
    match bench.dice.percent(50) {
        true => Link {
            code: 3,
            other: 5,
            here: node(x + 1, y),
            ahead: node(x, y),
        },
        false => Link {
            code: 5,
            other: 3,
            here: node(x, y + 1),
            ahead: node(x, y),
        },
    }
}

/// What the node's B queue holds, or another's.
fn put_in_b(bench: &mut Bench, link: Link, serials: &mut Vec<u32>) {
    let Some(slot) = any_slot_of(bench, link.here, Kind::B) else {
        return;
    };
    let same = |codes: &[u32]| codes.contains(&link.code);
    let other_alone = |codes: &[u32]| codes == [link.other];
    match bench.dice.below(12) {
        0..=3 => put_wanted(bench, slot, serials, same),
        4..=6 => {
            put_wanted(bench, slot, serials, same);
            fill(bench, link.ahead, Kind::B, serials);
        }
        7 => {
            put_wanted(bench, slot, serials, same);
            spoil(bench, slot);
        }
        8..=9 => put_wanted(bench, slot, serials, other_alone),
        10 => put_in_another_b(bench, link, serials),
        _ => {}
    }
}

fn put_in_another_b(bench: &mut Bench, link: Link, serials: &mut Vec<u32>) {
    let Some(grid) = bench.grid() else { return };
    let elsewhere = Node::from_byte(acts::node_byte(bench, &grid));
    if elsewhere == link.here {
        return;
    }
    if let Some(slot) = any_slot_of(bench, elsewhere, Kind::B) {
        put_wanted(bench, slot, serials, |codes| codes.contains(&link.code));
    }
}

fn spoil(bench: &mut Bench, slot: u32) {
    if let Some(bytes) = bench.slot_bytes(slot) {
        let spoiled = forge::with_a_flaw(bench, bytes);
        bench.write_slot(slot, &spoiled);
    }
}

/// One thing more, that 12 hangs on or doesn't. A packet put here isn't counted, and most often has
/// another's serial, so that the full check fails.
fn change(bench: &mut Bench, link: Link) {
    let mut again = Vec::new();
    match bench.dice.below(6) {
        0 => fill(bench, link.ahead, Kind::A, &mut again),
        1 => fill(bench, link.ahead, Kind::B, &mut again),
        2 => fill(bench, link.here, Kind::Waiting, &mut again),
        3 => bench.write_profile(Profile::Adapt.number()),
        4 => bench.write_profile(Profile::Oblivious.number()),
        _ => {
            if let Some(slot) = any_slot_of(bench, link.here, Kind::B) {
                spoil(bench, slot);
            }
        }
    }
}
