//! How many slots are left: the empty ones of the right queue, after the call.

use super::super::*;
use super::board::{at, packet, place, Board};
use std::ops::Range;

/// A 3 by 3 board of depth 3 with one packet, at the centre, where it was taken in.
fn board_with(place: Place, destination: Node) -> (Board, u32) {
    let mut board = Board::new(3, 3, 3);
    let slot = board.put_alone(place, at(1, 1), destination);
    (board, slot)
}

/// Puts a packet into the slot that is good in any queue of the node, and counts it as taken.
fn hold(board: &mut Board, slot: usize) {
    let node = board.grid.place_of(slot).unwrap().node;
    let taken = Trailer::decode(&board.slice).unwrap().taken;
    board.put(slot, packet(node, node, node, taken));
    board.set_counts(taken + 1, 0);
}

/// Every slot held but the given one and those of the queue.
fn hold_all_but(board: &mut Board, slot: u32, queue: Range<usize>) {
    let all = 0..board.grid.slots();
    for other in all.filter(|other| *other != slot as usize && !queue.contains(other)) {
        hold(board, other);
    }
}

fn spoil(board: &mut Board, slot: usize) {
    board.slot_mut(slot)[15] = 1;
}

fn left(board: &mut Board, slot: u32, code: u32) -> usize {
    match board.step(slot, code) {
        Ok(Moved::To { left, .. } | Moved::Delivered { left, .. }) => left,
        Err(refusal) => panic!("refused by {refusal:?}"),
    }
}

/// Each way to move, from the centre, with the queue whose slots its answer counts.
fn ways() -> [(Place, Node, u32, Place); 9] {
    let (waiting, a, b) = (Kind::Waiting, Kind::A, Kind::B);
    let here = |kind| place(1, 1, kind);
    [
        (here(waiting), at(2, 1), 1, here(a)),
        (here(waiting), at(0, 1), 1, here(b)),
        (here(a), at(2, 2), 2, place(2, 1, a)),
        (here(a), at(0, 2), 3, place(0, 1, a)),
        (here(b), at(0, 0), 3, place(0, 1, b)),
        (here(a), at(2, 2), 4, place(1, 2, a)),
        (here(a), at(2, 0), 5, place(1, 0, a)),
        (here(b), at(0, 0), 5, place(1, 0, b)),
        (here(a), at(0, 0), 6, here(b)),
    ]
}

#[test]
fn a_packet_taken_in_leaves_no_waiting_slot() {
    let mut board = Board::new(3, 3, 3);
    for (serial, source) in (0..).zip([0x11, 0x00, 0x22]) {
        let taken = take_in(&mut board.slice, source, 0x11, [7; 8]).unwrap();
        assert_eq!((taken.serial, taken.left), (serial, 0));
    }
}

#[test]
fn a_move_counts_the_queue_that_it_leads_to() {
    for (from, destination, code, to) in ways() {
        for held in 0..3 {
            let (mut board, slot) = board_with(from, destination);
            for other in board.grid.queue(to).take(held) {
                hold(&mut board, other);
            }
            assert_eq!(left(&mut board, slot, code), 2 - held, "{code} to {to:?}");
        }
    }
}

#[test]
fn a_move_counts_no_other_queue() {
    for (from, destination, code, to) in ways() {
        let (mut board, slot) = board_with(from, destination);
        let queue = board.grid.queue(to);
        hold_all_but(&mut board, slot, queue);
        assert_eq!(left(&mut board, slot, code), 2, "{code} to {to:?}");
    }
}

#[test]
fn empty_slots_count_wherever_they_stand() {
    for (from, destination, code, to) in ways() {
        for held in 0..3 {
            let (mut board, slot) = board_with(from, destination);
            let held = board.grid.queue(to).start + held;
            hold(&mut board, held);
            assert_eq!(left(&mut board, slot, code), 1, "{code} to {to:?}");
        }
    }
}

#[test]
fn a_spoiled_slot_of_the_target_queue_never_counts() {
    for (from, destination, code, to) in ways() {
        for spoiled in 0..3 {
            let (mut board, slot) = board_with(from, destination);
            let spoiled = board.grid.queue(to).start + spoiled;
            spoil(&mut board, spoiled);
            assert_eq!(left(&mut board, slot, code), 1, "{code} to {to:?}");
        }
    }
}

#[test]
fn a_delivery_counts_the_slot_just_left() {
    for kind in [Kind::A, Kind::B] {
        for held in 0..3 {
            let (mut board, slot) = board_with(place(1, 1, kind), at(1, 1));
            let queue = board.grid.queue(place(1, 1, kind));
            for other in queue.skip(1).take(held) {
                hold(&mut board, other);
            }
            assert_eq!(left(&mut board, slot, 7), 3 - held, "{kind:?}");
        }
    }
}

#[test]
fn a_delivery_counts_its_own_queue_alone() {
    for kind in [Kind::A, Kind::B] {
        let (mut board, slot) = board_with(place(1, 1, kind), at(1, 1));
        hold_all_but(&mut board, slot, 0..0);
        assert_eq!(left(&mut board, slot, 7), 1, "{kind:?}");
    }
}

#[test]
fn a_spoiled_slot_of_the_queue_left_never_counts() {
    for kind in [Kind::A, Kind::B] {
        for spoiled in [1, 2] {
            let (mut board, slot) = board_with(place(1, 1, kind), at(1, 1));
            spoil(&mut board, slot as usize + spoiled);
            assert_eq!(left(&mut board, slot, 7), 2, "{kind:?}");
        }
    }
}

#[test]
fn packets_that_a_delivery_spoils_do_not_count() {
    let (mut board, slot) = board_with(place(1, 1, Kind::A), at(1, 1));
    hold(&mut board, slot as usize + 1);
    board.set_counts(2, 1);
    assert_eq!(left(&mut board, slot, 7), 2);
    let other = board.refused(|slice| read_payload(slice, slot + 1).map(drop));
    assert_eq!(other, 4);
}

#[test]
fn the_deepest_queue_is_counted_to_its_end() {
    let mut board = Board::new(1, 1, 7);
    take_in(&mut board.slice, 0, 0, [7; 8]).unwrap();
    assert_eq!(board.step(0, 1), Ok(Moved::To { slot: 8, left: 6 }));
    assert_eq!(left(&mut board, 8, 7), 7);
    for slot in 8..14 {
        hold(&mut board, slot);
    }
    take_in(&mut board.slice, 0, 0, [7; 8]).unwrap();
    assert_eq!(board.step(0, 1), Ok(Moved::To { slot: 14, left: 0 }));
}
