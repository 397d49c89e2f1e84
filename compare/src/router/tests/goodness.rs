//! Each condition of a good trailer and of a good slot, broken alone.

use super::super::*;
use super::board::{at, packet, place, Board};

fn trailer_good(break_it: impl Fn(&mut Board)) -> bool {
    let mut board = Board::new(2, 3, 1);
    board.set_counts(5, 5);
    break_it(&mut board);
    Trailer::decode(&board.slice).is_some()
}

#[test]
fn a_trailer_with_one_condition_broken_is_not_good() {
    assert!(trailer_good(|_| {}));
    for (number, byte) in [(0, 0), (0, 3), (1, 0), (1, 17), (2, 0), (2, 8), (2, 2)] {
        assert!(!trailer_good(|board| board.set_trailer_byte(number, byte)));
    }
    for byte in [3, 4, 128, 255] {
        assert!(!trailer_good(|board| board.set_trailer_byte(3, byte)));
    }
    for byte in [0, 1, 2] {
        assert!(trailer_good(|board| board.set_trailer_byte(3, byte)));
    }
    assert!(!trailer_good(|board| board.set_trailer_byte(8, 6)));
    assert!(trailer_good(|board| board.set_trailer_byte(8, 4)));
    for (number, byte) in [(12, 0x2F), (12, 0x31), (12, 0x20), (13, 2), (15, 1)] {
        assert!(!trailer_good(|board| board.set_trailer_byte(number, byte)));
    }
    assert!(!trailer_good(|board| {
        board.slice.remove(0);
    }));
    assert!(trailer_good(|board| board.slice.insert(0, 9)));
}

#[test]
fn width_and_height_changed_about_stay_good() {
    assert!(trailer_good(|board| {
        board.set_trailer_byte(0, 3);
        board.set_trailer_byte(1, 2);
    }));
}

#[test]
fn a_slice_below_16_bytes_has_no_good_trailer() {
    for length in 0..16 {
        assert_eq!(Trailer::decode(&vec![1; length]), None);
    }
}

/// The full check's answer where the packet stands alone, and read payload's agrees with it.
fn is_good(board: &mut Board, place: Place, packet: Packet) -> bool {
    let slot = board.first_slot(place);
    board.put(slot, packet);
    let number = board.refused(|slice| read_payload(slice, slot as u32).map(drop));
    let spoiled = Refusal::CheckFailed(CheckFault::Spoiled(slot as u32));
    assert_eq!(number == 4, full_check(&board.slice) == Err(spoiled));
    board.slot_mut(slot).fill(0);
    number == 0
}

#[test]
fn nodes_must_lie_on_the_grid() {
    let mut board = Board::new(3, 2, 1);
    board.set_counts(1, 0);
    let here = place(2, 1, Kind::A);
    for (source, good) in [(at(0, 0), true), (at(3, 0), false), (at(0, 2), false)] {
        let from = packet(source, here.node, here.node, 0);
        assert_eq!(is_good(&mut board, here, from), good);
        let to = packet(here.node, here.node, source, 0);
        assert_eq!(is_good(&mut board, here, to), good);
    }
}

#[test]
fn serial_and_delivered_lie_below_taken() {
    let here = place(1, 1, Kind::A);
    for (taken, delivered, serial, good) in [
        (3, 2, 2, true),
        (3, 2, 0, true),
        (3, 2, 3, false),
        (3, 3, 2, false),
        (0, 0, 0, false),
        (u32::MAX, u32::MAX - 1, u32::MAX - 1, true),
        (u32::MAX, 0, u32::MAX, false),
    ] {
        let mut board = Board::new(3, 3, 1);
        board.set_counts(taken, delivered);
        let packet = packet(at(0, 0), here.node, at(2, 2), serial);
        assert_eq!(is_good(&mut board, here, packet), good);
    }
}

#[test]
fn hops_and_the_way_must_fit() {
    let mut board = Board::new(4, 4, 1);
    board.set_counts(1, 0);
    let here = place(1, 1, Kind::A);
    let right = packet(at(0, 0), here.node, at(2, 2), 0);
    assert!(is_good(&mut board, here, right));
    for hops in [0, 1, 3, 4, 255] {
        assert!(!is_good(&mut board, here, Packet { hops, ..right }));
    }
    let astray = packet(at(0, 0), here.node, at(2, 0), 0);
    assert!(!is_good(&mut board, here, astray));
}

#[test]
fn only_mark_1_is_good() {
    let mut board = Board::new(3, 3, 1);
    let slot = board.put_alone(place(1, 1, Kind::A), at(1, 1), at(2, 2));
    for mark in [0, 1, 2, 255] {
        board.slot_mut(slot as usize)[0] = mark;
        let number = board.refused(|slice| read_payload(slice, slot).map(drop));
        assert_eq!(number, if mark == 1 { 0 } else { 4 });
    }
}

#[test]
fn a_waiting_packet_is_at_its_source() {
    let mut board = Board::new(3, 3, 1);
    board.set_counts(1, 0);
    let here = place(1, 1, Kind::Waiting);
    let elsewhere = packet(at(0, 1), here.node, at(2, 1), 0);
    assert!(!is_good(&mut board, here, elsewhere));
    assert!(is_good(&mut board, place(1, 1, Kind::A), elsewhere));
    let waiting = packet(at(1, 1), here.node, at(2, 1), 0);
    assert!(is_good(&mut board, here, waiting));
}

#[test]
fn a_packet_in_b_has_no_rise_left() {
    let mut board = Board::new(3, 3, 1);
    board.set_counts(1, 0);
    let here = place(1, 1, Kind::B);
    for x in 0..3 {
        for y in 0..3 {
            let packet = packet(here.node, here.node, at(x, y), 0);
            assert_eq!(is_good(&mut board, here, packet), x <= 1 && y <= 1);
        }
    }
}
