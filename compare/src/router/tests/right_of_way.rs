//! Order 3: static traffic first on a link.

use super::super::*;
use super::board::{at, packet, place, Board};

const HERE: Node = Node { x: 1, y: 1 };

/// Each code that a packet in A at the centre can give way by: where that packet goes, where a packet
/// in B goes that is offered the same code alone, and one that is offered the other code alone; and
/// the node that the link leads to.
const LINKS: [(u32, Node, Node, Node, Node); 2] = [
    (3, node(0, 2), node(0, 1), node(1, 0), node(0, 1)),
    (5, node(2, 0), node(1, 0), node(0, 1), node(1, 0)),
];

const fn node(x: u8, y: u8) -> Node {
    Node { x, y }
}

/// A 3 by 3 board of depth 2 with one packet in A at the centre, where it was taken in.
fn board_with_a(destination: Node) -> (Board, u32) {
    let mut board = Board::new(3, 3, 2);
    let slot = board.put_alone(place(1, 1, Kind::A), HERE, destination);
    (board, slot)
}

/// One packet more, taken in where it stands; gives its slot.
fn add(board: &mut Board, slot: usize, destination: Node) -> u32 {
    let here = board.grid.place_of(slot).unwrap().node;
    let taken = Trailer::decode(&board.slice).unwrap().taken;
    board.put(slot, packet(here, here, destination, taken));
    board.set_counts(taken + 1, 0);
    slot as u32
}

fn add_in_b(board: &mut Board, destination: Node) -> u32 {
    let slot = board.first_slot(place(1, 1, Kind::B));
    add(board, slot, destination)
}

/// Packets for their own node, who go nowhere by a hop.
fn fill(board: &mut Board, place: Place) {
    for slot in board.grid.queue(place) {
        add(board, slot, place.node);
    }
}

fn moving(board: &mut Board, slot: u32, code: u32) -> u32 {
    board.refused(|slice| make_move(slice, slot, code))
}

#[test]
fn a_packet_in_b_for_the_same_link_goes_first() {
    for (code, destination, same, ..) in LINKS {
        for behind in [0, 1] {
            let (mut board, slot) = board_with_a(destination);
            let first = board.first_slot(place(1, 1, Kind::B)) + behind;
            let first = add(&mut board, first, same);
            assert_eq!(full_check(&board.slice), Ok(()));
            assert_eq!(moving(&mut board, slot, code), 12, "{code} {behind}");
            assert_eq!(moving(&mut board, first, code), 0, "{code} {behind}");
            assert_eq!(moving(&mut board, slot, code), 0, "{code} {behind}");
        }
    }
}

#[test]
fn one_offered_both_codes_stops_both() {
    for (code, destination, ..) in LINKS {
        let (mut board, slot) = board_with_a(destination);
        add_in_b(&mut board, at(0, 0));
        assert_eq!(moving(&mut board, slot, code), 12);
    }
}

#[test]
fn it_goes_first_without_room_too() {
    for (code, destination, same, _, ahead) in LINKS {
        let (mut board, slot) = board_with_a(destination);
        let first = add_in_b(&mut board, same);
        fill(&mut board, place(ahead.x, ahead.y, Kind::B));
        assert_eq!(moving(&mut board, first, code), 6);
        assert_eq!(moving(&mut board, slot, code), 12);
    }
}

#[test]
fn twelve_comes_before_six_and_after_five() {
    for (code, destination, same, _, ahead) in LINKS {
        let (mut board, slot) = board_with_a(destination);
        fill(&mut board, place(ahead.x, ahead.y, Kind::A));
        assert_eq!(moving(&mut board, slot, code), 6);
        add_in_b(&mut board, same);
        assert_eq!(moving(&mut board, slot, code), 12);
        let up_and_right = packet(HERE, HERE, at(2, 2), 0);
        board.put(slot as usize, up_and_right);
        assert_eq!(moving(&mut board, slot, code), 5);
    }
}

#[test]
fn a_spoiled_packet_stops_nobody() {
    for (code, destination, same, ..) in LINKS {
        for (byte, value) in [(0, 2), (1, 0x03), (3, 1), (4, 2)] {
            let (mut board, slot) = board_with_a(destination);
            let first = add_in_b(&mut board, same);
            board.slot_mut(first as usize)[byte] = value;
            assert_eq!(moving(&mut board, first, code), 4, "byte {byte}");
            assert_eq!(moving(&mut board, slot, code), 0, "byte {byte}");
        }
    }
}

#[test]
fn a_packet_for_the_other_link_or_for_none_stops_nobody() {
    for (code, destination, _, other, _) in LINKS {
        for elsewhere in [other, HERE] {
            let (mut board, slot) = board_with_a(destination);
            add_in_b(&mut board, elsewhere);
            assert_eq!(moving(&mut board, slot, code), 0, "{code} {elsewhere:?}");
        }
    }
}

#[test]
fn packets_of_other_queues_stop_nobody() {
    for (code, destination, _, _, ahead) in LINKS {
        let (mut board, slot) = board_with_a(destination);
        add(&mut board, slot as usize + 1, destination);
        let waiting = board.first_slot(place(1, 1, Kind::Waiting));
        add(&mut board, waiting, at(0, 0));
        for elsewhere in [at(2, 1), at(1, 2), at(2, 2), ahead] {
            let in_b = board.first_slot(place(elsewhere.x, elsewhere.y, Kind::B));
            add(&mut board, in_b, at(0, 0));
        }
        assert_eq!(moving(&mut board, slot, code), 0, "{code}");
    }
}

#[test]
fn only_codes_3_and_5_in_a_are_stopped() {
    for (destination, code) in [(at(2, 2), 2), (at(2, 2), 4), (at(0, 0), 6), (HERE, 7)] {
        let (mut board, slot) = board_with_a(destination);
        add_in_b(&mut board, at(0, 0));
        assert_eq!(moving(&mut board, slot, code), 0, "{code}");
    }
    for code in [3, 5] {
        let (mut board, _) = board_with_a(at(0, 2));
        let first = add_in_b(&mut board, at(0, 0));
        add(&mut board, first as usize + 1, at(0, 0));
        assert_eq!(moving(&mut board, first + 1, code), 0, "{code} in B");
    }
}

#[test]
fn profiles_1_and_2_answer_5() {
    for (code, destination, same, ..) in LINKS {
        let (mut board, slot) = board_with_a(destination);
        add_in_b(&mut board, same);
        for (profile, number) in [(1, 5), (2, 5), (0, 12)] {
            board.set_trailer_byte(3, profile);
            assert_eq!(moving(&mut board, slot, code), number, "profile {profile}");
        }
    }
}

#[test]
fn tables_that_fail_the_full_check_stop_too() {
    for (code, destination, same, ..) in LINKS {
        let (mut board, slot) = board_with_a(destination);
        let first = add_in_b(&mut board, same);
        board.set_counts(9, 0);
        assert_eq!(board.refused(|slice| full_check(slice)), 10);
        assert_eq!(moving(&mut board, slot, code), 12);
        board.put(first as usize, packet(HERE, HERE, same, 0));
        board.set_counts(2, 0);
        let twice = Refusal::CheckFailed(CheckFault::SerialTwice(first));
        assert_eq!(full_check(&board.slice), Err(twice));
        assert_eq!(moving(&mut board, slot, code), 12);
    }
}

#[test]
fn find_skips_moves_that_give_way() {
    let (mut board, slot) = board_with_a(at(0, 2));
    let found = |board: &Board| find(&board.slice).map(|found| (found.slot as u32, found.code));
    assert_eq!(found(&board), Ok((slot, 3)));
    let first = add_in_b(&mut board, at(0, 1));
    assert_eq!(found(&board), Ok((slot, 4)));
    fill(&mut board, place(1, 2, Kind::A));
    assert_eq!(moving(&mut board, slot, 4), 6);
    assert_eq!(found(&board), Ok((first, 3)));
    assert_eq!(moving(&mut board, first, 3), 0);
    let ahead = board.first_slot(place(0, 1, Kind::B)) as u32;
    assert_eq!(found(&board), Ok((ahead, 7)));
    assert_eq!(moving(&mut board, ahead, 7), 0);
    assert_eq!(found(&board), Ok((slot, 3)));
}
