//! "On both sides of the edge".

use super::super::*;
use super::board::{at, place, Board};

fn cleared(length: usize, width: u32, height: u32, depth: u32) -> u32 {
    let mut slice = vec![0; length];
    let answer = clear(&mut slice, width, height, depth, 0);
    answer.err().map_or(0, Refusal::number)
}

#[test]
fn three_by_three_depth_one_needs_448_bytes() {
    assert_eq!(Board::new(3, 3, 1).grid.slots(), 27);
    assert_eq!(cleared(448, 3, 3, 1), 0);
    assert_eq!(cleared(447, 3, 3, 1), 9);
}

#[test]
fn the_largest_table_has_61456_bytes() {
    assert_eq!(Board::new(16, 16, 7).grid.slots(), 3_840);
    assert_eq!(cleared(61_456, 16, 16, 7), 0);
    assert_eq!(cleared(61_455, 16, 16, 7), 9);
    assert_eq!(cleared(65_536, 16, 16, 8), 8);
}

#[test]
fn depth_zero_means_five() {
    let board = Board::new(1, 1, 0);
    assert_eq!(board.grid.slots(), 11);
    assert_eq!(board.slice.len(), 192);
    assert_eq!(
        board.slice[176..],
        *b"\x01\x01\x05\0\0\0\0\0\0\0\0\0\xC0\0\0\0"
    );
    assert_eq!(cleared(191, 1, 1, 0), 9);
}

#[test]
fn slot_20_is_the_b_slot_of_node_6() {
    let mut board = Board::new(3, 3, 1);
    assert_eq!(board.grid.place_of(20), Some(place(0, 2, Kind::B)));
    assert_eq!(board.grid.queue(place(0, 2, Kind::B)), 20..21);
    board.slot_mut(20)[0] = 0xFF;
    assert_eq!(board.slice.iter().position(|byte| *byte != 0), Some(320));
}

fn codes(place: Place, destination: Node) -> Vec<u32> {
    let offers = |code: &u32| offered(Profile::Full, place, destination, *code).is_some();
    (0..=9).filter(offers).collect()
}

#[test]
fn the_codes_offered_at_the_named_places() {
    assert_eq!(codes(place(0, 2, Kind::A), at(2, 0)), [2, 5]);
    assert_eq!(codes(place(2, 2, Kind::A), at(2, 0)), [6]);
    assert_eq!(codes(place(2, 0, Kind::A), at(0, 2)), [3, 4]);
    assert_eq!(codes(place(1, 1, Kind::A), at(1, 1)), [6, 7]);
    assert_eq!(codes(place(1, 1, Kind::B), at(1, 1)), [7]);
    assert_eq!(codes(place(2, 2, Kind::B), at(0, 0)), [3, 5]);
}

/// The hops in the record of the packet that the last code delivers.
fn walk(board: &mut Board, source: u8, destination: u8, codes: &[u32]) -> u8 {
    let taken = take_in(&mut board.slice, source, destination, *b"12345678").unwrap();
    let mut slot = taken.slot;
    for code in codes {
        assert_eq!(full_check(&board.slice), Ok(()));
        match board.step(slot as u32, *code).unwrap() {
            Moved::To { slot: next, .. } => slot = next,
            Moved::Delivered { record, .. } => {
                assert_eq!(record[..3], [1, source, destination]);
                assert_eq!(record[8..], *b"12345678");
                return record[3];
            }
        }
    }
    panic!("not delivered");
}

#[test]
fn both_named_walks_deliver_after_four_hops() {
    let mut board = Board::new(3, 3, 1);
    assert_eq!(walk(&mut board, 0x20, 0x02, &[1, 2, 2, 6, 5, 5, 7]), 4);
    assert_eq!(walk(&mut board, 0x20, 0x02, &[1, 5, 2, 5, 2, 7]), 4);
    let trailer = Trailer::decode(&board.slice).unwrap();
    assert_eq!((trailer.taken, trailer.delivered), (2, 2));
    assert!(board.slice[..432].iter().all(|byte| *byte == 0));
}

#[test]
fn a_packet_to_its_own_node_enters_b() {
    let mut board = Board::new(3, 3, 1);
    take_in(&mut board.slice, 0, 0, [0; 8]).unwrap();
    assert_eq!(board.step(0, 1), Ok(Moved::To { slot: 2, left: 0 }));
    let mut record = [0; 16];
    record[0] = 1;
    assert_eq!(board.step(2, 7), Ok(Moved::Delivered { record, left: 1 }));
}

#[test]
fn a_held_target_slot_answers_6() {
    let mut board = Board::new(2, 1, 1);
    board.put_alone(place(0, 0, Kind::A), at(0, 0), at(1, 0));
    let other = super::board::packet(at(1, 0), at(1, 0), at(1, 0), 1);
    board.put(4, other);
    board.set_counts(2, 0);
    assert_eq!(board.refused(|slice| make_move(slice, 1, 2)), 6);
    board.slot_mut(4).fill(0);
    board.set_counts(1, 0);
    assert_eq!(board.step(1, 2), Ok(Moved::To { slot: 4, left: 0 }));
}

#[test]
fn an_empty_slot_with_one_payload_byte_is_spoiled() {
    let mut board = Board::new(3, 3, 1);
    board.slot_mut(7)[12] = 1;
    let fault = Refusal::CheckFailed(CheckFault::Spoiled(7));
    assert_eq!(full_check(&board.slice), Err(fault));
}
