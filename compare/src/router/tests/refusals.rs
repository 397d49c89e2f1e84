//! Each refusal of each call, and the order where two or more apply.

use super::super::*;
use super::board::{at, packet, place, Board};

fn taking(board: &mut Board, source: u8, destination: u8) -> u32 {
    board.refused(|slice| take_in(slice, source, destination, [7; 8]))
}

fn moving(board: &mut Board, slot: u32, code: u32) -> u32 {
    board.refused(|slice| make_move(slice, slot, code))
}

fn reading(board: &mut Board, slot: u32) -> u32 {
    board.refused(|slice| read_payload(slice, slot).map(drop))
}

fn clearing(length: usize, board: [u32; 4]) -> u32 {
    let mut slice = vec![0x55; length];
    let [width, height, depth, profile] = board;
    let number = clear(&mut slice, width, height, depth, profile);
    let number = number.err().map_or(0, Refusal::number);
    assert!(number == 0 || slice.iter().all(|byte| *byte == 0x55));
    number
}

#[test]
fn clear_answers_8_before_9() {
    let huge = [17, 256, 257, 65_537, 1 << 31, u32::MAX];
    for number in huge.into_iter().chain([0]) {
        assert_eq!(clearing(0, [number, 1, 1, 0]), 8);
        assert_eq!(clearing(65_536, [1, number, 1, 0]), 8);
    }
    for depth in huge.into_iter().chain([8]) {
        assert_eq!(clearing(65_536, [1, 1, depth, 0]), 8);
    }
    for profile in huge.into_iter().chain([3]) {
        assert_eq!(clearing(65_536, [1, 1, 1, profile]), 8);
        assert_eq!(clearing(63, [1, 1, 1, profile]), 8);
    }
    for profile in [0, 1, 2] {
        assert_eq!(clearing(0, [1, 1, 1, profile]), 9);
        assert_eq!(clearing(63, [1, 1, 1, profile]), 9);
        assert_eq!(clearing(64, [1, 1, 1, profile]), 0);
    }
}

#[test]
fn taking_in_answers_1_2_7_6_in_that_order() {
    let mut board = Board::new(2, 3, 1);
    board.set_trailer_byte(3, 3);
    assert_eq!(taking(&mut board, 0x02, 0x00), 1);
    board.set_trailer_byte(3, 0);
    assert_eq!(taking(&mut board, 0x00, 0x21), 0);
    assert_eq!(taking(&mut board, 0x00, 0x21), 6);
    board.set_counts(u32::MAX, u32::MAX - 1);
    assert_eq!(taking(&mut board, 0x00, 0x21), 7);
    for off_grid in [0x02, 0x30, 0xFF] {
        assert_eq!(taking(&mut board, off_grid, 0x00), 2);
        assert_eq!(taking(&mut board, 0x00, off_grid), 2);
    }
    board.set_counts(u32::MAX - 1, u32::MAX - 2);
    assert_eq!(taking(&mut board, 0x01, 0x00), 0);
}

#[test]
fn taking_in_needs_a_waiting_slot_that_is_not_spoiled_either() {
    let mut board = Board::new(1, 1, 1);
    board.slot_mut(0)[9] = 1;
    assert_eq!(taking(&mut board, 0, 0), 6);
}

#[test]
fn moving_answers_1_to_6_in_that_order() {
    let mut board = Board::new(2, 1, 1);
    let slot = board.put_alone(place(0, 0, Kind::A), at(0, 0), at(1, 0));
    board.put(4, packet(at(1, 0), at(1, 0), at(1, 0), 1));
    board.set_counts(2, 0);
    assert_eq!(moving(&mut board, slot, 2), 6);
    assert_eq!(moving(&mut board, slot, 3), 5);
    board.slot_mut(1)[3] = 9;
    assert_eq!(moving(&mut board, slot, 3), 4);
    board.slot_mut(1).fill(0);
    assert_eq!(moving(&mut board, slot, 3), 3);
    for (slot, code) in [(1, 0), (1, 8), (1, u32::MAX), (6, 1), (u32::MAX, 1)] {
        assert_eq!(moving(&mut board, slot, code), 2);
    }
    board.set_trailer_byte(0, 0);
    assert_eq!(moving(&mut board, u32::MAX, 0), 1);
}

#[test]
fn a_slot_number_is_not_cut_to_fewer_bits() {
    let mut board = Board::new(2, 1, 1);
    board.put_alone(place(0, 0, Kind::A), at(0, 0), at(1, 0));
    for slot in [0x0001_0001, 0x1000_0001, 0x0101] {
        assert_eq!(moving(&mut board, slot, 2), 2);
        assert_eq!(reading(&mut board, slot), 2);
    }
    assert_eq!(moving(&mut board, 1, 0x0102), 2);
}

#[test]
fn reading_answers_1_to_4() {
    let mut board = Board::new(2, 1, 1);
    let slot = board.put_alone(place(0, 0, Kind::A), at(0, 0), at(1, 0));
    assert_eq!(reading(&mut board, slot), 0);
    assert_eq!(reading(&mut board, 5), 3);
    assert_eq!(reading(&mut board, 6), 2);
    board.slot_mut(1)[0] = 2;
    assert_eq!(reading(&mut board, slot), 4);
    board.set_trailer_byte(12, 0);
    assert_eq!(reading(&mut board, slot), 1);
}

#[test]
fn find_and_the_copy_check_first() {
    let mut board = Board::new(2, 1, 1);
    let copying = |board: &mut Board, length: usize| {
        board.refused(|slice| {
            let mut second = vec![0x33; length];
            let answer = outward_copy(slice, &mut second);
            let untouched = second.iter().all(|byte| *byte == 0x33);
            assert!(answer.is_ok() || untouched);
            answer
        })
    };
    assert_eq!(board.refused(|slice| find(slice)), 11);
    assert_eq!(copying(&mut board, 112), 0);
    assert_eq!(copying(&mut board, 111), 9);
    assert_eq!(copying(&mut board, 113), 9);
    board.set_counts(1, 0);
    assert_eq!(board.refused(|slice| find(slice)), 10);
    assert_eq!(copying(&mut board, 111), 10);
    board.set_trailer_byte(3, 3);
    assert_eq!(board.refused(|slice| find(slice)), 1);
    assert_eq!(copying(&mut board, 111), 1);
}
