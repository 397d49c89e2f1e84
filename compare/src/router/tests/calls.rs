//! What accepted calls write and answer.

use super::super::*;
use super::board::{at, packet, place, Board};

#[test]
fn bytes_before_the_table_are_left_alone() {
    let prefix = [0xC3; 37];
    let mut board = Board::after(&prefix, 2, 1, 1);
    assert_eq!(board.slice[37..133], [0; 96]);
    take_in(&mut board.slice, 0, 1, [0xFF; 8]).unwrap();
    board.step(0, 1).unwrap();
    assert_eq!(board.slice[..37], prefix);
    assert_eq!(read_payload(&board.slice, 1), Ok(&[0xFF; 8][..]));
    let mut second = [0x44; 112];
    outward_copy(&board.slice, &mut second).unwrap();
    assert_eq!(second[16..32], *b"\x01\0\x01\0\0\0\0\0\0\0\0\0\0\0\0\0");
}

#[test]
fn taking_in_writes_slot_and_trailer() {
    let mut board = Board::new(2, 2, 1);
    board.set_counts(0x0102_0304, 0x0102_0304);
    let taken = take_in(&mut board.slice, 0x10, 0x01, *b"abcdefgh");
    let serial = 0x0102_0304;
    let (slot, left) = (6, 0);
    assert_eq!(taken, Ok(TakenIn { slot, serial, left }));
    assert_eq!(board.slot_mut(6), b"\x01\x10\x01\0\x04\x03\x02\x01abcdefgh");
    let trailer = Trailer::decode(&board.slice).unwrap();
    assert_eq!((trailer.taken, trailer.delivered), (serial + 1, serial));
}

#[test]
fn the_lowest_empty_slot_of_the_queue_is_used() {
    let mut board = Board::new(2, 1, 3);
    let slot = board.put_alone(place(0, 0, Kind::A), at(0, 0), at(1, 0));
    board.put(8, packet(at(1, 0), at(1, 0), at(1, 0), 1));
    board.put(10, packet(at(1, 0), at(1, 0), at(1, 0), 2));
    board.set_counts(3, 0);
    assert_eq!(board.step(slot, 2), Ok(Moved::To { slot: 9, left: 0 }));
}

#[test]
fn the_payload_is_a_part_of_the_callers_slice() {
    let mut board = Board::new(2, 1, 1);
    let slot = board.put_alone(place(1, 0, Kind::B), at(1, 0), at(0, 0));
    let part = read_payload(&board.slice, slot).unwrap();
    assert_eq!(part, b"payload!");
    assert_eq!(part.as_ptr(), board.slice[5 * 16 + 8..].as_ptr());
}

#[test]
fn delivery_from_full_queues_needs_no_room() {
    let mut board = Board::new(1, 1, 1);
    let home = at(0, 0);
    for slot in 0..3 {
        board.put(slot, packet(home, home, home, slot as u32));
    }
    board.set_counts(3, 0);
    assert_eq!(find(&board.slice), Ok(Found { slot: 1, code: 7 }));
    assert!(matches!(board.step(1, 7), Ok(Moved::Delivered { .. })));
    assert_eq!(board.refused(|slice| make_move(slice, 0, 1)), 6);
}

#[test]
fn find_takes_the_lowest_slot_then_the_lowest_code() {
    let mut board = Board::new(3, 3, 1);
    board.put_alone(place(1, 1, Kind::A), at(1, 1), at(2, 2));
    assert_eq!(find(&board.slice), Ok(Found { slot: 13, code: 2 }));
    board.put(16, packet(at(2, 1), at(2, 1), at(2, 1), 1));
    board.set_counts(2, 0);
    assert_eq!(find(&board.slice), Ok(Found { slot: 13, code: 4 }));
}

#[test]
fn no_slice_of_random_bytes_makes_a_call_panic() {
    let mut dice = crate::make::Dice::new(1);
    for length in 0..200 {
        let mut slice: Vec<u8> = (0..length).map(|_| dice.byte()).collect();
        let number = dice.next() as u32;
        let _ = find(&slice);
        let _ = outward_copy(&slice, &mut [0; 64]);
        let _ = read_payload(&slice, number);
        let _ = make_move(&mut slice, number, number % 9);
        let _ = take_in(&mut slice, number as u8, 3, [1; 8]);
        let _ = clear(&mut slice, number % 20, number % 3, number, number % 5);
    }
}
