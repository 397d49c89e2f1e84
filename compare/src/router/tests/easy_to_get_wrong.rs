//! The paper's five easy mistakes.

use super::super::*;
use super::board::{at, place, Board};

#[test]
fn one_no_fall_in_a_without_a_rise_left() {
    for destination in [at(1, 0), at(0, 0)] {
        let mut board = Board::new(3, 3, 1);
        let slot = board.put_alone(place(1, 2, Kind::A), at(1, 2), destination);
        assert_eq!(board.refused(|slice| make_move(slice, slot, 5)), 5);
        let Ok(Moved::To { slot: changed, .. }) = board.step(slot, 6) else {
            panic!("no change of phase");
        };
        assert!(board.step(changed as u32, 5).is_ok());
    }
}

#[test]
fn two_the_old_slot_becomes_16_zeros() {
    let mut board = Board::new(3, 3, 2);
    let slot = board.put_alone(place(0, 0, Kind::A), at(0, 0), at(2, 2));
    assert!(board.step(slot, 4).is_ok());
    assert_eq!(board.slot_mut(slot as usize), [0; 16]);
    assert_eq!(full_check(&board.slice), Ok(()));
}

#[test]
fn three_a_spoiled_slot_is_never_empty() {
    let mut board = Board::new(2, 1, 2);
    let slot = board.put_alone(place(0, 0, Kind::A), at(0, 0), at(1, 0));
    let queue = board.grid.queue(place(1, 0, Kind::A));
    board.slot_mut(queue.start)[15] = 1;
    let mut both = Board {
        slice: board.slice.clone(),
        ..board
    };
    both.slot_mut(queue.start + 1)[3] = 1;
    assert_eq!(both.refused(|slice| make_move(slice, slot, 2)), 6);
    let slot_and_left = Moved::To {
        slot: queue.start + 1,
        left: 0,
    };
    assert_eq!(board.step(slot, 2), Ok(slot_and_left));
}

#[test]
fn four_hops_count_from_the_source() {
    let mut board = Board::new(4, 1, 1);
    let slot = board.put_alone(place(1, 0, Kind::A), at(0, 0), at(3, 0));
    let Ok(Moved::To { slot: next, .. }) = board.step(slot, 2) else {
        panic!("no hop");
    };
    assert_eq!(board.slot_mut(next)[3], 2);
    board.slot_mut(next)[3] = 1;
    assert_eq!(
        board.refused(|slice| read_payload(slice, next as u32).map(drop)),
        4
    );
}

#[test]
fn five_find_sees_a_lone_waiting_packet() {
    let mut board = Board::new(2, 2, 1);
    take_in(&mut board.slice, 0x11, 0x00, [0; 8]).unwrap();
    assert_eq!(find(&board.slice), Ok(Found { slot: 9, code: 1 }));
}
