//! The full check's faults, each against the one that comes before it.

use super::super::*;
use super::board::{at, packet, place, Board};

fn fault(board: &Board) -> Option<CheckFault> {
    match full_check(&board.slice) {
        Err(Refusal::CheckFailed(fault)) => Some(fault),
        answer => {
            assert_eq!(answer, Ok(()));
            None
        }
    }
}

/// Three packets at home in the A slots 1, 4 and 7 of a 3 by 1 grid.
fn three_packets(serials: [u32; 3]) -> Board {
    let mut board = Board::new(3, 1, 1);
    for (x, serial) in (0..).zip(serials) {
        let slot = board.first_slot(place(x, 0, Kind::A));
        board.put(slot, packet(at(x, 0), at(x, 0), at(2, 0), serial));
    }
    board.set_counts(10, 7);
    board
}

#[test]
fn a_table_in_order_passes() {
    assert_eq!(fault(&three_packets([9, 0, 5])), None);
    assert_eq!(fault(&Board::new(3, 1, 1)), None);
}

#[test]
fn the_fault_of_a_serial_is_at_the_higher_slot() {
    let twice = |slot| Some(CheckFault::SerialTwice(slot));
    assert_eq!(fault(&three_packets([4, 4, 5])), twice(4));
    assert_eq!(fault(&three_packets([4, 5, 4])), twice(7));
    assert_eq!(fault(&three_packets([4, 4, 4])), twice(4));
    assert_eq!(fault(&three_packets([5, 4, 4])), twice(7));
}

#[test]
fn counts_that_disagree_name_s() {
    let mut board = three_packets([0, 1, 2]);
    for (taken, delivered) in [(10, 8), (10, 6), (4, 0), (u32::MAX, 0)] {
        board.set_counts(taken, delivered);
        assert_eq!(fault(&board), Some(CheckFault::CountsDisagree(9)));
    }
    board.set_counts(u32::MAX, u32::MAX - 3);
    assert_eq!(fault(&board), None);
}

#[test]
fn the_lowest_spoiled_slot_comes_before_any_serial() {
    let mut board = three_packets([4, 4, 5]);
    board.slot_mut(8)[5] = 1;
    assert_eq!(fault(&board), Some(CheckFault::Spoiled(8)));
    board.slot_mut(2)[5] = 1;
    assert_eq!(fault(&board), Some(CheckFault::Spoiled(2)));
}

#[test]
fn a_serial_comes_before_the_counts() {
    let mut board = three_packets([4, 5, 5]);
    board.set_counts(10, 0);
    assert_eq!(fault(&board), Some(CheckFault::SerialTwice(7)));
}
