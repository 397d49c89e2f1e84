//! The rule's table row by row, in profile 0, against sets of signs rather than the router's own conditions.

use super::super::*;
use super::board::place;
use std::cmp::Ordering::{self, Equal, Greater, Less};

/// Here is (1, 1); the signs are those of z - x and w - y.
fn offer(kind: Kind, across: Ordering, along: Ordering, code: u32) -> Option<Step> {
    let coordinate = |sign| match sign {
        Less => 0,
        Equal => 1,
        Greater => 2,
    };
    let destination = Node {
        x: coordinate(across),
        y: coordinate(along),
    };
    offered(Profile::Full, place(1, 1, kind), destination, code)
}

fn assert_row(kind: Kind, code: u32, step: Step, when: &[(Ordering, Ordering)]) {
    for across in [Less, Equal, Greater] {
        for along in [Less, Equal, Greater] {
            let expected = when.contains(&(across, along)).then_some(step);
            let offer = offer(kind, across, along, code);
            assert_eq!(offer, expected, "{kind:?} {code} {across:?} {along:?}");
        }
    }
}

fn hop(x: u8, y: u8, kind: Kind) -> Step {
    Step::Hop(place(x, y, kind))
}

const RISING: [(Ordering, Ordering); 5] = [
    (Greater, Less),
    (Greater, Equal),
    (Greater, Greater),
    (Equal, Greater),
    (Less, Greater),
];
const FALLING_OR_HERE: [(Ordering, Ordering); 4] =
    [(Less, Less), (Less, Equal), (Equal, Less), (Equal, Equal)];

#[test]
fn code_1_enters_from_waiting_only() {
    for (across, along) in RISING {
        let offer = offer(Kind::Waiting, across, along, 1);
        assert_eq!(offer, Some(Step::Queue(place(1, 1, Kind::A))));
    }
    for (across, along) in FALLING_OR_HERE {
        let offer = offer(Kind::Waiting, across, along, 1);
        assert_eq!(offer, Some(Step::Queue(place(1, 1, Kind::B))));
    }
    for kind in [Kind::A, Kind::B] {
        assert_row(kind, 1, Step::Delivery, &[]);
    }
}

#[test]
fn waiting_is_offered_nothing_but_enter() {
    for code in [0, 2, 3, 4, 5, 6, 7, 8, u32::MAX] {
        assert_row(Kind::Waiting, code, Step::Delivery, &[]);
    }
}

#[test]
fn code_2_rises_in_a_only() {
    let right = [(Greater, Less), (Greater, Equal), (Greater, Greater)];
    assert_row(Kind::A, 2, hop(2, 1, Kind::A), &right);
    assert_row(Kind::B, 2, Step::Delivery, &[]);
}

#[test]
fn code_3_in_a_needs_a_rise_left_in_y() {
    assert_row(Kind::A, 3, hop(0, 1, Kind::A), &[(Less, Greater)]);
    let left = [(Less, Less), (Less, Equal), (Less, Greater)];
    assert_row(Kind::B, 3, hop(0, 1, Kind::B), &left);
}

#[test]
fn code_4_rises_in_a_only() {
    let up = [(Less, Greater), (Equal, Greater), (Greater, Greater)];
    assert_row(Kind::A, 4, hop(1, 2, Kind::A), &up);
    assert_row(Kind::B, 4, Step::Delivery, &[]);
}

#[test]
fn code_5_in_a_needs_a_rise_left_in_x() {
    assert_row(Kind::A, 5, hop(1, 0, Kind::A), &[(Greater, Less)]);
    let down = [(Less, Less), (Equal, Less), (Greater, Less)];
    assert_row(Kind::B, 5, hop(1, 0, Kind::B), &down);
}

#[test]
fn code_6_changes_when_no_rise_is_left() {
    let change = Step::Queue(place(1, 1, Kind::B));
    assert_row(Kind::A, 6, change, &FALLING_OR_HERE);
    assert_row(Kind::B, 6, change, &[]);
}

#[test]
fn code_7_delivers_on_arrival() {
    assert_row(Kind::A, 7, Step::Delivery, &[(Equal, Equal)]);
    assert_row(Kind::B, 7, Step::Delivery, &[(Equal, Equal)]);
}

#[test]
fn no_other_code_is_offered() {
    for kind in [Kind::A, Kind::B] {
        for code in [0, 8, 257, u32::MAX] {
            assert_row(kind, code, Step::Delivery, &[]);
        }
    }
}
