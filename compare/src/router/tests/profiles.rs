//! Order 2: the rule in the three profiles, and the trailer that holds them.

use super::super::*;
use super::board::{at, packet, place, Board};
use Profile::{Adapt, Full, Oblivious};

fn codes(profile: Profile, place: Place, destination: Node) -> Vec<u32> {
    let offers = |code: &u32| offered(profile, place, destination, *code).is_some();
    (0..=9).filter(offers).collect()
}

#[test]
fn the_codes_offered_at_the_named_places() {
    let (a, b) = (Kind::A, Kind::B);
    assert_eq!(codes(Adapt, place(2, 0, a), at(0, 2)), [4]);
    assert_eq!(codes(Adapt, place(0, 2, a), at(2, 0)), [2]);
    assert_eq!(codes(Oblivious, place(0, 0, a), at(2, 2)), [2]);
    assert_eq!(codes(Oblivious, place(2, 0, a), at(2, 2)), [4]);
    assert_eq!(codes(Oblivious, place(2, 2, b), at(0, 0)), [3]);
    assert_eq!(codes(Oblivious, place(0, 2, b), at(0, 0)), [5]);
    assert_eq!(codes(Oblivious, place(1, 1, a), at(1, 1)), [7]);
    assert_eq!(codes(Adapt, place(1, 1, a), at(1, 1)), [6, 7]);
    assert_eq!(codes(Oblivious, place(2, 2, a), at(2, 0)), [6]);
}

/// By the destination, here being (1, 1): the codes in profiles 0, 1 and 2.
type Row = (u8, u8, [&'static [u32]; 3]);

const IN_A: [Row; 9] = [
    (0, 0, [&[6], &[6], &[6]]),
    (1, 0, [&[6], &[6], &[6]]),
    (2, 0, [&[2, 5], &[2], &[2]]),
    (0, 1, [&[6], &[6], &[6]]),
    (1, 1, [&[6, 7], &[6, 7], &[7]]),
    (2, 1, [&[2], &[2], &[2]]),
    (0, 2, [&[3, 4], &[4], &[4]]),
    (1, 2, [&[4], &[4], &[4]]),
    (2, 2, [&[2, 4], &[2, 4], &[2]]),
];

const IN_B: [Row; 4] = [
    (0, 0, [&[3, 5], &[3, 5], &[3]]),
    (1, 0, [&[5], &[5], &[5]]),
    (0, 1, [&[3], &[3], &[3]]),
    (1, 1, [&[7], &[7], &[7]]),
];

#[test]
fn every_destination_has_its_codes_in_every_profile() {
    for (kind, rows) in [(Kind::A, &IN_A[..]), (Kind::B, &IN_B)] {
        for (x, y, offered) in rows {
            for (profile, offered) in Profile::ALL.into_iter().zip(offered) {
                let found = codes(profile, place(1, 1, kind), at(*x, *y));
                assert_eq!(found, *offered, "{profile:?} {kind:?} to {x}, {y}");
            }
        }
    }
}

#[test]
fn entering_is_the_same_in_every_profile() {
    let waiting = place(1, 1, Kind::Waiting);
    for (x, y, _) in IN_A {
        let full = offered(Full, waiting, at(x, y), 1);
        assert!(full.is_some());
        for profile in Profile::ALL {
            assert_eq!(codes(profile, waiting, at(x, y)), [1]);
            assert_eq!(offered(profile, waiting, at(x, y), 1), full);
        }
    }
}

#[test]
fn a_move_offered_leads_where_it_leads_in_profile_0() {
    for place in [place(1, 1, Kind::A), place(1, 1, Kind::B)] {
        for (x, y, _) in IN_A {
            for code in CODES {
                let full = offered(Full, place, at(x, y), code);
                for profile in [Adapt, Oblivious] {
                    let step = offered(profile, place, at(x, y), code);
                    assert!(step.is_none() || step == full, "{profile:?} {code}");
                }
            }
        }
    }
}

#[test]
fn clear_writes_the_profile_into_trailer_byte_3() {
    for profile in Profile::ALL {
        let board = Board::of(profile, 2, 1, 1);
        let number = profile.number();
        let trailer = [2, 1, 1, number, 0, 0, 0, 0, 0, 0, 0, 0, 112, 0, 0, 0];
        assert_eq!(board.slice[..96], [0; 96]);
        assert_eq!(board.slice[96..], trailer);
    }
}

#[test]
fn a_move_is_weighed_by_the_trailers_profile() {
    for (profile, left) in [(Full, 0), (Adapt, 5), (Oblivious, 5)] {
        for (code, number) in [(2, 5), (3, left), (4, 0), (5, 5), (6, 5), (7, 5)] {
            let mut board = Board::of(profile, 3, 3, 1);
            let slot = board.put_alone(place(2, 0, Kind::A), at(2, 0), at(0, 2));
            let answer = board.refused(|slice| make_move(slice, slot, code));
            assert_eq!(answer, number, "{profile:?} {code}");
        }
    }
}

#[test]
fn the_same_bytes_under_another_profile_have_other_moves() {
    let mut board = Board::new(3, 3, 1);
    let slot = board.put_alone(place(0, 0, Kind::A), at(0, 0), at(2, 2));
    for (byte, number) in [(3, 1), (2, 5), (1, 0)] {
        board.set_trailer_byte(3, byte);
        assert_eq!(full_check(&board.slice).is_ok(), byte <= 2);
        let answer = board.refused(|slice| make_move(slice, slot, 4));
        assert_eq!(answer, number, "byte {byte}");
    }
}

#[test]
fn no_room_for_the_one_hop_is_6_and_no_other_hop_is_found() {
    let mut board = Board::of(Oblivious, 2, 2, 1);
    let slot = board.put_alone(place(0, 0, Kind::A), at(0, 0), at(1, 1));
    let ahead = board.first_slot(place(1, 0, Kind::A));
    board.put(ahead, packet(at(1, 0), at(1, 0), at(1, 1), 1));
    board.set_counts(2, 0);
    assert_eq!(board.refused(|slice| make_move(slice, slot, 2)), 6);
    assert_eq!(board.refused(|slice| make_move(slice, slot, 4)), 5);
    let found = Found {
        slot: ahead,
        code: 4,
    };
    assert_eq!(find(&board.slice), Ok(found));
}

#[test]
fn every_call_keeps_the_profile() {
    for profile in Profile::ALL {
        let mut board = Board::of(profile, 2, 1, 1);
        let held = |slice: &[u8]| Trailer::decode(slice).map(|trailer| trailer.profile);
        take_in(&mut board.slice, 0, 1, [7; 8]).unwrap();
        assert_eq!(held(&board.slice), Some(profile));
        let mut second = [0x44; 112];
        outward_copy(&board.slice, &mut second).unwrap();
        assert_eq!(held(&second), Some(profile));
        for (slot, code) in [(0, 1), (1, 2), (4, 7)] {
            board.step(slot, code).unwrap();
            assert_eq!(held(&board.slice), Some(profile));
        }
    }
}

/// The codes of the moves that find names until nothing is held.
fn followed(board: &mut Board) -> Vec<u32> {
    let mut codes = Vec::new();
    while let Ok(Found { slot, code }) = find(&board.slice) {
        board.step(slot as u32, code).unwrap();
        codes.push(code);
    }
    assert_eq!(find(&board.slice), Err(Refusal::NothingHeld));
    codes
}

#[test]
fn find_follows_the_profile_to_the_end() {
    for (profile, codes) in [
        (Full, vec![1, 3, 3, 4, 4, 6, 7]),
        (Adapt, vec![1, 4, 4, 6, 3, 3, 7]),
        (Oblivious, vec![1, 4, 4, 6, 3, 3, 7]),
    ] {
        let mut board = Board::of(profile, 3, 3, 1);
        take_in(&mut board.slice, 0x02, 0x20, [7; 8]).unwrap();
        assert_eq!(followed(&mut board), codes, "{profile:?}");
    }
}
