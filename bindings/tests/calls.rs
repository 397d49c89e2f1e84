//! The archive's calls through the wrapper: each refusal, and a board driven until nothing is held.
use paneglove::profile::{ADAPT, FULL, OBLIVIOUS};
use paneglove::{
    clear, copy_outward, find, full_check, list, make_move, node, read_payload, take_in, Found,
    Moved, Refusal, Taken, DELIVER, LISTING_ROOM,
};

const SLOTS: usize = 80;
const TABLE: usize = 16 * SLOTS + 16;
const BEFORE: usize = 3;

/// A 4 by 4 board of depth 2 with bytes before its table, and three packets in it.
fn board() -> Vec<u8> {
    board_of(FULL)
}

fn board_of(profile: u32) -> Vec<u8> {
    let mut s = vec![238; BEFORE + TABLE];
    clear(&mut s, 4, 4, 2, profile).unwrap();
    let trips = [
        (node(0, 0), node(3, 3), 0),
        (node(3, 3), node(0, 0), 75),
        (node(0, 3), node(3, 0), 60),
    ];
    for (serial, (source, destination, slot)) in (0..).zip(trips) {
        let payload = [serial as u8 + 1; 8];
        let left = 0;
        assert_eq!(
            take_in(&mut s, source, destination, payload),
            Ok(Taken { slot, serial, left })
        );
    }
    s
}

/// Counted over the bytes of that board: five slots a node, the first for waiting.
fn empty_in_queue_of(s: &[u8], slot: u32) -> u32 {
    let first = slot - slot % 5;
    let queue = match slot % 5 {
        0 => first..first + 1,
        1 | 2 => first + 1..first + 3,
        _ => first + 3..first + 5,
    };
    let empty = |slot: &u32| s[BEFORE + 16 * *slot as usize..][..16] == [0; 16];
    queue.filter(empty).count() as u32
}

fn left_by_delivery(s: &mut [u8], slot: u32) -> u32 {
    match make_move(s, slot, DELIVER) {
        Ok(Moved::Delivered { left, .. }) => left,
        answer => panic!("not delivered: {answer:?}"),
    }
}

#[test]
fn sizes_of_document_01() {
    let cleared = |length, [width, height, depth]: [u32; 3]| {
        clear(&mut vec![0; length], width, height, depth, FULL)
    };
    assert_eq!(cleared(447, [3, 3, 1]), Err(Refusal::Buffer));
    assert_eq!(cleared(448, [3, 3, 1]), Ok(()));
    assert_eq!(cleared(61_456, [16, 16, 7]), Ok(()));
    assert_eq!(cleared(61_456, [16, 16, 8]), Err(Refusal::Sizes));
    assert_eq!(cleared(192, [1, 1, 0]), Ok(()));
    assert_eq!(cleared(191, [1, 1, 0]), Err(Refusal::Buffer));
    assert_eq!(cleared(192, [0, 1, 0]), Err(Refusal::Sizes));
}

#[test]
fn an_empty_slice_is_answered() {
    assert_eq!(clear(&mut [], 1, 1, 1, FULL), Err(Refusal::Buffer));
    assert_eq!(take_in(&mut [], 0, 0, [0; 8]), Err(Refusal::Trailer));
    assert_eq!(make_move(&mut [], 0, DELIVER), Err(Refusal::Trailer));
    assert_eq!(read_payload(&[], 0), Err(Refusal::Trailer));
    assert_eq!(full_check(&[]), Err(Refusal::Trailer));
    assert_eq!(find(&[]), Err(Refusal::Trailer));
    assert_eq!(copy_outward(&[], &mut []), Err(Refusal::Trailer));
}

#[test]
fn refusals_change_nothing() {
    let mut s = board();
    let before = s.clone();
    assert_eq!(
        take_in(&mut s, node(4, 0), 0, [0; 8]),
        Err(Refusal::OutOfRange)
    );
    assert_eq!(take_in(&mut s, node(0, 0), 0, [0; 8]), Err(Refusal::NoRoom));
    assert_eq!(make_move(&mut s, 80, 1), Err(Refusal::OutOfRange));
    assert_eq!(make_move(&mut s, 0, 0), Err(Refusal::OutOfRange));
    assert_eq!(make_move(&mut s, 1, 1), Err(Refusal::Empty));
    assert_eq!(make_move(&mut s, 0, DELIVER), Err(Refusal::NotOffered));
    assert_eq!(read_payload(&s, 80), Err(Refusal::OutOfRange));
    assert_eq!(read_payload(&s, 1), Err(Refusal::Empty));
    assert_eq!(clear(&mut s, 17, 4, 2, FULL), Err(Refusal::Sizes));
    assert_eq!(clear(&mut s, 4, 4, 2, 3), Err(Refusal::Sizes));
    assert_eq!(s, before);
}

#[test]
fn no_serial_is_left() {
    let mut s = [0; 64];
    clear(&mut s, 1, 1, 1, FULL).unwrap();
    s[52..60].fill(255);
    assert_eq!(take_in(&mut s, 0, 0, [0; 8]), Err(Refusal::AllTaken));
}

#[test]
fn faults_carry_their_place() {
    let mut s = board();
    s[BEFORE + 16 * 5 + 8] = 1;
    let fault = Refusal::Fault { place: 5 };
    let mut out = [170; TABLE];
    assert_eq!(full_check(&s), Err(fault));
    assert_eq!(find(&s), Err(fault));
    assert_eq!(copy_outward(&s, &mut out), Err(fault));
    assert_eq!(make_move(&mut s, 5, 1), Err(Refusal::Spoiled));
    assert_eq!(read_payload(&s, 5), Err(Refusal::Spoiled));
    assert_eq!(out, [170; TABLE]);
    assert_eq!(fault.to_string(), "the full check failed at 5");

    let mut counts = board();
    counts[BEFORE + 16 * SLOTS + 4] = 4;
    assert_eq!(full_check(&counts), Err(Refusal::Fault { place: 80 }));
}

#[test]
fn payloads_are_read_and_never_shown() {
    let s = board();
    assert_eq!(read_payload(&s, 0), Ok([1; 8]));
    assert_eq!(read_payload(&s, 75), Ok([2; 8]));
    let mut out = [170; TABLE];
    assert_eq!(
        copy_outward(&s, &mut out[..TABLE - 1]),
        Err(Refusal::Buffer)
    );
    assert_eq!(out, [170; TABLE]);
    assert_eq!(copy_outward(&s, &mut out), Ok(()));
    let table = &s[BEFORE..];
    for at in (0..16 * SLOTS).step_by(16) {
        assert_eq!(out[at..at + 8], table[at..at + 8]);
        assert_eq!(out[at + 8..at + 16], [0; 8]);
    }
    assert_eq!(out[16 * SLOTS..], table[16 * SLOTS..]);
}

#[test]
fn following_find_delivers_every_packet() {
    for profile in [FULL, ADAPT, OBLIVIOUS] {
        follow_find(board_of(profile));
    }
}

fn follow_find(mut s: Vec<u8>) {
    let mut delivered = Vec::new();
    let mut moves = 0;
    assert_eq!(find(&s), Ok(Found { slot: 0, code: 1 }));
    while let Ok(Found { slot, code }) = find(&s) {
        moves += 1;
        match make_move(&mut s, slot, code).unwrap() {
            Moved::To { slot, left } => assert_eq!(left, empty_in_queue_of(&s, slot)),
            Moved::Delivered { packet, left } => {
                assert_eq!(left, empty_in_queue_of(&s, slot));
                delivered.push(packet);
            }
        }
        assert_eq!(full_check(&s), Ok(()));
    }
    assert_eq!(find(&s), Err(Refusal::NothingHeld));
    assert!(moves <= 3 * (3 + 6));
    delivered.sort_by_key(|packet| packet[4]);
    let ends = [
        (node(0, 0), node(3, 3)),
        (node(3, 3), node(0, 0)),
        (node(0, 3), node(3, 0)),
    ];
    for (serial, (source, destination)) in (0..).zip(ends) {
        let p = serial + 1;
        assert_eq!(
            delivered[serial as usize],
            [
                1,
                source,
                destination,
                6,
                serial,
                0,
                0,
                0,
                p,
                p,
                p,
                p,
                p,
                p,
                p,
                p
            ]
        );
    }
    assert_eq!(delivered.len(), 3);
    assert_eq!(s[..BEFORE], [238; BEFORE]);
    assert_eq!(s[BEFORE..BEFORE + 16 * SLOTS], [0; 16 * SLOTS]);
}

#[test]
fn a_full_queue_refuses() {
    let mut s = [0; 112];
    clear(&mut s, 2, 1, 1, FULL).unwrap();
    take_in(&mut s, node(0, 0), node(1, 0), [1; 8]).unwrap();
    assert_eq!(make_move(&mut s, 0, 1), Ok(Moved::To { slot: 1, left: 0 }));
    assert_eq!(make_move(&mut s, 1, 2), Ok(Moved::To { slot: 4, left: 0 }));
    take_in(&mut s, node(0, 0), node(1, 0), [2; 8]).unwrap();
    assert_eq!(make_move(&mut s, 0, 1), Ok(Moved::To { slot: 1, left: 0 }));
    assert_eq!(make_move(&mut s, 1, 2), Err(Refusal::NoRoom));
}

/// A 2 by 2 board with two packets at (1,0): one to (0,1) in A, slot 4, and one to (0,0) in B, slot 5.
fn two_for_one_link() -> [u8; 208] {
    let mut s = [0; 208];
    clear(&mut s, 2, 2, 1, FULL).unwrap();
    for (destination, slot) in [(node(0, 1), 4), (node(0, 0), 5)] {
        take_in(&mut s, node(1, 0), destination, [1; 8]).unwrap();
        assert_eq!(make_move(&mut s, 3, 1), Ok(Moved::To { slot, left: 0 }));
    }
    s
}

#[test]
fn a_packet_in_b_goes_first_on_a_link() {
    let mut s = two_for_one_link();
    let before = s;
    assert_eq!(make_move(&mut s, 4, 3), Err(Refusal::GivesWay));
    assert_eq!(s, before);
    assert_eq!(find(&s), Ok(Found { slot: 4, code: 4 }));
    assert_eq!(make_move(&mut s, 5, 3), Ok(Moved::To { slot: 2, left: 0 }));
    assert_eq!(make_move(&mut s, 4, 3), Ok(Moved::To { slot: 1, left: 0 }));
}

#[test]
fn a_packet_in_b_goes_first_without_room_and_not_where_it_is_spoiled() {
    let mut s = two_for_one_link();
    for (destination, slot) in [(node(0, 0), 2), (node(1, 1), 1)] {
        take_in(&mut s, node(0, 0), destination, [1; 8]).unwrap();
        assert_eq!(make_move(&mut s, 0, 1), Ok(Moved::To { slot, left: 0 }));
        assert_eq!(make_move(&mut s, 5, 3), Err(Refusal::NoRoom));
        assert_eq!(make_move(&mut s, 4, 3), Err(Refusal::GivesWay));
    }
    s[16 * 5] = 2;
    assert_eq!(make_move(&mut s, 4, 3), Err(Refusal::NoRoom));
    assert_eq!(make_move(&mut s, 1, 4), Ok(Moved::To { slot: 7, left: 0 }));
    assert_eq!(make_move(&mut s, 4, 3), Ok(Moved::To { slot: 1, left: 0 }));
}

#[test]
fn moves_tell_how_many_slots_are_left() {
    let mut s = [0; 256];
    clear(&mut s, 1, 1, 7, FULL).unwrap();
    for (slot, left) in (8..).zip([6, 5, 4, 3]) {
        take_in(&mut s, 0, 0, [1; 8]).unwrap();
        assert_eq!(make_move(&mut s, 0, 1), Ok(Moved::To { slot, left }));
    }
    s[16 * 12] = 2;
    take_in(&mut s, 0, 0, [1; 8]).unwrap();
    let past_the_spoiled_slot = Moved::To { slot: 13, left: 1 };
    assert_eq!(make_move(&mut s, 0, 1), Ok(past_the_spoiled_slot));
    for (slot, left) in (8..).zip([2, 3, 4, 5]) {
        assert_eq!(left_by_delivery(&mut s, slot), left);
    }
    s[16 * 12] = 0;
    assert_eq!(left_by_delivery(&mut s, 13), 7);
}

#[test]
fn the_listing_of_document_01() {
    let mut s = vec![0; 112];
    let mut out = vec![7; LISTING_ROOM + 1];
    clear(&mut s, 2, 1, 1, FULL).unwrap();
    take_in(&mut s, node(0, 0), node(1, 0), [9; 8]).unwrap();
    let expected: &[u8] =
        b"grid 2 1 depth 1 taken 1 delivered 0\n0 W 0,0 from 0,0 to 1,0 hops 0 serial 0\nheld 1\n";
    assert_eq!(list(&s, &mut out), Ok(expected));
    assert!(out[expected.len()..].iter().all(|&b| b == 7));
    assert_eq!(list(&s, &mut out[..LISTING_ROOM - 1]), Err(Refusal::Buffer));
    assert_eq!(list(&[], &mut out), Ok(&b"refused 1\n"[..]));
}

#[test]
fn the_trailer_holds_the_profile() {
    for profile in [FULL, ADAPT, OBLIVIOUS] {
        let mut s = [7; 64];
        assert_eq!(clear(&mut s, 1, 1, 1, profile), Ok(()));
        assert_eq!(u32::from(s[51]), profile);
        assert_eq!(full_check(&s), Ok(()));
    }
    for profile in [3, 256, u32::MAX] {
        let mut s = [7; 64];
        assert_eq!(clear(&mut s, 1, 1, 1, profile), Err(Refusal::Sizes));
        assert_eq!(clear(&mut s[1..], 1, 1, 1, profile), Err(Refusal::Sizes));
        assert_eq!(s, [7; 64]);
    }
    let mut s = board();
    s[BEFORE + 16 * SLOTS + 3] = 3;
    assert_eq!(full_check(&s), Err(Refusal::Trailer));
    assert_eq!(make_move(&mut s, 0, 1), Err(Refusal::Trailer));
}

/// The codes that a packet in A at its source is offered, each tried on a fresh 3 by 3 board.
fn codes_in_a(profile: u32, source: u8, destination: u8) -> Vec<u32> {
    let mut s = [0; 448];
    clear(&mut s, 3, 3, 1, profile).unwrap();
    let waiting = take_in(&mut s, source, destination, [1; 8]).unwrap();
    let entered = make_move(&mut s, waiting.slot, 1);
    let Ok(Moved::To { slot, .. }) = entered else {
        panic!("not entered: {entered:?}");
    };
    let offered = |code: &u32| make_move(&mut s.clone(), slot, *code).is_ok();
    (1..=7).filter(offered).collect()
}

#[test]
fn each_profile_has_its_moves() {
    for (profile, left_and_up, right_and_up) in [
        (FULL, vec![3, 4], vec![2, 4]),
        (ADAPT, vec![4], vec![2, 4]),
        (OBLIVIOUS, vec![4], vec![2]),
    ] {
        assert_eq!(codes_in_a(profile, node(2, 0), node(0, 2)), left_and_up);
        assert_eq!(codes_in_a(profile, node(0, 0), node(2, 2)), right_and_up);
    }
}

#[test]
fn the_head_line_ends_in_the_profile() {
    let mut out = vec![0; LISTING_ROOM];
    for (profile, words) in [(FULL, ""), (ADAPT, " profile 1"), (OBLIVIOUS, " profile 2")] {
        let mut s = [0; 64];
        clear(&mut s, 1, 1, 1, profile).unwrap();
        let expected = format!("grid 1 1 depth 1 taken 0 delivered 0{words}\nheld 0\n");
        assert_eq!(list(&s, &mut out), Ok(expected.as_bytes()));
    }
}
