//! The rule of moves: document 01's table, one line of the match for each of its conditions, and
//! the two profiles that have less of it.

use super::grid::{Kind, Node, Place};
use super::profile::Profile;
use std::ops::RangeInclusive;

pub const CODES: RangeInclusive<u32> = 1..=7;
const HOPS: RangeInclusive<u32> = 2..=5;

/// Where an offered move leads.
#[derive(Clone, Copy, Debug, PartialEq, Eq)]
pub enum Step {
    /// Enter or change: another queue of the same node, no hop made.
    Queue(Place),
    Hop(Place),
    Delivery,
}

pub fn offered(profile: Profile, place: Place, destination: Node, code: u32) -> Option<Step> {
    match profile {
        Profile::Full => all_moves(place, destination, code),
        Profile::Adapt if place.kind == Kind::A && (code == 3 || code == 5) => None,
        Profile::Adapt => all_moves(place, destination, code),
        Profile::Oblivious => one_hop_only(place, destination, code),
    }
}

fn all_moves(place: Place, destination: Node, code: u32) -> Option<Step> {
    let Place { node, kind } = place;
    let Node { x, y } = node;
    let Node { x: z, y: w } = destination;
    let same_node = |kind| Some(Step::Queue(Place { node, kind }));
    match (code, kind) {
        (1, Kind::Waiting) if z > x || w > y => same_node(Kind::A),
        (1, Kind::Waiting) => same_node(Kind::B),
        (2, Kind::A) if z > x => hop(place, code),
        (3, Kind::A) if z < x && w > y => hop(place, code),
        (3, Kind::B) if z < x => hop(place, code),
        (4, Kind::A) if w > y => hop(place, code),
        (5, Kind::A) if w < y && z > x => hop(place, code),
        (5, Kind::B) if w < y => hop(place, code),
        (6, Kind::A) if z <= x && w <= y => same_node(Kind::B),
        (7, Kind::A | Kind::B) if z == x && w == y => Some(Step::Delivery),
        _ => None,
    }
}

/// Delivery, entering and changing are as ever, but for the change at the destination.
fn one_hop_only(place: Place, destination: Node, code: u32) -> Option<Step> {
    if HOPS.contains(&code) {
        let offered = the_one_hop(place, destination) == Some(code);
        return offered.then(|| hop(place, code)).flatten();
    }
    if code == 6 && place.node == destination {
        return None;
    }
    all_moves(place, destination, code)
}

fn the_one_hop(place: Place, destination: Node) -> Option<u32> {
    let Node { x, y } = place.node;
    let Node { x: z, y: w } = destination;
    match place.kind {
        Kind::A if z > x => Some(2),
        Kind::A if w > y => Some(4),
        Kind::B if z < x => Some(3),
        Kind::B if w < y => Some(5),
        _ => None,
    }
}

/// Where a code from 2 to 5 leads: one node on, in the same kind of queue.
fn hop(place: Place, code: u32) -> Option<Step> {
    let (across, along) = match code {
        2 => (1, 0),
        3 => (-1, 0),
        4 => (0, 1),
        5 => (0, -1),
        _ => return None,
    };
    let node = Node {
        x: place.node.x.checked_add_signed(across)?,
        y: place.node.y.checked_add_signed(along)?,
    };
    Some(Step::Hop(Place { node, ..place }))
}
