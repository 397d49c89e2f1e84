//! Clear, take in and move.

use super::layout::{self, Head, Kind, Place};

pub struct Taken {
    pub number: u32,
    pub slot: u32,
    pub serial: u32,
    pub left: u32,
}

pub struct Moved {
    pub number: u32,
    pub slot: u32,
    pub packet: [u8; 16],
    pub left: u32,
}

pub fn clear(s: &mut [u8], width: u32, height: u32, depth: u32, profile: u32) -> u32 {
    let depth = if depth == 0 { 5 } else { depth };
    let ranges =
        (1..=16).contains(&width) && (1..=16).contains(&height) && (1..=7).contains(&depth);
    if !ranges || profile > 2 {
        return 8;
    }
    let size = 16 * (width * height * (1 + 2 * depth)) as usize + 16;
    let Some(start) = s.len().checked_sub(size) else {
        return 9;
    };
    let t = &mut s[start..];
    t.fill(0);
    let z = &mut t[size - 16..];
    z[0] = width as u8;
    z[1] = height as u8;
    z[2] = depth as u8;
    z[3] = profile as u8;
    z[12..].copy_from_slice(&(size as u32).to_le_bytes());
    0
}

pub fn take_in(s: &mut [u8], source: u8, destination: u8, payload: &[u8; 8]) -> Taken {
    let refused = |number| Taken {
        number,
        slot: 0,
        serial: 0,
        left: 0,
    };
    let Some(h) = layout::head(s) else {
        return refused(1);
    };
    let start = s.len() - h.size;
    let t = &mut s[start..];
    if !layout::on_grid(&h, source) || !layout::on_grid(&h, destination) {
        return refused(2);
    }
    if h.taken == u32::MAX {
        return refused(7);
    }
    let (x, y) = layout::coordinates(source);
    let Some(k) = layout::room(
        t,
        &h,
        Place {
            x,
            y,
            kind: Kind::Waiting,
        },
    ) else {
        return refused(6);
    };
    let v = &mut t[16 * k..16 * k + 16];
    v[..4].copy_from_slice(&[1, source, destination, 0]);
    v[4..8].copy_from_slice(&h.taken.to_le_bytes());
    v[8..].copy_from_slice(payload);
    let counts = t.len() - 12;
    t[counts..counts + 4].copy_from_slice(&(h.taken + 1).to_le_bytes());
    // The queue is the one waiting slot, and now full.
    Taken {
        number: 0,
        slot: k as u32,
        serial: h.taken,
        left: 0,
    }
}

/// Where a move leads: out, or to a place with so many hops more.
#[derive(Clone, Copy)]
pub enum Lead {
    Out,
    To(Place, u8),
}

pub fn lead(profile: u8, p: Place, destination: u8, code: u32) -> Option<Lead> {
    let (z, w) = layout::coordinates(destination);
    let (dx, dy) = (z - p.x, w - p.y);
    let (dynamic, choice) = (profile == 0, profile < 2);
    let to = |kind| Some(Lead::To(Place { kind, ..p }, 0));
    let hop = |x, y| Some(Lead::To(Place { x, y, kind: p.kind }, 1));
    match (code, p.kind) {
        (1, Kind::Waiting) => to(if dx > 0 || dy > 0 { Kind::A } else { Kind::B }),
        (2, Kind::A) if dx > 0 => hop(p.x + 1, p.y),
        (3, Kind::A) if dynamic && dx < 0 && dy > 0 => hop(p.x - 1, p.y),
        (3, Kind::B) if dx < 0 => hop(p.x - 1, p.y),
        (4, Kind::A) if dy > 0 && (choice || dx <= 0) => hop(p.x, p.y + 1),
        (5, Kind::A) if dynamic && dy < 0 && dx > 0 => hop(p.x, p.y - 1),
        (5, Kind::B) if dy < 0 && (choice || dx >= 0) => hop(p.x, p.y - 1),
        (6, Kind::A) if dx <= 0 && dy <= 0 && (choice || dx < 0 || dy < 0) => to(Kind::B),
        (7, Kind::A | Kind::B) if dx == 0 && dy == 0 => Some(Lead::Out),
        _ => None,
    }
}

/// Must an offered move from there give way to a good packet in the node's B queue?
fn gives_way(t: &[u8], h: &Head, p: Place, code: u32) -> bool {
    if p.kind != Kind::A || !matches!(code, 3 | 5) {
        return false;
    }
    let b = Place { kind: Kind::B, ..p };
    let (first, n) = layout::queue(h, b);
    (first..first + n).any(|k| {
        let v = layout::slot(t, k);
        layout::is_good(h, b, v) && lead(h.profile, b, v[2], code).is_some()
    })
}

/// What an accepted move does.
pub struct Going {
    /// Out, or to a slot with so many hops more.
    to: Option<(usize, u8)>,
    /// The queue whose empty slots are counted: where the packet goes or, if out, where it was.
    queue: Place,
}

/// The first refusal that is due, or where the packet goes.
pub fn verdict(t: &[u8], h: &Head, slot: usize, code: u32) -> Result<Going, u32> {
    if !(1..=7).contains(&code) || slot >= h.slots() {
        return Err(2);
    }
    let v = layout::slot(t, slot);
    if layout::is_empty(v) {
        return Err(3);
    }
    let p = layout::place(h, slot);
    if !layout::is_good(h, p, v) {
        return Err(4);
    }
    match lead(h.profile, p, v[2], code) {
        None => Err(5),
        Some(_) if gives_way(t, h, p, code) => Err(12),
        Some(Lead::Out) => Ok(Going { to: None, queue: p }),
        Some(Lead::To(queue, more)) => match layout::room(t, h, queue) {
            None => Err(6),
            Some(k) => Ok(Going {
                to: Some((k, more)),
                queue,
            }),
        },
    }
}

pub fn make_move(s: &mut [u8], slot: u32, code: u32) -> Moved {
    let refused = |number| Moved {
        number,
        slot: 0,
        packet: [0; 16],
        left: 0,
    };
    let Some(h) = layout::head(s) else {
        return refused(1);
    };
    let start = s.len() - h.size;
    let t = &mut s[start..];
    let k = slot as usize;
    let going = match verdict(t, &h, k, code) {
        Err(number) => return refused(number),
        Ok(going) => going,
    };
    let mut packet = *layout::slot(t, k);
    t[16 * k..16 * k + 16].fill(0);
    let (slot, packet) = match going.to {
        None => {
            let counts = t.len() - 8;
            t[counts..counts + 4].copy_from_slice(&(h.delivered + 1).to_le_bytes());
            (0, packet)
        }
        Some((to, more)) => {
            packet[3] += more;
            t[16 * to..16 * to + 16].copy_from_slice(&packet);
            (to as u32, [0; 16])
        }
    };
    Moved {
        number: 0,
        slot,
        packet,
        left: layout::left(t, &h, going.queue),
    }
}
