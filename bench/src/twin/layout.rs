//! The trailer, places of slots, and good packets.

#[derive(Clone, Copy)]
pub struct Head {
    pub width: usize,
    pub height: usize,
    pub depth: usize,
    pub profile: u8,
    pub taken: u32,
    pub delivered: u32,
    pub size: usize,
}

impl Head {
    pub fn per_node(&self) -> usize {
        1 + 2 * self.depth
    }

    pub fn slots(&self) -> usize {
        self.width * self.height * self.per_node()
    }
}

#[derive(Clone, Copy, PartialEq)]
pub enum Kind {
    Waiting,
    A,
    B,
}

/// Where a slot is: its node's coordinates and its queue.
#[derive(Clone, Copy)]
pub struct Place {
    pub x: i32,
    pub y: i32,
    pub kind: Kind,
}

pub fn number(s: &[u8], at: usize) -> u32 {
    u32::from_le_bytes([s[at], s[at + 1], s[at + 2], s[at + 3]])
}

pub fn head(s: &[u8]) -> Option<Head> {
    let z = s.get(s.len().checked_sub(16)?..)?;
    let h = Head {
        width: z[0] as usize,
        height: z[1] as usize,
        depth: z[2] as usize,
        profile: z[3],
        taken: number(z, 4),
        delivered: number(z, 8),
        size: number(z, 12) as usize,
    };
    let ranges =
        (1..=16).contains(&h.width) && (1..=16).contains(&h.height) && (1..=7).contains(&h.depth);
    let fine = ranges
        && h.profile <= 2
        && h.delivered <= h.taken
        && h.size == 16 * h.slots() + 16
        && h.size <= s.len();
    fine.then_some(h)
}

pub fn place(h: &Head, slot: usize) -> Place {
    let (node, r) = (slot / h.per_node(), slot % h.per_node());
    let kind = if r == 0 {
        Kind::Waiting
    } else if r <= h.depth {
        Kind::A
    } else {
        Kind::B
    };
    Place {
        x: (node % h.width) as i32,
        y: (node / h.width) as i32,
        kind,
    }
}

/// The first slot of a queue, and how many it has.
pub fn queue(h: &Head, p: Place) -> (usize, usize) {
    let base = (p.y as usize * h.width + p.x as usize) * h.per_node();
    match p.kind {
        Kind::Waiting => (base, 1),
        Kind::A => (base + 1, h.depth),
        Kind::B => (base + 1 + h.depth, h.depth),
    }
}

pub fn slot(t: &[u8], k: usize) -> &[u8; 16] {
    t[16 * k..16 * k + 16]
        .try_into()
        .expect("a slot has 16 bytes")
}

pub fn is_empty(v: &[u8; 16]) -> bool {
    u128::from_le_bytes(*v) == 0
}

pub fn coordinates(node: u8) -> (i32, i32) {
    ((node % 16) as i32, (node / 16) as i32)
}

fn apart(a: (i32, i32), b: (i32, i32)) -> i32 {
    (a.0 - b.0).abs() + (a.1 - b.1).abs()
}

pub fn on_grid(h: &Head, node: u8) -> bool {
    let (x, y) = coordinates(node);
    (x as usize) < h.width && (y as usize) < h.height
}

pub fn is_good(h: &Head, p: Place, v: &[u8; 16]) -> bool {
    let (here, from, to) = ((p.x, p.y), coordinates(v[1]), coordinates(v[2]));
    let hops = v[3] as i32;
    let course = hops == apart(from, here) && hops + apart(here, to) == apart(from, to);
    let kind = match p.kind {
        Kind::Waiting => from == here,
        Kind::A => true,
        Kind::B => to.0 <= here.0 && to.1 <= here.1,
    };
    v[0] == 1
        && on_grid(h, v[1])
        && on_grid(h, v[2])
        && number(v, 4) < h.taken
        && h.delivered < h.taken
        && course
        && kind
}

pub fn room(t: &[u8], h: &Head, p: Place) -> Option<usize> {
    let (first, n) = queue(h, p);
    (first..first + n).find(|&k| is_empty(slot(t, k)))
}

/// How many slots of a queue are empty.
pub fn left(t: &[u8], h: &Head, p: Place) -> u32 {
    let (first, n) = queue(h, p);
    let (slots, _) = t[16 * first..16 * (first + n)].as_chunks();
    slots.iter().map(|v| u32::from(is_empty(v))).sum()
}
