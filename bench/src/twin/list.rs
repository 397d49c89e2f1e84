//! The listing, into a buffer.

use super::layout::{self, Head, Kind};
use super::survey::{self, Checked};

struct Text<'a> {
    out: &'a mut [u8],
    at: usize,
}

impl Text<'_> {
    fn words(&mut self, w: &[u8]) {
        self.out[self.at..self.at + w.len()].copy_from_slice(w);
        self.at += w.len();
    }

    fn decimal(&mut self, mut n: u32) {
        let mut digits = [0u8; 10];
        let mut i = 10;
        loop {
            i -= 1;
            digits[i] = b'0' + (n % 10) as u8;
            n /= 10;
            if n == 0 {
                break;
            }
        }
        self.words(&digits[i..]);
    }

    fn word_decimal(&mut self, w: &[u8], n: u32) {
        self.words(w);
        self.decimal(n);
    }

    fn word_node(&mut self, w: &[u8], node: (i32, i32)) {
        self.word_decimal(w, node.0 as u32);
        self.word_decimal(b",", node.1 as u32);
    }
}

fn letter(kind: Kind) -> &'static [u8] {
    match kind {
        Kind::Waiting => b" W",
        Kind::A => b" A",
        Kind::B => b" B",
    }
}

fn head_line(text: &mut Text, h: &Head) {
    text.word_decimal(b"grid ", h.width as u32);
    text.word_decimal(b" ", h.height as u32);
    text.word_decimal(b" depth ", h.depth as u32);
    text.word_decimal(b" taken ", h.taken);
    text.word_decimal(b" delivered ", h.delivered);
    if h.profile > 0 {
        text.word_decimal(b" profile ", h.profile.into());
    }
    text.words(b"\n");
}

/// What the listing program prints of `s`, at the start of `out`; answers its length.
pub fn list(s: &[u8], out: &mut [u8]) -> usize {
    let mut text = Text { out, at: 0 };
    let h = match survey::full_check(s) {
        Checked::Passes(h) => h,
        Checked::Refused { number, place } => {
            text.word_decimal(b"refused ", number);
            if number == 10 {
                text.word_decimal(b" at ", place);
            }
            text.words(b"\n");
            return text.at;
        }
    };
    head_line(&mut text, &h);
    let t = &s[s.len() - h.size..];
    for k in 0..h.slots() {
        let v = layout::slot(t, k);
        if layout::is_empty(v) {
            continue;
        }
        let p = layout::place(&h, k);
        text.decimal(k as u32);
        text.words(letter(p.kind));
        text.word_node(b" ", (p.x, p.y));
        text.word_node(b" from ", layout::coordinates(v[1]));
        text.word_node(b" to ", layout::coordinates(v[2]));
        text.word_decimal(b" hops ", v[3] as u32);
        text.word_decimal(b" serial ", layout::number(v, 4));
        text.words(b"\n");
    }
    text.word_decimal(b"held ", h.taken - h.delivered);
    text.words(b"\n");
    text.at
}
