//! Bytes before the table: slices longer than the table, and smaller tables cleared over larger.

use super::bench::Bench;
use super::sizes::{lend_cleared, Sizes};
use super::traffic;

pub fn make(bench: &mut Bench) {
    while bench.open() {
        let sizes = Sizes::any(&mut bench.dice);
        let prefix = bench.dice.pick(&[1, 3, 15, 16, 17, 48, 112, 200]);
        lend_cleared(bench, sizes, prefix);
        let prefix = usize::try_from(prefix).unwrap_or_default();
        fill(bench, prefix);
        traffic::spell(bench, 80);
        change_some(bench, prefix);
        traffic::spell(bench, 40);
        clear_smaller(bench, sizes);
        traffic::spell(bench, 60);
    }
}

/// The last bytes before the table are at times those of the trailer itself.
fn fill(bench: &mut Bench, prefix: usize) {
    let bytes: Vec<u8> = (0..prefix).map(|_| bench.dice.byte()).collect();
    bench.write(0, &bytes);
    if let (Some(trailer), Some(start)) = (bench.trailer_bytes(), prefix.checked_sub(16)) {
        if bench.dice.percent(40) {
            bench.write(start, &trailer);
        }
    }
}

fn change_some(bench: &mut Bench, prefix: usize) {
    for _ in 0..5 {
        let place = bench.dice.below(prefix);
        let byte = bench.dice.byte();
        bench.write(place, &[byte]);
    }
}

/// What the larger table held becomes bytes before the smaller one.
fn clear_smaller(bench: &mut Bench, sizes: Sizes) {
    let most = |size: u32| usize::try_from(size).unwrap_or(1);
    let smaller = Sizes::up_to(
        &mut bench.dice,
        most(sizes.width),
        most(sizes.height),
        most(sizes.depth),
    );
    let clear = smaller.clear(&mut bench.dice);
    bench.call(clear);
}
