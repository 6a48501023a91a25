//! How many bytes an operation is lent of the output and of three work slices.

use crate::generate::random::Random;
use crate::generate::Kind;

const LIST: usize = 53_272;
const TABLE: usize = 32_792;
const WORK: usize = 65_536;

/// So many bytes more than the smallest may be lent; the program has no room for longer slices.
pub const SPARE: usize = 64;

/// Document 01's smallest slices; 0 for a slice that the operation does not have.
pub fn smallest(kind: Kind) -> [usize; 4] {
    match kind {
        Kind::Translate => [LIST, WORK, 0, 0],
        Kind::Run => [TABLE, WORK, WORK, 0],
        Kind::Main => [TABLE, 0, 0, 0],
        Kind::Resolve => [TABLE, WORK, WORK, WORK],
    }
}

/// Each slice longer than need be, so that its rest is to be kept.
pub fn roomy(kind: Kind) -> [usize; 4] {
    smallest(kind).map(|least| if least == 0 { 0 } else { least + SPARE })
}

/// Mostly enough, sometimes one slice or several too short, by one byte or by more.
pub fn draw(random: &mut Random, kind: Kind) -> [usize; 4] {
    let mut lent = smallest(kind);
    if random.percent(70) {
        lent = lent.map(|least| {
            if least == 0 {
                0
            } else {
                least + random.between(0, SPARE)
            }
        });
    }
    if random.percent(8) {
        shorten(random, kind, &mut lent);
    }
    lent
}

fn shorten(random: &mut Random, kind: Kind, lent: &mut [usize; 4]) {
    let least = smallest(kind);
    let slices = least.iter().filter(|least| **least > 0).count();
    for _ in 0..random.between(1, slices) {
        let which = random.below(slices);
        lent[which] = match random.below(4) {
            0 => 0,
            1 => random.below(least[which]),
            _ => least[which] - 1,
        };
    }
}
