//! The fixed sample: named calls, some of each operation as they are drawn, and calls that must differ.

use super::{calls, named, wrong, Call};

const SEED: u64 = 1;
const COUNT: usize = 200;
const MOST_BYTES: usize = 300;

pub fn sample() -> Vec<Call> {
    let mut sample = named::calls();
    sample.extend(calls(SEED, COUNT, MOST_BYTES));
    sample.extend(wrong::calls());
    sample
}
