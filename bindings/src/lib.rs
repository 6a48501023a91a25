//! Saftmagnet's four operations: translate, run, main and resolve.
//!
//! The code behind them is proved (docs/GUARANTEES.md says what); this wrapper is not, and is kept
//! small for that reason. The functions over slices lend the caller's memory and allocate nothing;
//! [`owned`] has the same four over vectors.
//!
//! ```
//! let mut out = [0; saftmagnet::TABLE];
//! let (mut work1, mut work2, mut work3) = ([0; saftmagnet::WORK], [0; saftmagnet::WORK], [0; saftmagnet::WORK]);
//! let written = saftmagnet::resolve(b"sfConfig extends { age 42; }", &mut out, &mut work1, &mut work2, &mut work3);
//! assert_eq!(written, Ok(24 + 16 + 4));
//! let refused = saftmagnet::resolve(b"age 42;", &mut out, &mut work1, &mut work2, &mut work3);
//! assert_eq!(refused, Err(saftmagnet::Refusal { number: 19, place: 0 }));
//! ```

use std::fmt;

/// The smallest output slice for a step list.
pub const LIST: usize = 53_272;
/// The smallest output slice for a table.
pub const TABLE: usize = 32_792;
/// The smallest work slice.
pub const WORK: usize = 65_536;
/// As many bytes of stack as any of the functions over slices does with. Measured, not proved: `c/stack.c` tries the
/// deepest inputs.
pub const STACK: usize = 65_536;

/// A refusal, by document 01's number and place: the output is then as it was.
#[derive(Clone, Copy, Debug, PartialEq, Eq)]
pub struct Refusal {
    pub number: u32,
    pub place: u32,
}

impl fmt::Display for Refusal {
    fn fmt(&self, f: &mut fmt::Formatter<'_>) -> fmt::Result {
        write!(f, "refused {} at {}", self.number, self.place)
    }
}

impl std::error::Error for Refusal {}

/// How many bytes were written to the front of the output, or why none were.
pub type Answer = Result<usize, Refusal>;

mod c {
    extern "C" {
        pub fn sf_translate(src: *const u8, src_len: usize, out: *mut u8, out_len: usize, work: *mut u8, work_len: usize) -> u64;
        pub fn sf_run(
            steps: *const u8, steps_len: usize, table: *const u8, table_len: usize, out: *mut u8, out_len: usize,
            work1: *mut u8, work1_len: usize, work2: *mut u8, work2_len: usize,
        ) -> u64;
        pub fn sf_main(table: *const u8, table_len: usize, out: *mut u8, out_len: usize) -> u64;
        pub fn sf_resolve(
            src: *const u8, src_len: usize, out: *mut u8, out_len: usize,
            work1: *mut u8, work1_len: usize, work2: *mut u8, work2_len: usize, work3: *mut u8, work3_len: usize,
        ) -> u64;
    }
}

/// The number that a C function answers: bytes written, or a refusal's number in the upper half.
fn answer(told: u64) -> Answer {
    let (number, low) = ((told >> 32) as u32, told as u32);
    if number == 0 {
        return Ok(low as usize);
    }
    Err(Refusal { number, place: low })
}

/// Description to step list. `out` has at least [`LIST`] bytes, `work` at least [`WORK`]; else refusal 8.
///
/// When it returns, the first [`WORK`] bytes of a work slice are zero; after refusal 8 it is as it was.
pub fn translate(src: &[u8], out: &mut [u8], work: &mut [u8]) -> Answer {
    // Each pointer leads to its length's bytes, and no two overlap: they are Rust's slices.
    answer(unsafe { c::sf_translate(src.as_ptr(), src.len(), out.as_mut_ptr(), out.len(), work.as_mut_ptr(), work.len()) })
}

/// Step list and starting table to the whole table. `out` has at least [`TABLE`] bytes.
pub fn run(steps: &[u8], table: &[u8], out: &mut [u8], work1: &mut [u8], work2: &mut [u8]) -> Answer {
    // As in `translate`.
    answer(unsafe {
        c::sf_run(
            steps.as_ptr(), steps.len(), table.as_ptr(), table.len(), out.as_mut_ptr(), out.len(),
            work1.as_mut_ptr(), work1.len(), work2.as_mut_ptr(), work2.len(),
        )
    })
}

/// Whole table to the table of `sfConfig`. `out` has at least [`TABLE`] bytes.
pub fn main_table(table: &[u8], out: &mut [u8]) -> Answer {
    // As in `translate`.
    answer(unsafe { c::sf_main(table.as_ptr(), table.len(), out.as_mut_ptr(), out.len()) })
}

/// Description to main table: translate, run over the empty table, then main.
pub fn resolve(src: &[u8], out: &mut [u8], work1: &mut [u8], work2: &mut [u8], work3: &mut [u8]) -> Answer {
    // As in `translate`.
    answer(unsafe {
        c::sf_resolve(
            src.as_ptr(), src.len(), out.as_mut_ptr(), out.len(),
            work1.as_mut_ptr(), work1.len(), work2.as_mut_ptr(), work2.len(), work3.as_mut_ptr(), work3.len(),
        )
    })
}

/// The same four over vectors: they lend what is needed themselves, so 8 does not occur.
pub mod owned {
    use super::{Answer, Refusal, LIST, TABLE, WORK};

    fn filled(size: usize, operation: impl FnOnce(&mut [u8]) -> Answer) -> Result<Vec<u8>, Refusal> {
        let mut out = vec![0; size];
        let written = operation(&mut out)?;
        out.truncate(written);
        Ok(out)
    }

    pub fn translate(src: &[u8]) -> Result<Vec<u8>, Refusal> {
        filled(LIST, |out| super::translate(src, out, &mut vec![0; WORK]))
    }

    pub fn run(steps: &[u8], table: &[u8]) -> Result<Vec<u8>, Refusal> {
        filled(TABLE, |out| super::run(steps, table, out, &mut vec![0; WORK], &mut vec![0; WORK]))
    }

    pub fn main_table(table: &[u8]) -> Result<Vec<u8>, Refusal> {
        filled(TABLE, |out| super::main_table(table, out))
    }

    pub fn resolve(src: &[u8]) -> Result<Vec<u8>, Refusal> {
        filled(TABLE, |out| super::resolve(src, out, &mut vec![0; WORK], &mut vec![0; WORK], &mut vec![0; WORK]))
    }
}
