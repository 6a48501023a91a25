//! The one way in which an operation says no.

use std::fmt;

/// A refusal number of document 01 with its place.
#[derive(Clone, Copy, Debug, PartialEq, Eq)]
pub struct Refusal {
    pub number: u32,
    pub place: u32,
}

impl Refusal {
    pub fn new(number: u32, place: u32) -> Refusal {
        Refusal { number, place }
    }

    /// For places counted in a source, which is never longer than a u32 can say.
    pub fn in_source(number: u32, place: usize) -> Refusal {
        Refusal::new(number, u32::try_from(place).unwrap_or(u32::MAX))
    }
}

impl fmt::Display for Refusal {
    fn fmt(&self, out: &mut fmt::Formatter) -> fmt::Result {
        write!(out, "refused {} at {}", self.number, self.place)
    }
}
