//! Calls that must differ: the program is told to expect something wrong, or changes a byte itself.
//! A comparison that never differs would show nothing.

use super::slices::roomy;
use super::{numbers, Answer, Call};
use crate::generate::Kind;
use crate::refusal::Refusal;
use crate::trial;

const ARRAYS: [&str; 6] = [
    "first-input",
    "second-input",
    "output",
    "work-1",
    "work-2",
    "work-3",
];

impl Call {
    /// What the program finds wrong, by its own words; nothing where the call is the same.
    pub fn wrong(&self) -> Vec<&'static str> {
        let empty = Vec::new();
        let output = |answer: &Answer| answer.as_ref().unwrap_or(&empty).clone();
        let mut is_wrong = [false; 6];
        is_wrong[2] = output(&self.answer) != output(&self.told);
        let is_touched = |answer: &Answer| numbers(answer).0 != 8;
        for work in 1..4 {
            let is_lent = super::smallest(self.kind)[work] > 0;
            is_wrong[2 + work] = is_lent && is_touched(&self.answer) != is_touched(&self.told);
        }
        if self.spoilt.0 > 0 {
            is_wrong[self.spoilt.0 - 1] = true;
        }
        let answer = (numbers(&self.answer) != numbers(&self.told)).then_some("answer");
        let arrays = ARRAYS.into_iter().zip(is_wrong);
        let arrays = arrays.filter_map(|(name, is_wrong)| is_wrong.then_some(name));
        answer.into_iter().chain(arrays).collect()
    }
}

pub fn calls() -> Vec<Call> {
    Kind::ALL
        .into_iter()
        .flat_map(|kind| [told(kind), spoilt(kind)].concat())
        .collect()
}

fn right(kind: Kind, name: &str) -> Call {
    let table = trial::table_of("sfConfig extends { y 2; }");
    let inputs = match kind {
        Kind::Run => vec![trial::list_of("x 1;"), table],
        Kind::Main => vec![table],
        _ => vec![b"sfConfig extends { x 1; }".to_vec()],
    };
    Call::new(kind, name, inputs, roomy(kind))
}

fn told(kind: Kind) -> Vec<Call> {
    let telling = |name: &str, told: Answer| Call {
        told,
        ..right(kind, name)
    };
    let output = right(kind, "").answer.unwrap_or_default();
    let mut last = output.clone();
    let end = last.len() - 1;
    last[end] ^= 1;
    let shorter = output[..end].to_vec();
    vec![
        telling("told a wrong last byte", Ok(last)),
        telling("told a byte too few", Ok(shorter)),
        telling("told a byte too many", Ok([&output[..], &[0]].concat())),
        telling("told a refusal", Err(Refusal::new(2, 0))),
        telling("told that a slice is short", Err(Refusal::new(8, 0))),
    ]
}

/// The first and the last byte of each array, and those on either side of each end of what is lent.
fn spoilt(kind: Kind) -> Vec<Call> {
    let call = right(kind, "");
    let output = call.answer.as_ref().map_or(0, Vec::len);
    let second = call.inputs.get(1).map_or(0, Vec::len);
    let inside = [call.inputs[0].len(), second, output, 65_536, 65_536, 65_536];
    let mut calls = Vec::new();
    for (array, inside) in inside.into_iter().enumerate() {
        for place in [0, 63, 64 + inside, 65_663] {
            let name = format!("byte {place} changed in {}", ARRAYS[array]);
            calls.push(Call {
                spoilt: (array + 1, place),
                ..right(kind, &name)
            });
        }
    }
    calls
}
