//! Calls of the four operations for the program `compare` of the proved code, which lends slices.
//!
//! `stream` is what that program reads; `lines` are what it must write. Both follow from this
//! implementation's answers alone.

mod named;
mod sample;
mod slices;
mod wrong;

pub use sample::sample;
pub use slices::{smallest, SPARE};

use crate::generate::random::Random;
use crate::generate::{cases, Case, Kind};
use crate::limits::SOURCE_BYTES;
use crate::refusal::Refusal;
use std::collections::BTreeMap;

type Answer = Result<Vec<u8>, Refusal>;

/// One call: its inputs, how many bytes it is lent of the output and of three work slices, what it
/// answers, and what the program is told to expect.
#[derive(Clone)]
pub struct Call {
    pub kind: Kind,
    /// A call without a name has a line only where it differs.
    pub name: String,
    pub inputs: Vec<Vec<u8>>,
    pub lent: [usize; 4],
    pub answer: Answer,
    told: Answer,
    /// An array of the program, from 1, and a place in it that the program changes after the call.
    spoilt: (usize, usize),
}

impl Call {
    /// Refusal 8 comes first; this implementation lends no slices, so the rule stands here.
    pub fn new(kind: Kind, name: &str, inputs: Vec<Vec<u8>>, lent: [usize; 4]) -> Call {
        let answer = kind.answer(&inputs);
        Call::answered(kind, name, inputs, lent, answer)
    }

    fn answered(
        kind: Kind,
        name: &str,
        inputs: Vec<Vec<u8>>,
        lent: [usize; 4],
        answer: Answer,
    ) -> Call {
        let is_short = lent.iter().zip(smallest(kind)).any(|(n, least)| *n < least);
        let answer = if is_short {
            Err(Refusal::new(8, 0))
        } else {
            answer
        };
        Call {
            kind,
            name: name.to_string(),
            inputs,
            lent,
            told: answer.clone(),
            answer,
            spoilt: (0, 0),
        }
    }

    /// Twelve numbers of 32 bits, the lowest byte first, then the name, the inputs and the output.
    pub fn bytes(&self) -> Vec<u8> {
        let (number, value) = numbers(&self.told);
        let empty = Vec::new();
        let second = self.inputs.get(1).unwrap_or(&empty);
        let lengths = [
            self.kind as usize,
            self.name.len(),
            self.inputs[0].len(),
            second.len(),
        ];
        let rest = [number, value, self.spoilt.0, self.spoilt.1];
        let head = [lengths, self.lent, rest].concat();
        let mut bytes: Vec<u8> = head.into_iter().flat_map(field).collect();
        bytes.extend(self.name.as_bytes());
        bytes.extend(&self.inputs[0]);
        bytes.extend(second);
        bytes.extend(self.told.as_ref().unwrap_or(&empty));
        bytes
    }

    /// The line of the call that is the so-manieth of its operation, or nothing.
    fn line(&self, number: usize) -> String {
        let (word, name) = (self.kind.word(), &self.name);
        let wrong = self.wrong();
        if !wrong.is_empty() {
            let (answer, told) = (text(&self.answer), text(&self.told));
            let space = if name.is_empty() { "" } else { " " };
            let call = format!("{word} {number}{space}{name}");
            let wrong = wrong.join(" ");
            return format!("{call}: DIFFERS: {answer}, expected {told}; wrong: {wrong}\n");
        }
        if name.is_empty() {
            return String::new();
        }
        format!("{word} {name}: same: {}\n", text(&self.answer))
    }
}

/// As the program numbers them: a refusal's number and place, or 0 and the output's length.
fn numbers(answer: &Answer) -> (usize, usize) {
    match answer {
        Ok(output) => (0, output.len()),
        Err(refusal) => (refusal.number as usize, refusal.place as usize),
    }
}

fn text(answer: &Answer) -> String {
    match answer {
        Ok(output) => format!("done {}", output.len()),
        Err(refusal) => refusal.to_string(),
    }
}

fn field(number: usize) -> [u8; 4] {
    (number as u32).to_le_bytes()
}

/// So many calls of each operation, in the order of the operations. The inputs of the so-manieth
/// call are those of that line of `generate`, but for every hundredth, whose input is empty or over
/// its length in turn; how much is lent is drawn beside them.
pub fn calls(seed: u64, count: usize, cap: usize) -> impl Iterator<Item = Call> {
    Kind::ALL.into_iter().flat_map(move |kind| {
        let mut random = Random::new(seed.wrapping_add(kind as u64 + 1));
        let drawn = cases(kind, seed, cap).take(count).enumerate();
        drawn.map(move |(before, case)| {
            let lent = slices::draw(&mut random, kind);
            let number = before + 1;
            if number % 100 == 0 {
                return Call::new(kind, "", odd_inputs(number, case, cap), lent);
            }
            Call::answered(kind, "", case.inputs, lent, case.answer)
        })
    })
}

/// The first input without bytes; or, in turn, the second so, or the only one over every length.
fn odd_inputs(number: usize, case: Case, cap: usize) -> Vec<Vec<u8>> {
    let mut inputs = case.inputs;
    if number % 200 == 100 {
        inputs[0].clear();
    } else if let Some(second) = inputs.get_mut(1) {
        second.clear();
    } else {
        let length = SOURCE_BYTES + 1 + number % 20_000;
        inputs[0].resize(length.min(cap), b' ');
    }
    inputs
}

/// How many calls there are, as they stand before the calls.
pub fn stream_head(count: usize) -> [u8; 4] {
    field(count)
}

pub fn stream(calls: &[Call]) -> Vec<u8> {
    let each = calls.iter().flat_map(Call::bytes);
    stream_head(calls.len()).into_iter().chain(each).collect()
}

/// What the program writes: a line for each call that has one, then one for each operation.
pub fn lines(calls: &[Call]) -> String {
    let mut told = String::new();
    let mut summaries = String::new();
    for kind in Kind::ALL {
        summaries += &summary(kind, calls);
    }
    let mut numbers = [0; 4];
    for call in calls {
        numbers[call.kind as usize] += 1;
        told += &call.line(numbers[call.kind as usize]);
    }
    told + &summaries
}

fn summary(kind: Kind, calls: &[Call]) -> String {
    let of_kind = || calls.iter().filter(|call| call.kind == kind);
    let same = of_kind().filter(|call| call.wrong().is_empty()).count();
    let mut refused = BTreeMap::new();
    for number in of_kind().map(|call| numbers(&call.answer).0) {
        *refused.entry(number).or_insert(0) += 1;
    }
    let accepted = refused.remove(&0).unwrap_or(0);
    let (word, all) = (kind.word(), of_kind().count());
    let each = refused
        .iter()
        .map(|(number, count)| format!(", {count} refused {number}"));
    let each: String = each.collect();
    format!("{word}: {all} cases, {same} the same, {accepted} accepted{each}\n")
}
