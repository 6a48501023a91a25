//! Seeded cases: inputs in many shapes, each with the answer that this implementation gives.

mod cases;
mod damage_layout;
mod damage_source;
mod draft;
pub(crate) mod extremes;
mod grow;
mod lists;
pub(crate) mod random;
mod render;
mod stores;
mod words;

use crate::operations::{main_table, resolve, run, translate};
use crate::refusal::Refusal;
use random::Random;

#[derive(Clone, Copy, Debug, PartialEq, Eq)]
pub enum Kind {
    Translate,
    Run,
    Main,
    Resolve,
}

impl Kind {
    pub const ALL: [Kind; 4] = [Kind::Translate, Kind::Run, Kind::Main, Kind::Resolve];

    pub fn word(self) -> &'static str {
        match self {
            Kind::Translate => "translate",
            Kind::Run => "run",
            Kind::Main => "main",
            Kind::Resolve => "resolve",
        }
    }

    pub fn from_word(word: &str) -> Option<Kind> {
        Kind::ALL.into_iter().find(|kind| kind.word() == word)
    }

    /// A run has two inputs, every other kind one.
    pub fn answer(self, inputs: &[Vec<u8>]) -> Result<Vec<u8>, Refusal> {
        match self {
            Kind::Translate => translate(&inputs[0]),
            Kind::Run => run(&inputs[0], &inputs[1]),
            Kind::Main => main_table(&inputs[0]),
            Kind::Resolve => resolve(&inputs[0]),
        }
    }
}

/// One case: its inputs and the answer to them.
pub struct Case {
    pub kind: Kind,
    pub inputs: Vec<Vec<u8>>,
    pub answer: Result<Vec<u8>, Refusal>,
}

/// The cases of a seed, one after another without end, their inputs of at most `cap` bytes.
pub fn cases(kind: Kind, seed: u64, cap: usize) -> impl Iterator<Item = Case> {
    let mut seeds = Random::new(seed);
    std::iter::repeat_with(move || {
        let inputs = cases::inputs(kind, &mut Random::new(seeds.next()), cap);
        let answer = kind.answer(&inputs);
        Case {
            kind,
            inputs,
            answer,
        }
    })
}

/// Pairs of a description and a starting table, for comparing the two evaluators.
pub fn pairs(seed: u64) -> impl Iterator<Item = (Vec<u8>, Vec<u8>)> {
    let mut seeds = Random::new(seed);
    std::iter::repeat_with(move || cases::description_and_table(&mut Random::new(seeds.next())))
}

impl Case {
    /// One line without its line end: kind, inputs, `=`, answer.
    pub fn line(&self) -> String {
        let inputs: Vec<String> = self.inputs.iter().map(|input| hex(input)).collect();
        let answer = match &self.answer {
            Ok(output) => format!("done {}", hex(output)),
            Err(refusal) => format!("refused {} {}", refusal.number, refusal.place),
        };
        format!("{} {} = {answer}", self.kind.word(), inputs.join(" "))
    }
}

/// Lower-case hex, or `-` for nothing.
pub fn hex(bytes: &[u8]) -> String {
    if bytes.is_empty() {
        return "-".to_string();
    }
    bytes.iter().map(|byte| format!("{byte:02x}")).collect()
}
