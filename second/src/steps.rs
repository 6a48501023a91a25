//! Steps, and the compiler from statements to steps.

use crate::grammar::{Prototype, Statement, StatementValue};
use crate::limits::{STEPS, STEP_TEXT_BYTES};
use crate::refusal::Refusal;
use crate::store::{measure_basic, path_text, Basic, Path};

/// A set holds its whole value; in the layout a vector's items follow it as records.
#[derive(Clone, Debug, PartialEq, Eq)]
pub enum Step {
    Make {
        target: Path,
        place: u32,
    },
    Take {
        reference: Path,
        place: u32,
    },
    Enter,
    Leave,
    Done,
    Set {
        target: Path,
        value: Basic,
        place: u32,
    },
    Link {
        target: Path,
        reference: Path,
        place: u32,
    },
}

/// The steps of a description, or refusal 7 where they pass a bound.
pub fn compile(statements: &[Statement]) -> Result<Vec<Step>, Refusal> {
    let mut steps = Vec::new();
    compile_statements(statements, &mut steps);
    let records: usize = steps.iter().map(records_of).sum();
    let text: usize = steps.iter().map(text_of).sum();
    if records > STEPS || text > STEP_TEXT_BYTES {
        return Err(Refusal::new(7, 0));
    }
    Ok(steps)
}

fn compile_statements(statements: &[Statement], steps: &mut Vec<Step>) {
    for Statement { target, value } in statements {
        match value {
            StatementValue::Basic(basic) => steps.push(Step::Set {
                target: target.path.clone(),
                value: basic.clone(),
                place: target.place,
            }),
            StatementValue::Link(reference) => steps.push(Step::Link {
                target: target.path.clone(),
                reference: reference.path.clone(),
                place: reference.place,
            }),
            StatementValue::Extends(prototypes) => {
                steps.push(Step::Make {
                    target: target.path.clone(),
                    place: target.place,
                });
                compile_prototypes(prototypes, steps);
                steps.push(Step::Done);
            }
        }
    }
}

fn compile_prototypes(prototypes: &[Prototype], steps: &mut Vec<Step>) {
    for prototype in prototypes {
        match prototype {
            Prototype::Reference(reference) => steps.push(Step::Take {
                reference: reference.path.clone(),
                place: reference.place,
            }),
            Prototype::Block(block) => {
                steps.push(Step::Enter);
                compile_statements(block, steps);
                steps.push(Step::Leave);
            }
        }
    }
}

fn records_of(step: &Step) -> usize {
    match step {
        Step::Set { value, .. } => measure_basic(value).nodes,
        _ => 1,
    }
}

fn text_of(step: &Step) -> usize {
    match step {
        Step::Make { target, .. } => path_text(target),
        Step::Take { reference, .. } => path_text(reference),
        Step::Enter | Step::Leave | Step::Done => 0,
        Step::Set { target, value, .. } => path_text(target) + measure_basic(value).text,
        Step::Link {
            target, reference, ..
        } => path_text(target) + path_text(reference),
    }
}
