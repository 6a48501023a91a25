//! Cases of run over tables that are not empty, each with a name, for the program `compare`.

mod bounds;
mod damaged;
mod inside;
mod written;

use crate::compare::Call;
use crate::generate::{cases, Kind};
use crate::layout::HEADER_BYTES;
use crate::operations::{run, translate};
use crate::store::Store;
pub use written::CHECKED;

/// The smallest slices that run may be lent: the output and the two work slices.
const SMALLEST: [usize; 3] = [32_792, 65_536, 65_536];
/// What is lent unless a case says otherwise: each slice with 64 bytes to be kept.
const LENT: [usize; 3] = [32_856, 65_600, 65_600];

const GENERATED_SEED: u64 = 2;
const GENERATED: usize = 20;

/// One run: its name, its inputs, and how long the lent slices are.
pub struct Trial {
    pub name: String,
    pub list: Vec<u8>,
    pub table: Vec<u8>,
    pub lent: [usize; 3],
}

impl Trial {
    fn new(name: &str, list: Vec<u8>, table: Vec<u8>) -> Trial {
        Trial {
            name: name.to_string(),
            list,
            table,
            lent: LENT,
        }
    }

    pub fn call(&self) -> Call {
        let [out, work1, work2] = self.lent;
        let inputs = vec![self.list.clone(), self.table.clone()];
        Call::new(Kind::Run, &self.name, inputs, [out, work1, work2, 0])
    }
}

/// Every case, in the program's order.
pub fn trials() -> Vec<Trial> {
    let mut trials = written::trials();
    trials.extend(inside::trials());
    trials.extend(bounds::trials());
    trials.extend(damaged::trials());
    trials.extend(generated());
    trials
}

/// Generated runs with at least one step and one attribute.
fn generated() -> Vec<Trial> {
    let cases = cases(Kind::Run, GENERATED_SEED, 6_000);
    let filled = cases.filter(|case| case.inputs.iter().all(|input| input.len() > HEADER_BYTES));
    let named = filled.take(GENERATED).enumerate();
    named
        .map(|(number, case)| {
            let name = format!("generated {}", number + 1);
            Trial::new(&name, case.inputs[0].clone(), case.inputs[1].clone())
        })
        .collect()
}

/// A description over the whole table of another, which must both translate.
fn over(name: &str, before: &str, description: &str) -> Trial {
    Trial::new(name, list_of(description), table_of(before))
}

pub(crate) fn list_of(description: &str) -> Vec<u8> {
    translate(description.as_bytes()).expect("a case's description translates")
}

pub(crate) fn table_of(description: &str) -> Vec<u8> {
    let empty = crate::layout_table::encode_table(&Store::default());
    run(&list_of(description), &empty).expect("a case's starting table is one")
}
