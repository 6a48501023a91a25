//! Calls with names: document 01's descriptions, inputs at the limits and just past them, short slices.

use super::slices::{roomy, smallest};
use super::Call;
use crate::generate::extremes::{descriptions_by_name, stores_by_name};
use crate::generate::Kind;
use crate::layout_table::encode_table;
use crate::operations::{run, translate};
use crate::store::Store;
use crate::trial;

/// What document 01 says of them stands in the tests; `trial` has the others.
const DESCRIPTIONS: [(&str, &str); 5] = [
    ("no bytes", ""),
    ("description 1", "sfConfig 1;"),
    ("description 13", "sfConfig extends { x 1; }"),
    ("a comment without an end", "sfConfig extends {} /* x 1;"),
    (
        "an integer over the range",
        "sfConfig extends { x 9223372036854775808; }",
    ),
];

pub fn calls() -> Vec<Call> {
    let mut calls: Vec<Call> = trial::trials().iter().map(trial::Trial::call).collect();
    let descriptions = descriptions();
    for kind in [Kind::Translate, Kind::Resolve] {
        let each = descriptions.iter();
        calls.extend(each.map(|(name, text)| roomy_call(kind, name, text.clone())));
    }
    let tables = tables().into_iter();
    calls.extend(tables.map(|(name, table)| roomy_call(Kind::Main, &name, table)));
    calls.extend(short());
    calls
}

fn roomy_call(kind: Kind, name: &str, input: Vec<u8>) -> Call {
    Call::new(kind, name, vec![input], roomy(kind))
}

fn descriptions() -> Vec<(String, Vec<u8>)> {
    let plain = DESCRIPTIONS.into_iter().map(named);
    let checked = trial::CHECKED.into_iter();
    let checked = checked.map(|(number, text)| named((&format!("description {number}"), text)));
    plain.chain(checked).chain(descriptions_by_name()).collect()
}

fn named((name, text): (&str, &str)) -> (String, Vec<u8>) {
    (name.to_string(), text.as_bytes().to_vec())
}

/// The whole tables of document 01's descriptions that pass, and tables at the limits.
fn tables() -> Vec<(String, Vec<u8>)> {
    let empty = encode_table(&Store::default());
    let whole = |source: &[u8]| run(&translate(source).ok()?, &empty).ok();
    let of_descriptions = descriptions().into_iter();
    let made = of_descriptions.filter_map(|(name, source)| Some((name, whole(&source)?)));
    let small = made.filter(|(_, table)| table.len() < 1_000);
    let limits = stores_by_name().into_iter();
    let limits = limits.map(|(name, store)| (name, encode_table(&store)));
    let broken = ("no bytes at all".to_string(), Vec::new());
    small.chain(limits).chain([broken]).collect()
}

/// Each slice of each operation at its smallest and one byte shorter, over an input that passes and
/// over one that is refused.
fn short() -> Vec<Call> {
    let rows = [Kind::Translate, Kind::Main, Kind::Resolve].map(|kind| (kind, inputs(kind)));
    let mut calls = vec![Call::new(
        Kind::Resolve,
        "no slices, a source over its length",
        vec![vec![b' '; 32_769]],
        [0; 4],
    )];
    for (kind, [right, broken]) in rows {
        for (what, input) in [("right", right), ("broken", broken)] {
            let name = format!("the smallest slices, {what} input");
            calls.push(Call::new(kind, &name, vec![input.clone()], smallest(kind)));
            for which in (0..4).filter(|which| smallest(kind)[*which] > 0) {
                let mut lent = smallest(kind);
                lent[which] -= 1;
                let name = format!("slice {} one byte short, {what} input", which + 1);
                calls.push(Call::new(kind, &name, vec![input.clone()], lent));
            }
        }
    }
    calls
}

fn inputs(kind: Kind) -> [Vec<u8>; 2] {
    match kind {
        Kind::Main => [
            trial::table_of("sfConfig extends { x 1; }"),
            trial::table_of("sfConfig 1;"),
        ],
        _ => [b"sfConfig extends { x 1; }".to_vec(), b"sfConfig".to_vec()],
    }
}
