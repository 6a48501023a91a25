//! The four operations of document 01, over plain owned data.

use crate::evaluate::evaluate;
use crate::grammar::read;
use crate::layout_steps::{decode_steps, encode_steps};
use crate::layout_table::{decode_table, encode_table};
use crate::refusal::Refusal;
use crate::run::run_steps;
use crate::steps::compile;
use crate::store::{Store, Value};

pub const MAIN_NAME: &[u8] = b"sfConfig";

/// Description to step list.
pub fn translate(source: &[u8]) -> Result<Vec<u8>, Refusal> {
    let steps = compile(&read(source)?)?;
    Ok(encode_steps(&steps))
}

/// Step list and starting table to the whole table.
pub fn run(list: &[u8], table: &[u8]) -> Result<Vec<u8>, Refusal> {
    let steps = decode_steps(list)?;
    let store = decode_table(table)?;
    run_steps(&steps, store).map(|whole| encode_table(&whole))
}

/// Whole table to the table of `sfConfig`.
pub fn main_table(table: &[u8]) -> Result<Vec<u8>, Refusal> {
    let store = decode_table(table)?;
    main_component(&store).map(encode_table)
}

/// Description to main table, by way of the statements: no list and no whole table are laid out.
pub fn resolve(source: &[u8]) -> Result<Vec<u8>, Refusal> {
    let statements = read(source)?;
    compile(&statements)?;
    let store = evaluate(&statements, Store::default())?;
    main_component(&store).map(encode_table)
}

fn main_component(store: &Store) -> Result<&Store, Refusal> {
    match store.get(MAIN_NAME) {
        Some(Value::Component(main)) => Ok(main),
        Some(Value::Basic(_)) => Err(Refusal::new(20, 0)),
        None => Err(Refusal::new(19, 0)),
    }
}
