//! Which inputs a case has: the mix of plain, damaged and extreme ones for each operation.

use super::damage_layout::damage_layout;
use super::damage_source::{damage_bytes, damage_tokens};
use super::random::Random;
use super::{draft, extremes, grow, lists, render, stores, Kind};
use crate::evaluate::evaluate;
use crate::grammar::Statement;
use crate::layout_steps::{encode_steps, RECORD_BYTES as STEP_BYTES};
use crate::layout_table::{encode_table, RECORD_BYTES as TABLE_BYTES};
use crate::operations::{translate, MAIN_NAME};
use crate::steps::{compile, Step};
use crate::store::{Basic, Store, Value};

/// How large plain inputs are drawn.
struct Scale {
    source_statements: usize,
    list_statements: usize,
    nodes: usize,
}

fn scale(random: &mut Random, cap: usize) -> Scale {
    let share = random.between(1, 4);
    let up_to = |bytes: usize, most: usize| (cap / bytes).min(most) * share / 4 + 1;
    Scale {
        source_statements: up_to(16, 40),
        list_statements: up_to(50, 30),
        nodes: up_to(20, 60),
    }
}

/// The inputs of one case, each of at most `cap` bytes.
pub fn inputs(kind: Kind, random: &mut Random, cap: usize) -> Vec<Vec<u8>> {
    for _ in 0..200 {
        let scale = scale(random, cap);
        let drawn = match kind {
            Kind::Translate => vec![description_to_read(random, &scale)],
            Kind::Resolve => vec![description_to_resolve(random, &scale)],
            Kind::Main => vec![table_with_main(random, &scale)],
            Kind::Run => list_and_table(random, &scale),
        };
        if drawn.iter().all(|input| input.len() <= cap) {
            return drawn;
        }
    }
    vec![Vec::new(); if kind == Kind::Run { 2 } else { 1 }]
}

/// For translate the tokens and the grammar matter most.
fn description_to_read(random: &mut Random, scale: &Scale) -> Vec<u8> {
    let statements = draft::statements(random, &Store::default(), scale.source_statements);
    match random.below(100) {
        0..=38 => plain(random, &statements),
        39..=62 => damaged_tokens(random, &statements),
        63..=76 => damaged_source(random, &statements),
        _ => extremes::description(random),
    }
}

/// For resolve most descriptions should pass the grammar.
fn description_to_resolve(random: &mut Random, scale: &Scale) -> Vec<u8> {
    let statements = draft::with_main(random, &Store::default(), scale.source_statements);
    match random.below(100) {
        0..=63 => plain(random, &statements),
        64..=71 => damaged_tokens(random, &statements),
        72..=76 => damaged_source(random, &statements),
        _ => extremes::description(random),
    }
}

/// A description with a starting table that it is made for.
pub fn description_and_table(random: &mut Random) -> (Vec<u8>, Vec<u8>) {
    let scale = scale(random, usize::MAX);
    if random.percent(15) {
        let growth = grow::growth(random);
        return (plain(random, &growth.links), encode_table(&growth.start));
    }
    let store = some_store(random, &scale);
    let statements = draft::statements(random, &store, scale.source_statements);
    (plain(random, &statements), encode_table(&store))
}

fn plain(random: &mut Random, statements: &[Statement]) -> Vec<u8> {
    let tokens = render::tokens(random, statements);
    render::joined(random, &tokens)
}

fn damaged_tokens(random: &mut Random, statements: &[Statement]) -> Vec<u8> {
    let mut tokens = render::tokens(random, statements);
    damage_tokens(random, &mut tokens);
    render::joined(random, &tokens)
}

fn damaged_source(random: &mut Random, statements: &[Statement]) -> Vec<u8> {
    let mut source = plain(random, statements);
    damage_bytes(random, &mut source);
    source
}

/// A store as it may come from a run, or one made freely.
fn some_store(random: &mut Random, scale: &Scale) -> Store {
    if random.percent(60) {
        return stores::store(random, scale.nodes);
    }
    let statements = draft::with_main(random, &Store::default(), scale.list_statements);
    evaluate(&statements, Store::default()).unwrap_or_default()
}

fn table_with_main(random: &mut Random, scale: &Scale) -> Vec<u8> {
    let mut store = match random.below(100) {
        0..=89 => some_store(random, scale),
        _ => extremes::store(random),
    };
    let main = stores::store(random, scale.nodes / 2 + 1);
    match random.below(100) {
        0..=54 => store.put(MAIN_NAME, Value::Component(main)),
        55..=61 => store.put(MAIN_NAME, Value::Basic(Basic::Null)),
        _ => {}
    }
    match random.below(100) {
        0..=64 => encode_table(&store),
        _ => bad_table(random, store),
    }
}

fn bad_table(random: &mut Random, mut store: Store) -> Vec<u8> {
    if random.percent(40) {
        stores::spoil(random, &mut store);
        return encode_table(&store);
    }
    let mut bytes = encode_table(&store);
    damage_layout(random, &mut bytes, TABLE_BYTES);
    bytes
}

fn list_and_table(random: &mut Random, scale: &Scale) -> Vec<Vec<u8>> {
    if random.percent(10) {
        let growth = grow::growth(random);
        let list = list_of(random, &growth.links);
        return vec![list, encode_table(&growth.start)];
    }
    let store = match random.below(100) {
        0..=4 => Store::default(),
        5..=6 => extremes::store(random),
        _ => some_store(random, scale),
    };
    let list = list_for(random, scale, &store);
    if random.percent(10) {
        return vec![list, bad_table(random, store)];
    }
    vec![list, encode_table(&store)]
}

fn list_for(random: &mut Random, scale: &Scale, store: &Store) -> Vec<u8> {
    let statements = draft::statements(random, store, scale.list_statements);
    match random.below(100) {
        0..=63 => list_of(random, &statements),
        64..=75 => encode_steps(&lists::free_steps(random, scale.list_statements)),
        76..=91 => bad_list(random, compile(&statements).unwrap_or_default()),
        _ => encode_steps(&extremes::steps(random)),
    }
}

/// Mostly as translated, sometimes with places that no description has.
fn list_of(random: &mut Random, statements: &[Statement]) -> Vec<u8> {
    if random.percent(75) {
        return translate(&plain(random, statements)).unwrap_or_default();
    }
    let mut steps = compile(statements).unwrap_or_default();
    lists::scatter_places(random, &mut steps);
    encode_steps(&steps)
}

fn bad_list(random: &mut Random, mut steps: Vec<Step>) -> Vec<u8> {
    if random.percent(40) {
        lists::spoil_steps(random, &mut steps);
        return encode_steps(&steps);
    }
    let mut bytes = encode_steps(&steps);
    damage_layout(random, &mut bytes, STEP_BYTES);
    bytes
}
