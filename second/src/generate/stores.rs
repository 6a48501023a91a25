//! Stores for tables: plain ones, spoiled ones that no table may hold, and statements of one.

use super::draft::reference_to;
use super::random::Random;
use super::words;
use crate::grammar::{Prototype, Statement, StatementValue};
use crate::limits::{LONG_TEXT_BYTES, NAME_BYTES, REFERENCE_NAMES};
use crate::store::{Basic, Name, Store, Value};

/// A store of at most about this many nodes.
pub fn store(random: &mut Random, nodes: usize) -> Store {
    let mut nodes_left = random.between(0, nodes);
    component(random, &mut nodes_left, 1)
}

fn component(random: &mut Random, nodes_left: &mut usize, depth: usize) -> Store {
    let mut store = Store::default();
    let most = random.between(1, 6);
    while store.attributes.len() < most && *nodes_left > 0 {
        *nodes_left -= 1;
        let name = words::name(random);
        let value = if depth < 9 && random.percent(45) {
            Value::Component(component(random, nodes_left, depth + 1))
        } else {
            Value::Basic(words::basic(random, 1))
        };
        store.put(&name, value);
    }
    store
}

/// Statements that give this store when they run over the empty one.
pub fn statements_of(store: &Store) -> Vec<Statement> {
    let each = store.attributes.iter().map(|(name, value)| Statement {
        target: reference_to(vec![name.clone()]),
        value: match value {
            Value::Basic(basic) => StatementValue::Basic(basic.clone()),
            Value::Component(inner) => {
                StatementValue::Extends(vec![Prototype::Block(statements_of(inner))])
            }
        },
    });
    each.collect()
}

/// Puts something at a limit, or something that is not well-formed, somewhere into a store.
pub fn spoil(random: &mut Random, store: &mut Store) {
    let inner = store
        .attributes
        .iter_mut()
        .find_map(|(_, value)| match value {
            Value::Component(inner) => Some(inner),
            Value::Basic(_) => None,
        });
    match inner {
        Some(inner) if random.percent(60) => spoil(random, inner),
        _ => spoil_here(random, store),
    }
}

fn spoil_here(random: &mut Random, store: &mut Store) {
    match random.below(4) {
        0 => {
            let value = Value::Basic(words::basic(random, 2));
            store.attributes.push((odd_name(random), value));
        }
        1 if !store.attributes.is_empty() => {
            let again = random.pick(&store.attributes).clone();
            store.attributes.push(again);
        }
        _ => {
            let value = Value::Basic(odd_basic(random));
            let at = random.between(0, store.attributes.len());
            store.attributes.insert(at, (b"odd".to_vec(), value));
        }
    }
}

pub fn odd_name(random: &mut Random) -> Name {
    const ODD: [&[u8]; 14] = [
        b"",
        b"extends",
        b"DATA",
        b"NULL",
        b"true",
        b"IPROPERTY",
        b"LAZY",
        b"1a",
        b"-a",
        b"a b",
        b"a:b",
        b"\xc3\xa9",
        b"a.b",
        b"False",
    ];
    match random.below(10) {
        0 => vec![b'n'; NAME_BYTES],
        _ => random.pick(&ODD).to_vec(),
    }
}

pub fn odd_basic(random: &mut Random) -> Basic {
    const ODD_DECIMALS: [&[u8]; 14] = [
        b"12", b"-1", b"1.", b".5", b"+1.5", b"1e", b"", b"1.5 ", b"1.5x", b"1e5.", b"1.5", b"e5",
        b"1E-0", b"0x1.0",
    ];
    let past = random.below(2);
    let basic = match random.below(10) {
        0..=3 => Basic::Decimal(random.pick(&ODD_DECIMALS).to_vec()),
        4 => Basic::Decimal([b"1.".to_vec(), vec![b'0'; LONG_TEXT_BYTES - 2 + past]].concat()),
        5 => Basic::String(vec![b's'; LONG_TEXT_BYTES + past]),
        6 => Basic::Data(words::same_names("r", REFERENCE_NAMES + past)),
        7 => Basic::Data(vec![words::name(random), odd_name(random)]),
        8 => Basic::Data(Vec::new()),
        _ => Basic::String((0..random.below(30)).map(|_| random.byte()).collect()),
    };
    if random.percent(30) {
        return Basic::Vector(vec![Basic::Null, basic, Basic::Vector(Vec::new())]);
    }
    basic
}
