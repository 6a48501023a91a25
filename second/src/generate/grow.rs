//! Few links that copy a component into itself, until a bound of tables is near or passed.

use super::draft::reference_to;
use super::random::Random;
use super::words;
use crate::grammar::{Statement, StatementValue};
use crate::limits::DEPTH;
use crate::store::{Basic, Path, Store, Value};

/// What to start from, and the statements that make it grow.
pub struct Growth {
    pub start: Store,
    pub links: Vec<Statement>,
}

pub fn growth(random: &mut Random) -> Growth {
    match random.below(3) {
        0 => in_depth(random),
        1 => in_nodes(random),
        _ => in_text(random),
    }
}

fn link(target: Path, reference: Path) -> Statement {
    Statement {
        target: reference_to(target),
        value: StatementValue::Link(reference_to(reference)),
    }
}

fn store_with(name: &[u8], value: Value) -> Store {
    Store {
        attributes: vec![(name.to_vec(), value)],
    }
}

/// A chain of components of one name, hung into itself at some depth again and again.
fn in_depth(random: &mut Random) -> Growth {
    let mut height = random.between(1, 11);
    let innermost = if random.percent(30) {
        Basic::Vector(vec![Basic::Null])
    } else {
        Basic::Null
    };
    let mut start = store_with(b"x", Value::Basic(innermost));
    for _ in 0..height {
        start = store_with(b"a", Value::Component(start));
    }
    let mut links = Vec::new();
    while height <= DEPTH && links.len() < 30 && !random.percent(3) {
        let names = random.between(2, height + 1);
        links.push(link(
            words::same_names("a", names),
            words::same_names("a", 1),
        ));
        height += names - 1;
    }
    Growth { start, links }
}

/// Each link under a new name doubles the nodes.
fn in_nodes(random: &mut Random) -> Growth {
    let first = random.between(1, 14);
    let flat = (0..first).map(|number| {
        let name = format!("n{number}").into_bytes();
        (name, Value::Basic(Basic::Integer(number as i64)))
    });
    let attributes = flat.collect();
    let doublings = (1024 / (first + 1)).ilog2() as usize;
    doubled(random, Store { attributes }, doublings)
}

/// Each link under a new name doubles the text.
fn in_text(random: &mut Random) -> Growth {
    let length = random.between(60, 250);
    let string = Value::Basic(Basic::String(vec![b't'; length]));
    let doublings = (16_384 / length).ilog2() as usize;
    doubled(random, store_with(b"s", string), doublings)
}

/// Links of a component into itself, around so many of them.
fn doubled(random: &mut Random, inner: Store, doublings: usize) -> Growth {
    let count = random.between(doublings.saturating_sub(1), doublings + 2);
    let a = b"a".to_vec();
    let links = (0..count).map(|number| {
        let letter = vec![b'b' + number as u8];
        link(vec![a.clone(), letter], vec![a.clone()])
    });
    Growth {
        links: links.collect(),
        start: store_with(b"a", Value::Component(inner)),
    }
}
