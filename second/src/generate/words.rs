//! Names, paths and basic values to build cases from. Few names, so that references hit.

use super::random::Random;
use crate::store::{Basic, Name, Path};

const COMMON: [&str; 11] = ["a", "b", "c", "x", "p", "a", "b", "c", "x", "a", "sfConfig"];
const RARE: [&str; 12] = [
    "q", "_", "$", "a-1", "A", "True", "data", "extends-", "sfconfig", "y2", "n_$-9", "NULLs",
];
const DECIMALS: [&str; 14] = [
    "1.5",
    "-0.0",
    "00.10",
    "1e5",
    "1E5",
    "-1e-5",
    "2e+07",
    "1.25e3",
    "-3.75E-12",
    "0e0",
    "007.5",
    "9.99999999999999999999",
    "123456789012345678901e1",
    "0.0e+00",
];
const INTEGERS: [i64; 10] = [0, 1, -1, 2, 3, 80, 4_294_967_296, -42, i64::MAX, i64::MIN];

pub fn name(random: &mut Random) -> Name {
    if random.percent(4) {
        return random.pick(&RARE).as_bytes().to_vec();
    }
    random.pick(&COMMON).as_bytes().to_vec()
}

pub fn path(random: &mut Random) -> Path {
    let names = match random.below(100) {
        0..=59 => 1,
        60..=84 => 2,
        85..=97 => random.between(3, 5),
        _ => random.between(6, 32),
    };
    (0..names).map(|_| name(random)).collect()
}

pub fn same_names(name: &str, count: usize) -> Path {
    vec![name.as_bytes().to_vec(); count]
}

/// A basic value; vectors grow rarer the deeper they lie.
pub fn basic(random: &mut Random, level: usize) -> Basic {
    match random.below(100) {
        0..=33 => integer(random),
        34..=43 => Basic::Boolean(random.percent(50)),
        44..=51 => Basic::Null,
        52..=57 => Basic::Decimal(random.pick(&DECIMALS).as_bytes().to_vec()),
        58..=63 => Basic::Decimal(decimal(random).into_bytes()),
        64..=75 => Basic::String(string(random)),
        76..=84 => Basic::Data(path(random)),
        _ => vector(random, level),
    }
}

fn integer(random: &mut Random) -> Basic {
    if random.percent(10) {
        return Basic::Integer(random.next() as i64);
    }
    Basic::Integer(*random.pick(&INTEGERS))
}

/// A fraction, an exponent or both.
fn decimal(random: &mut Random) -> String {
    let sign = *random.pick(&["", "", "-"]);
    let whole = digits(random);
    let shape = random.below(3);
    let mut text = format!("{sign}{whole}");
    if shape != 0 {
        text += &format!(".{}", digits(random));
    }
    if shape != 1 {
        let mark = *random.pick(&["e", "E", "e+", "E-", "e-"]);
        text += &format!("{mark}{}", digits(random));
    }
    text
}

fn digits(random: &mut Random) -> String {
    let count = random.between(1, 3);
    (0..count)
        .map(|_| char::from(*random.pick(b"0123456789")))
        .collect()
}

fn vector(random: &mut Random, level: usize) -> Basic {
    let most = 5usize.saturating_sub(level);
    let count = random.between(0, most);
    Basic::Vector((0..count).map(|_| basic(random, level + 1)).collect())
}

/// Bytes of every sort: plain ones, ones that have an escape, and any others.
pub fn string(random: &mut Random) -> Vec<u8> {
    let most = if random.percent(5) { 40 } else { 6 };
    let length = random.below(most);
    let bytes = (0..length).map(|_| match random.below(10) {
        0..=5 => *random.pick(b"abc xyz019"),
        6 | 7 => *random.pick(b"\n\t\x08\r\x0c\\\"'"),
        _ => random.byte(),
    });
    bytes.collect()
}
