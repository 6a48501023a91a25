//! Descriptions, stores and steps at a limit of document 01 or just past it.

use super::grow::growth;
use super::random::Random;
use super::render;
use super::stores::statements_of;
use super::words;
use crate::limits::*;
use crate::operations::{resolve, translate};
use crate::steps::Step;
use crate::store::{Basic, Store, Value};

/// A description at a limit, or by `past` one over it.
pub fn description(random: &mut Random) -> Vec<u8> {
    let past = random.below(2);
    let text = match random.below(15) {
        0 => long_name(random, past),
        1 => long_reference(random, past),
        2 => deep_openings(random, past),
        3 => deep_table(random, past),
        4 => integer_limit(random),
        5..=8 => return grown(random),
        9 => long_token(random, past),
        10 => many_steps(random, past),
        11 => full_step_text(past),
        12 => full_table_text(past),
        13 => many_nodes(past),
        _ => full_source(random, past),
    };
    text.into_bytes()
}

const SIDES: [&str; 2] = ["at its limit", "just past it"];

/// One description at each limit and one just past it, each with a name.
pub fn descriptions_by_name() -> Vec<(String, Vec<u8>)> {
    type Shape = fn(&mut Random, usize) -> String;
    let shapes: [(&str, Shape); 10] = [
        ("a name's length", long_name),
        ("a reference's names", long_reference),
        ("openings", deep_openings),
        ("a table's depth", deep_table),
        ("a token's length", long_token),
        ("a list's steps", many_steps),
        ("a list's text", |_, past| full_step_text(past)),
        ("a table's text", |_, past| full_table_text(past)),
        ("a table's nodes", |_, past| many_nodes(past)),
        ("a source's length", full_source),
    ];
    let both = shapes.iter().flat_map(|(name, shape)| {
        let text = move |seed, past| shape(&mut Random::new(seed), past).into_bytes();
        // At its limit it is to be accepted, where any draw of this shape is.
        let seed = (0..99).find(|seed| resolve(&text(*seed, 0)).is_ok());
        let seed = seed.or_else(|| (0..99).find(|seed| translate(&text(*seed, 0)).is_ok()));
        let seed = seed.unwrap_or(0);
        let sides = SIDES.iter().enumerate();
        sides.map(move |(past, side)| (format!("{name} {side}"), text(seed, past)))
    });
    both.collect()
}

/// The same for stores.
pub fn stores_by_name() -> Vec<(String, Store)> {
    let names = [
        "components' depth",
        "vectors' depth",
        "nodes",
        "text",
        "a string's length",
        "a reference's names",
    ];
    let both = names.iter().enumerate().flat_map(|(which, name)| {
        SIDES.iter().enumerate().map(move |(past, side)| {
            let value = limit_value(&mut Random::new(4), which, past);
            (format!("{name} {side}"), under("sfConfig", value))
        })
    });
    both.collect()
}

fn long_name(random: &mut Random, past: usize) -> String {
    let name = "n".repeat(NAME_BYTES + past);
    match random.below(6) {
        0 => format!("{name} 1;"),
        1 => format!("a {name};"),
        2 => format!("sfConfig extends {{ {name} 1; b {name}; }}"),
        3 => format!("a extends {name};"),
        4 => format!("a b {name}"),
        _ => format!("a:{name} DATA {name};"),
    }
}

fn long_reference(random: &mut Random, past: usize) -> String {
    let long = vec!["a"; REFERENCE_NAMES + past].join(":");
    match random.below(7) {
        0 => format!("{long} 1;"),
        1 => format!("a {long};"),
        2 => format!("sfConfig extends {{ x DATA {long}; }}"),
        3 => format!("a extends {long};"),
        4 => format!("{long}:true 1;"),
        5 => format!("a [DATA {long}:;"),
        _ => format!("{long}:;"),
    }
}

/// Braces, brackets or both, all closed again, or an opening where none may stand.
fn deep_openings(random: &mut Random, past: usize) -> String {
    let all = OPENINGS + past;
    let brackets = *random.pick(&[0, 0, 1, 5, all, all]);
    let braces = all - brackets;
    let value = match random.below(5) {
        0 => "1",
        1 => "{",
        _ => "",
    };
    let mut text = "a extends{".repeat(braces);
    if brackets > 0 {
        let (open, close) = ("[".repeat(brackets), "]".repeat(brackets));
        text += &format!("b {open}{value}{close};");
    }
    text + &"}".repeat(braces)
}

/// Components nested up to depth 32 or 33, the last by a basic value.
fn deep_table(random: &mut Random, past: usize) -> String {
    let braces = DEPTH - 1 + past;
    let first = if random.percent(70) {
        "sfConfig extends{"
    } else {
        "a extends{"
    };
    let inner = "a extends{".repeat(braces - 1);
    let last = *random.pick(&["a 1;", "a [];", "a extends{}", "a a;", "a extends a;"]);
    format!("{first}{inner}{last}{}", "}".repeat(braces))
}

fn integer_limit(random: &mut Random) -> String {
    let number = *random.pick(&[
        "9223372036854775807",
        "9223372036854775808",
        "-9223372036854775808",
        "-9223372036854775809",
        "000000000000000000000009223372036854775807",
        "-0000000000000000000000009223372036854775809",
        "18446744073709551616",
        "340282366920938463463374607431768211457",
    ]);
    match random.below(5) {
        0 => format!("a {number};"),
        1 => format!("a [1,{number}];"),
        2 => format!("{number} 1;"),
        3 => format!("a {number}x;"),
        _ => format!("sfConfig extends {{ a {number}; }}"),
    }
}

/// A description that copies a component into itself, at the root or in sfConfig.
fn grown(random: &mut Random) -> Vec<u8> {
    let growth = growth(random);
    let statements = [statements_of(&growth.start), growth.links].concat();
    let mut tokens = render::tokens(random, &statements);
    let opening: [&[u8]; 3] = [b"sfConfig", b"extends", b"{"];
    if random.percent(70) {
        tokens.splice(0..0, opening.map(<[u8]>::to_vec));
        tokens.push(b"}".to_vec());
    }
    render::joined(random, &tokens)
}

/// A string or decimal at its limit, alone or with a fault that comes before its length.
fn long_token(random: &mut Random, past: usize) -> String {
    let length = LONG_TEXT_BYTES + past;
    let token = match random.below(6) {
        0 => format!("\"{}\"", "s".repeat(length)),
        1 => format!("\"{}\"", "\\101".repeat(length)),
        2 => format!("\"{}\\q\"", "s".repeat(length)),
        3 => format!("1.{}", "0".repeat(length - 2)),
        4 => format!("1e{}x", "0".repeat(length - 2)),
        _ => format!("{}1", "0".repeat(length)),
    };
    format!("sfConfig extends {{ a {token}; }}")
}

/// A list of 1,024 or 1,025 records: as one vector, or as sets of one name.
fn many_steps(random: &mut Random, past: usize) -> String {
    if random.percent(50) {
        let items = vec!["1"; STEPS - 1 + past].join(",");
        return format!("sfConfig [{items}];");
    }
    let sets = "x 1;".repeat(STEPS - 4 + past);
    format!("sfConfig extends {{{sets}}}")
}

/// Step text of 32,768 or 32,769 bytes from sets of one name, of 5 bytes and a string each.
fn full_step_text(past: usize) -> String {
    let whole = 7;
    let rest = STEP_TEXT_BYTES - whole * (5 + LONG_TEXT_BYTES) - 5 + past;
    let sets = format!("a\"{}\";", "s".repeat(LONG_TEXT_BYTES)).repeat(whole);
    format!("{sets}a\"{}\";", "s".repeat(rest))
}

/// Table text of 16,384 or 16,385 bytes, of 9 for sfConfig and 4 and a string for each other.
fn full_table_text(past: usize) -> String {
    let rest = TABLE_TEXT_BYTES - 9 - 3 * (4 + LONG_TEXT_BYTES) - 4 + past;
    let long = "s".repeat(LONG_TEXT_BYTES);
    let last = "s".repeat(rest);
    format!("sfConfig extends{{a\"{long}\";b a;c a;d\"{last}\";}}")
}

/// 1,024 or 1,025 nodes: sfConfig, a vector and a copy of it, and a vector for the rest.
fn many_nodes(past: usize) -> String {
    let items = |count: usize| vec!["1"; count].join(",");
    let rest = NODES - 1 - 2 * 401 - 1 + past;
    format!(
        "sfConfig extends{{a[{}];b a;c[{}];}}",
        items(400),
        items(rest)
    )
}

/// A source of 32,768 or 32,769 bytes, whole or broken off at its end.
fn full_source(random: &mut Random, past: usize) -> String {
    let start = *random.pick(&[
        "sfConfig extends {}",
        "a 1",
        "a 1;",
        "sfConfig extends { x 1; }//",
    ]);
    let pad = if random.percent(50) { " " } else { "\n" };
    format!("{start}{}", pad.repeat(SOURCE_BYTES + past - start.len()))
}

/// A store at a limit of tables or one over it.
pub fn store(random: &mut Random) -> Store {
    let past = random.below(2);
    let which = random.below(7);
    let value = limit_value(random, which, past);
    under(*random.pick(&["sfConfig", "sfConfig", "sfconfig"]), value)
}

fn limit_value(random: &mut Random, which: usize, past: usize) -> Value {
    match which {
        0 => nested_components(DEPTH - 2 + past),
        1 => Value::Basic(nested_vectors(DEPTH - 2 + past)),
        2 => Value::Basic(Basic::Vector(vec![Basic::Null; NODES - 2 + past])),
        3 => strings(TABLE_TEXT_BYTES - 9 - 2 + past),
        4 => Value::Basic(Basic::String(vec![0; LONG_TEXT_BYTES + past])),
        5 => Value::Basic(Basic::Data(words::same_names("r", REFERENCE_NAMES + past))),
        _ => nested_components(random.between(1, DEPTH)),
    }
}

/// A component of this name that holds the value as `a`.
fn under(name: &str, value: Value) -> Store {
    let main = Store {
        attributes: vec![(b"a".to_vec(), value)],
    };
    Store {
        attributes: vec![(name.as_bytes().to_vec(), Value::Component(main))],
    }
}

fn nested_components(levels: usize) -> Value {
    (0..levels).fold(Value::Component(Store::default()), |inner, _| {
        Value::Component(Store {
            attributes: vec![(b"a".to_vec(), inner)],
        })
    })
}

fn nested_vectors(levels: usize) -> Basic {
    (0..levels).fold(Basic::Vector(Vec::new()), |inner, _| {
        Basic::Vector(vec![inner])
    })
}

/// Strings as elements of a vector that take so many text bytes in all.
fn strings(mut text: usize) -> Value {
    let mut elements = Vec::new();
    while text > 2 {
        let length = (text - 2).min(LONG_TEXT_BYTES);
        elements.push(Basic::String(vec![b's'; length]));
        text -= 2 + length;
    }
    Value::Basic(Basic::Vector(elements))
}

/// Steps at a limit of lists or one over it.
pub fn steps(random: &mut Random) -> Vec<Step> {
    let past = random.below(2);
    match random.below(7) {
        0 => nested_enters(OPENINGS + past, None),
        1 => {
            let enters = random.below(4);
            let vectors = nested_vectors(OPENINGS - enters - 1 + past);
            nested_enters(enters, Some(vectors))
        }
        2 => vec![set(Basic::Null, 0); STEPS + past],
        3 => vec![set(Basic::Vector(vec![Basic::Null; STEPS - 1 + past]), 0)],
        4 => vec![set(Basic::Null, PLACES - 1 + past as u32)],
        5 => vec![set(Basic::String(vec![b's'; LONG_TEXT_BYTES + past]), 7)],
        _ => long_text_steps(past),
    }
}

fn set(value: Basic, place: u32) -> Step {
    Step::Set {
        target: words::same_names("x", 1),
        value,
        place,
    }
}

fn nested_enters(enters: usize, inner: Option<Basic>) -> Vec<Step> {
    let make = Step::Make {
        target: words::same_names("a", 1),
        place: 3,
    };
    let mut steps = vec![[make, Step::Enter]; enters].concat();
    steps.extend(inner.map(|value| set(value, 5)));
    steps.extend(vec![[Step::Leave, Step::Done]; enters].concat());
    steps
}

/// 32,768 or 32,769 text bytes in sets of one name, of 5 bytes and a string each.
fn long_text_steps(past: usize) -> Vec<Step> {
    let rest = STEP_TEXT_BYTES - 7 * (5 + LONG_TEXT_BYTES) - 5 + past;
    let mut steps = vec![set(Basic::String(vec![b's'; LONG_TEXT_BYTES]), 1); 7];
    steps.push(set(Basic::String(vec![b's'; rest]), 2));
    steps
}
