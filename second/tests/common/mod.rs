//! Answers as short text, so that a test's table reads like document 01's list.
#![allow(dead_code)] // Each test file uses its own part.

use second::layout_table::decode_table;
use second::operations::{resolve, run, translate};
use second::refusal::Refusal;
use second::store::{Basic, Name, Store, Value};

pub const EMPTY_TABLE: [u8; 24] = [
    2, 0, 0, 0, 24, 0, 0, 0, 0, 0, 0, 0, 24, 0, 0, 0, 0, 0, 0, 0, 24, 0, 0, 0,
];

/// `x 1; a { y "s"; }` for a table, or the refusal's line.
pub fn show_answer(answer: Result<Vec<u8>, Refusal>) -> String {
    match answer {
        Ok(table) => show_table(&table),
        Err(refusal) => refusal.to_string(),
    }
}

pub fn show_table(table: &[u8]) -> String {
    match decode_table(table) {
        Ok(store) => show_store(&store),
        Err(refusal) => format!("a table that is {refusal}"),
    }
}

fn show_store(store: &Store) -> String {
    let each = store.attributes.iter().map(|(name, value)| {
        let name = String::from_utf8_lossy(name);
        match value {
            Value::Component(inner) if inner.attributes.is_empty() => format!("{name} {{}}"),
            Value::Component(inner) => format!("{name} {{ {} }}", show_store(inner)),
            Value::Basic(basic) => format!("{name} {};", show_basic(basic)),
        }
    });
    each.collect::<Vec<String>>().join(" ")
}

fn show_basic(basic: &Basic) -> String {
    match basic {
        Basic::Boolean(truth) => truth.to_string(),
        Basic::Null => "NULL".to_string(),
        Basic::Integer(number) => number.to_string(),
        Basic::Decimal(text) => String::from_utf8_lossy(text).into_owned(),
        Basic::String(bytes) => format!("{:?}", String::from_utf8_lossy(bytes)),
        Basic::Data(path) => format!("DATA {}", show_path(path)),
        Basic::Vector(elements) => {
            let each: Vec<String> = elements.iter().map(show_basic).collect();
            format!("[{}]", each.join(", "))
        }
    }
}

fn show_path(path: &[Name]) -> String {
    let names: Vec<_> = path
        .iter()
        .map(|name| String::from_utf8_lossy(name))
        .collect();
    names.join(":")
}

/// The main table of a description, as text.
pub fn main_of(source: impl AsRef<[u8]>) -> String {
    show_answer(resolve(source.as_ref()))
}

/// The whole table of a description over the empty table, as text.
pub fn whole_of(source: impl AsRef<[u8]>) -> String {
    let whole = translate(source.as_ref()).and_then(|list| run(&list, &EMPTY_TABLE));
    show_answer(whole)
}

/// What translate says: the refusal's line, or `translated`.
pub fn translated(source: impl AsRef<[u8]>) -> String {
    match translate(source.as_ref()) {
        Ok(_) => "translated".to_string(),
        Err(refusal) => refusal.to_string(),
    }
}

/// Compares every row of a table and names the row that differs.
pub fn check<S: AsRef<[u8]>>(answer: impl Fn(&[u8]) -> String, rows: &[(S, &str)]) {
    for (source, wanted) in rows {
        let source = source.as_ref();
        let shown = String::from_utf8_lossy(&source[..source.len().min(200)]);
        assert_eq!(answer(source), *wanted, "for {shown}");
    }
}
