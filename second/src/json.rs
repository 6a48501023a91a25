//! A table as JSON, for comparison with jsonnet.

use crate::layout_table::decode_table;
use crate::refusal::Refusal;
use crate::store::{Basic, Store, Value};
use std::collections::BTreeMap;

/// The table as jsonnet writes an object: names sorted, three spaces a level. Strings are taken as
/// plain ASCII, and a data reference is a string.
pub fn json(table: &[u8]) -> Result<Vec<u8>, Refusal> {
    let store = decode_table(table)?;
    Ok((component(&store, 1) + "\n").into_bytes())
}

fn component(store: &Store, level: usize) -> String {
    let each = store.attributes.iter();
    let named = each.map(|(name, value)| (quoted(name), written(value, level)));
    let sorted: BTreeMap<String, String> = named.collect();
    let lines = sorted
        .iter()
        .map(|(name, value)| format!("{name}: {value}"));
    block('{', lines.collect(), '}', level)
}

fn written(value: &Value, level: usize) -> String {
    match value {
        Value::Component(inner) => component(inner, level + 1),
        Value::Basic(value) => basic(value, level),
    }
}

fn basic(value: &Basic, level: usize) -> String {
    match value {
        Basic::Boolean(truth) => truth.to_string(),
        Basic::Null => "null".to_string(),
        Basic::Integer(number) => number.to_string(),
        Basic::Decimal(text) => String::from_utf8_lossy(text).into_owned(),
        Basic::String(text) => quoted(text),
        Basic::Data(path) => quoted(&path.join(&b':')),
        Basic::Vector(elements) => {
            let each = elements.iter().map(|element| basic(element, level + 1));
            block('[', each.collect(), ']', level + 1)
        }
    }
}

/// Each line further in than the brackets, which stand at the level above it.
fn block(open: char, lines: Vec<String>, close: char, level: usize) -> String {
    if lines.is_empty() {
        return format!("{open} {close}");
    }
    let (inner, outer) = ("   ".repeat(level), "   ".repeat(level - 1));
    let lines: Vec<String> = lines.iter().map(|line| format!("{inner}{line}")).collect();
    format!("{open}\n{}\n{outer}{close}", lines.join(",\n"))
}

fn quoted(text: &[u8]) -> String {
    let text = String::from_utf8_lossy(text);
    format!("\"{}\"", text.replace('\\', "\\\\").replace('"', "\\\""))
}
