//! A table as readable text: a line a node, indented by its depth, its kind in words.

use crate::layout_table::decode_table;
use crate::refusal::Refusal;
use crate::store::{Basic, Name, Store, Value};

/// The text of a well-formed table, or refusal 10.
pub fn dump(table: &[u8]) -> Result<Vec<u8>, Refusal> {
    let mut text = String::new();
    write_store(&mut text, &decode_table(table)?, 0);
    Ok(text.into_bytes())
}

fn write_store(text: &mut String, store: &Store, depth: usize) {
    for (name, value) in &store.attributes {
        let name = String::from_utf8_lossy(name);
        match value {
            Value::Component(inner) => {
                line(text, depth, &format!("{name}: component"));
                write_store(text, inner, depth + 1);
            }
            Value::Basic(basic) => write_basic(text, &format!("{name}:"), basic, depth),
        }
    }
}

fn write_basic(text: &mut String, head: &str, basic: &Basic, depth: usize) {
    let value = match basic {
        Basic::Boolean(truth) => format!("boolean {truth}"),
        Basic::Null => "null".to_string(),
        Basic::Integer(number) => format!("integer {number}"),
        Basic::Decimal(digits) => format!("decimal {}", String::from_utf8_lossy(digits)),
        Basic::String(bytes) => format!("string \"{}\"", escaped(bytes)),
        Basic::Data(path) => format!("data {}", joined(path)),
        Basic::Vector(_) => "vector".to_string(),
    };
    line(text, depth, &format!("{head} {value}"));
    if let Basic::Vector(elements) = basic {
        for element in elements {
            write_basic(text, "-", element, depth + 1);
        }
    }
}

fn line(text: &mut String, depth: usize, words: &str) {
    text.push_str(&"  ".repeat(depth));
    text.push_str(words);
    text.push('\n');
}

/// Printable ASCII stands for itself, every other byte as three octal digits, as in a description.
fn escaped(bytes: &[u8]) -> String {
    let each = bytes.iter().map(|byte| match byte {
        b'"' | b'\\' => format!("\\{}", char::from(*byte)),
        b' '..=b'~' => char::from(*byte).to_string(),
        _ => format!("\\{byte:03o}"),
    });
    each.collect()
}

fn joined(path: &[Name]) -> String {
    let names: Vec<_> = path
        .iter()
        .map(|name| String::from_utf8_lossy(name))
        .collect();
    names.join(":")
}
