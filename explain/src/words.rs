//! What a refusal number means: document 01's words, and what may help a person.

use second::scan::RESERVED;

/// Document 01's words for a number.
pub fn meaning(number: u32) -> &'static str {
    match number {
        1 => "description over 32,768 bytes",
        2 => "no whole token here",
        3 => "token, or the end, cannot continue",
        4 => "integer out of range",
        5 => "a 33rd opening",
        6 => "name, string, decimal too long; 33rd name of a reference",
        7 => "step list over a bound",
        8 => "a lent slice too short",
        9 => "step list not well-formed",
        10 => "table not well-formed",
        11 => "link finds nothing",
        12 => "prototype finds nothing",
        13 => "prototype finds no component",
        14 => "on the target's path a name is absent",
        15 => "on the target's path a name is no component",
        16 => "depth over the bound",
        17 => "nodes over the bound",
        18 => "text over the bound",
        19 => "main absent",
        20 => "main is no component",
        21 => "target is the root itself",
        _ => "document 01 has no such number",
    }
}

/// Whether the place is one in the source; of the others it is 0 and means nothing.
pub fn has_place(number: u32) -> bool {
    matches!(number, 2..=6 | 11..=18 | 21)
}

pub fn hint(number: u32, source: &[u8], at: usize) -> String {
    let rest = source.get(at..).unwrap_or_default();
    match number {
        2 => no_token(rest).to_string(),
        3 => misplaced(source, at),
        11..=13 => not_found(number, rest),
        _ => plain(number).to_string(),
    }
}

fn plain(number: u32) -> &'static str {
    match number {
        1 => "comments and blanks count too.",
        4 => "integers go from -9223372036854775808 to 9223372036854775807; other digits can be a string.",
        5 => "at most 32 braces and brackets may be open at once.",
        6 => "a name has at most 255 bytes, a string or a decimal 4,095, a reference 32 names.",
        7 => "a description may make 1,024 steps with 32,768 bytes of text. A value, a link, a vector's element and a prototype's name are one step each, a component two, a block two more.",
        14 | 15 => "the target is never searched for: each name but the last must lead through components that stand already where the statement stands.",
        16 => "a table is at most 32 deep; a vector's element lies one deeper than its vector.",
        17 => "a table has at most 1,024 attributes and vector elements, those outside of sfConfig counted.",
        18 => "a table's names, strings, decimals and data references have at most 16,384 bytes, those outside of sfConfig counted.",
        19 => "the result is the component sfConfig: write `sfConfig extends { .. }`.",
        20 => "sfConfig has a basic value: write `sfConfig extends { .. }`.",
        _ => "a description alone cannot cause this; please tell those who keep the program.",
    }
}

/// By the first bytes of what is no token.
fn no_token(rest: &[u8]) -> &'static str {
    match rest {
        [b'"', ..] => "a string ends on its own line with `\"`; its escapes are \\n \\t \\b \\r \\f \\\\ \\\" \\' and three octal digits, \\000 to \\377.",
        [b'/', b'*', ..] => "this comment has no `*/` behind it.",
        [b'/' | b'#', ..] => "a comment begins with `//` or `/*`.",
        [b'-' | b'0'..=b'9', ..] => "a number has digits on both sides of its `.` and behind its `e`, and no name byte and no `.` follows it at once.",
        [b'+' | b'.', ..] => "a number begins with a digit or a minus.",
        [b'\'', ..] => "a string stands between `\"` and `\"`.",
        [0xef, 0xbb, 0xbf, ..] => "this is a byte order mark: save the file without it.",
        [128..=255, ..] => "bytes outside ASCII may stand in strings and comments only.",
        _ => "no token begins with this byte; a name begins with a letter, `_` or `$`.",
    }
}

fn misplaced(source: &[u8], at: usize) -> String {
    let rest = source.get(at..).unwrap_or_default();
    let before = source.get(..at).unwrap_or(source).trim_ascii_end();
    let name = first_name(rest);
    if rest.is_empty() {
        return "something is missing at the end: a value, a `;` or a `}`.".to_string();
    }
    if RESERVED.contains(&name.as_bytes()) {
        return format!("`{name}` is a reserved word, and may not stand here; before it a name, a value or a `;` may be missing.");
    }
    if rest.starts_with(b";") && before.ends_with(b"}") {
        return "no `;` stands behind a block.".to_string();
    }
    "look before the place too: a value or a `;` may be missing there.".to_string()
}

fn not_found(number: u32, rest: &[u8]) -> String {
    let reference = first_reference(rest);
    if number == 13 {
        return format!("`{reference}` finds a basic value, and only a component can be a prototype. The search ends at the first thing found, from the innermost component outwards.");
    }
    format!("the whole of `{reference}` is searched for in each component around the statement, from the innermost outwards, among what stands before it.")
}

/// The name that the bytes begin with; names are ASCII.
fn first_name(rest: &[u8]) -> String {
    let is_name = |byte: &u8| byte.is_ascii_alphanumeric() || b"_$-".contains(byte);
    rest.iter()
        .take_while(|byte| is_name(byte))
        .map(|byte| char::from(*byte))
        .collect()
}

/// Names joined by `:`, with blanks between left out; it ends where a comment stands.
fn first_reference(rest: &[u8]) -> String {
    let mut reference = first_name(rest);
    let mut rest = &rest[reference.len()..];
    while let Some(more) = rest.trim_ascii_start().strip_prefix(b":") {
        let more = more.trim_ascii_start();
        let name = first_name(more);
        rest = &more[name.len()..];
        reference = format!("{reference}:{name}");
    }
    reference
}
