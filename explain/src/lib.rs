//! What the proved program answered to a description, in words for a person. The words are not proved.
//!
//! `place` finds the line and column of a byte, `show` makes a line of the source fit to print,
//! `words` says what a refusal number means. A table's text is the second implementation's.

pub mod place;
pub mod show;
pub mod words;

use second::dump::dump;
use second::layout_table::decode_table;
use second::refusal::Refusal;

/// The words for an answer of resolve, or why it is no answer.
pub fn explain(source: &[u8], answer: &[u8]) -> Result<String, String> {
    if let Some(rest) = answer.strip_prefix(b"refused ") {
        let refusal = read_refusal(rest).ok_or("the answer is no line `refused N at P`")?;
        return Ok(refused(source, refusal));
    }
    accepted(answer).map_err(|_| "the answer is neither a table nor a refusal".to_string())
}

fn read_refusal(rest: &[u8]) -> Option<Refusal> {
    let (number, place) = std::str::from_utf8(rest)
        .ok()?
        .strip_suffix('\n')?
        .split_once(" at ")?;
    Some(Refusal::new(number.parse().ok()?, place.parse().ok()?))
}

fn accepted(table: &[u8]) -> Result<String, Refusal> {
    if decode_table(table)?.attributes.is_empty() {
        return Ok("accepted: sfConfig is empty\n".to_string());
    }
    let text = dump(table)?;
    Ok(format!("accepted:\n\n{}", String::from_utf8_lossy(&text)))
}

fn refused(source: &[u8], refusal: Refusal) -> String {
    let number = refusal.number;
    let mut text = format!("{refusal}: {}\n", words::meaning(number));
    if words::has_place(number) {
        text.push_str(&pointed(source, refusal.place as usize));
    }
    let hint = words::hint(number, source, refusal.place as usize);
    text.push_str(&format!("\nhint: {hint}\n"));
    text
}

/// Where the place is, then the line with a caret under it.
fn pointed(source: &[u8], at: usize) -> String {
    let Some(shown) = place::shown(source, at) else {
        return String::new();
    };
    let spot = place::find(source, shown.from + shown.caret);
    let head = if at < source.len() {
        format!("line {}, column {} (byte {at})", spot.line, spot.column)
    } else {
        format!("the end (byte {at}), behind line {}", spot.line)
    };
    let line = &source[shown.from..shown.to];
    format!("\n{head}\n{}", show::with_caret(line, shown.caret))
}
