//! A line of a source as text that is safe to print, with a caret under one place.

/// How many characters are shown before and behind the caret at most.
const BEFORE: usize = 36;
const BEHIND: usize = 36;

/// A character of a line, or one byte that is no UTF-8.
#[derive(Clone, Copy)]
pub enum Piece {
    Character(char),
    Stray(u8),
}

pub fn pieces(bytes: &[u8]) -> impl Iterator<Item = Piece> + '_ {
    bytes.utf8_chunks().flat_map(|chunk| {
        let characters = chunk.valid().chars().map(Piece::Character);
        characters.chain(chunk.invalid().iter().map(|byte| Piece::Stray(*byte)))
    })
}

/// The line, then the caret: both indented by four spaces, each line ended.
pub fn with_caret(line: &[u8], caret: usize) -> String {
    let before: Vec<Piece> = pieces(&line[..caret]).collect();
    let behind: Vec<Piece> = pieces(&line[caret..]).collect();
    let cut = before.len().saturating_sub(BEFORE);
    let left = if cut > 0 { "..." } else { "" };
    let right = if behind.len() > BEHIND { "..." } else { "" };
    let head = before[cut..].iter().map(|piece| printed(*piece));
    let tail = behind.iter().take(BEHIND).map(|piece| printed(*piece));
    let head = left.to_string() + &head.collect::<String>();
    let tail = tail.collect::<String>() + right;
    format!("\n    {head}{tail}\n    {}^\n", blank(&head))
}

/// As wide as the text on any terminal: a tab stays a tab, all else is one column wide.
fn blank(text: &str) -> String {
    let each = text.chars().map(|c| if c == '\t' { '\t' } else { ' ' });
    each.collect()
}

fn printed(piece: Piece) -> String {
    match piece {
        Piece::Character(c) if c == '\t' || is_plain(c) => c.to_string(),
        Piece::Character(c) if c.is_ascii() => format!("\\x{:02x}", c as u32),
        Piece::Character(c) => format!("\\u{{{:x}}}", c as u32),
        Piece::Stray(byte) => format!("\\x{byte:02x}"),
    }
}

/// Printable, one column wide, and without power over the terminal or the order of the text.
fn is_plain(c: char) -> bool {
    match c {
        ' '..='~' => true,
        '\u{a1}'..='\u{ff}' => c != '\u{ad}',
        '\u{100}'..='\u{2ff}' | '\u{370}'..='\u{52f}' => c.is_alphanumeric(),
        // dashes, quotation marks and the euro sign
        '\u{2013}' | '\u{2014}' | '\u{2018}'..='\u{201f}' | '\u{20ac}' => true,
        _ => false,
    }
}
