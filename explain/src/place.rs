//! Where a byte of a source stands for a person: its line, its column, and the line to show.

use crate::show::pieces;

/// Both count from 1. A column counts characters; a byte that is no UTF-8 counts as one, a tab too.
#[derive(Debug, PartialEq, Eq)]
pub struct Spot {
    pub line: usize,
    pub column: usize,
}

/// A line of the source without its end, and how many of its bytes stand before the caret.
#[derive(Debug, PartialEq, Eq)]
pub struct Shown {
    pub from: usize,
    pub to: usize,
    pub caret: usize,
}

pub fn find(source: &[u8], at: usize) -> Spot {
    let before = &source[..at.min(source.len())];
    let from = line_start(before);
    Spot {
        line: 1 + before.iter().filter(|byte| **byte == b'\n').count(),
        column: 1 + pieces(&before[from..]).count(),
    }
}

/// The line that holds the place. For the end it is the last line that is not blank, and the caret
/// stands behind what it holds; nothing where every line is blank.
pub fn shown(source: &[u8], at: usize) -> Option<Shown> {
    if at >= source.len() {
        let written = source.trim_ascii_end();
        let from = line_start(written);
        let caret = written.len() - from;
        return (caret > 0).then_some(Shown {
            from,
            to: written.len(),
            caret,
        });
    }
    let from = line_start(&source[..at]);
    let rest = &source[at..];
    let length = rest.iter().position(|byte| *byte == b'\n');
    let to = at + length.unwrap_or(rest.len());
    let to = if source[at..to].ends_with(b"\r") {
        to - 1
    } else {
        to
    };
    Some(Shown {
        from,
        to,
        caret: at - from,
    })
}

fn line_start(before: &[u8]) -> usize {
    let last = before.iter().rposition(|byte| *byte == b'\n');
    last.map_or(0, |end| end + 1)
}
