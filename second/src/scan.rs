//! Tokens of a description, and the tests of names and decimals that the layouts share.

use crate::limits::{LONG_TEXT_BYTES, NAME_BYTES};
use crate::refusal::Refusal;

pub const RESERVED: [&[u8]; 14] = [
    b"extends",
    b"DATA",
    b"NULL",
    b"true",
    b"false",
    b"ROOT",
    b"PARENT",
    b"THIS",
    b"ATTRIB",
    b"LAZY",
    b"HOST",
    b"PROCESS",
    b"PROPERTY",
    b"IPROPERTY",
];

#[derive(Clone, Debug, PartialEq, Eq)]
pub enum Token<'s> {
    Name(&'s [u8]),
    Reserved(&'s [u8]),
    Integer(i64),
    Decimal(&'s [u8]),
    /// Decoded.
    String(Vec<u8>),
    Mark(u8),
    End,
}

/// A token and the part of the source that it was read from.
#[derive(Clone, Debug, PartialEq, Eq)]
pub struct Scanned<'s> {
    pub token: Token<'s>,
    pub start: usize,
    pub end: usize,
}

/// What reading one token gives: the token and its length, or a refusal number.
type Read<'s> = Result<(Token<'s>, usize), u32>;

/// The token at or after `from`, which must not lie beyond the source's end.
pub fn next_token(source: &[u8], from: usize) -> Result<Scanned<'_>, Refusal> {
    let start = skip(source, from)?;
    match read_token(&source[start..]) {
        Ok((token, length)) => Ok(Scanned {
            token,
            start,
            end: start + length,
        }),
        Err(number) => Err(Refusal::in_source(number, start)),
    }
}

/// The first place at or after `from` that is neither white space nor comment.
fn skip(source: &[u8], from: usize) -> Result<usize, Refusal> {
    let mut at = from;
    loop {
        let rest = &source[at..];
        at += match rest {
            [b' ' | b'\t' | b'\n' | b'\r' | 0x0c, ..] => 1,
            [b'/', b'/', ..] => line_comment(rest),
            [b'/', b'*', ..] => block_comment(rest).ok_or(Refusal::in_source(2, at))?,
            _ => return Ok(at),
        };
    }
}

/// Up to the LF, which is white space itself, or the end.
fn line_comment(rest: &[u8]) -> usize {
    let line_feed = rest.iter().position(|byte| *byte == b'\n');
    line_feed.unwrap_or(rest.len())
}

/// Up to the first `*/` after the two opening bytes.
fn block_comment(rest: &[u8]) -> Option<usize> {
    let close = rest[2..].windows(2).position(|pair| pair == b"*/");
    close.map(|at| at + 4)
}

fn read_token(rest: &[u8]) -> Read<'_> {
    match rest {
        [] => Ok((Token::End, 0)),
        [b'-' | b'0'..=b'9', ..] => read_number(rest),
        [b'"', ..] => read_string(rest),
        [b';' | b',' | b'{' | b'}' | b'[' | b']' | b':', ..] => Ok((Token::Mark(rest[0]), 1)),
        [first, ..] if starts_name(*first) => read_name(rest),
        _ => Err(2),
    }
}

pub fn starts_name(byte: u8) -> bool {
    byte.is_ascii_alphabetic() || byte == b'_' || byte == b'$'
}

pub fn continues_name(byte: u8) -> bool {
    starts_name(byte) || byte.is_ascii_digit() || byte == b'-'
}

fn read_name(rest: &[u8]) -> Read<'_> {
    let other = rest.iter().position(|byte| !continues_name(*byte));
    let (name, _) = rest.split_at(other.unwrap_or(rest.len()));
    if name.len() > NAME_BYTES {
        return Err(6);
    }
    let token = if RESERVED.contains(&name) {
        Token::Reserved(name)
    } else {
        Token::Name(name)
    };
    Ok((token, name.len()))
}

/// Whether the bytes are a name as under Tokens and not reserved.
pub fn is_name(bytes: &[u8]) -> bool {
    matches!(read_token(bytes), Ok((Token::Name(name), _)) if name.len() == bytes.len())
}

/// Whether the bytes are a decimal as under Tokens.
pub fn is_decimal(bytes: &[u8]) -> bool {
    matches!(read_token(bytes), Ok((Token::Decimal(text), _)) if text.len() == bytes.len())
}

fn read_number(rest: &[u8]) -> Read<'_> {
    let sign = usize::from(rest[0] == b'-');
    let whole = sign + count_digits(&rest[sign..]);
    if whole == sign {
        return Err(2);
    }
    let fraction_end = whole + fraction(&rest[whole..]);
    let end = fraction_end + exponent(&rest[fraction_end..]);
    let (text, after) = rest.split_at(end);
    if after
        .first()
        .is_some_and(|byte| continues_name(*byte) || *byte == b'.')
    {
        return Err(2);
    }
    let token = if end > whole {
        decimal(text)?
    } else {
        integer(text)?
    };
    Ok((token, end))
}

fn count_digits(bytes: &[u8]) -> usize {
    bytes
        .iter()
        .take_while(|byte| byte.is_ascii_digit())
        .count()
}

/// The length of a `.` with its digits, or 0: without digits it is no part of the number.
fn fraction(rest: &[u8]) -> usize {
    match rest {
        [b'.', digits @ ..] if count_digits(digits) > 0 => 1 + count_digits(digits),
        _ => 0,
    }
}

/// The length of an exponent, or 0 where no digit follows.
fn exponent(rest: &[u8]) -> usize {
    let mark = match rest {
        [b'e' | b'E', b'+' | b'-', ..] => 2,
        [b'e' | b'E', ..] => 1,
        _ => return 0,
    };
    match count_digits(&rest[mark..]) {
        0 => 0,
        digits => mark + digits,
    }
}

fn decimal(text: &[u8]) -> Result<Token<'_>, u32> {
    if text.len() > LONG_TEXT_BYTES {
        return Err(6);
    }
    Ok(Token::Decimal(text))
}

fn integer(text: &[u8]) -> Result<Token<'_>, u32> {
    let digits = std::str::from_utf8(text).map_err(|_| 2u32)?;
    digits.parse().map(Token::Integer).map_err(|_| 4)
}

/// A string is 2 if any of it is wrong, however long; only then its length counts.
fn read_string(rest: &[u8]) -> Read<'_> {
    let mut decoded = Vec::new();
    let mut at = 1;
    loop {
        let (byte, length) = match &rest[at..] {
            [] | [b'\n' | b'\r', ..] => return Err(2),
            [b'"', ..] => break,
            [b'\\', escape @ ..] => read_escape(escape).ok_or(2u32)?,
            [plain, ..] => (*plain, 1),
        };
        decoded.push(byte);
        at += length;
    }
    if decoded.len() > LONG_TEXT_BYTES {
        return Err(6);
    }
    Ok((Token::String(decoded), at + 1))
}

/// The byte that an escape stands for, and the escape's length with its backslash.
fn read_escape(after: &[u8]) -> Option<(u8, usize)> {
    let byte = match after {
        [b'n', ..] => b'\n',
        [b't', ..] => b'\t',
        [b'b', ..] => 0x08,
        [b'r', ..] => b'\r',
        [b'f', ..] => 0x0c,
        [same @ (b'\\' | b'"' | b'\''), ..] => *same,
        [a @ b'0'..=b'3', b @ b'0'..=b'7', c @ b'0'..=b'7', ..] => {
            let octal = (a - b'0') * 64 + (b - b'0') * 8 + (c - b'0');
            return Some((octal, 4));
        }
        _ => return None,
    };
    Some((byte, 2))
}
