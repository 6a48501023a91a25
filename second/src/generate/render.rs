//! Statements to source bytes, with tokens and the gaps between them in many shapes.

use super::random::Random;
use crate::grammar::{Prototype, Statement, StatementValue};
use crate::scan::continues_name;
use crate::store::{Basic, Name};

pub type TokenBytes = Vec<u8>;

/// The tokens of statements, in order.
pub fn tokens(random: &mut Random, statements: &[Statement]) -> Vec<TokenBytes> {
    let mut out = Out {
        random,
        tokens: Vec::new(),
    };
    out.statements(statements);
    out.tokens
}

struct Out<'r> {
    random: &'r mut Random,
    tokens: Vec<TokenBytes>,
}

impl Out<'_> {
    fn token(&mut self, bytes: &[u8]) {
        self.tokens.push(bytes.to_vec());
    }

    fn statements(&mut self, statements: &[Statement]) {
        for Statement { target, value } in statements {
            self.path(&target.path);
            match value {
                StatementValue::Basic(basic) => {
                    self.basic(basic);
                    self.token(b";");
                }
                StatementValue::Link(reference) => {
                    self.path(&reference.path);
                    self.token(b";");
                }
                StatementValue::Extends(prototypes) => self.extends(prototypes),
            }
        }
    }

    fn extends(&mut self, prototypes: &[Prototype]) {
        self.token(b"extends");
        for (number, prototype) in prototypes.iter().enumerate() {
            if number > 0 {
                self.token(b",");
            }
            match prototype {
                Prototype::Reference(reference) => self.path(&reference.path),
                Prototype::Block(block) => {
                    self.token(b"{");
                    self.statements(block);
                    self.token(b"}");
                }
            }
        }
        if let Some(Prototype::Reference(_)) = prototypes.last() {
            self.token(b";");
        }
    }

    fn path(&mut self, path: &[Name]) {
        for (number, name) in path.iter().enumerate() {
            if number > 0 {
                self.token(b":");
            }
            self.token(name);
        }
    }

    fn basic(&mut self, basic: &Basic) {
        match basic {
            Basic::Boolean(true) => self.token(b"true"),
            Basic::Boolean(false) => self.token(b"false"),
            Basic::Null => self.token(b"NULL"),
            Basic::Integer(number) => self.integer(*number),
            Basic::Decimal(text) => self.token(text),
            Basic::String(bytes) => self.string(bytes),
            Basic::Data(path) => {
                self.token(b"DATA");
                self.path(path);
            }
            Basic::Vector(elements) => self.vector(elements),
        }
    }

    fn vector(&mut self, elements: &[Basic]) {
        self.token(b"[");
        for (number, element) in elements.iter().enumerate() {
            if number > 0 {
                self.token(b",");
            }
            self.basic(element);
        }
        self.token(b"]");
    }

    /// Now and then with leading zeros, or as `-0`.
    fn integer(&mut self, number: i64) {
        let zeros = "0".repeat(if self.random.percent(8) {
            self.random.between(1, 3)
        } else {
            0
        });
        let is_minus = number < 0 || (number == 0 && self.random.percent(20));
        let sign = if is_minus { "-" } else { "" };
        let text = format!("{sign}{zeros}{}", number.unsigned_abs());
        self.token(text.as_bytes());
    }

    fn string(&mut self, bytes: &[u8]) {
        let mut text = vec![b'"'];
        for byte in bytes {
            self.string_byte(*byte, &mut text);
        }
        text.push(b'"');
        self.tokens.push(text);
    }

    /// Plain, by its short escape or in octal, as the byte allows.
    fn string_byte(&mut self, byte: u8, text: &mut Vec<u8>) {
        const SHORT: [(u8, u8); 8] = [
            (b'\n', b'n'),
            (b'\t', b't'),
            (0x08, b'b'),
            (b'\r', b'r'),
            (0x0c, b'f'),
            (b'\\', b'\\'),
            (b'"', b'"'),
            (b'\'', b'\''),
        ];
        let short = SHORT.iter().find(|(own, _)| *own == byte);
        let needs_escape = matches!(byte, b'\n' | b'\r' | b'"' | b'\\');
        match (short, self.random.below(10)) {
            (_, 0) => text.extend(format!("\\{byte:03o}").as_bytes()),
            (Some((_, letter)), 1..=6) => text.extend([b'\\', *letter]),
            (Some((_, letter)), _) if needs_escape => text.extend([b'\\', *letter]),
            _ => text.push(byte),
        }
    }
}

/// Tokens to bytes: tightly, with single spaces, or with odd gaps and comments.
pub fn joined(random: &mut Random, tokens: &[TokenBytes]) -> Vec<u8> {
    let odd = *random.pick(&[0, 0, 0, 10, 50]);
    let plain = *random.pick(&[0, 60, 100]);
    let mut source = Vec::new();
    for token in tokens {
        if random.percent(odd) {
            odd_gap(random, &mut source);
        } else if random.percent(plain) || would_run_together(&source, token) {
            source.push(b' ');
        }
        source.extend(token);
    }
    if random.percent(odd) {
        odd_gap(random, &mut source);
    }
    source
}

fn would_run_together(source: &[u8], token: &[u8]) -> bool {
    match (source.last(), token.first()) {
        (Some(before), Some(after)) => continues_name(*before) && continues_name(*after),
        _ => false,
    }
}

fn odd_gap(random: &mut Random, source: &mut Vec<u8>) {
    const GAPS: [&[u8]; 14] = [
        b"\n",
        b"\t",
        b"\r\n",
        b"\x0c",
        b"   ",
        b"//\n",
        b"// a 1; }\n",
        b"//*\r /* \n",
        b"/**/",
        b"/*/ */",
        b"/* // \n \" */",
        b"/***/",
        b" /* \xff\x00 */ ",
        b"/* } */\n",
    ];
    let gap = *random.pick(&GAPS);
    source.extend(gap);
    // A gap of nothing but a comment still parts two tokens.
    if random.percent(20) {
        source.push(b' ');
    }
}

#[cfg(test)]
mod tests {
    use super::*;
    use crate::generate::{draft, lists};
    use crate::grammar::read;
    use crate::refusal::Refusal;
    use crate::steps::{compile, Step};
    use crate::store::Store;

    /// The same places for the same steps, since a rendered statement has its own.
    fn steps_of(statements: &[Statement]) -> Result<Vec<Step>, Refusal> {
        let mut steps = compile(statements)?;
        lists::scatter_places(&mut Random::new(0), &mut steps);
        Ok(steps)
    }

    #[test]
    fn rendered_statements_are_read_back() {
        let mut random = Random::new(1);
        for _ in 0..2_000 {
            let statements = draft::statements(&mut random, &Store::default(), 20);
            let tokens = tokens(&mut random, &statements);
            let source = joined(&mut random, &tokens);
            let again = read(&source).map(|read| steps_of(&read));
            let shown = String::from_utf8_lossy(&source);
            assert_eq!(again, Ok(steps_of(&statements)), "for {shown}");
        }
    }

    #[test]
    fn a_store_is_made_by_its_statements() {
        use crate::evaluate::evaluate;
        use crate::generate::stores::{statements_of, store};
        let mut random = Random::new(2);
        for _ in 0..500 {
            let store = store(&mut random, 30);
            let made = evaluate(&statements_of(&store), Store::default());
            assert_eq!(made, Ok(store));
        }
    }
}
