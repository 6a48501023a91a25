//! The grammar reader: from a description to statements with their places.

use crate::limits::{OPENINGS, REFERENCE_NAMES, SOURCE_BYTES};
use crate::refusal::Refusal;
use crate::scan::{next_token, Scanned, Token};
use crate::store::{Basic, Path};

/// A path with the place of its first byte.
#[derive(Clone, Debug, PartialEq, Eq)]
pub struct Reference {
    pub path: Path,
    pub place: u32,
}

#[derive(Clone, Debug, PartialEq, Eq)]
pub struct Statement {
    pub target: Reference,
    pub value: StatementValue,
}

#[derive(Clone, Debug, PartialEq, Eq)]
pub enum StatementValue {
    Basic(Basic),
    Link(Reference),
    Extends(Vec<Prototype>),
}

#[derive(Clone, Debug, PartialEq, Eq)]
pub enum Prototype {
    Reference(Reference),
    Block(Vec<Statement>),
}

/// Reads a whole description, or refuses with 1 to 6.
pub fn read(source: &[u8]) -> Result<Vec<Statement>, Refusal> {
    if source.len() > SOURCE_BYTES {
        return Err(Refusal::new(1, 0));
    }
    let mut reader = Reader {
        source,
        at: 0,
        ahead: None,
        open: 0,
    };
    reader.statements(Token::End)
}

/// `ahead` is read only when it is asked for, so that an accepted token's fault comes first.
struct Reader<'s> {
    source: &'s [u8],
    at: usize,
    ahead: Option<Scanned<'s>>,
    open: usize,
}

type Answer<T> = Result<T, Refusal>;

impl<'s> Reader<'s> {
    fn peek(&mut self) -> Answer<Scanned<'s>> {
        let scanned = match self.ahead.take() {
            Some(scanned) => scanned,
            None => next_token(self.source, self.at)?,
        };
        self.ahead = Some(scanned.clone());
        Ok(scanned)
    }

    /// The token ahead is used up; `peek` came before.
    fn accept(&mut self) {
        if let Some(scanned) = self.ahead.take() {
            self.at = scanned.end;
        }
    }

    fn accept_if(&mut self, wanted: Token) -> Answer<bool> {
        let is_wanted = self.peek()?.token == wanted;
        if is_wanted {
            self.accept();
        }
        Ok(is_wanted)
    }

    /// Refuses the token ahead: it cannot continue here.
    fn cannot_continue<T>(&mut self) -> Answer<T> {
        let start = self.peek()?.start;
        Err(Refusal::in_source(3, start))
    }

    fn need(&mut self, mark: u8) -> Answer<()> {
        if self.accept_if(Token::Mark(mark))? {
            return Ok(());
        }
        self.cannot_continue()
    }

    /// Accepts an opening brace or bracket, unless it is the 33rd.
    fn accept_opening(&mut self) -> Answer<()> {
        let start = self.peek()?.start;
        if self.open == OPENINGS {
            return Err(Refusal::in_source(5, start));
        }
        self.open += 1;
        self.accept();
        Ok(())
    }

    /// Statements up to and with the closing token, which is a brace or the end.
    fn statements(&mut self, closing: Token) -> Answer<Vec<Statement>> {
        let mut statements = Vec::new();
        while !self.accept_if(closing.clone())? {
            let target = self.reference()?;
            let value = self.statement_value()?;
            statements.push(Statement { target, value });
        }
        Ok(statements)
    }

    fn reference(&mut self) -> Answer<Reference> {
        let place = self.peek()?.start as u32;
        let mut path = Vec::new();
        loop {
            let scanned = self.peek()?;
            let Token::Name(name) = scanned.token else {
                return self.cannot_continue();
            };
            if path.len() == REFERENCE_NAMES {
                return Err(Refusal::in_source(6, scanned.start));
            }
            path.push(name.to_vec());
            self.accept();
            if !self.accept_if(Token::Mark(b':'))? {
                return Ok(Reference { path, place });
            }
        }
    }

    fn statement_value(&mut self) -> Answer<StatementValue> {
        if self.accept_if(Token::Reserved(b"extends"))? {
            return self.prototypes().map(StatementValue::Extends);
        }
        let value = match self.peek()?.token {
            Token::Name(_) => StatementValue::Link(self.reference()?),
            _ => StatementValue::Basic(self.basic()?),
        };
        self.need(b';')?;
        Ok(value)
    }

    /// One or more, joined by commas; `;` follows only where a reference is the last.
    fn prototypes(&mut self) -> Answer<Vec<Prototype>> {
        let mut prototypes = Vec::new();
        loop {
            let prototype = self.prototype()?;
            let ends_in_block = matches!(prototype, Prototype::Block(_));
            prototypes.push(prototype);
            if self.accept_if(Token::Mark(b','))? {
                continue;
            }
            if !ends_in_block {
                self.need(b';')?;
            }
            return Ok(prototypes);
        }
    }

    fn prototype(&mut self) -> Answer<Prototype> {
        if self.peek()?.token != Token::Mark(b'{') {
            return self.reference().map(Prototype::Reference);
        }
        self.accept_opening()?;
        let block = self.statements(Token::Mark(b'}'))?;
        self.open -= 1;
        Ok(Prototype::Block(block))
    }

    fn basic(&mut self) -> Answer<Basic> {
        let basic = match self.peek()?.token {
            Token::Mark(b'[') => return self.vector(),
            Token::Reserved(b"DATA") => {
                self.accept();
                return Ok(Basic::Data(self.reference()?.path));
            }
            Token::Reserved(b"true") => Basic::Boolean(true),
            Token::Reserved(b"false") => Basic::Boolean(false),
            Token::Reserved(b"NULL") => Basic::Null,
            Token::Integer(number) => Basic::Integer(number),
            Token::Decimal(text) => Basic::Decimal(text.to_vec()),
            Token::String(bytes) => Basic::String(bytes),
            _ => return self.cannot_continue(),
        };
        self.accept();
        Ok(basic)
    }

    fn vector(&mut self) -> Answer<Basic> {
        self.accept_opening()?;
        let mut elements = Vec::new();
        if !self.accept_if(Token::Mark(b']'))? {
            elements.push(self.basic()?);
            while self.accept_if(Token::Mark(b','))? {
                elements.push(self.basic()?);
            }
            self.need(b']')?;
        }
        self.open -= 1;
        Ok(Basic::Vector(elements))
    }
}
