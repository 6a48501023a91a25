//! What both layouts share: the header, the text, and a basic value's fields.

use crate::limits::{LONG_TEXT_BYTES, REFERENCE_NAMES};
use crate::scan::{is_decimal, is_name};
use crate::store::{measure_basic, Basic, Name, Path};

pub const HEADER_BYTES: usize = 24;

/// The kinds of document 01, in its order.
pub const COMPONENT: u16 = 0;
const BOOLEAN: u16 = 1;
const NULL: u16 = 2;
const INTEGER: u16 = 3;
const DECIMAL: u16 = 4;
const STRING: u16 = 5;
const DATA: u16 = 6;
pub const VECTOR: u16 = 7;

/// What tells the two layouts apart as a whole.
pub struct Form {
    pub number: u32,
    pub record_bytes: usize,
    pub records: usize,
    pub text: usize,
}

/// The fields of a value, alike in both layouts.
#[derive(Clone, Copy)]
pub struct Fields {
    pub kind: u16,
    pub span: u16,
    pub value: u64,
}

/// Collects records and text. It does not judge: a value over a limit is written as it is.
#[derive(Default)]
pub struct Writer {
    records: Vec<u8>,
    text: Vec<u8>,
}

impl Writer {
    pub fn record(&mut self, shorts: [u16; 4], value: u64) {
        for short in shorts {
            self.records.extend(short.to_le_bytes());
        }
        self.records.extend(value.to_le_bytes());
    }

    pub fn source_place(&mut self, place: u32) {
        self.records.extend(place.to_le_bytes());
    }

    /// Where the next text will lie.
    fn place(&self) -> usize {
        self.text.len()
    }

    pub fn name(&mut self, name: &[u8]) -> u16 {
        let place = self.place();
        self.text.push(name.len() as u8);
        self.text.extend(name);
        place as u16
    }

    pub fn path(&mut self, path: &[Name]) -> u16 {
        let place = self.place();
        self.text.push(path.len() as u8);
        for name in path {
            self.name(name);
        }
        place as u16
    }

    fn long_text(&mut self, bytes: &[u8]) -> u64 {
        let place = self.place();
        self.text.extend((bytes.len() as u16).to_le_bytes());
        self.text.extend(bytes);
        place as u64
    }

    /// A value's fields; its own text is written, its elements are not.
    pub fn basic(&mut self, basic: &Basic) -> Fields {
        let (kind, value) = match basic {
            Basic::Boolean(truth) => (BOOLEAN, u64::from(*truth)),
            Basic::Null => (NULL, 0),
            Basic::Integer(number) => (INTEGER, *number as u64),
            Basic::Decimal(text) => (DECIMAL, self.long_text(text)),
            Basic::String(bytes) => (STRING, self.long_text(bytes)),
            Basic::Data(path) => (DATA, u64::from(self.path(path))),
            Basic::Vector(_) => (VECTOR, 0),
        };
        let span = measure_basic(basic).nodes as u16;
        Fields { kind, span, value }
    }

    pub fn finish(self, form: &Form) -> Vec<u8> {
        let count = self.records.len() / form.record_bytes;
        let header = header(form, count, self.text.len());
        [header, self.records, self.text].concat()
    }
}

/// The only header that a form, a count and a text length allow.
fn header(form: &Form, count: usize, text_length: usize) -> Vec<u8> {
    let text_offset = HEADER_BYTES + count * form.record_bytes;
    let fields = [
        form.number,
        (text_offset + text_length) as u32,
        count as u32,
        HEADER_BYTES as u32,
        text_length as u32,
        text_offset as u32,
    ];
    fields
        .iter()
        .flat_map(|field| field.to_le_bytes())
        .collect()
}

/// Splits the input into records and text if the header is exactly right.
pub fn open<'b>(bytes: &'b [u8], form: &Form) -> Option<(Records<'b>, Text<'b>)> {
    let (own_header, rest) = bytes.split_at_checked(HEADER_BYTES)?;
    let field = |number: usize| -> Option<usize> {
        let four = own_header.get(4 * number..4 * number + 4)?;
        usize::try_from(u32::from_le_bytes(four.try_into().ok()?)).ok()
    };
    let (count, text_length) = (field(2)?, field(4)?);
    if count > form.records || text_length > form.text {
        return None;
    }
    let (records, text) = rest.split_at_checked(count * form.record_bytes)?;
    if own_header != header(form, count, text_length) || text.len() != text_length {
        return None;
    }
    let records = Records {
        bytes: records,
        record_bytes: form.record_bytes,
        next: 0,
    };
    let text = Text {
        bytes: text,
        next: 0,
    };
    Some((records, text))
}

/// The records, read from first to last.
pub struct Records<'b> {
    bytes: &'b [u8],
    record_bytes: usize,
    /// The number of the record to be read next.
    pub next: usize,
}

impl Records<'_> {
    pub fn count(&self) -> usize {
        self.bytes.len() / self.record_bytes
    }

    fn bytes_at(&self, record: usize, offset: usize) -> Option<&[u8]> {
        let start = record * self.record_bytes;
        let record = self.bytes.get(start..start + self.record_bytes)?;
        record.get(offset..)
    }

    /// The four shorts and the value of the next record, going on to the one after.
    pub fn read(&mut self) -> Option<([u16; 4], u64)> {
        let bytes = self.bytes_at(self.next, 0)?;
        let short = |number: usize| u16::from_le_bytes([bytes[2 * number], bytes[2 * number + 1]]);
        let value = u64::from_le_bytes(bytes.get(8..16)?.try_into().ok()?);
        let shorts = [short(0), short(1), short(2), short(3)];
        self.next += 1;
        Some((shorts, value))
    }

    /// The source place of the record read last.
    pub fn source_place(&self) -> Option<u32> {
        let bytes = self.bytes_at(self.next.checked_sub(1)?, 16)?;
        Some(u32::from_le_bytes(bytes.get(..4)?.try_into().ok()?))
    }
}

/// The text, which is read in order, without gap or sharing.
pub struct Text<'b> {
    bytes: &'b [u8],
    next: usize,
}

impl Text<'_> {
    pub fn is_at_end(&self) -> bool {
        self.next == self.bytes.len()
    }

    /// Each text lies exactly where the one before it ends.
    fn starts_at(&self, place: u64) -> Option<()> {
        (place == self.next as u64).then_some(())
    }

    fn bytes(&mut self, length: usize) -> Option<&[u8]> {
        let found = self.bytes.get(self.next..self.next + length)?;
        self.next += length;
        Some(found)
    }

    fn byte(&mut self) -> Option<usize> {
        self.bytes(1).map(|one| usize::from(one[0]))
    }

    fn next_name(&mut self) -> Option<Name> {
        let length = self.byte()?;
        let name = self.bytes(length)?;
        is_name(name).then(|| name.to_vec())
    }

    pub fn name(&mut self, place: u64) -> Option<Name> {
        self.starts_at(place)?;
        self.next_name()
    }

    pub fn path(&mut self, place: u64) -> Option<Path> {
        self.starts_at(place)?;
        let names = self.byte()?;
        if names == 0 || names > REFERENCE_NAMES {
            return None;
        }
        (0..names).map(|_| self.next_name()).collect()
    }

    fn long_text(&mut self, place: u64) -> Option<Vec<u8>> {
        self.starts_at(place)?;
        let length = self.byte()? + 256 * self.byte()?;
        if length > LONG_TEXT_BYTES {
            return None;
        }
        self.bytes(length).map(<[u8]>::to_vec)
    }

    /// A value of kinds 1 to 6; any other kind is refused here, so a set or element of kind 0 too.
    fn leaf(&mut self, fields: Fields) -> Option<Basic> {
        match (fields.kind, fields.value) {
            (BOOLEAN, 0) => Some(Basic::Boolean(false)),
            (BOOLEAN, 1) => Some(Basic::Boolean(true)),
            (NULL, 0) => Some(Basic::Null),
            (INTEGER, number) => Some(Basic::Integer(number as i64)),
            (DECIMAL, place) => {
                let text = self.long_text(place)?;
                is_decimal(&text).then_some(Basic::Decimal(text))
            }
            (STRING, place) => self.long_text(place).map(Basic::String),
            (DATA, place) => self.path(place).map(Basic::Data),
            _ => None,
        }
    }
}

/// A layout's way from a vector to its elements.
pub trait Elements<'b> {
    fn records(&mut self) -> &mut Records<'b>;
    fn text(&mut self) -> &mut Text<'b>;
    /// Whether a vector may stand at this level at all.
    fn may_hold_vector(&self, level: usize) -> bool;
    /// Reads the next record as an element of a vector, at this level.
    fn element(&mut self, level: usize) -> Option<Fields>;
}

/// The record number just after a value whose own record was read last.
pub fn end_of_span(records: &Records, span: u16, end: usize) -> Option<usize> {
    let after = records.next.checked_sub(1)? + usize::from(span);
    (span >= 1 && after <= end).then_some(after)
}

/// A value of kinds 1 to 7 whose record was read last and whose holder ends at `end`.
pub fn read_basic<'b>(
    reader: &mut impl Elements<'b>,
    fields: Fields,
    level: usize,
    end: usize,
) -> Option<Basic> {
    if fields.kind != VECTOR {
        return if fields.span == 1 {
            reader.text().leaf(fields)
        } else {
            None
        };
    }
    if fields.value != 0 || !reader.may_hold_vector(level) {
        return None;
    }
    let end = end_of_span(reader.records(), fields.span, end)?;
    let mut elements = Vec::new();
    while reader.records().next < end {
        let element = reader.element(level + 1)?;
        elements.push(read_basic(reader, element, level + 1, end)?);
    }
    Some(Basic::Vector(elements))
}
