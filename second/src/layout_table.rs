//! The layout of tables: stores to bytes and back.

use crate::layout::{
    end_of_span, open, read_basic, Elements, Fields, Form, Records, Text, Writer, COMPONENT,
};
use crate::limits::{DEPTH, NODES, TABLE_TEXT_BYTES};
use crate::refusal::Refusal;
use crate::store::{measure, Basic, Name, Store, Value};

pub const RECORD_BYTES: usize = 16;
const FORM: Form = Form {
    number: 2,
    record_bytes: RECORD_BYTES,
    records: NODES,
    text: TABLE_TEXT_BYTES,
};

/// The name place of an element.
const NO_NAME: u16 = 65_535;

/// A store's bytes. The store's bounds were measured when it was made.
pub fn encode_table(store: &Store) -> Vec<u8> {
    let mut writer = Writer::default();
    write_store(&mut writer, store, 1);
    writer.finish(&FORM)
}

fn write_store(writer: &mut Writer, store: &Store, depth: u16) {
    for (name, value) in &store.attributes {
        let name = writer.name(name);
        match value {
            Value::Component(inner) => {
                let span = 1 + measure(inner).nodes as u16;
                writer.record([COMPONENT, depth, name, span], 0);
                write_store(writer, inner, depth + 1);
            }
            Value::Basic(basic) => write_basic(writer, basic, depth, name),
        }
    }
}

fn write_basic(writer: &mut Writer, basic: &Basic, depth: u16, name: u16) {
    let fields = writer.basic(basic);
    writer.record([fields.kind, depth, name, fields.span], fields.value);
    if let Basic::Vector(elements) = basic {
        for element in elements {
            write_basic(writer, element, depth + 1, NO_NAME);
        }
    }
}

/// The store of a well-formed table, or refusal 10.
pub fn decode_table(bytes: &[u8]) -> Result<Store, Refusal> {
    let refusal = Refusal::new(10, 0);
    let (records, text) = open(bytes, &FORM).ok_or(refusal)?;
    let end = records.count();
    let mut reader = TableReader { records, text };
    let store = reader.component(1, end).ok_or(refusal)?;
    reader.text.is_at_end().then_some(store).ok_or(refusal)
}

struct TableReader<'b> {
    records: Records<'b>,
    text: Text<'b>,
}

impl<'b> Elements<'b> for TableReader<'b> {
    fn records(&mut self) -> &mut Records<'b> {
        &mut self.records
    }

    fn text(&mut self) -> &mut Text<'b> {
        &mut self.text
    }

    /// A table has no count of vectors; depth alone is bounded, at each record.
    fn may_hold_vector(&self, _level: usize) -> bool {
        true
    }

    fn element(&mut self, level: usize) -> Option<Fields> {
        let (name, fields) = self.record(level)?;
        (name == NO_NAME).then_some(fields)
    }
}

impl TableReader<'_> {
    /// The next record's name place and value, if it lies at this depth.
    fn record(&mut self, depth: usize) -> Option<(u16, Fields)> {
        let ([kind, own_depth, name, span], value) = self.records.read()?;
        let fields = Fields { kind, span, value };
        (usize::from(own_depth) == depth && depth <= DEPTH).then_some((name, fields))
    }

    /// The attributes from here up to the record `end`, all at this depth.
    fn component(&mut self, depth: usize, end: usize) -> Option<Store> {
        let mut store = Store::default();
        while self.records.next < end {
            let (name, value) = self.attribute(depth, end)?;
            if store.get(&name).is_some() {
                return None;
            }
            store.attributes.push((name, value));
        }
        Some(store)
    }

    fn attribute(&mut self, depth: usize, end: usize) -> Option<(Name, Value)> {
        let (name, fields) = self.record(depth)?;
        let name = self.text.name(u64::from(name))?;
        if fields.kind != COMPONENT {
            let basic = read_basic(self, fields, depth, end)?;
            return Some((name, Value::Basic(basic)));
        }
        if fields.value != 0 {
            return None;
        }
        let end = end_of_span(&self.records, fields.span, end)?;
        let inner = self.component(depth + 1, end)?;
        Some((name, Value::Component(inner)))
    }
}
