//! The layout of step lists: steps to bytes and back.

use crate::layout::{open, read_basic, Elements, Fields, Form, Records, Text, Writer};
use crate::limits::{OPENINGS, PLACES, STEPS, STEP_TEXT_BYTES};
use crate::refusal::Refusal;
use crate::steps::Step;
use crate::store::{Basic, Path};

pub const RECORD_BYTES: usize = 20;
const FORM: Form = Form {
    number: 1,
    record_bytes: RECORD_BYTES,
    records: STEPS,
    text: STEP_TEXT_BYTES,
};

/// The steps of document 01, in its order.
const MAKE: u16 = 1;
const TAKE: u16 = 2;
const ENTER: u16 = 3;
const LEAVE: u16 = 4;
const DONE: u16 = 5;
const SET: u16 = 6;
const ITEM: u16 = 7;
const LINK: u16 = 8;

/// The bytes of steps. Whether they keep the bounds is for the caller to know.
pub fn encode_steps(steps: &[Step]) -> Vec<u8> {
    let mut writer = Writer::default();
    for step in steps {
        write_step(&mut writer, step);
    }
    writer.finish(&FORM)
}

fn write_step(writer: &mut Writer, step: &Step) {
    match step {
        Step::Make { target, place } => {
            let path = writer.path(target);
            write_record(writer, [MAKE, 0, path, 0], 0, *place);
        }
        Step::Take { reference, place } => {
            let path = writer.path(reference);
            write_record(writer, [TAKE, 0, path, 0], 0, *place);
        }
        Step::Enter => write_record(writer, [ENTER, 0, 0, 0], 0, 0),
        Step::Leave => write_record(writer, [LEAVE, 0, 0, 0], 0, 0),
        Step::Done => write_record(writer, [DONE, 0, 0, 0], 0, 0),
        Step::Set {
            target,
            value,
            place,
        } => {
            let path = writer.path(target);
            write_basic(writer, value, SET, path, *place);
        }
        Step::Link {
            target,
            reference,
            place,
        } => {
            let path = writer.path(target);
            let linked = u64::from(writer.path(reference));
            write_record(writer, [LINK, 0, path, 0], linked, *place);
        }
    }
}

fn write_record(writer: &mut Writer, shorts: [u16; 4], value: u64, place: u32) {
    writer.record(shorts, value);
    writer.source_place(place);
}

/// A set or an item, followed by the items beneath it.
fn write_basic(writer: &mut Writer, basic: &Basic, step: u16, path: u16, place: u32) {
    let fields = writer.basic(basic);
    let shorts = [step, fields.kind, path, fields.span];
    write_record(writer, shorts, fields.value, place);
    if let Basic::Vector(elements) = basic {
        for element in elements {
            write_basic(writer, element, ITEM, 0, 0);
        }
    }
}

/// The steps of a well-formed list, or refusal 9.
pub fn decode_steps(bytes: &[u8]) -> Result<Vec<Step>, Refusal> {
    let refusal = Refusal::new(9, 0);
    let (records, text) = open(bytes, &FORM).ok_or(refusal)?;
    let mut reader = StepsReader {
        records,
        text,
        nesting: Vec::new(),
    };
    let mut steps = Vec::new();
    while reader.records.next < reader.records.count() {
        steps.push(reader.step().ok_or(refusal)?);
    }
    let is_whole = reader.nesting.is_empty() && reader.text.is_at_end();
    is_whole.then_some(steps).ok_or(refusal)
}

/// What is open around a step.
#[derive(Clone, Copy, PartialEq)]
enum Open {
    /// A make that has no prototype yet; it may not be done.
    EmptyMake,
    Make,
    Enter,
}

struct StepsReader<'b> {
    records: Records<'b>,
    text: Text<'b>,
    nesting: Vec<Open>,
}

/// One record as it lies in the list.
struct Record {
    step: u16,
    path: u16,
    fields: Fields,
    place: u32,
}

impl Record {
    /// Kind and span are used by sets and items only.
    fn has_no_kind_or_span(&self) -> bool {
        self.fields.kind == 0 && self.fields.span == 0
    }

    /// The value is used by sets, items and links only.
    fn is_bare(&self) -> bool {
        self.has_no_kind_or_span() && self.fields.value == 0
    }

    fn has_no_path_or_place(&self) -> bool {
        self.path == 0 && self.place == 0
    }
}

impl<'b> Elements<'b> for StepsReader<'b> {
    fn records(&mut self) -> &mut Records<'b> {
        &mut self.records
    }

    fn text(&mut self) -> &mut Text<'b> {
        &mut self.text
    }

    /// The level counts the enters and vectors open around a value.
    fn may_hold_vector(&self, level: usize) -> bool {
        level < OPENINGS
    }

    fn element(&mut self, _level: usize) -> Option<Fields> {
        let record = self.record()?;
        let is_item = record.step == ITEM && record.has_no_path_or_place();
        is_item.then_some(record.fields)
    }
}

impl StepsReader<'_> {
    fn record(&mut self) -> Option<Record> {
        let ([step, kind, path, span], value) = self.records.read()?;
        let place = self.records.source_place()?;
        Some(Record {
            step,
            path,
            fields: Fields { kind, span, value },
            place,
        })
    }

    fn step(&mut self) -> Option<Step> {
        let record = self.record()?;
        if record.place >= PLACES {
            return None;
        }
        match record.step {
            MAKE | SET | LINK => self.statement(record),
            TAKE => self.take(record),
            ENTER | LEAVE | DONE => self.bracket(record),
            _ => None,
        }
    }

    fn enters(&self) -> usize {
        let enters = self.nesting.iter().filter(|open| **open == Open::Enter);
        enters.count()
    }

    /// A make, set or link: it stands at the top or directly in an enter.
    fn statement(&mut self, record: Record) -> Option<Step> {
        if !matches!(self.nesting.last(), None | Some(Open::Enter)) {
            return None;
        }
        let target = self.text.path(u64::from(record.path))?;
        match record.step {
            SET => self.set(target, record),
            LINK => self.link(target, record),
            _ => self.make(target, record),
        }
    }

    fn set(&mut self, target: Path, record: Record) -> Option<Step> {
        let end = self.records.count();
        let value = read_basic(self, record.fields, self.enters(), end)?;
        Some(Step::Set {
            target,
            value,
            place: record.place,
        })
    }

    fn link(&mut self, target: Path, record: Record) -> Option<Step> {
        let reference = self.text.path(record.fields.value)?;
        record.has_no_kind_or_span().then_some(Step::Link {
            target,
            reference,
            place: record.place,
        })
    }

    fn make(&mut self, target: Path, record: Record) -> Option<Step> {
        self.nesting.push(Open::EmptyMake);
        record.is_bare().then_some(Step::Make {
            target,
            place: record.place,
        })
    }

    /// The make that the next prototype belongs to now has one.
    fn mark_prototype(&mut self) -> Option<()> {
        let last = self.nesting.last_mut()?;
        if *last == Open::Enter {
            return None;
        }
        *last = Open::Make;
        Some(())
    }

    fn take(&mut self, record: Record) -> Option<Step> {
        self.mark_prototype()?;
        let reference = self.text.path(u64::from(record.path))?;
        record.is_bare().then_some(Step::Take {
            reference,
            place: record.place,
        })
    }

    /// An enter, leave or done: all its fields but the step are unused.
    fn bracket(&mut self, record: Record) -> Option<Step> {
        if !record.is_bare() || !record.has_no_path_or_place() {
            return None;
        }
        match record.step {
            ENTER => {
                self.mark_prototype()?;
                self.nesting.push(Open::Enter);
                (self.enters() <= OPENINGS).then_some(Step::Enter)
            }
            LEAVE => (self.nesting.pop()? == Open::Enter).then_some(Step::Leave),
            _ => (self.nesting.pop()? == Open::Make).then_some(Step::Done),
        }
    }
}
