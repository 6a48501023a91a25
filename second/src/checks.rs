//! Inputs for the checks of tables and step lists, and the answers over every change of them, summed.

use crate::layout_steps::decode_steps;
use crate::layout_table::decode_table;
use crate::operations::{run, translate};

const EMPTY_TABLE: [u8; 24] = [
    2, 0, 0, 0, 24, 0, 0, 0, 0, 0, 0, 0, 24, 0, 0, 0, 0, 0, 0, 0, 24, 0, 0, 0,
];

/// What the lists and tables are made of: empty, plain values, decimals, data references, vectors, links, prototypes, deep blocks.
fn descriptions() -> Vec<String> {
    let deep = |n: usize| format!("{}x 1; {}", "a extends { ".repeat(n), "} ".repeat(n));
    let nested = |n: usize| format!("v {}{};", "[".repeat(n), "]".repeat(n));
    vec![
        String::new(),
        "a 1; b -2; c true; d false; e NULL;".into(),
        "a 1.5; b -0.25e10; c 3E-2;".into(),
        "a \"one\"; b \"\"; c \"two\\n\\377\";".into(),
        "a DATA b; c DATA d:e:f; g [DATA h, 1];".into(),
        "a []; b [1, [2, \"three\"], [[]], 4.5];".into(),
        "a 1; b a; c extends { d a; e b; }".into(),
        "p extends { x 1; y 2; } q extends p, { z 3; }, p; r extends { t 4; } r:s extends q;"
            .into(),
        deep(31),
        nested(31),
        "sfConfig extends { name \"n\"; list [true, NULL]; inner extends { k -1; } }".into(),
    ]
}

/// A header as it stands in bytes.
fn header(numbers: [u32; 6]) -> Vec<u8> {
    numbers.iter().flat_map(|n| n.to_le_bytes()).collect()
}

fn next(seed: u64) -> u64 {
    (seed % 2147483648 * 1103515245 + 12345) % 2147483648
}

/// Bytes of no meaning behind a header that fits them.
fn behind_a_header(form: u32, record: u32, count: u32, text: u32, seed: u64) -> Vec<u8> {
    let place = 24 + record * count;
    let mut bytes = header([form, place + text, count, 24, text, place]);
    let mut seed = seed;
    for _ in 24..place + text {
        seed = next(seed);
        bytes.push((seed / 65536 % 256) as u8);
    }
    bytes
}

/// Headers whose numbers lead out of the input, around 2^32, or into one another.
fn wild_headers(form: u32, record: u32) -> Vec<Vec<u8>> {
    let top = u32::MAX;
    let mut found: Vec<Vec<u8>> = [
        [form, top, 0, 24, top - 23, 24],
        [form, 24, top, 24, 0, 24],
        [form, 24, 0, 24, top, 25],
        [form, 24, top / record + 1, 24, 0, 24],
        [form, 24, 0, 0, 24, 0],
        [form, 64, 1, 24, 40 - record, 24],
        [form, 64, 1, 40, 24, 24],
        [form, 64, 2, 24, 40 - record, 24 + record],
    ]
    .into_iter()
    .map(header)
    .collect();
    for bytes in found.iter_mut().skip(5) {
        bytes.resize(64, 0);
    }
    found
}

/// A table of 1,024 nodes and 16,384 bytes of text: names of 15 bytes, alike but for the last ones, in components of `each` nodes.
pub fn full_table(each: u16) -> Vec<u8> {
    let mut bytes = header([2, 32792, 1024, 24, 16384, 16408]);
    for k in 0..1024u16 {
        let alone = each == 1 || k % each != 0;
        let depth = if each == 1 || k % each == 0 { 1 } else { 2 };
        let shorts = [
            if alone { 2 } else { 0 },
            depth,
            16 * k,
            if alone { 1 } else { each },
        ];
        bytes.extend(shorts.iter().flat_map(|n| n.to_le_bytes()));
        bytes.extend([0; 8]);
    }
    for k in 0..1024 {
        bytes.extend(format!("\u{f}alike_alike{k:04}").bytes());
    }
    bytes
}

/// A list of 1,024 sets and 32,768 bytes of text.
pub fn full_list() -> Vec<u8> {
    let mut bytes = header([1, 53272, 1024, 24, 32768, 20504]);
    for k in 0..1024u16 {
        let shorts = [6, 2, 32 * k, 1];
        bytes.extend(shorts.iter().flat_map(|n| n.to_le_bytes()));
        bytes.extend([0; 12]);
    }
    for k in 0..1024 {
        bytes.extend(format!("\u{1}\u{1e}alike_alike_alike_alike_al{k:04}").bytes());
    }
    bytes
}

/// The inputs that are checked alone, without their changes: all at the bounds.
pub fn full_inputs() -> Vec<Vec<u8>> {
    vec![full_table(32), full_list(), full_table(1)]
}

/// The inputs, in the order of their lines.
pub fn inputs() -> Vec<Vec<u8>> {
    let mut found = Vec::new();
    for source in descriptions() {
        let list = translate(source.as_bytes()).expect("a description that is translated");
        let table = run(&list, &EMPTY_TABLE).expect("a list that runs");
        found.push(list);
        found.push(table);
    }
    for (form, record) in [(1, 20), (2, 16)] {
        found.extend((0..3).map(|k| behind_a_header(form, record, 3, 40, k)));
        found.extend(wild_headers(form, record));
    }
    found
}

/// Inputs as the program reads them: how many there are goes before them all.
pub fn packed(inputs: &[Vec<u8>], with_changes: bool) -> Vec<u8> {
    let mut bytes = Vec::new();
    for input in inputs {
        bytes.extend(u32::from(with_changes).to_le_bytes());
        bytes.extend((input.len() as u32).to_le_bytes());
        bytes.extend(input);
    }
    bytes
}

/// All of them.
pub fn all_packed() -> Vec<u8> {
    let (changed, full) = (inputs(), full_inputs());
    let mut bytes = ((changed.len() + full.len()) as u32).to_le_bytes().to_vec();
    bytes.extend(packed(&changed, true));
    bytes.extend(packed(&full, false));
    bytes
}

/// Their lines.
pub fn all_lines() -> Vec<String> {
    let changed = inputs().into_iter().map(|input| line(&input, true));
    let full = full_inputs().into_iter().map(|input| line(&input, false));
    changed.chain(full).collect()
}

#[derive(Default)]
struct Tally {
    tables: u64,
    lists: u64,
    sum: u64,
}

impl Tally {
    fn note(&mut self, bytes: &[u8]) {
        let table = u64::from(decode_table(bytes).is_ok());
        let list = u64::from(decode_steps(bytes).is_ok());
        self.tables += table;
        self.lists += list;
        self.sum = (self.sum * 31 + table + 2 * list + 1) % 1000003;
    }
}

/// The line of one input: itself, and with changes one byte more, every shorter one, every byte changed in three ways.
pub fn line(input: &[u8], with_changes: bool) -> String {
    let mut tally = Tally::default();
    let mut bytes = input.to_vec();
    tally.note(&bytes);
    if with_changes {
        changes(&mut bytes, &mut tally);
    }
    let Tally { tables, lists, sum } = tally;
    format!(
        "{} bytes, tables {tables}, step lists {lists}, sum {sum}",
        input.len()
    )
}

fn changes(bytes: &mut Vec<u8>, tally: &mut Tally) {
    bytes.push(0);
    tally.note(bytes);
    bytes.pop();
    for n in 0..bytes.len() {
        tally.note(&bytes[..n]);
    }
    let mut seed = 1;
    for k in 0..bytes.len() {
        let old = bytes[k];
        seed = next(seed);
        let by = (seed / 65536 % 255 + 1) as u8;
        for new in [old ^ 1, old ^ 128, old.wrapping_add(by)] {
            bytes[k] = new;
            tally.note(bytes);
        }
        bytes[k] = old;
    }
}
