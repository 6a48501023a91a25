//! Encoding and decoding, and what happens to damaged bytes.

mod common;

use common::EMPTY_TABLE;
use second::generate::{cases, Kind};
use second::layout_steps::{decode_steps, encode_steps};
use second::layout_table::{decode_table, encode_table};
use second::operations::{run, translate};
use second::store::{measure, Measure};

const SOURCES: [&str; 5] = [
    "a 1; b extends { c NULL; d true; }",
    "a [1,[],[2,[3]]]; b -1.5;",
    "a \"s\\000\"; b a; c:d DATA x:y;",
    "a extends b, { x 1; }, c:d;",
    "p extends { v [[\"\"]]; w extends {} }",
];

fn list_of(source: &str) -> Vec<u8> {
    translate(source.as_bytes()).expect(source)
}

/// Tables of those sources that run, and one with every kind.
fn small_tables() -> Vec<Vec<u8>> {
    let every_kind = "a extends { b true; c NULL; } d -1; e 1.5; f \"s\"; g DATA x:y; h [[],1];";
    let sources = [SOURCES[0], SOURCES[1], SOURCES[4], every_kind, ""];
    let tables = sources.map(|source| run(&list_of(source), &EMPTY_TABLE).expect(source));
    tables.to_vec()
}

/// Rejected, or decoded to what encodes back to the very same bytes.
fn table_is_rejected_or_exact(bytes: &[u8]) -> bool {
    decode_table(bytes).map_or(true, |store| encode_table(&store) == bytes)
}

fn list_is_rejected_or_exact(bytes: &[u8]) -> bool {
    decode_steps(bytes).map_or(true, |steps| encode_steps(&steps) == bytes)
}

/// Calls the test with every change of one byte, every cut and every added byte.
fn each_damage(bytes: &[u8], is_fine: fn(&[u8]) -> bool) {
    for at in 0..bytes.len() {
        let mut changed = bytes.to_vec();
        for byte in 0..=255 {
            changed[at] = byte;
            assert!(is_fine(&changed), "byte {at} changed to {byte}");
        }
        assert!(is_fine(&bytes[..at]), "cut at {at}");
    }
}

#[test]
fn every_single_byte_change_of_small_tables() {
    for table in small_tables() {
        assert!(decode_table(&table).is_ok());
        each_damage(&table, table_is_rejected_or_exact);
    }
}

#[test]
fn every_single_byte_change_of_small_lists() {
    for source in SOURCES {
        let list = list_of(source);
        assert!(decode_steps(&list).is_ok());
        each_damage(&list, list_is_rejected_or_exact);
    }
}

#[test]
fn a_length_that_is_not_the_total_is_rejected() {
    let list = list_of(SOURCES[0]);
    let table = run(&list, &EMPTY_TABLE).unwrap();
    for kept in 0..list.len() {
        assert!(decode_steps(&list[..kept]).is_err());
    }
    for kept in 0..table.len() {
        assert!(decode_table(&table[..kept]).is_err());
    }
    assert!(decode_steps(&[&list[..], b"\0"].concat()).is_err());
    assert!(decode_table(&[&table[..], b"\0"].concat()).is_err());
}

#[test]
fn each_header_field_must_be_exact() {
    let list = list_of(SOURCES[1]);
    let table = run(&list, &EMPTY_TABLE).unwrap();
    for field in 0..6 {
        for change in [1u32, 2, u32::MAX, 1 << 31] {
            let changed = |bytes: &[u8]| {
                let mut bytes = bytes.to_vec();
                let four: [u8; 4] = bytes[4 * field..4 * field + 4].try_into().unwrap();
                let value = u32::from_le_bytes(four).wrapping_add(change);
                bytes[4 * field..4 * field + 4].copy_from_slice(&value.to_le_bytes());
                bytes
            };
            assert!(decode_steps(&changed(&list)).is_err(), "field {field}");
            assert!(decode_table(&changed(&table)).is_err(), "field {field}");
        }
    }
}

#[test]
fn unused_fields_of_steps_are_0() {
    // make, take, enter, set, leave, take, done: record and offset of each unused byte.
    let list = list_of(SOURCES[3]);
    let unused = |record: usize| -> Vec<usize> {
        match record {
            0 | 1 | 5 => [2..4, 6..16].into_iter().flatten().collect(),
            2 | 4 | 6 => (2..20).collect(),
            _ => Vec::new(),
        }
    };
    for record in 0..7 {
        for offset in unused(record) {
            let mut changed = list.clone();
            changed[24 + 20 * record + offset] = 1;
            assert!(
                decode_steps(&changed).is_err(),
                "record {record}, byte {offset}"
            );
        }
    }
}

#[test]
fn an_inner_span_alone_says_what_an_inner_vector_holds() {
    let mut list = list_of("a [[1],2];");
    // The second record is the inner vector; its span is its fourth short.
    list[24 + 20 + 6] = 3;
    assert_eq!(list, list_of("a [[1,2]];"));
    list[24 + 20 + 6] = 1;
    assert_eq!(list, list_of("a [[],1,2];"));
    list[24 + 20 + 6] = 4;
    assert!(decode_steps(&list).is_err());
}

#[test]
fn no_name_twice_in_one_component() {
    let table = |source: &str| run(&list_of(source), &EMPTY_TABLE).unwrap();
    for source in ["a 1; b 2;", "x extends { a 1; b 2; }"] {
        let mut bytes = table(source);
        let last = bytes.len() - 1;
        assert_eq!(bytes[last], b'b');
        bytes[last] = b'a';
        assert!(decode_table(&bytes).is_err());
        bytes[last] = b'A';
        assert!(decode_table(&bytes).is_ok());
    }
    assert!(decode_table(&table("a extends { a 1; }")).is_ok());
}

#[test]
fn generated_inputs_round_trip_or_are_rejected() {
    let (mut lists, mut tables) = (0, 0);
    for case in cases(Kind::Run, 7, usize::MAX).take(3_000) {
        let (list, table) = (&case.inputs[0], &case.inputs[1]);
        assert!(list_is_rejected_or_exact(list));
        assert!(table_is_rejected_or_exact(table));
        lists += usize::from(decode_steps(list).is_ok());
        tables += usize::from(decode_table(table).is_ok());
    }
    assert!((1_500..3_000).contains(&lists), "{lists} lists");
    assert!((1_500..3_000).contains(&tables), "{tables} tables");
}

/// The greatest depth field of a table's records, the record count and the text length.
fn sizes_in(table: &[u8]) -> Measure {
    let field = |number: usize| {
        let four = table[4 * number..4 * number + 4].try_into().unwrap();
        u32::from_le_bytes(four) as usize
    };
    let records = table[24..field(5)].chunks(16);
    let depths = records.map(|record| usize::from(u16::from_le_bytes([record[2], record[3]])));
    Measure {
        depth: depths.max().unwrap_or(0),
        nodes: field(2),
        text: field(4),
    }
}

#[test]
fn a_store_measures_what_its_table_says() {
    let mut with_elements = 0;
    for case in cases(Kind::Run, 9, usize::MAX).take(2_000) {
        let Ok(table) = case.answer else {
            continue;
        };
        let store = decode_table(&table).unwrap();
        assert_eq!(measure(&store), sizes_in(&table));
        with_elements += usize::from(
            table[24..]
                .chunks_exact(16)
                .any(|record| record[4..6] == [255, 255]),
        );
    }
    assert!(with_elements > 100, "{with_elements} tables with elements");
}

#[test]
fn every_answer_is_well_formed() {
    for kind in Kind::ALL {
        for case in cases(kind, 8, usize::MAX).take(1_500) {
            let Ok(output) = case.answer else {
                continue;
            };
            let is_exact = match kind {
                Kind::Translate => decode_steps(&output).map(|steps| encode_steps(&steps)),
                _ => decode_table(&output).map(|store| encode_table(&store)),
            };
            assert_eq!(is_exact, Ok(output));
        }
    }
}
