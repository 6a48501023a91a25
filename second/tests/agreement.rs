//! The two evaluators, and resolve against its three parts, over generated cases.

mod common;

use common::EMPTY_TABLE;
use second::evaluate::evaluate;
use second::generate::{cases, pairs, Kind};
use second::grammar::read;
use second::layout_table::{decode_table, encode_table};
use second::operations::{main_table, resolve, run, translate};
use second::refusal::Refusal;
use second::steps::compile;

/// By the statements: no list is laid out and no step is run.
fn by_statements(source: &[u8], table: &[u8]) -> Result<Vec<u8>, Refusal> {
    let statements = read(source)?;
    compile(&statements)?;
    let store = decode_table(table)?;
    evaluate(&statements, store).map(|whole| encode_table(&whole))
}

fn by_steps(source: &[u8], table: &[u8]) -> Result<Vec<u8>, Refusal> {
    run(&translate(source)?, table)
}

#[test]
fn statements_and_steps_agree_over_starting_tables() {
    let mut passed = 0;
    for (source, table) in pairs(1).take(6_000) {
        let answer = by_statements(&source, &table);
        passed += usize::from(answer.is_ok());
        let shown = String::from_utf8_lossy(&source);
        assert_eq!(answer, by_steps(&source, &table), "for {shown}");
    }
    assert!((2_000..5_500).contains(&passed), "{passed} passed");
}

#[test]
fn statements_and_steps_agree_over_tables_of_other_descriptions() {
    let tables = cases(Kind::Run, 2, 4_000).map(|case| case.inputs[1].clone());
    let sources = cases(Kind::Resolve, 3, 4_000).map(|case| case.inputs[0].clone());
    for (source, table) in sources.zip(tables).take(3_000) {
        let shown = String::from_utf8_lossy(&source);
        let answer = by_statements(&source, &table);
        assert_eq!(answer, by_steps(&source, &table), "for {shown}");
    }
}

#[test]
fn resolve_is_translate_run_and_main() {
    for seed in [4, 5] {
        for case in cases(Kind::Resolve, seed, usize::MAX).take(2_500) {
            let source = &case.inputs[0];
            let whole = translate(source).and_then(|list| run(&list, &EMPTY_TABLE));
            let main = whole.and_then(|table| main_table(&table));
            let shown = String::from_utf8_lossy(&source[..source.len().min(400)]);
            assert_eq!(resolve(source), main, "for {shown}");
        }
    }
}

#[test]
fn two_lists_in_turn_give_the_table_of_the_joined_one() {
    let sources = || cases(Kind::Resolve, 6, 800).map(|case| case.inputs[0].clone());
    let mut compared = 0;
    for (first, second) in sources().zip(sources().skip(1)).take(2_000) {
        let joined = [&first[..], b"\n", &second[..]].concat();
        let (Ok(one), Ok(two), Ok(both)) =
            (translate(&first), translate(&second), translate(&joined))
        else {
            continue;
        };
        let in_turn = match run(&one, &EMPTY_TABLE) {
            Ok(table) => run(&two, &table).map_err(|refusal| {
                Refusal::new(refusal.number, refusal.place + first.len() as u32 + 1)
            }),
            refused => refused,
        };
        assert_eq!(in_turn, run(&both, &EMPTY_TABLE));
        compared += 1;
    }
    assert!(compared > 500, "{compared} compared");
}

/// Any bytes at all, half of them from the marks and letters of descriptions.
fn any_bytes(state: &mut u64, length: usize) -> Vec<u8> {
    let mut next = || {
        *state = state
            .wrapping_mul(6_364_136_223_846_793_005)
            .wrapping_add(1);
        (*state >> 33) as usize
    };
    let letters = b"ab1-.e\"\\/*{}[];:, \n";
    let bytes = (0..length).map(|_| match next() % 2 {
        0 => next() as u8,
        _ => letters[next() % letters.len()],
    });
    bytes.collect()
}

#[test]
fn any_bytes_get_an_answer_with_a_place_within() {
    let mut state = 1;
    for number in 0..20_000 {
        let bytes = any_bytes(&mut state, number % 60);
        for answer in [translate(&bytes), resolve(&bytes)] {
            let place = answer.map_or_else(|refusal| refusal.place as usize, |_| 0);
            assert!(place <= bytes.len());
        }
        assert_eq!(main_table(&bytes), Err(Refusal::new(10, 0)));
        assert_eq!(run(&bytes, &EMPTY_TABLE), Err(Refusal::new(9, 0)));
    }
}
