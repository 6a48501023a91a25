//! Over generated descriptions: the words lead back to the place that was answered.

use explain::place::find;
use explain::show::pieces;
use explain::{explain, words};
use second::generate::{cases, Case, Kind};
use std::collections::BTreeSet;

fn answered() -> impl Iterator<Item = Case> {
    cases(Kind::Resolve, 7, 2000).take(1500)
}

fn lines(case: &Case) -> Vec<u8> {
    match &case.answer {
        Ok(table) => table.clone(),
        Err(refusal) => format!("{refusal}\n").into_bytes(),
    }
}

/// The byte at a line and a column, counted anew.
fn place_of(source: &[u8], line: usize, column: usize) -> usize {
    let before: usize = source
        .split_inclusive(|byte| *byte == b'\n')
        .take(line - 1)
        .map(<[u8]>::len)
        .sum();
    let mut at = before;
    while pieces(&source[before..at]).count() < column - 1 {
        at += 1;
    }
    at
}

#[test]
fn a_line_and_a_column_lead_back_to_the_byte() {
    let mut seen = 0;
    for case in answered() {
        let Err(refusal) = case.answer else { continue };
        let source = &case.inputs[0];
        let at = refusal.place as usize;
        if words::has_place(refusal.number) && at < source.len() {
            let spot = find(source, at);
            assert_eq!(place_of(source, spot.line, spot.column), at);
            seen += 1;
        }
    }
    assert!(seen > 300, "only {seen} refusals with a place");
}

#[test]
fn the_caret_stands_under_the_byte_of_the_place() {
    let mut seen = 0;
    for case in answered() {
        let Err(refusal) = case.answer else { continue };
        let byte = case.inputs[0].get(refusal.place as usize).copied();
        let text = explain(&case.inputs[0], &lines(&case)).expect("an answer");
        let all: Vec<&str> = text.lines().collect();
        let caret = all.iter().position(|line| line.trim_start() == "^");
        let (Some(caret), Some(byte @ b'!'..=b'~')) = (caret, byte) else {
            continue;
        };
        let column = all[caret].chars().count() - 1;
        assert_eq!(
            all[caret - 1].chars().nth(column),
            Some(char::from(byte)),
            "{text}"
        );
        seen += 1;
    }
    assert!(seen > 300, "only {seen} carets");
}

#[test]
fn every_answer_has_words_that_are_safe_to_print() {
    let mut numbers = BTreeSet::new();
    for case in answered() {
        let text = explain(&case.inputs[0], &lines(&case)).expect("an answer");
        let is_safe = |c: char| c == '\n' || c == '\t' || !c.is_control();
        assert!(text.chars().all(is_safe), "{text:?}");
        if let Err(refusal) = case.answer {
            assert!(text.starts_with(&refusal.to_string()) && text.contains("\nhint: "));
            assert!(!text.contains("no such number"));
            numbers.insert(refusal.number);
        }
    }
    assert!(numbers.len() >= 12, "only {numbers:?}");
}
