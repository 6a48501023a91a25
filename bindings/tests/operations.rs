//! The library as Rust programs call it: the examples beside the second implementation, refusals, short slices,
//! and that nothing outside the lent slices changes.

use saftmagnet::{main_table, owned, resolve, run, translate, Refusal, LIST, TABLE, WORK};
use second::operations as second;
use std::{fs, path::Path};

// The empty table.
const EMPTY: [u8; 24] = *b"\x02\0\0\0\x18\0\0\0\0\0\0\0\x18\0\0\0\0\0\0\0\x18\0\0\0";

const DESCRIPTION: &[u8] = b"p extends { x 1; } sfConfig extends p, { y x; }";

fn told(r: ::second::refusal::Refusal) -> Refusal {
    Refusal { number: r.number as u32, place: r.place as u32 }
}

fn examples() -> Vec<Vec<u8>> {
    let folder = Path::new(env!("CARGO_MANIFEST_DIR")).join("../examples");
    let mut names: Vec<_> = fs::read_dir(folder).unwrap().map(|f| f.unwrap().path()).filter(|p| p.extension().is_some_and(|e| e == "sf")).collect();
    names.sort();
    names.iter().map(|n| fs::read(n).unwrap()).collect()
}

#[test]
fn the_examples_are_as_the_second_implementation_has_them() {
    let all = examples();
    assert!(all.len() >= 5);
    for source in all {
        let list = owned::translate(&source).unwrap();
        assert_eq!(Ok(&list), second::translate(&source).as_ref());
        let whole = owned::run(&list, &EMPTY).unwrap();
        assert_eq!(Ok(&whole), second::run(&list, &EMPTY).as_ref());
        let table = owned::main_table(&whole).unwrap();
        assert_eq!(Ok(&table), second::main_table(&whole).as_ref());
        assert_eq!(Ok(table), owned::resolve(&source));
    }
}

#[test]
fn every_shorter_description_has_the_second_implementations_answer() {
    for n in 0..=DESCRIPTION.len() {
        assert_eq!(owned::resolve(&DESCRIPTION[..n]), second::resolve(&DESCRIPTION[..n]).map_err(told), "the first {n} bytes");
        assert_eq!(owned::translate(&DESCRIPTION[..n]), second::translate(&DESCRIPTION[..n]).map_err(told), "the first {n} bytes");
    }
}

#[test]
fn a_refusal_says_its_number_and_place_and_keeps_the_output() {
    let mut out = vec![7; LIST];
    let mut work = vec![8; WORK + 3];
    assert_eq!(translate(b"a 1; b ?", &mut out, &mut work), Err(Refusal { number: 2, place: 7 }));
    assert!(out.iter().all(|&b| b == 7));
    assert!(work[..WORK].iter().all(|&b| b == 0) && work[WORK..] == [8, 8, 8]);
    assert_eq!(Refusal { number: 2, place: 7 }.to_string(), "refused 2 at 7");
}

#[test]
fn a_short_slice_is_8_and_everything_is_kept() {
    let (mut out, mut short) = (vec![7; TABLE], vec![8; WORK - 1]);
    let (mut w1, mut w2) = (vec![9; WORK], vec![10; WORK]);
    let eight = Err(Refusal { number: 8, place: 0 });
    assert_eq!(resolve(b"?", &mut out, &mut w1, &mut w2, &mut short), eight);
    assert_eq!(run(b"", b"", &mut out, &mut short, &mut w1), eight);
    assert_eq!(main_table(b"", &mut out[..TABLE - 1]), eight);
    assert_eq!(translate(b"?", &mut out, &mut w1), eight);
    assert!(out.iter().all(|&b| b == 7) && short.iter().all(|&b| b == 8) && w1.iter().all(|&b| b == 9) && w2.iter().all(|&b| b == 10));
}

#[test]
fn no_more_is_written_than_the_answer_says() {
    let mut out = vec![7; TABLE + 5];
    let (mut w1, mut w2, mut w3) = (vec![1; WORK], vec![2; WORK], vec![3; WORK + 1]);
    let n = resolve(DESCRIPTION, &mut out, &mut w1, &mut w2, &mut w3).unwrap();
    assert_eq!(Ok(out[..n].to_vec()), second::resolve(DESCRIPTION));
    assert!(out[n..].iter().all(|&b| b == 7));
    assert!(w1.iter().chain(&w2).chain(&w3[..WORK]).all(|&b| b == 0) && w3[WORK] == 3);
}

#[test]
fn bytes_of_no_meaning_are_refused() {
    assert_eq!(owned::run(b"", b""), Err(Refusal { number: 9, place: 0 }));
    assert_eq!(owned::run(&owned::translate(b"").unwrap(), b"x"), Err(Refusal { number: 10, place: 0 }));
    assert_eq!(owned::main_table(&[0xff; 40_000]), Err(Refusal { number: 10, place: 0 }));
    assert_eq!(owned::translate(&[b' '; 32_769]), Err(Refusal { number: 1, place: 0 }));
    assert_eq!(owned::resolve(b"sfConfig 1;"), Err(Refusal { number: 20, place: 0 }));
}
