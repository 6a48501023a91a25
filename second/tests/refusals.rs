//! Every refusal number but 8 and 21, with its place, and their order.

mod common;

use common::{check, main_of, show_answer, translated, whole_of, EMPTY_TABLE};
use second::operations::{main_table, run, translate};

#[test]
fn numbers_1_to_7() {
    let rows = [
        (" ".repeat(32_769), "refused 1 at 0"),
        ("a ?;".to_string(), "refused 2 at 2"),
        ("a 1 2;".to_string(), "refused 3 at 4"),
        ("a 1 ".to_string(), "refused 3 at 4"),
        ("a -9223372036854775809;".to_string(), "refused 4 at 2"),
        (format!("a {}", "[".repeat(40)), "refused 5 at 34"),
        (format!("a \"{}\";", "s".repeat(4096)), "refused 6 at 2"),
        (format!("a 1.{};", "5".repeat(4094)), "refused 6 at 2"),
        (format!("{}a 1;", "a:".repeat(32)), "refused 6 at 64"),
        (format!("a [{}1];", "1,".repeat(1023)), "refused 7 at 0"),
    ];
    check(|source| translated(source), &rows);
}

#[test]
fn numbers_9_and_10() {
    let list = translate(b"a 1;").unwrap();
    let rows = [
        (run(&EMPTY_TABLE, &EMPTY_TABLE), "refused 9 at 0"),
        (run(b"", b""), "refused 9 at 0"),
        (run(&list, &list), "refused 10 at 0"),
        (run(&list, b""), "refused 10 at 0"),
        (main_table(&list), "refused 10 at 0"),
        (run(&list, &EMPTY_TABLE), "a 1;"),
    ];
    for (answer, wanted) in rows {
        assert_eq!(show_answer(answer), wanted);
    }
}

#[test]
fn numbers_11_to_15() {
    let rows = [
        ("a b;", "refused 11 at 2"),
        ("a 1; b a:c;", "refused 11 at 7"),
        ("a extends b;", "refused 12 at 10"),
        ("a 1; b extends { }, a;", "refused 13 at 20"),
        ("v []; b extends v;", "refused 13 at 16"),
        ("a:b 1;", "refused 14 at 0"),
        ("a 1; a:b extends { }", "refused 15 at 5"),
        ("a 1; a:b:c a;", "refused 15 at 11"),
        ("a extends { b 1; } a:c:d:e 1;", "refused 14 at 19"),
        ("a extends { b 1; } a:b:d:e 1;", "refused 15 at 19"),
    ];
    check(|source| whole_of(source), &rows);
}

/// Each link under a new name puts the whole of `a` into itself once more.
fn doubled(start: &str, links: usize) -> String {
    let links = (0..links).map(|number| format!("a:{} a;", (b'b' + number as u8) as char));
    format!("a extends{{{start}}}{}", links.collect::<String>())
}

#[test]
fn numbers_16_to_18_by_copying() {
    let deeper = |links: usize| format!("a extends{{}}{}", "a:a a;".repeat(links));
    let long = format!("s \"{}\";", "t".repeat(250));
    let rows = [
        (deeper(32), "refused 16 at 201"),
        (doubled("x 1;", 10), "refused 17 at 73"),
        (doubled(&long, 7), "refused 18 at 306"),
    ];
    check(|source| whole_of(source), &rows);
    assert!(!whole_of(deeper(31)).starts_with("refused"));
    assert!(!whole_of(doubled("x 1;", 9)).starts_with("refused"));
    assert!(!whole_of(doubled(&long, 6)).starts_with("refused"));
}

/// A vector of so many strings of 20 bytes.
fn strings(count: usize) -> String {
    let one = format!("\"{}\"", "s".repeat(20));
    format!("[{}]", vec![one; count].join(","))
}

#[test]
fn depth_comes_before_nodes_and_nodes_before_text() {
    let start = format!("b extends {{ v {}; }}", strings(600));
    let chain = "a:a a;".repeat(30);
    let deep = format!("{start} a extends{{}}{chain} {} b;", ["a"; 32].join(":"));
    let flat = format!("{start} c b;");
    let few = format!("b {}; c b;", strings(400));
    for (source, number) in [(deep, 16), (flat, 17), (few, 18)] {
        let place = source.len() - 2;
        assert_eq!(whole_of(source), format!("refused {number} at {place}"));
    }
}

#[test]
fn numbers_19_and_20() {
    let rows = [
        ("a extends { sfConfig extends {} }", "refused 19 at 0"),
        ("sfConfig [];", "refused 20 at 0"),
        ("sfConfig extends {} sfConfig NULL;", "refused 20 at 0"),
        ("sfConfig extends {} x:y 1;", "refused 14 at 20"),
    ];
    check(|source| main_of(source), &rows);
}

#[test]
fn what_comes_first() {
    let many = format!("a [{}1];", "1,".repeat(1023));
    let rows = [
        (format!("{many} b"), "refused 3 at 2054"),
        (format!("b c; {many}"), "refused 7 at 0"),
        ("b c; d:e 1; ".to_string(), "refused 11 at 2"),
        (format!("{}?", " ".repeat(32_768)), "refused 1 at 0"),
        (format!("{}?", " ".repeat(32_767)), "refused 2 at 32767"),
        (format!("a{}", " ".repeat(32_767)), "refused 3 at 32768"),
    ];
    check(|source| main_of(source), &rows);
}
