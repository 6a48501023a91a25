//! The fourteen checked descriptions of document 01.

mod common;

use common::{check, main_of, show_answer, show_table, translated, whole_of};
use second::generate::hex;
use second::operations::{resolve, run, translate};

#[test]
fn the_proved_set_over_the_empty_table() {
    let rows = [
        ("", "refused 19 at 0"),
        ("sfConfig 1;", "refused 20 at 0"),
        ("sfConfig extends { x 1; y 2; x 3; }", "x 3; y 2;"),
        ("sfConfig extends { a extends sfConfig; }", "a { a {} }"),
        (
            "a extends { x 1; } sfConfig extends { a extends a, { y 2; } }",
            "a { y 2; }",
        ),
        ("a 1; sfConfig extends { a a; }", "a 1;"),
        (
            "a extends { b 1; } sfConfig extends { a extends { c 2; } v a:b; }",
            "a { c 2; } v 1;",
        ),
        (
            "p extends { q extends { a 1; b 2; } } sfConfig extends { r extends p, { q extends { b 3; } } }",
            "r { q { b 3; } }",
        ),
        (
            "p extends { x 1; y 2; } sfConfig extends { a extends { y 9; }, p; }",
            "a { y 2; x 1; }",
        ),
        (
            "sfConfig extends { x 1; a sfConfig; b sfConfig; }",
            "x 1; a { x 1; } b { x 1; a { x 1; } }",
        ),
        ("sfConfig extends { a b; b 1; }", "refused 11 at 21"),
        ("sfConfig extends { x:y 1; }", "refused 14 at 19"),
        ("sfConfig extends { x 1; x:y 2; }", "refused 15 at 24"),
    ];
    check(|source| main_of(source), &rows);
}

#[test]
fn case_12_limits_of_the_grammar() {
    let braces = |count: usize| "a extends{".repeat(count) + &"}".repeat(count);
    let name = |length: usize| format!("{} 1;", "n".repeat(length));
    let rows = [
        (braces(32), "translated"),
        (braces(33), "refused 5 at 329"),
        (name(255), "translated"),
        (name(256), "refused 6 at 0"),
        ("a 9223372036854775807;".to_string(), "translated"),
        ("a 9223372036854775808;".to_string(), "refused 4 at 2"),
    ];
    check(|source| translated(source), &rows);
}

#[test]
fn case_13_byte_for_byte() {
    let source = b"sfConfig extends { x 1; }";
    let wanted =
        "020000002a000000010000001800000002000000280000000300010000000100010000000000000001\
                  78";
    assert_eq!(
        resolve(source).map(|table| hex(&table)),
        Ok(wanted.to_string())
    );
}

#[test]
fn case_13_step_list() {
    let list = translate(b"sfConfig extends { x 1; }").unwrap();
    let field =
        |number: usize| u32::from_le_bytes(list[4 * number..4 * number + 4].try_into().unwrap());
    assert_eq!(list.len(), 137);
    assert_eq!([0, 1, 2, 3, 4, 5].map(field), [1, 137, 5, 24, 13, 124]);
    let wanted = "0100000089000000050000001800000\
                  00d0000007c000000\
                  0100000000000000000000000000000000000000\
                  0300000000000000000000000000000000000000\
                  060003000a000100010000000000000013000000\
                  0400000000000000000000000000000000000000\
                  0500000000000000000000000000000000000000\
                  01087366436f6e666967010178";
    assert_eq!(hex(&list), wanted);
}

#[test]
fn case_14_over_a_starting_table() {
    let holds_x = translate(b"x 1;").and_then(|list| run(&list, &common::EMPTY_TABLE));
    let list = translate(b"y x;").unwrap();
    let whole = run(&list, &holds_x.unwrap());
    assert_eq!(show_answer(whole), "x 1; y 1;");
    assert_eq!(whole_of("y x;"), "refused 11 at 2");
}

#[test]
fn the_empty_table_is_24_bytes() {
    assert_eq!(
        resolve(b"sfConfig extends {}"),
        Ok(common::EMPTY_TABLE.to_vec())
    );
    assert_eq!(show_table(&common::EMPTY_TABLE), "");
}
