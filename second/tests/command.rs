//! The command itself: streams, files, refusals and exit codes.

mod common;

use common::{show_table, EMPTY_TABLE};
use second::operations::translate;
use std::io::Write;
use std::path::PathBuf;
use std::process::{Command, Output, Stdio};

fn second(words: &[&str], input: &[u8]) -> Output {
    let mut child = Command::new(env!("CARGO_BIN_EXE_second"))
        .args(words)
        .stdin(Stdio::piped())
        .stdout(Stdio::piped())
        .stderr(Stdio::piped())
        .spawn()
        .unwrap();
    // The program may end without reading its input; that is not a fault here.
    let _ = child.stdin.take().unwrap().write_all(input);
    child.wait_with_output().unwrap()
}

fn file(name: &str, bytes: &[u8]) -> PathBuf {
    let path = PathBuf::from(env!("CARGO_TARGET_TMPDIR")).join(name);
    std::fs::write(&path, bytes).unwrap();
    path
}

#[test]
fn operations_over_streams() {
    let source = b"sfConfig extends { x 1; }";
    let list = second(&["translate"], source);
    assert_eq!(list.stdout, translate(source).unwrap());
    let table = second(&["resolve"], source);
    assert_eq!(show_table(&table.stdout), "x 1;");
    let outer = second(
        &["resolve"],
        b"sfConfig extends { sfConfig extends { y 2; } }",
    );
    let inner = second(&["main"], &outer.stdout);
    assert_eq!(show_table(&inner.stdout), "y 2;");
    assert!(inner.status.success() && inner.stderr.is_empty());
}

#[test]
fn run_over_files() {
    let list = file("list", &translate(b"a 1;").unwrap());
    let table = file("table", &EMPTY_TABLE);
    let words = ["run", list.to_str().unwrap(), table.to_str().unwrap()];
    assert_eq!(show_table(&second(&words, b"").stdout), "a 1;");
    let turned = ["run", words[2], words[1]];
    assert_eq!(second(&turned, b"").stdout, b"refused 9 at 0\n");
}

#[test]
fn a_refusal_is_one_line() {
    let long = vec![b' '; 40_000];
    let rows: [(&str, &[u8], &str); 5] = [
        ("translate", b"a", "refused 3 at 1\n"),
        ("translate", &long, "refused 1 at 0\n"),
        ("resolve", b"", "refused 19 at 0\n"),
        (
            "resolve",
            b"sfConfig extends { a b; b 1; }",
            "refused 11 at 21\n",
        ),
        ("main", b"", "refused 10 at 0\n"),
    ];
    for (word, input, wanted) in rows {
        let output = second(&[word], input);
        assert_eq!(String::from_utf8_lossy(&output.stdout), wanted);
        assert!(output.stderr.is_empty());
    }
}

#[test]
fn bad_words_give_the_usage() {
    let rows: [&[&str]; 19] = [
        &[],
        &["unknown"],
        &["translate", "more"],
        &["run", "one"],
        &["generate"],
        &["generate", "all", "1", "1"],
        &["generate", "run", "-1", "1"],
        &["generate", "run", "1", "1", ""],
        &["compare-cases", "1"],
        &["compare-cases", "1", "-1"],
        &["compare-cases", "1", "2000000000"],
        &["compare-sample"],
        &["dump", "more"],
        &["wave", "900", "100"],
        &["wave", "2000", "100", "1"],
        &["worst", "unknown"],
        &["rounds", "1", "-1", "1", "1"],
        &["rounds", "1", "1"],
        &["wave-for-jsonnet", "2000", "100", "1"],
    ];
    for words in rows {
        let output = second(words, b"");
        assert_eq!(output.status.code(), Some(2), "{words:?}");
        assert!(
            output.stdout.is_empty() && output.stderr.starts_with(b"usage:"),
            "{words:?}"
        );
    }
}

#[test]
fn a_missing_file_is_said_in_words() {
    let table = file("there", &EMPTY_TABLE);
    let there = table.to_str().unwrap();
    for words in [["run", "not-there", there], ["run", there, "not-there"]] {
        let output = second(&words, b"");
        assert_eq!(output.status.code(), Some(1));
        assert!(output.stdout.is_empty());
        assert!(String::from_utf8_lossy(&output.stderr).contains("cannot read not-there"));
    }
}

#[test]
fn generate_prints_so_many_lines() {
    let output = second(&["generate", "main", "5", "12", "300"], b"");
    let text = String::from_utf8(output.stdout).unwrap();
    assert_eq!(text.lines().count(), 12);
    assert!(text
        .lines()
        .all(|line| line.starts_with("main ") && line.contains(" = ")));
}

#[test]
fn calls_are_streamed() {
    let output = second(&["compare-cases", "5", "3", "300"], b"").stdout;
    let made: Vec<_> = second::compare::calls(5, 3, 300).collect();
    assert_eq!(output, second::compare::stream(&made));
}

#[test]
fn a_wave_is_resolved_and_shown() {
    let source = second(&["wave", "60", "10", "1"], b"").stdout;
    let table = second(&["resolve"], &source).stdout;
    let text = String::from_utf8(second(&["dump"], &table).stdout).unwrap();
    let attributes = text.lines().filter(|line| !line.starts_with(' '));
    assert_eq!(attributes.count(), 60);
    let lengths = second(&["rounds", "2", "1", "3", "4"], &source).stdout;
    assert_eq!(String::from_utf8(lengths).unwrap().lines().count(), 10);
    assert_eq!(second(&["dump"], b"").stdout, b"refused 10 at 0\n");
}
