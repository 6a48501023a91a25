//! Whole texts for single answers.

use explain::explain;

fn text(source: &[u8], answer: &[u8]) -> String {
    explain(source, answer).expect("the answer is one of resolve's")
}

/// The line of the source and the line of the caret, without their indent.
fn pointed(source: &[u8], answer: &[u8]) -> (String, String) {
    let text = text(source, answer);
    let lines: Vec<&str> = text.lines().collect();
    let caret = lines.iter().position(|line| line.ends_with('^'));
    let caret = caret.expect("a line with a caret");
    (
        lines[caret - 1][4..].to_string(),
        lines[caret][4..].to_string(),
    )
}

#[test]
fn a_link_that_finds_nothing() {
    let expected = "refused 11 at 21: link finds nothing

line 1, column 22 (byte 21)

    sfConfig extends { a b; b 1; }
                         ^

hint: the whole of `b` is searched for in each component around the statement, from the innermost outwards, among what stands before it.
";
    assert_eq!(
        text(b"sfConfig extends { a b; b 1; }", b"refused 11 at 21\n"),
        expected
    );
}

#[test]
fn a_refusal_without_a_place_shows_no_line() {
    for number in [1, 7, 8, 9, 10, 19, 20] {
        let text = text(
            b"sfConfig 1;",
            format!("refused {number} at 0\n").as_bytes(),
        );
        assert!(!text.contains('^') && !text.contains("line 1"), "{text}");
    }
    assert!(text(b"a 1;", b"refused 14 at 0\n").contains("line 1, column 1 (byte 0)"));
}

#[test]
fn the_end_points_behind_the_last_line_with_something_in_it() {
    let source = b"sfConfig extends {\n  x 1;\n \n";
    let (line, caret) = pointed(source, b"refused 3 at 28\n");
    assert_eq!((line.as_str(), caret.as_str()), ("  x 1;", "      ^"));
    assert!(text(source, b"refused 3 at 28\n").contains("the end (byte 28), behind line 2\n"));
}

#[test]
fn tabs_stay_tabs_above_and_below() {
    let (line, caret) = pointed(b"\tx\t1 2;", b"refused 3 at 5\n");
    assert_eq!((line.as_str(), caret.as_str()), ("\tx\t1 2;", "\t \t  ^"));
}

#[test]
fn the_end_of_a_line_is_not_shown() {
    let (line, _) = pointed(b"a 1;\r\nb ?;\r\nc 1;\r\n", b"refused 2 at 8\n");
    assert_eq!(line, "b ?;");
}

#[test]
fn a_long_line_is_cut_around_the_place() {
    let source = [b"x".repeat(500), b" ? ".to_vec(), b"y".repeat(500)].concat();
    let (line, caret) = pointed(&source, b"refused 2 at 501\n");
    assert_eq!(
        line,
        format!("...{} ? {}...", "x".repeat(35), "y".repeat(34))
    );
    assert_eq!(caret, format!("{}^", " ".repeat(39)));
}

#[test]
fn what_could_move_the_cursor_is_escaped() {
    let source = b"a \"\x1b[2J\x07\xff\xe2\x80\xae\xc3\xa4\xcc\x88\" ?";
    let (line, caret) = pointed(source, b"refused 2 at 18\n");
    assert_eq!(line, "a \"\\x1b[2J\\x07\\xff\\u{202e}\u{e4}\\u{308}\" ?");
    assert_eq!(caret.len(), line.chars().count());
    assert!(text(source, b"refused 2 at 18\n").contains("column 15 (byte 18)"));
}

#[test]
fn each_hint_of_2_is_for_the_bytes_that_stand_there() {
    let cases: [(&[u8], &str); 8] = [
        (b"\"ab", "a string ends on its own line"),
        (b"/* a", "no `*/`"),
        (b"# a", "a comment begins with"),
        (b"1x", "no name byte"),
        (b"+1", "begins with a digit"),
        (b"'a'", "a string stands between"),
        (b"\xef\xbb\xbf", "byte order mark"),
        (b"\xc3\xa4", "outside ASCII"),
    ];
    for (source, words) in cases {
        let text = text(source, b"refused 2 at 0\n");
        assert!(text.contains(words), "{text}");
    }
}

#[test]
fn each_hint_of_3_is_for_what_stands_there() {
    assert!(text(b"a PARENT;", b"refused 3 at 2\n").contains("`PARENT` is a reserved word"));
    assert!(text(b"a extends {} ;", b"refused 3 at 13\n").contains("no `;` stands behind a block"));
    assert!(text(b"a 1 b 2;", b"refused 3 at 4\n").contains("may be missing there"));
}

#[test]
fn a_reference_is_named_whole() {
    let text = text(b"a extends p : q:r;", b"refused 12 at 10\n");
    assert!(text.contains("`p:q:r`"), "{text}");
}

#[test]
fn a_table_is_written_out() {
    let table = [
        &b"\x02\0\0\0\x2a\0\0\0\x01\0\0\0\x18\0\0\0\x02\0\0\0\x28\0\0\0"[..],
        &b"\x03\0\x01\0\0\0\x01\0\x01\0\0\0\0\0\0\0\x01x"[..],
    ];
    assert_eq!(text(b"", &table.concat()), "accepted:\n\nx: integer 1\n");
    let empty = b"\x02\0\0\0\x18\0\0\0\0\0\0\0\x18\0\0\0\0\0\0\0\x18\0\0\0";
    assert_eq!(text(b"", empty), "accepted: sfConfig is empty\n");
}

#[test]
fn what_is_no_answer_is_told() {
    for answer in [
        &b""[..],
        b"refused 2",
        b"refused x at 1\n",
        b"refused 2 at 1",
        b"\x02\0\0\0",
    ] {
        assert!(explain(b"a", answer).is_err());
    }
}
