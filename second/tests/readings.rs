//! Points of document 01 that could be read otherwise, a table of examples for each.

mod common;

use common::{check, main_of, show_answer, translated, whole_of, EMPTY_TABLE};
use second::layout_steps::{decode_steps, encode_steps};
use second::layout_table::{decode_table, encode_table};
use second::operations::{run, translate};
use second::steps::Step;
use second::store::{Basic, Path, Store, Value};

#[test]
fn a_link_is_refused_at_its_reference() {
    let rows = [
        ("z 1; x:y z;", "refused 14 at 9"),
        ("z 1; z:y z;", "refused 15 at 9"),
        ("x:y z;", "refused 11 at 4"),
        ("x:y 1;", "refused 14 at 0"),
        ("x:y extends z;", "refused 14 at 0"),
        ("x extends { }, z;", "refused 12 at 15"),
    ];
    check(|source| whole_of(source), &rows);
}

#[test]
fn one_token_is_judged_whole_before_the_grammar_looks() {
    let name = "n".repeat(256);
    let string = "s".repeat(4096);
    let decimal = format!("1.{}", "0".repeat(4094));
    let rows = [
        ("a b 99999999999999999999".to_string(), "refused 4 at 4"),
        ("99999999999999999999".to_string(), "refused 4 at 0"),
        ("99999999999999999999x".to_string(), "refused 2 at 0"),
        (format!("a 1 {name}"), "refused 6 at 4"),
        (format!("\"{string}\""), "refused 6 at 0"),
        (format!("\"{string}\\q\""), "refused 2 at 0"),
        (format!("\"{string}"), "refused 2 at 0"),
        (format!("a b {decimal}"), "refused 6 at 4"),
        (format!("a {decimal}x;"), "refused 2 at 2"),
        (format!("a {}", "[".repeat(32) + "{"), "refused 3 at 34"),
        (format!("{}[", "a extends{".repeat(32)), "refused 3 at 320"),
    ];
    check(|source| translated(source), &rows);
}

#[test]
fn a_token_is_looked_at_when_all_before_are_accepted() {
    let rows = [
        ("a 1 2 \"".to_string(), "refused 3 at 4"),
        (format!("a {}\"", "[".repeat(33)), "refused 5 at 34"),
        (format!("{}b ?", "a:".repeat(32)), "refused 6 at 64"),
        ("a 1; /* open".to_string(), "refused 2 at 5"),
        ("a 1 /* open".to_string(), "refused 2 at 4"),
        ("a 1 2 /* open".to_string(), "refused 3 at 4"),
    ];
    check(|source| translated(source), &rows);
}

#[test]
fn a_number_ends_where_it_can() {
    let wrong = [
        "1-2", "1-", "1x", "1_", "1$", "1.", "1.5.", "1e", "1e+", "1.e5", "1e5.5", ".5", "+1", "-",
        "--1", "1.5e", "1.5e5e5", "-x",
    ];
    for number in wrong {
        assert_eq!(
            translated(format!("a {number};")),
            "refused 2 at 2",
            "for {number}"
        );
    }
    let right = [
        "1.5",
        "-0.0",
        "1e5",
        "1E+5",
        "-1.5e-05",
        "007.50",
        "0e0",
        "12345678901234567890.0",
    ];
    for number in right {
        let source = format!("sfConfig extends {{ a {number}; }}");
        assert_eq!(main_of(source), format!("a {number};"), "for {number}");
    }
    check(
        |source| translated(source),
        &[("a 1é;", "refused 2 at 3"), ("a 1\"x\";", "refused 3 at 3")],
    );
}

#[test]
fn integers_have_no_length_of_their_own() {
    let zeros = "0".repeat(5_000);
    let rows = [
        (format!("sfConfig extends {{ a {zeros}1; }}"), "a 1;"),
        (
            "sfConfig extends { a -0; b 01; c -007; }".to_string(),
            "a 0; b 1; c -7;",
        ),
        (
            format!("sfConfig extends {{ a -{zeros}9223372036854775808; }}"),
            "a -9223372036854775808;",
        ),
    ];
    check(|source| main_of(source), &rows);
}

#[test]
fn the_33rd_name_of_a_reference() {
    let names = "a:".repeat(31) + "a";
    let rows = [
        (format!("{names} 1;"), "translated"),
        (format!("x DATA {names};"), "translated"),
        (format!("x extends {names};"), "translated"),
        (format!("{names}:b 1;"), "refused 6 at 64"),
        (format!("x DATA {names}:b;"), "refused 6 at 71"),
        (format!("x {names}:b;"), "refused 6 at 66"),
        (format!("{names}:true 1;"), "refused 3 at 64"),
        (format!("{names}:; 1;"), "refused 3 at 64"),
    ];
    check(|source| translated(source), &rows);
}

#[test]
fn reserved_words_are_exact_and_never_names() {
    let words = [
        "extends",
        "DATA",
        "NULL",
        "true",
        "false",
        "ROOT",
        "PARENT",
        "THIS",
        "ATTRIB",
        "LAZY",
        "HOST",
        "PROCESS",
        "PROPERTY",
        "IPROPERTY",
    ];
    for word in words {
        assert_eq!(translated(format!("{word} 1;")), "refused 3 at 0");
        assert_eq!(translated(format!("a b:{word};")), "refused 3 at 4");
        assert_eq!(translated(format!("a extends {word};")), "refused 3 at 10");
        assert_eq!(
            translated(format!("{word}- 1; x DATA {word}s;")),
            "translated"
        );
    }
    assert_eq!(whole_of("True 1; data True;"), "True 1; data 1;");
}

#[test]
fn the_search_stops_at_the_first_thing_found() {
    let rows = [
        (
            "p extends {} sfConfig extends { p 1; a extends p; }",
            "refused 13 at 47",
        ),
        (
            "a extends { b 1; } sfConfig extends { a 2; v a:b; }",
            "a 2; v 1;",
        ),
        ("a [1]; sfConfig extends { v a:b; }", "refused 11 at 28"),
    ];
    check(|source| main_of(source), &rows);
}

#[test]
fn extends_empties_before_it_looks() {
    let rows = [
        ("p extends { x 1; } p extends p;", "p {}"),
        (
            "p extends { q extends {} } p extends p:q;",
            "refused 12 at 37",
        ),
        (
            "p extends { x 1; } q 1; p extends { y 2; }",
            "p { y 2; } q 1;",
        ),
        (
            "a extends { p extends { x 1; } }, a:p;",
            "a { p { x 1; } x 1; }",
        ),
        ("b extends { c 1; } b:d b;", "b { c 1; d { c 1; } }"),
        ("a 1; b 2; a a;", "a 1; b 2;"),
    ];
    check(|source| whole_of(source), &rows);
}

#[test]
fn a_target_of_two_names_has_two_scopes() {
    let rows = [
        (
            "p extends { v 1; } x extends { p extends { v 2; } } x:y extends p;",
            "p { v 1; } x { p { v 2; } y { v 1; } }",
        ),
        (
            "v 1; x extends { v 2; } x:y extends { w v; }",
            "v 1; x { v 2; y { w 2; } }",
        ),
        (
            "v 1; x extends {} x:y extends { v 3; w v; }",
            "v 1; x { y { v 3; w 3; } }",
        ),
        (
            "a extends {} sfConfig extends { a:b 1; }",
            "refused 14 at 32",
        ),
    ];
    check(|source| whole_of(source), &rows);
}

fn path(name: &str) -> Path {
    vec![name.as_bytes().to_vec()]
}

fn set(value: Basic) -> Step {
    Step::Set {
        target: path("x"),
        value,
        place: 0,
    }
}

fn make() -> Step {
    Step::Make {
        target: path("a"),
        place: 0,
    }
}

fn take() -> Step {
    Step::Take {
        reference: path("a"),
        place: 0,
    }
}

fn is_list(steps: &[Step]) -> bool {
    decode_steps(&encode_steps(steps)).is_ok()
}

#[test]
fn steps_that_nest_as_the_grammar_nests() {
    use Step::{Done, Enter, Leave};
    let null = || set(Basic::Null);
    let right = [
        vec![],
        vec![null(), null()],
        vec![make(), take(), Done],
        vec![make(), Enter, Leave, Done],
        vec![
            make(),
            take(),
            Enter,
            null(),
            Leave,
            Enter,
            Leave,
            take(),
            Done,
        ],
        vec![make(), Enter, make(), take(), Done, Leave, Done],
    ];
    for steps in right {
        assert!(is_list(&steps), "{steps:?}");
    }
}

#[test]
fn steps_that_do_not_nest_as_the_grammar_nests() {
    use Step::{Done, Enter, Leave};
    let null = || set(Basic::Null);
    let wrong = [
        vec![make(), Done],
        vec![make(), take()],
        vec![make(), Enter, Leave],
        vec![make(), Enter, Done, Leave],
        vec![make(), null(), Done],
        vec![make(), take(), null(), Done],
        vec![make(), Enter, take(), Leave, Done],
        vec![make(), Enter, Enter, Leave, Leave, Done],
        vec![take()],
        vec![Enter, Leave],
        vec![Leave],
        vec![Done],
        vec![make(), Enter, make(), Done, Leave, Done],
    ];
    for steps in wrong {
        assert!(!is_list(&steps), "{steps:?}");
    }
}

fn vectors(levels: usize) -> Basic {
    (1..levels).fold(Basic::Vector(vec![]), |inner, _| Basic::Vector(vec![inner]))
}

fn in_enters(enters: usize, inner: Vec<Step>) -> Vec<Step> {
    let opened = vec![[make(), Step::Enter]; enters].concat();
    let closed = vec![[Step::Leave, Step::Done]; enters].concat();
    [opened, inner, closed].concat()
}

#[test]
fn enters_and_vectors_open_in_a_list() {
    for enters in [0, 1, 20, 31] {
        let fits = in_enters(enters, vec![set(vectors(32 - enters))]);
        let one_more = in_enters(enters, vec![set(vectors(33 - enters))]);
        assert!(is_list(&fits), "{enters}");
        assert!(!is_list(&one_more), "{enters}");
    }
    assert!(is_list(&in_enters(32, vec![set(Basic::Null)])));
    assert!(!is_list(&in_enters(32, vec![set(vectors(1))])));
    assert!(!is_list(&in_enters(33, vec![])));
}

#[test]
fn a_table_knows_depth_only() {
    let table = |basic: Basic| {
        let attributes = vec![(b"a".to_vec(), Value::Basic(basic))];
        decode_table(&encode_table(&Store { attributes }))
    };
    assert!(table(vectors(32)).is_ok());
    assert!(table(vectors(33)).is_err());
}

fn data_in_table(path: Path) -> bool {
    let attributes = vec![(b"a".to_vec(), Value::Basic(Basic::Data(path)))];
    decode_table(&encode_table(&Store { attributes })).is_ok()
}

/// Whether a path may stand in each of the five places where one can.
fn path_fits(path: &Path) -> [bool; 5] {
    let (target, place) = (path.clone(), 0);
    let reference = path.clone();
    let linked = Step::Link {
        target: vec![b"x".to_vec()],
        reference: path.clone(),
        place,
    };
    [
        is_list(&[Step::Make { target, place }, take(), Step::Done]),
        is_list(&[make(), Step::Take { reference, place }, Step::Done]),
        is_list(&[linked]),
        is_list(&[set(Basic::Data(path.clone()))]),
        data_in_table(path.clone()),
    ]
}

#[test]
fn paths_in_lists_and_tables() {
    let names = |count: usize| vec![b"n".to_vec(); count];
    let ending_in = |name: &[u8]| vec![b"n".to_vec(), name.to_vec()];
    for path in [
        names(1),
        names(32),
        ending_in(&[b'n'; 255]),
        ending_in(b"True"),
    ] {
        assert_eq!(path_fits(&path), [true; 5], "{path:?}");
    }
    for path in [names(0), names(33), names(255)] {
        assert_eq!(path_fits(&path), [false; 5], "{path:?}");
    }
    for name in ["", "LAZY", "true", "1a", "-a", "a b", "a.b", "é"] {
        let path = ending_in(name.as_bytes());
        assert_eq!(path_fits(&path), [false; 5], "{path:?}");
    }
}

#[test]
fn source_places_in_a_list() {
    let at = |place: u32| {
        let mut steps = [set(Basic::Null)];
        if let Step::Set { place: own, .. } = &mut steps[0] {
            *own = place;
        }
        is_list(&steps)
    };
    assert!(at(32_767));
    assert!(!at(32_768));
    assert!(!at(u32::MAX));
}

#[test]
fn decimals_in_lists_and_tables_have_the_form_of_a_decimal() {
    let fits = |text: &[u8]| {
        let decimal = Basic::Decimal(text.to_vec());
        let attributes = vec![(b"a".to_vec(), Value::Basic(decimal.clone()))];
        let in_table = decode_table(&encode_table(&Store { attributes })).is_ok();
        assert_eq!(is_list(&[set(decimal)]), in_table);
        in_table
    };
    for text in ["1.5", "-1e5", "0.0E-0"] {
        assert!(fits(text.as_bytes()), "{text}");
    }
    for text in [
        "", "12", "-1", "1.", ".5", "+1.5", "1e", "1.5 ", " 1.5", "1.5x", "1.5.5",
    ] {
        assert!(!fits(text.as_bytes()), "{text}");
    }
    let zeros = |count: usize| [b"1.".to_vec(), vec![b'0'; count]].concat();
    assert!(fits(&zeros(4_093)));
    assert!(!fits(&zeros(4_094)));
}

#[test]
fn strings_in_lists_and_tables_may_hold_any_byte() {
    let all: Vec<u8> = (0..=255).collect();
    assert!(is_list(&[set(Basic::String(all))]));
    assert!(is_list(&[set(Basic::String(vec![b'\n'; 4_095]))]));
    assert!(!is_list(&[set(Basic::String(vec![b'\n'; 4_096]))]));
}

/// So many sets of `a` to a string of 4,095 bytes: 3 bytes of path each, 2 and 4,095 of string.
fn long_sets(count: usize) -> String {
    format!("a\"{}\";", "s".repeat(4_095)).repeat(count)
}

fn last_set(length: usize) -> String {
    format!("a\"{}\";", "s".repeat(length))
}

#[test]
fn the_bound_of_1024_steps() {
    let steps = |count: usize| "x 1;".repeat(count);
    let rows = [
        (steps(1_024), "translated"),
        (steps(1_025), "refused 7 at 0"),
        (format!("{}b", steps(1_025)), "refused 3 at 4101"),
        (format!("{}b ?", steps(1_025)), "refused 2 at 4102"),
    ];
    check(|source| translated(source), &rows);
}

#[test]
fn the_bound_of_32768_step_text_bytes() {
    let sets = |last: usize| long_sets(7) + &last_set(last);
    let last = 32_768 - 7 * 4_100 - 5;
    // A link has 6 bytes here; in a vector the path is there once, for all the strings.
    let links = "a a;".repeat(10);
    let long = "s".repeat(4_095);
    let vector = format!("a[\"{long}\",\"{long}\"];");
    let mixed = |last: usize| format!("{links}{vector}{}{}", long_sets(5), last_set(last));
    let last_of_mixed = 32_768 - 10 * 6 - (3 + 2 * 4_097) - 5 * 4_100 - 5;
    let rows = [
        (sets(last), "translated"),
        (sets(last + 1), "refused 7 at 0"),
        (mixed(last_of_mixed), "translated"),
        (mixed(last_of_mixed + 1), "refused 7 at 0"),
    ];
    check(|source| translated(source), &rows);
}

#[test]
fn comments_and_white_space() {
    let rows = [
        ("a// 1;\r 2;\n3;", "translated"),
        ("a/*/ 1;", "refused 2 at 1"),
        ("a/*/*/1;", "translated"),
        ("a/**/1;//", "translated"),
        ("\t\r\n\x0c a\x0c1;", "translated"),
        ("a\x0b1;", "refused 2 at 1"),
        ("a\x001;", "refused 2 at 1"),
        ("\u{feff}a 1;", "refused 2 at 0"),
        ("a /1;", "refused 2 at 2"),
        ("a 1 // end", "refused 3 at 10"),
        ("a 1; // \u{feff}\0 end", "translated"),
    ];
    check(|source| translated(source), &rows);
}

#[test]
fn strings_and_their_escapes() {
    let source = br#"a "\n\t\b\r\f\\\"\'\000\101\377";"#;
    let list = translate(source).unwrap();
    let decoded = decode_steps(&list).unwrap();
    let bytes = b"\n\t\x08\r\x0c\\\"'\x00A\xff".to_vec();
    assert!(matches!(&decoded[..], [Step::Set { value, .. }] if *value == Basic::String(bytes)));
    let wrong: [&[u8]; 12] = [
        br#""\400""#,
        br#""\08""#,
        br#""\07""#,
        br#""\0""#,
        br#""\x41""#,
        br#""\N""#,
        br#""\"#,
        br#""\""#,
        br#"""#,
        b"\"\n\"",
        b"\"\r\"",
        b"\"\\\n\"",
    ];
    for string in wrong {
        assert_eq!(translated([b"a ", string, b";"].concat()), "refused 2 at 2");
    }
    for plain in [&b""[..], b"\x00\t\x7f", b"\xff\xfe", b"// /* ' {"] {
        assert_eq!(translated([b"a \"", plain, b"\";"].concat()), "translated");
    }
    let escaped = |count: usize| format!("a \"{}\";", "\\377".repeat(count));
    assert_eq!(translated(escaped(4_095)), "translated");
    assert_eq!(translated(escaped(4_096)), "refused 6 at 2");
}

#[test]
fn tokens_need_no_gap_where_they_cannot_run_together() {
    let rows = [
        ("a\"x\";a[1];b extends{}", "translated"),
        ("a-1;", "refused 3 at 3"),
        ("a -1;", "translated"),
        ("a : b\n:/**/c 1;", "translated"),
        ("a DATA b :c;", "translated"),
        ("a[-1,1.5,\"\",[],DATA b:c];", "translated"),
    ];
    check(|source| translated(source), &rows);
}

#[test]
fn semicolons_commas_and_prototypes() {
    let rows = [
        ("a extends {};", "refused 3 at 12"),
        ("a extends b", "refused 3 at 11"),
        ("a extends b;", "translated"),
        ("a extends {}, {}, b, {} b 1;", "translated"),
        ("a extends {}, b 1;", "refused 3 at 16"),
        ("a extends {},;", "refused 3 at 13"),
        ("a extends ;", "refused 3 at 10"),
        ("a extends NULL;", "refused 3 at 10"),
        ("a extends [];", "refused 3 at 10"),
        ("a [1,];", "refused 3 at 5"),
        ("a [,1];", "refused 3 at 3"),
        ("a [1 2];", "refused 3 at 5"),
        ("a [b];", "refused 3 at 3"),
        ("a [{}];", "refused 3 at 3"),
        ("a [1;", "refused 3 at 4"),
        ("a;", "refused 3 at 1"),
        ("a", "refused 3 at 1"),
        ("a: 1;", "refused 3 at 3"),
        (":a 1;", "refused 3 at 0"),
        (";", "refused 3 at 0"),
        ("}", "refused 3 at 0"),
        ("a extends { b 1; ", "refused 3 at 17"),
        ("a DATA;", "refused 3 at 6"),
        ("a DATA 1;", "refused 3 at 7"),
        ("a 1", "refused 3 at 3"),
    ];
    check(|source| translated(source), &rows);
}

#[test]
fn what_is_closed_no_longer_counts_as_open() {
    let blocks = "a extends {}".repeat(40);
    let vectors = "a [[],[]];".repeat(40);
    let rows = [
        (blocks, "translated"),
        (vectors, "translated"),
        (
            format!("a extends {{}} b {}", "[".repeat(33)),
            "refused 5 at 47",
        ),
        (format!("a []; b {}", "[".repeat(33)), "refused 5 at 40"),
    ];
    check(|source| translated(source), &rows);
}

#[test]
fn a_full_description() {
    let padded = |end: &str| format!("{}{end}", " ".repeat(32_768 - end.len()));
    assert_eq!(translated(padded("a 1;")), "translated");
    assert_eq!(translated(padded("a 1")), "refused 3 at 32768");
    assert_eq!(translated(padded("a 1;") + "\n"), "refused 1 at 0");
}

#[test]
fn an_empty_list_gives_the_table_back() {
    let list = translate(b" // nothing\n").unwrap();
    assert_eq!(list.len(), 24);
    let table = translate(b"b 1; a extends { c [1]; }").and_then(|list| run(&list, &EMPTY_TABLE));
    let table = table.unwrap();
    assert_eq!(run(&list, &table), Ok(table));
}

#[test]
fn names_of_the_starting_table_stay_where_they_are() {
    let table =
        translate(b"sfConfig extends { old 1; } b 2;").and_then(|list| run(&list, &EMPTY_TABLE));
    let list = translate(b"a b; sfConfig extends { x b; } b 3;").unwrap();
    let whole = run(&list, &table.unwrap());
    assert_eq!(show_answer(whole), "sfConfig { x 2; } b 3; a 2;");
}

#[test]
fn bounds_are_measured_after_each_put_of_a_take() {
    // The second put of the take would shrink the store again; the first is over already.
    let vector = |count: usize| format!("[{}]", vec!["1"; count].join(","));
    let source = |own: usize| {
        format!(
            "p extends {{ x {}; y 1; }} a extends {{ y {}; }}, p;",
            vector(400),
            vector(own)
        )
    };
    // p, x and 400, y, a, then x and 400 beside y and its own: 805 and y's 1 + own.
    assert!(!whole_of(source(218)).starts_with("refused"));
    let over = source(219);
    assert_eq!(whole_of(&over), format!("refused 17 at {}", over.len() - 2));
}

#[test]
fn text_is_measured_to_the_byte() {
    // Names a to d have 2 bytes each, strings 2 and their length.
    let source = |last: usize| {
        let long = "s".repeat(4_095);
        format!("a \"{long}\"; b a; c a; d \"{}\";", "s".repeat(last))
    };
    let last = 16_384 - 3 * 4_099 - 4;
    assert!(!whole_of(source(last)).starts_with("refused"));
    let place = source(0).find("d \"").unwrap();
    assert_eq!(whole_of(source(last + 1)), format!("refused 18 at {place}"));
}
