//! The figures of document 002 that are core language, with their missing semicolons.

mod common;

use common::{check, main_of, translated, whole_of};

const FIGURE_2: &str = r#"
Machine extends {
  dns "ns.foo";
}
Service extends {
  running true;
  port 80;
}
sfConfig extends {
  s1 extends Machine, {
    web extends Service;
  }
  s2 extends s1, {
    web:running false;
  }
  pc1 extends Machine, {
    refer DATA s1:web;
  }
  pc2 pc1;
}"#;

const FIGURE_3: &str = "s1 { dns \"ns.foo\"; web { running true; port 80; } } \
                        s2 { dns \"ns.foo\"; web { running false; port 80; } } \
                        pc1 { dns \"ns.foo\"; refer DATA s1:web; } \
                        pc2 { dns \"ns.foo\"; refer DATA s1:web; }";

#[test]
fn figures_2_and_3() {
    assert_eq!(main_of(FIGURE_2), FIGURE_3);
}

#[test]
fn the_vector_of_section_3_and_the_cycle_of_section_7() {
    let rows = [
        (
            "sfConfig extends {\n myvector [ true, 1, [ false, 0 ] ];\n}",
            "myvector [true, 1, [false, 0]];",
        ),
        ("sfConfig extends {\n  a extends sfConfig;\n}", "a { a {} }"),
    ];
    check(|source| main_of(source), &rows);
}

const FIGURE_6: &str = "sfConfig:server extends { port 1234; } \
                        sfConfig extends { client extends { } client:port server:port; }";
const FIGURE_7: &str = "sfConfig extends {\n  a b;\n  b 1;\n  c a;\n}";
const FIGURE_8: &str = "sfConfig extends {\n  comp1 extends {\n    comp2 comp1;\n  }\n}";
const FIGURE_9: &str = "sfConfig extends {\n a:b extends {\n c 2;\n }\n a extends {\n b 1;\n }\n}";

#[test]
fn figures_6_to_9_forward_references() {
    let rows = [
        (FIGURE_6, "refused 14 at 0"),
        (FIGURE_7, "refused 11 at 23"),
        // The component is empty when the link is looked at, so nothing runs on for ever.
        (FIGURE_8, "comp1 { comp2 {} }"),
        (FIGURE_9, "refused 14 at 20"),
    ];
    check(|source| main_of(source), &rows);
}

#[test]
fn figure_10_overwriting_a_component() {
    let source = "sfConfig extends { a extends { b extends { c 1; } } a:b:c 3; a 1; }";
    let without_last = source.replace("a 1; }", "}");
    assert_eq!(main_of(source), "a 1;");
    assert_eq!(main_of(without_last), "a { b { c 3; } }");
}

#[test]
fn figures_11_and_12_inheritance_is_shallow() {
    let source = "p1 extends { q1 1; q2 2; q4 extends { a 1; b 2; } } \
                  sfConfig extends { p2 extends p1, { q1 2; q3 3; q4 extends { b 3; c 4; } } }";
    assert_eq!(main_of(source), "p2 { q1 2; q2 2; q4 { b 3; c 4; } q3 3; }");
}

#[test]
fn figures_13_to_18_the_order_is_the_prototype_s() {
    let old =
        r#"default extends { public "-p ${PUB_PORT} DENY"; private "-p ${PRIV_PORT} DENY"; }"#;
    let new = r#"default extends { private "-s ${DEV_NET} ALLOW"; public "-p ${PUB_PORT} DENY"; }"#;
    let test_server = r#"sfConfig extends default, {
        public "-p ${PUB_PORT} DENY"; private "-s ${DEV_NET} ALLOW"; }"#;
    let production = r#"sfConfig extends default, { public "-p ${PUB_PORT} ALLOW"; }"#;
    let rows = [
        (
            format!("{old}{production}"),
            r#"public "-p ${PUB_PORT} ALLOW"; private "-p ${PRIV_PORT} DENY";"#,
        ),
        (
            format!("{old}{test_server}"),
            r#"public "-p ${PUB_PORT} DENY"; private "-s ${DEV_NET} ALLOW";"#,
        ),
        (
            format!("{new}{test_server}"),
            r#"private "-s ${DEV_NET} ALLOW"; public "-p ${PUB_PORT} DENY";"#,
        ),
    ];
    check(|source| main_of(source), &rows);
}

const APPENDIX_B_SYNTAX: &str = r#"/*
 * syntactic features
 */
blob 34 ; a:b NULL; x23 "stuff"; _boolvar false;
p extends { q 2; } proto extends p:q;
myref DATA x:y:zzz;
v [true,95,[1,2],"foo"]; // eol comment"#;

#[test]
fn appendix_b_syntactic_features() {
    assert_eq!(translated(APPENDIX_B_SYNTAX), "translated");
    let target = APPENDIX_B_SYNTAX.find("a:b").unwrap();
    assert_eq!(
        whole_of(APPENDIX_B_SYNTAX),
        format!("refused 14 at {target}")
    );
    // With what it lacks put in front it fails next at the prototype, which is no component.
    let with_a = format!("a extends {{}} {APPENDIX_B_SYNTAX}");
    let prototype = with_a.find("p:q;").unwrap();
    assert_eq!(whole_of(&with_a), format!("refused 13 at {prototype}"));
    let mended = with_a.replace("q 2;", "q extends { }");
    assert_eq!(
        whole_of(mended),
        "a { b NULL; } blob 34; x23 \"stuff\"; _boolvar false; p { q {} } proto {} \
         myref DATA x:y:zzz; v [true, 95, [1, 2], \"foo\"];"
    );
}

#[test]
fn appendix_b_references() {
    let source = "// a test for references
        sfConfig extends {
            A extends {
                A extends {}
                B 11;
                A:X extends { C 22; }
                D 33;
            }
        }";
    assert_eq!(main_of(source), "A { A { X { C 22; } } B 11; D 33; }");
}

const APPENDIX_C: &str = r#"e extends {
  g 1234;
  e:g e:g;
  h e:g;
}
q e:g;
m false;
b extends {
  d e:g;
}, {
  b b:d;
  e:h DATA h;
  r "string";
}
g extends {}
e:g e:h;
e extends {}
b extends {
  x "noref";
  b:x extends {
    s extends { j 1234; }
    v extends {
      r extends {
        r b:x:v:r;
      }, {
        a extends { d extends { b true; } }
        h b:x:v;
        y 1234;
      }
      f extends b:x:v:r:a:d,
                b:x:v:r:h;
    }
  }
}"#;

#[test]
fn appendix_c_needs_targets_to_be_searched_for() {
    assert_eq!(translated(APPENDIX_C), "translated");
    // `e:g` in e would have to be the root's e; the target is never searched for.
    let reference = APPENDIX_C.find("e:g;").unwrap();
    assert_eq!(whole_of(APPENDIX_C), format!("refused 14 at {reference}"));
}

#[test]
fn appendix_c_with_targets_that_are_there() {
    let mended = APPENDIX_C
        .replace("  e:g e:g;\n", "  e extends {} e:g e:g;\n")
        .replace("  e:h DATA h;", "  e extends {} e:h DATA h;")
        .replace("  b:x extends {", "  b extends {} b:x extends {");
    // The inner e is empty when its own g is looked for, so the link finds the outer one.
    let whole = "e {} q 1234; m false; \
        b { x \"noref\"; b { x { s { j 1234; } v { \
        r { r {} a { d { b true; } } h { r { r {} a { d { b true; } } } } y 1234; } \
        f { b true; r { r {} a { d { b true; } } } } } } } } g {}";
    assert_eq!(whole_of(mended), whole);
}
