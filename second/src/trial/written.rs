//! Cases written as two descriptions: the one that made the table, and the one that is run.

use super::{over, Trial};

/// A table that holds sfConfig already, with names that the descriptions use too.
const STUDY: &str =
    "before 1; sfConfig extends { old \"kept?\"; x 7; a extends { y 5; } } after 2;";
/// The same with root names that stand in the way of a wrong scope.
const ROOTS: &str = "a extends { z 0; } p extends { p0 1; } b -1; \
    sfConfig extends { y 1; x 2; r extends { q 9; } } v NULL;";

/// Every kind of value, the extremes of integers, and bytes that no name has.
const KINDS: &str = r#"t true; f false; n NULL; least -9223372036854775808; most 9223372036854775807;
    minus -1; zero 0; d 1.50; e -0.5e-3; g 7E+10; s "plain"; empty ""; odd "\000\377\n\"\\\t";
    ref DATA a:b:c; one DATA x; v [1, -2.5, "s", DATA q:r, NULL, true, []]; w [[], [[]], [[1], [2, [3, "four"]]]];"#;

/// Document 01's descriptions, by its numbers.
pub const CHECKED: [(&str, &str); 11] = [
    ("2", "sfConfig extends { x 1; y 2; x 3; }"),
    ("3", "sfConfig extends { a extends sfConfig; }"),
    ("4", "a extends { x 1; } sfConfig extends { a extends a, { y 2; } }"),
    ("5", "a 1; sfConfig extends { a a; }"),
    ("6", "a extends { b 1; } sfConfig extends { a extends { c 2; } v a:b; }"),
    (
        "7",
        "p extends { q extends { a 1; b 2; } } sfConfig extends { r extends p, { q extends { b 3; } } }",
    ),
    ("8", "p extends { x 1; y 2; } sfConfig extends { a extends { y 9; }, p; }"),
    ("9", "sfConfig extends { x 1; a sfConfig; b sfConfig; }"),
    ("10", "sfConfig extends { a b; b 1; }"),
    ("11 first", "sfConfig extends { x:y 1; }"),
    ("11 second", "sfConfig extends { x 1; x:y 2; }"),
];

/// Name, the table's description, the description that is run.
const ROWS: [(&str, &str, &str); 60] = [
    ("description 14", "x 1;", "y x;"),
    ("no steps", "x 1; y [2];", ""),
    // What is kept.
    ("every kind kept", KINDS, "after 1;"),
    ("every kind linked", KINDS, "l1 t; l2 n; l3 least; l4 most; l5 d; l6 e; l7 s; l8 empty; l9 odd; l10 ref; l11 one; l12 v; l13 w; l14 minus;"),
    ("every kind overwritten", KINDS, "t 1; least \"x\"; e NULL; odd DATA a; v -5; w [[-1]];"),
    ("every kind taken", "p extends { t true; m -7; d -1.0e5; s \"a\\001b\"; r DATA x:y; v [[1], \"s\"]; c extends {} }", "q extends p, { m -8; }"),
    ("every kind from the list", "k 1;", KINDS),
    ("a string of 255 and more bytes", "s \"0123456789\";", "t \"0123456789012345678901234567890123456789012345678901234567890123456789012345678901234567890123456789012345678901234567890123456789012345678901234567890123456789012345678901234567890123456789012345678901234567890123456789012345678901234567890123456789012345678901234567\"; u t;"),
    // Names of both texts in one component.
    ("names of table and list", "c extends { from_table 1; both 2; last_table 3; }", "c:from_list 4; c:both 5; c:a 6;"),
    ("names of both, taken", "c extends { from_table 1; both 2; }", "d extends { from_list 3; both 4; }, c; e extends c, { from_list 5; }"),
    ("names of both, in turn", "a 1; c 3;", "b 2; a 4; d b; c a; e extends { a b; b a; c c; }"),
    ("names that begin alike", "ab 1; abc 2; a 3;", "a 4; abcd 5; ab 6; abc 7; x ab;"),
    ("names that differ in case", "smoker 1; Smoker 2;", "SMOKER 3; smoker 4; x Smoker;"),
    // Prototype and local block of one name.
    ("one name at the root", "a extends { x 1; y 2; }", "a extends a, { y 3; }"),
    ("one name, one level down", "a extends { x 1; } s extends { b 1; }", "s extends { a extends a, { y 2; } }"),
    ("one name, two levels down", "a extends { x 1; }", "s extends { t extends { a extends a, { y 2; } b extends a; } c extends a; }"),
    ("one name, at each level", "a extends { x 1; a extends { x 2; a extends { x 3; } } }", "a:a extends a, { a extends a, { x 9; } y 4; }"),
    ("one name, a target's path", "a extends { x 1; } s extends { a extends { y 2; } }", "s:a extends a, { z 3; }"),
    ("one name, a longer path", "a extends { x 1; } s extends { t extends { a extends { y 2; } } }", "s:t:a extends a; s:t:b extends s:t:a, a;"),
    ("one name, blocks below it", "p extends { q extends { a 1; b 2; c extends { d 3; } } }", "r extends p, { q extends { b 3; c extends c, { e 4; } } }"),
    ("one name, reached from inside", "q extends { x 1; } p extends { q extends { y 2; } }", "p:r extends { q extends q, { z q:x; } w q:z; }"),
    ("one name, prototype last", "p extends { x 1; y 2; }", "s extends { a extends { y 9; p 1; }, p; }"),
    ("one name, prototype twice", "p extends { x 1; y 2; }", "s extends p, { y 5; p extends p; }, p;"),
    ("whole references, not first names", "a extends { b 1; } s extends { a extends { c 2; } }", "s:v a:b; s:w s:a:c; s:u extends { a extends { c 3; } v a:b; }"),
    (
        "one name, whole and not merged",
        "p extends { q extends { a 1; b 2; } } r extends { q extends { b 3; } }",
        "s extends p, r; t extends r, p; u extends { q extends { z 1; } }, p; v extends p, { q extends {} }, r;",
    ),
    // Links.
    ("a link to a vector", "v [1, 2, 3];", "w v; v 1;"),
    ("a link to a nested vector", "c extends { v [[1, [2, \"s\"]], [], [NULL, [true, DATA a:b]]]; }", "c:w c:v; x c:v; c:v x;"),
    ("a vector over a vector", "v [1, 2, 3]; w [[4], 5];", "v w; w [6]; x v;"),
    ("a link to what holds the target", "c extends { x 1; d extends { y 2; } }", "c:d c;"),
    ("a link to what holds it, deeper", "c extends { x 1; d extends { e extends { y 2; } } }", "c:d:e c; c:d:f c:d;"),
    ("a link to itself", "a extends { b extends { c 1; } } z 1;", "a a; z z;"),
    ("a link to its own part", "a extends { b extends { c 1; } d 2; } z 1;", "a a:b; z a;"),
    ("a link to its own whole", "a extends { b extends { c 1; } d 2; } z 1;", "a:b:c a; a:b:c:b a:b;"),
    ("links in scopes", "x 1; s extends { x 2; t extends { y 3; } }", "s:a x; s:t extends { a x; x 4; b x; c s:x; } s:t:d x;"),
    ("links over tables grown by links", "s extends { x 1; }", "s:a s; s:b s; s:a:b s; s:c s:a:b;"),
    // Components with no attributes, and statements in blocks with paths.
    ("empty components", "c extends {} d extends { e extends {} }", "f c; g extends d; c extends {}, {} d:e extends c; h extends c, d;"),
    ("paths in blocks", "c extends { d extends { e extends {} } }", "c:d:e:x 1; c extends { d extends { e 1; } d:f 2; d:g extends { y 3; } d:g:z d:f; }"),
    ("an overwrite of a component", "c extends { d 1; } e 2; f 3;", "c 4; e extends { g c; } f e;"),
    ("an overwrite keeps its position", "a 1; b [2, 3]; c extends { d 4; } e 5;", "c 6; b 7; a extends { x 8; } e [9];"),
    // Each refusal at its place.
    ("11 a link finds nothing", "x 1;", "y x; z nothing;"),
    ("11 through a value that is no component", "x 1; v [1];", "y x;   z x:a;"),
    ("11 through a vector", "v [1, 2];", "z v:a;"),
    ("11 a link before its target", "c extends { a 1; }", "c extends { b a; }"),
    ("11 before 14", "x 1;", "  no:where nothing;"),
    ("11 before 15", "x 1;", "x:y nothing;"),
    ("12 a prototype finds nothing", "x 1;", "c extends x1;"),
    ("12 an emptied one has no part", "a extends { b extends {} }", "a extends a:b;"),
    ("12 after a block", "x extends { y 1; }", "c extends { z 1; }, x, x:z;"),
    ("13 a number is no component", "x 1;", "c extends { y 2; }, x;"),
    ("13 a vector is no component", "v [1];", "c extends v;"),
    ("13 a data reference is no component", "a extends { b 1; } d DATA a;", "c extends a, d;"),
    ("14 the first name is absent", "x 1;", "a:b:c 1;"),
    ("14 a later name is absent", "a extends { b extends {} }", "a:b:c 1; a:b:d:e:f 2;"),
    ("14 for a make, before 12", "x 1;", " a:b extends nothing;"),
    ("14 for a link", "x 1;", "a:b x;"),
    ("15 the first name is no component", "a 1;", "a:b:c 1;"),
    ("15 a later name is no component", "a extends { b [1]; }", "a:b:c 1;"),
    ("15 for a make", "a extends { b DATA a; }", "a:b:c extends {}"),
    ("15 for a link", "a NULL; x 1;", "x x; a:b   x;"),
    ("14 and 15, the first along the path", "a extends { b 1; }", "a:c:b:d 1; a:b:c:d 1;"),
];

pub fn trials() -> Vec<Trial> {
    let rows = ROWS
        .iter()
        .map(|(name, before, description)| over(name, before, description));
    let tables = [("a study", STUDY), ("roots", ROOTS)];
    let checked = tables.iter().flat_map(|(table, before)| {
        CHECKED.iter().map(move |(number, description)| {
            over(
                &format!("description {number} over {table}"),
                before,
                description,
            )
        })
    });
    rows.chain(checked).collect()
}
