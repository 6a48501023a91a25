//! Short slices, and lists and tables that are not well-formed: 8, 9, 10 and their order.

use super::{list_of, over, table_of, Trial, SMALLEST};
use crate::layout_steps::encode_steps;
use crate::layout_table::encode_table;
use crate::steps::Step;
use crate::store::{Basic, Name, Store, Value};

pub fn trials() -> Vec<Trial> {
    let mut trials = short();
    trials.extend(lists());
    trials.extend(tables());
    trials.extend(both());
    trials
}

/// A slice of the list or table at a place is replaced.
type Patch = (&'static str, usize, &'static [u8]);

fn patched(bytes: &[u8], at: usize, new: &[u8]) -> Vec<u8> {
    let mut bytes = bytes.to_vec();
    bytes[at..at + new.len()].copy_from_slice(new);
    bytes
}

fn short() -> Vec<Trial> {
    let rows: [(&str, [usize; 3]); 9] = [
        ("the smallest slices", SMALLEST),
        ("8 output of 32,791", [32_791, 65_536, 65_536]),
        ("8 no output", [0, 65_536, 65_536]),
        ("8 first work slice of 65,535", [32_792, 65_535, 65_536]),
        ("8 no first work slice", [32_792, 0, 65_536]),
        ("8 second work slice of 65,535", [32_792, 65_536, 65_535]),
        ("8 no second work slice", [32_792, 65_536, 0]),
        ("8 each slice one short", [32_791, 65_535, 65_535]),
        ("8 no slices", [0, 0, 0]),
    ];
    let mut trials: Vec<Trial> = rows
        .into_iter()
        .map(|(name, lent)| Trial {
            lent,
            ..over(name, "x 1;", "y x;")
        })
        .collect();
    let mut refused = over("the smallest slices, refused", "x 1;", "y x; z y1;");
    refused.lent = SMALLEST;
    trials.push(refused);
    for (name, list, table) in [
        ("8 before 9", Vec::new(), table_of("x 1;")),
        ("8 before 10", list_of("y x;"), Vec::new()),
        ("8 before 9 and 10", vec![1], vec![2]),
    ] {
        let lent = [32_792, 65_536, 65_535];
        trials.push(Trial {
            lent,
            ..Trial::new(name, list, table)
        });
    }
    trials
}

/// `y x;` is a header, one record from 24, and from 44 the two paths `1 1 y` and `1 1 x`.
const LINK: &str = "y x;";
const LINK_PATCHES: [Patch; 21] = [
    ("9 form of a table", 0, &[2]),
    ("9 total length one more", 4, &[51]),
    ("9 count 2", 8, &[2]),
    ("9 record offset 25", 12, &[25]),
    ("9 text length one less", 16, &[5]),
    ("9 text offset one less", 20, &[43]),
    ("9 header of 65,536 records", 10, &[1]),
    ("9 step 0", 24, &[0]),
    ("9 step 9", 24, &[9]),
    ("9 an item that no vector holds", 24, &[7, 0, 3]),
    ("9 a link with a kind", 26, &[3]),
    ("9 a path one further", 28, &[1]),
    ("9 a link with a span", 30, &[1]),
    ("9 two paths share their text", 32, &[0]),
    ("9 a path beyond the text", 32, &[6]),
    ("9 place 32,768", 40, &[0, 128]),
    ("9 a path of no names", 44, &[0]),
    ("9 a path of 33 names", 44, &[33]),
    ("9 a name of no bytes", 45, &[0]),
    ("9 a name that begins with a digit", 46, b"1"),
    ("9 a name with a space", 46, b" "),
];

fn lists() -> Vec<Trial> {
    let table = || table_of("x 1; b extends { y 2; }");
    let link = list_of(LINK);
    let row = |name: &str, list: Vec<u8>| Trial::new(name, list, table());
    let mut trials: Vec<Trial> = LINK_PATCHES
        .iter()
        .map(|(name, at, new)| row(name, patched(&link, *at, new)))
        .collect();
    // Records of `a extends b;`: make from 24, take from 44, done from 64; the text from 84.
    let take = list_of("a extends b;");
    let block = list_of("a extends { t 1; }");
    let vector = list_of("v [[1], 2];");
    trials.extend([
        row("9 no bytes", Vec::new()),
        row("9 a byte too few", link[..link.len() - 1].to_vec()),
        row("9 a byte too many", [&link[..], &[0]].concat()),
        row(
            "a place of 32,767 is told",
            patched(&list_of("y z;"), 40, &[255, 127]),
        ),
        row("9 a leave for a done", patched(&take, 64, &[4])),
        row("9 a done for a take", patched(&take, 44, &[5])),
        row("9 a place in a done", patched(&take, 80, &[1])),
        row("9 a value in a take", patched(&take, 52, &[1])),
        row("9 a make is not done", patched(&block, 104, &[4])),
        row("9 a block is not left", patched(&block, 84, &[5])),
        row("9 a set of kind 0", patched(&block, 66, &[0])),
        row("9 a set of span 2", patched(&block, 70, &[2])),
        row("9 a boolean of 2", patched(&list_of("x true;"), 32, &[2])),
        row("9 a null of 1", patched(&list_of("x NULL;"), 32, &[1])),
        row(
            "9 a decimal without digits",
            patched(&list_of("x 1.5;"), 51, b"x"),
        ),
        row(
            "9 a decimal that is an integer",
            patched(&list_of("x 1.5;"), 50, b"0"),
        ),
        row("9 a vector's span one less", patched(&vector, 30, &[3])),
        row("9 a vector's span one more", patched(&vector, 30, &[5])),
        row(
            "an inner vector that holds one element more",
            patched(&vector, 50, &[3]),
        ),
        row("9 an item with a place", patched(&vector, 60, &[1])),
        row("9 a reserved word as a name", reserved_target()),
        row("9 33 enters", encode_steps(&blocks(33))),
        row("32 enters", encode_steps(&blocks(32))),
        row("9 33 vectors", encode_steps(&[vectors(33)])),
        row("32 vectors", encode_steps(&[vectors(32)])),
        row(
            "9 1,025 steps",
            encode_steps(&vec![set("x", Basic::Null); 1_025]),
        ),
        row(
            "1,024 steps",
            encode_steps(&vec![set("x", Basic::Null); 1_024]),
        ),
        row(
            "9 a string of 4,096",
            encode_steps(&[set("x", Basic::String(vec![b'a'; 4_096]))]),
        ),
        row(
            "a string of 4,095",
            encode_steps(&[set("x", Basic::String(vec![b'a'; 4_095]))]),
        ),
    ]);
    trials
}

fn set(name: &str, value: Basic) -> Step {
    Step::Set {
        target: vec![name.as_bytes().to_vec()],
        value,
        place: 0,
    }
}

fn reserved_target() -> Vec<u8> {
    encode_steps(&[set("x", Basic::Null), set("true", Basic::Null)])
}

/// So many blocks, one inside the other.
fn blocks(depth: usize) -> Vec<Step> {
    let make = || Step::Make {
        target: vec![b"c".to_vec()],
        place: 0,
    };
    let opened = (0..depth).flat_map(|_| [make(), Step::Enter]);
    let closed = (0..depth).flat_map(|_| [Step::Leave, Step::Done]);
    opened.chain(closed).collect()
}

/// A set of so many vectors, one inside the other.
fn vectors(depth: usize) -> Step {
    let innermost = Basic::Vector(Vec::new());
    set(
        "x",
        (1..depth).fold(innermost, |inner, _| Basic::Vector(vec![inner])),
    )
}

/// `x 1; c extends { y "s"; v [true, 1.5]; }`: records from 24, 40, 56, 72, 88, 104, the text from 120:
/// `1 x`, `1 c`, `1 y`, `1 0 s`, `1 v`, `3 0 1 . 5`.
const HELD: &str = "x 1; c extends { y \"s\"; v [true, 1.5]; }";
const TABLE_PATCHES: [Patch; 27] = [
    ("10 form of a step list", 0, &[1]),
    ("10 total length one less", 4, &[135]),
    ("10 count one less", 8, &[5]),
    ("10 record offset 0", 12, &[0]),
    ("10 text length one more", 16, &[17]),
    ("10 text offset one more", 20, &[121]),
    ("10 a kind of 8", 24, &[8]),
    ("10 a root attribute at depth 2", 26, &[2]),
    ("10 a root attribute at depth 0", 26, &[0]),
    ("10 a name one further", 28, &[1]),
    ("10 a name shared", 44, &[0]),
    ("10 an attribute without a name", 44, &[255, 255]),
    ("10 a number of span 2", 30, &[2]),
    ("10 a component of span 0", 46, &[0]),
    ("10 a component of one span less", 46, &[4]),
    ("10 a component of one span more", 46, &[6]),
    ("10 a component with a value", 48, &[1]),
    ("10 a component that is a vector", 40, &[7]),
    ("10 a child at its holder's depth", 58, &[1]),
    ("10 a vector with a value", 80, &[1]),
    ("10 a vector that is a component", 72, &[0]),
    ("10 an element with a name", 92, &[9, 0]),
    ("10 an element at its vector's depth", 90, &[2]),
    ("10 a boolean of 2", 96, &[2]),
    ("10 a string longer than the text", 126, &[200]),
    ("10 a decimal with a letter", 133, b"a"),
    ("10 a name with a colon", 123, b":"),
];

fn tables() -> Vec<Trial> {
    let list = || list_of("z x;");
    let held = table_of(HELD);
    let row = |name: &str, table: Vec<u8>| Trial::new(name, list(), table);
    let mut trials: Vec<Trial> = TABLE_PATCHES
        .iter()
        .map(|(name, at, new)| row(name, patched(&held, *at, new)))
        .collect();
    trials.extend([
        row("the table as it was", held.clone()),
        row("10 no bytes", Vec::new()),
        row("10 a header alone", held[..24].to_vec()),
        row("10 a byte too few", held[..held.len() - 1].to_vec()),
        row("10 a byte too many", [&held[..], &[0]].concat()),
        row("10 a name twice", patched(&table_of("x 1; y 2;"), 59, b"x")),
        row("10 a name twice, a component between", twice_apart()),
        row(
            "one name in two components",
            table_of("x 1; c extends { x 2; d extends { x 3; } }"),
        ),
        row(
            "10 a reserved word as a name",
            held_as("true", Value::Basic(Basic::Null)),
        ),
        row("10 depth 33", encode_table(&deep(33))),
        row("depth 32 of an empty one", encode_table(&deep(32))),
        row("10 1,025 nodes", held_as("v", nulls(1_024))),
        row("10 text of 16,385", encode_table(&long(4_093))),
        row(
            "text of 16,384, refused by its step",
            encode_table(&long(4_092)),
        ),
        row(
            "10 a string of 4,096",
            held_as("s", Value::Basic(Basic::String(vec![b'a'; 4_096]))),
        ),
    ]);
    trials
}

fn held_as(name: &str, value: Value) -> Vec<u8> {
    let mut store = Store::default();
    store.put(b"x", Value::Basic(Basic::Null));
    store.put(name.as_bytes(), value);
    encode_table(&store)
}

fn nulls(count: usize) -> Value {
    Value::Basic(Basic::Vector(vec![Basic::Null; count]))
}

/// Written past `put`, which would overwrite.
fn twice_apart() -> Vec<u8> {
    let name = |byte: u8| -> Name { vec![byte] };
    let inner = Store {
        attributes: vec![(name(b'y'), nulls(2))],
    };
    encode_table(&Store {
        attributes: vec![
            (name(b'x'), nulls(1)),
            (name(b'c'), Value::Component(inner)),
            (name(b'x'), nulls(0)),
        ],
    })
}

fn deep(depth: usize) -> Store {
    (0..depth).fold(Store::default(), |inner, _| {
        let mut outer = Store::default();
        outer.put(b"x", Value::Component(inner));
        outer
    })
}

/// Four strings, of 4,092 bytes but for the last.
fn long(last: usize) -> Store {
    let mut store = Store::default();
    for (name, length) in [(b"a", 4_092), (b"b", 4_092), (b"x", 4_092), (b"d", last)] {
        store.put(name, Value::Basic(Basic::String(vec![b's'; length])));
    }
    store
}

fn both() -> Vec<Trial> {
    let list = patched(&list_of("z x;"), 0, &[2]);
    let table = patched(&table_of(HELD), 0, &[1]);
    vec![
        Trial::new("9 before 10", list.clone(), table.clone()),
        Trial::new("9 before 10, no bytes", Vec::new(), Vec::new()),
        Trial::new("9, the two changed places", table_of(HELD), list_of("z x;")),
        Trial::new("10 before a step's refusal", list_of("z nothing;"), table),
    ]
}
