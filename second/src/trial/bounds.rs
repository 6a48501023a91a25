//! Tables at their bounds, where each single put counts and overwritten nodes cost nothing.

use super::{list_of, Trial};
use crate::layout_table::encode_table;
use crate::limits::{LONG_TEXT_BYTES, NODES, TABLE_TEXT_BYTES};
use crate::store::{measure, Basic, Store, Value};

pub fn trials() -> Vec<Trial> {
    let parts = [nodes(), text(), depth(), order()];
    parts.into_iter().flatten().collect()
}

fn nodes() -> Vec<Trial> {
    let full = || with_nodes(NODES, one());
    let proto = "p extends { x [1, 2, 3, 4]; y 1; }";
    let turned = "p extends { y 1; x [1, 2, 3, 4]; }";
    let take = "c extends { y [1, 2, 3, 4]; }, p;";
    vec![
        at(
            "nodes 1,023 and one more",
            with_nodes(NODES - 1, one()),
            "b 1;",
        ),
        at("nodes 1,024 and one more", full(), "  b 1;"),
        at("nodes 1,024 and an overwrite", full(), "a 2;"),
        at(
            "nodes 1,024 and an overwrite by an empty component",
            full(),
            "a extends {}",
        ),
        at(
            "nodes 1,024 and an overwrite by a vector of one",
            full(),
            "a 3; a [1];",
        ),
        at("nodes: a later put would make room", full(), "a [1]; v 1;"),
        at(
            "nodes: a put before makes room",
            full(),
            "v 1; a [1, 2]; b [3];",
        ),
        at(
            "nodes: a make makes room",
            full(),
            "v extends { a [1, 2]; b a; } c v;",
        ),
        at(
            "nodes: a link to a vector that just fits",
            with_nodes(NODES - 4, store("w [1, 2, 3];")),
            "z w;",
        ),
        at(
            "nodes: a link to a vector that does not fit",
            with_nodes(NODES - 3, store("w [1, 2, 3];")),
            "z   w;",
        ),
        at(
            "nodes: a link over a vector of its size",
            with_nodes(NODES, store("w [1, 2]; u [[3]];")),
            "u w; w u;",
        ),
        at(
            "nodes: a longer vector over a shorter",
            with_nodes(NODES, store("w [1, 2, 3];")),
            "w v;",
        ),
        at(
            "nodes: a shorter vector over a longer",
            with_nodes(NODES, store("w [1, 2, 3];")),
            "v w; x v; y v;",
        ),
        // Before the take 1,020 or 1,019; the take's first put adds 5, its second removes 4.
        at(
            "nodes: a take refused by a passing excess",
            with_nodes(NODES - 10, store(proto)),
            take,
        ),
        at(
            "nodes: a take that passes at 1,024",
            with_nodes(NODES - 11, store(proto)),
            take,
        ),
        at(
            "nodes: a take whose first put makes room",
            with_nodes(NODES - 7, store(turned)),
            take,
        ),
        at(
            "nodes: a take whose last put does not fit",
            with_nodes(NODES - 6, store(turned)),
            take,
        ),
        at(
            "nodes: a take of itself inside",
            with_nodes(NODES - 4, store("c extends { x 1; y 2; }")),
            "c:c extends c;",
        ),
        at(
            "nodes: a take of itself inside, one too many",
            with_nodes(NODES - 3, store("c extends { x 1; y 2; }")),
            "c:c extends c;",
        ),
    ]
}

fn text() -> Vec<Trial> {
    let full = || with_text(TABLE_TEXT_BYTES, store("d \"0123456789\";"));
    let long = "s".repeat(1_000);
    let proto = format!("p extends {{ x \"{long}\"; y 1; }}");
    let turned = format!("p extends {{ y 1; x \"{long}\"; }}");
    let take = format!("q extends {{ y \"{long}\"; }}, p;");
    vec![
        at(
            "text 16,382 and a name of one byte",
            with_text(TABLE_TEXT_BYTES - 2, one()),
            "b 1;",
        ),
        at(
            "text 16,383 and a name of one byte",
            with_text(TABLE_TEXT_BYTES - 1, one()),
            " b 1;",
        ),
        at(
            "text 16,384 and an overwrite of its length",
            full(),
            "d \"9876543210\";",
        ),
        at(
            "text 16,384 and one byte more",
            full(),
            "d \"\"; d \"01234567890\";",
        ),
        at("text 16,384 and a decimal", full(), "d 1.25; e 1.2;"),
        at(
            "text 16,384 and a data reference",
            full(),
            "d DATA abcd:efgh; x 1;",
        ),
        at("text: a later put would make room", full(), "e 1; d \"\";"),
        at(
            "text: a put before makes room",
            full(),
            "d \"\"; e 1; f [\"a\", \"b\"];",
        ),
        at(
            "text: a make makes room",
            full(),
            "d extends { e \"01234567\"; }",
        ),
        at(
            "text: a link that just fits",
            with_text(TABLE_TEXT_BYTES - 14, store("d \"0123456789\";")),
            "e d;",
        ),
        at(
            "text: a link that does not fit",
            with_text(TABLE_TEXT_BYTES - 13, store("d \"0123456789\";")),
            "e d;",
        ),
        at(
            "text: a link over a longer one",
            full(),
            "t0 d; e t0; f t0;",
        ),
        // The take's first put adds 1,004, its second removes 1,002.
        at(
            "text: a take refused by a passing excess",
            with_text(TABLE_TEXT_BYTES - 2_009, store(&proto)),
            &take,
        ),
        at(
            "text: a take that passes at 16,384",
            with_text(TABLE_TEXT_BYTES - 2_010, store(&proto)),
            &take,
        ),
        at(
            "text: a take whose first put makes room",
            with_text(TABLE_TEXT_BYTES - 1_008, store(&turned)),
            &take,
        ),
        at(
            "text: a take whose last put does not fit",
            with_text(TABLE_TEXT_BYTES - 1_007, store(&turned)),
            &take,
        ),
        at(
            "text: a name of 255 bytes",
            with_text(TABLE_TEXT_BYTES - 256, one()),
            &format!("{} 1;", "n".repeat(255)),
        ),
        at(
            "text: a name of 255 bytes, one too many",
            with_text(TABLE_TEXT_BYTES - 255, one()),
            &format!("{} 1;", "n".repeat(255)),
        ),
    ]
}

fn depth() -> Vec<Trial> {
    let deep = || nested(31, store("x 1; p extends {}"));
    let here = "d:".repeat(31);
    let above = "d:".repeat(30);
    let row = |name: &str, description: &str| at(name, deep(), description);
    vec![
        row(
            "depth 32 and an overwrite",
            &format!("{here}x 2; {here}y 3;"),
        ),
        row(
            "depth 32 and an empty vector",
            &format!("{here}x []; {here}y [];"),
        ),
        row(
            "depth 32 and an element",
            &format!("{here}x []; {here}x [1];"),
        ),
        row(
            "depth: a later put would make room",
            &format!("{here}x [1]; d 1;"),
        ),
        row(
            "depth: a put before makes room",
            "d extends { a [[[1]]]; } e d;",
        ),
        row(
            "depth 32 and a component",
            &format!("{here}x extends {{}} {here}z extends {{}}"),
        ),
        row(
            "depth 33 by a link",
            &format!("{above}y d; {here}x {here}p; l d; "),
        ),
        row(
            "depth 32 by a link",
            &format!("{here}y {here}p; {above}y {here}x; l d:d; "),
        ),
        row(
            "depth 32 by a take",
            &format!("q extends {{ a extends {{ b 1; }} c 2; }} {above}m extends {{}}, q:a;"),
        ),
        row(
            "depth 33 by a take",
            &format!("q extends {{ c 2; a extends {{ b 1; }} }} {above}m extends q;"),
        ),
        row("depth 33 by a whole", "e extends { d d; }"),
        row("depth 32 by a whole", "e d; d extends { d e:d; }"),
    ]
}

/// More than one bound at once: 16, then 17, then 18.
fn order() -> Vec<Trial> {
    let here = "d:".repeat(31);
    let filled = || {
        let mut start = nested(31, store("x 1;"));
        put_vector(&mut start, b"w", 0);
        let mut full = with_text(TABLE_TEXT_BYTES, start);
        let missing = NODES - measure(&full).nodes;
        put_vector(&mut full, b"w", missing);
        full
    };
    vec![
        at(
            "16 before 17 and 18",
            filled(),
            &format!("{here}x [\"a\"];"),
        ),
        at("16 before 17", filled(), &format!("{here}x [1];")),
        at("17 before 18", filled(), "t0 [\"a\"]; y [\"a\"];"),
        at("18 alone", filled(), &format!("{here}x \"a\";")),
        at("at every bound", filled(), &format!("{here}x 2;")),
    ]
}

fn at(name: &str, store: Store, description: &str) -> Trial {
    Trial::new(name, list_of(description), encode_table(&store))
}

fn one() -> Store {
    store("a 1;")
}

fn store(description: &str) -> Store {
    let table = super::table_of(description);
    crate::layout_table::decode_table(&table).expect("a case's starting table is one")
}

/// The store under so many components.
fn nested(components: usize, store: Store) -> Store {
    (0..components).fold(store, |inner, _| {
        let mut outer = Store::default();
        outer.put(b"d", Value::Component(inner));
        outer
    })
}

/// The store with a vector `v` behind it, so that it has so many nodes in all.
fn with_nodes(nodes: usize, mut store: Store) -> Store {
    let missing = nodes - measure(&store).nodes;
    put_vector(&mut store, b"v", missing - 1);
    store
}

/// A vector costs no text but its name, however many elements it has.
fn put_vector(store: &mut Store, name: &[u8], elements: usize) {
    let elements = vec![Basic::Boolean(true); elements];
    store.put(name, Value::Basic(Basic::Vector(elements)));
}

/// The store with strings `t0`, `t1` and on behind it, so that it has so many text bytes in all.
fn with_text(text: usize, mut store: Store) -> Store {
    let mut missing = text - measure(&store).text;
    let mut number = 0;
    while missing > 0 {
        let length = (missing - 5).min(LONG_TEXT_BYTES - 100);
        store.put(
            format!("t{number}").as_bytes(),
            Value::Basic(Basic::String(vec![b's'; length])),
        );
        missing -= length + 5;
        number += 1;
    }
    store
}
