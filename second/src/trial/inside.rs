//! Components that extend or link what they sit inside, down to depth 32 and one deeper.

use super::{over, Trial};

pub fn trials() -> Vec<Trial> {
    let held = "b 0; c extends { x 1; } z 2;";
    vec![
        over(
            "extends what it sits inside, to depth 32",
            held,
            &inner_takes(30),
        ),
        over(
            "extends what it sits inside, to depth 33",
            held,
            &inner_takes(31),
        ),
        over(
            "a make at depth 32",
            held,
            &format!("{} {}:d extends {{}}", inner_takes(30), path("c", 31)),
        ),
        over(
            "links what it sits inside, to depth 32",
            held,
            &"c:l c; ".repeat(30),
        ),
        over(
            "links what it sits inside, to depth 33",
            held,
            &"c:l c; ".repeat(31),
        ),
        over(
            "blocks that extend the outermost, 5 deep",
            "s extends { x 1; }",
            &nested_takes(5),
        ),
        over(
            "blocks that extend the outermost, 12 deep",
            "s extends { x 1; }",
            &nested_takes(12),
        ),
        over(
            "blocks 32 deep",
            held,
            &format!("{} {}:x 1;", nested_blocks(32, ""), path("a", 31)),
        ),
        over("a set at depth 33", held, &nested_blocks(32, "x 1;")),
        over(
            "a link from depth 32",
            "x 1; b extends { x 2; }",
            &nested_blocks(31, "y x; z b:x;"),
        ),
        over(
            "a reference of 32 names from depth 32",
            "y 1;",
            &nested_blocks(31, &format!("x 1; y {}:x;", path("a", 31))),
        ),
    ]
}

/// `c:c extends c; c:c:c extends c:c; ..`, so many of them.
fn inner_takes(count: usize) -> String {
    let each =
        (1..=count).map(|names| format!("{} extends {}; ", path("c", names + 1), path("c", names)));
    each.collect()
}

/// `s:a1 extends s, { a2 extends s, { .. } }`: each takes all that stands so far.
fn nested_takes(depth: usize) -> String {
    let inner = (2..=depth).rev().fold(String::new(), |inner, level| {
        format!("a{level} extends s, {{ {inner} y {level}; }}")
    });
    format!("s:a1 extends s, {{ {inner} }}")
}

fn nested_blocks(depth: usize, inner: &str) -> String {
    (0..depth).fold(inner.to_string(), |inner, _| {
        format!("a extends {{ {inner} }}")
    })
}

fn path(name: &str, names: usize) -> String {
    vec![name; names].join(":")
}
