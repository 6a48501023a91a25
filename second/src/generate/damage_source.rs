//! Damage to a description: to its tokens, then to its bytes.

use super::random::Random;
use super::render::TokenBytes;

const ODD_TOKENS: [&[u8]; 58] = [
    b";",
    b",",
    b"{",
    b"}",
    b"[",
    b"]",
    b":",
    b"extends",
    b"DATA",
    b"NULL",
    b"true",
    b"ROOT",
    b"PARENT",
    b"THIS",
    b"ATTRIB",
    b"LAZY",
    b"HOST",
    b"PROCESS",
    b"PROPERTY",
    b"IPROPERTY",
    b"1",
    b"1.5",
    b"1.",
    b".5",
    b"1e",
    b"1e+",
    b"1.e5",
    b"1e5.5",
    b"1.5.",
    b"+1",
    b"-",
    b"--1",
    b"1-2",
    b"1x",
    b"1_",
    b"1$",
    b"1\xc3\xa9",
    b"1\"x\"",
    b"9223372036854775807",
    b"9223372036854775808",
    b"-9223372036854775808",
    b"-9223372036854775809",
    b"99999999999999999999x",
    b"\"\"",
    b"\"x",
    b"\"\\q\"",
    b"\"\\400\"",
    b"\"\\07\"",
    b"\"\n\"",
    b"\"\\377\\000\\'\"",
    b"/*",
    b"/*/",
    b"/",
    b"//",
    b"\xc3\xa9",
    b"\x0b",
    b"#include \"x\"",
    b"a",
];

/// Changes one to three tokens.
pub fn damage_tokens(random: &mut Random, tokens: &mut Vec<TokenBytes>) {
    for _ in 0..random.between(1, 3) {
        damage_token(random, tokens);
    }
}

fn damage_token(random: &mut Random, tokens: &mut Vec<TokenBytes>) {
    let odd = random.pick(&ODD_TOKENS).to_vec();
    let at = random.below(tokens.len());
    let after = (at + 1) % tokens.len().max(1);
    match random.below(5) {
        _ if tokens.is_empty() => tokens.push(odd),
        0 => drop(tokens.remove(at)),
        1 => tokens.insert(at, tokens[at].clone()),
        2 => tokens.swap(at, after),
        3 => tokens.insert(at, odd),
        _ => tokens[at] = odd,
    }
}

/// Changes, deletes, inserts or cuts off some bytes.
pub fn damage_bytes(random: &mut Random, bytes: &mut Vec<u8>) {
    for _ in 0..random.between(1, 3) {
        damage_byte(random, bytes);
    }
}

fn damage_byte(random: &mut Random, bytes: &mut Vec<u8>) {
    let byte = if random.percent(60) {
        *random.pick(b";,{}[]:\"\\/*-.e019 a$_\n")
    } else {
        random.byte()
    };
    if bytes.is_empty() {
        bytes.push(byte);
        return;
    }
    let at = random.below(bytes.len());
    match random.below(5) {
        0 => bytes[at] = byte,
        1 => drop(bytes.remove(at)),
        2 => bytes.insert(at, byte),
        3 => bytes.truncate(at),
        _ => {
            let other = random.below(bytes.len());
            bytes.swap(at, other);
        }
    }
}
