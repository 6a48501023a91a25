//! The generator: the same seed gives the same lines, the mix is rich, the cap is kept.

use second::generate::{cases, Case, Kind};
use std::collections::BTreeSet;

fn lines(kind: Kind, seed: u64, cap: usize) -> Vec<String> {
    cases(kind, seed, cap)
        .take(200)
        .map(|case| case.line())
        .collect()
}

fn refusals(sample: &[Case]) -> BTreeSet<u32> {
    let numbers = sample.iter().filter_map(|case| case.answer.as_ref().err());
    numbers.map(|refusal| refusal.number).collect()
}

fn sample(kind: Kind, count: usize, cap: usize) -> Vec<Case> {
    cases(kind, 1, cap).take(count).collect()
}

#[test]
fn the_same_seed_gives_the_same_lines() {
    for kind in Kind::ALL {
        assert_eq!(lines(kind, 1, usize::MAX), lines(kind, 1, usize::MAX));
        assert_ne!(lines(kind, 1, usize::MAX), lines(kind, 2, usize::MAX));
    }
}

/// A short hash that does not depend on the machine.
fn fingerprint(lines: &[String]) -> u64 {
    let bytes = lines.iter().flat_map(|line| line.bytes());
    bytes.fold(0xcbf2_9ce4_8422_2325, |hash, byte| {
        (hash ^ u64::from(byte)).wrapping_mul(0x100_0000_01b3)
    })
}

#[test]
fn every_refusal_number_is_met() {
    let wanted = |kind: Kind| -> BTreeSet<u32> {
        match kind {
            Kind::Translate => (1..=7).collect(),
            Kind::Run => (9..=18).collect(),
            Kind::Main => [10, 19, 20].into(),
            Kind::Resolve => (1..=7).chain(11..=20).collect(),
        }
    };
    for kind in Kind::ALL {
        assert_eq!(
            refusals(&sample(kind, 1_500, usize::MAX)),
            wanted(kind),
            "{kind:?}"
        );
    }
}

#[test]
fn a_small_cap_is_kept_and_the_mix_stays_rich() {
    let wanted = |kind: Kind| -> BTreeSet<u32> {
        match kind {
            Kind::Translate => (2..=6).collect(),
            Kind::Run => (9..=18).collect(),
            Kind::Main => [10, 19, 20].into(),
            Kind::Resolve => (2..=6).chain(11..=20).collect(),
        }
    };
    for kind in Kind::ALL {
        let sample = sample(kind, 1_500, 400);
        let mut inputs = sample.iter().flat_map(|case| &case.inputs);
        assert!(inputs.all(|input| input.len() <= 400));
        assert_eq!(refusals(&sample), wanted(kind), "{kind:?}");
        let passed = sample.iter().filter(|case| case.answer.is_ok()).count();
        assert!((400..1_100).contains(&passed), "{kind:?}: {passed} passed");
    }
}

#[test]
fn a_tiny_cap_is_kept_too() {
    for kind in Kind::ALL {
        for cap in [0, 10, 30] {
            let mut inputs = sample(kind, 20, cap)
                .into_iter()
                .flat_map(|case| case.inputs);
            assert!(inputs.all(|input| input.len() <= cap));
        }
    }
}

#[test]
fn most_cases_differ() {
    for kind in Kind::ALL {
        let lines: BTreeSet<String> = sample(kind, 1_000, 400).iter().map(Case::line).collect();
        assert!(lines.len() > 850, "{kind:?}: {} lines", lines.len());
    }
}

#[test]
fn a_line_has_its_fields_in_order() {
    for line in lines(Kind::Run, 3, 400) {
        let words: Vec<&str> = line.split(' ').collect();
        assert!(
            words.len() == 6 || words.len() == 7 && words[4] == "refused",
            "{line}"
        );
        assert_eq!((words[0], words[3]), ("run", "="));
        let is_hex = |word: &str| word == "-" || word.bytes().all(|byte| byte.is_ascii_hexdigit());
        assert!(is_hex(words[1]) && is_hex(words[2]), "{line}");
    }
}

#[test]
fn the_lines_are_the_same_on_every_machine() {
    let hashes = Kind::ALL.map(|kind| fingerprint(&lines(kind, 1, usize::MAX)));
    assert_eq!(hashes, FINGERPRINTS);
}

/// Taken from one run; a change of the generator or of any answer changes them.
const FINGERPRINTS: [u64; 4] = [
    12_036_096_309_235_411_263,
    3_688_511_043_856_126_726,
    114_337_777_607_259_966,
    10_132_787_835_603_307_742,
];
