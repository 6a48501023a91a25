//! The calls for the program `compare`: what is lent, what is expected, and what its lines say.

use second::compare::{calls, lines, sample, smallest, stream, Call, SPARE};
use second::generate::{cases, Kind};
use std::collections::BTreeSet;

fn number(call: &Call) -> u32 {
    call.answer
        .as_ref()
        .err()
        .map_or(0, |refusal| refusal.number)
}

fn of_kind(calls: &[Call], kind: Kind) -> Vec<&Call> {
    calls.iter().filter(|call| call.kind == kind).collect()
}

fn is_short(call: &Call) -> bool {
    let mut each = call.lent.iter().zip(smallest(call.kind));
    each.any(|(lent, least)| *lent < least)
}

#[test]
fn every_refusal_number_is_met() {
    let wanted = |kind: Kind| -> BTreeSet<u32> {
        match kind {
            Kind::Translate => (0..=8).collect(),
            Kind::Run => (8..=18).chain([0]).collect(),
            Kind::Main => [0, 8, 10, 19, 20].into(),
            Kind::Resolve => (0..=8).chain(11..=20).collect(),
        }
    };
    let drawn: Vec<Call> = calls(1, 1_500, usize::MAX).collect();
    for set in [drawn, sample()] {
        for kind in Kind::ALL {
            let met: BTreeSet<u32> = of_kind(&set, kind).into_iter().map(number).collect();
            assert_eq!(met, wanted(kind), "{kind:?}");
        }
    }
}

#[test]
fn a_short_slice_is_refused_before_all_else() {
    let drawn: Vec<Call> = calls(2, 1_000, 400).collect();
    assert!(drawn
        .iter()
        .all(|call| is_short(call) == (number(call) == 8)));
    for kind in Kind::ALL {
        let plain: Vec<_> = cases(kind, 2, 400).take(1_000).collect();
        let drawn = of_kind(&drawn, kind);
        let mut hidden = 0;
        for (before, (call, case)) in drawn.iter().zip(&plain).enumerate() {
            assert!((before + 1) % 100 == 0 || call.inputs == case.inputs);
            hidden += usize::from(number(call) == 8 && case.answer.is_err());
        }
        assert!(
            hidden > 10,
            "{kind:?}: {hidden} refused for their inputs too"
        );
    }
}

#[test]
fn every_hundredth_input_is_empty_or_over_its_length() {
    let drawn: Vec<Call> = calls(1, 400, usize::MAX).collect();
    for kind in Kind::ALL {
        let drawn = of_kind(&drawn, kind);
        assert!(drawn[99].inputs[0].is_empty() && drawn[299].inputs[0].is_empty());
        if kind == Kind::Run {
            assert!(drawn[199].inputs[1].is_empty() && drawn[399].inputs[1].is_empty());
        } else {
            assert_eq!(drawn[199].inputs[0].len(), 32_969);
            assert_eq!(drawn[399].inputs[0].len(), 33_169);
        }
    }
}

#[test]
fn slices_are_as_short_as_may_be_and_longer() {
    for call in calls(3, 500, 100) {
        let most = smallest(call.kind).map(|least| if least == 0 { 0 } else { least + SPARE });
        assert!(call.lent.iter().zip(most).all(|(lent, most)| *lent <= most));
    }
    let is_least = |call: &Call| call.lent == smallest(call.kind);
    assert!(calls(3, 500, 100).filter(is_least).count() > 400);
}

/// The program's arrays: 160,000 bytes for all that follows the head, 65,600 for an input.
#[test]
fn the_program_has_room_for_every_call() {
    let sample = sample();
    let drawn = calls(1, 3_000, usize::MAX);
    for call in sample.iter().cloned().chain(drawn) {
        assert!(call.bytes().len() <= 160_000);
        assert!(call.inputs.iter().all(|input| input.len() <= 65_600));
    }
    assert!(stream(&sample).len() < 2_700_000);
}

#[test]
fn what_must_differ_does_and_nothing_else() {
    let sample = sample();
    for call in &sample {
        let must_differ = call.name.starts_with("told ") || call.name.starts_with("byte ");
        assert_eq!(!call.wrong().is_empty(), must_differ, "{}", call.name);
    }
    let lines = lines(&sample);
    let differing = lines.lines().filter(|line| line.contains(": DIFFERS: "));
    assert_eq!(differing.count(), 4 * (5 + 24));
    assert!(calls(1, 200, 400).all(|call| call.wrong().is_empty()));
}

#[test]
fn the_lines_say_what_is_wrong() {
    let lines = lines(&sample());
    for wanted in [
        "translate description 13: same: done 137",
        "resolve description 13: same: done 42",
        "resolve description 10: same: refused 11 at 21",
        "resolve no slices, a source over its length: same: refused 8 at 0",
        "run description 14: same: done 60",
        ": DIFFERS: done 42, expected done 42; wrong: output",
        ": DIFFERS: done 42, expected refused 8 at 0; wrong: answer output work-1 work-2 work-3",
        " byte 63 changed in work-2: DIFFERS: done 42, expected done 42; wrong: work-2",
    ] {
        assert!(lines.contains(wanted), "{wanted}");
    }
}
