//! Steps that no description gives: made freely, moved about, or spoiled.

use super::random::Random;
use super::stores::{odd_basic, odd_name};
use super::words;
use crate::limits::PLACES;
use crate::steps::Step;
use crate::store::Path;

/// Freely made steps in their right nesting, with any places.
pub fn free_steps(random: &mut Random, size: usize) -> Vec<Step> {
    let mut steps = Vec::new();
    let mut steps_left = size;
    statements(random, &mut steps, &mut steps_left, 0);
    steps
}

fn place(random: &mut Random) -> u32 {
    random.below(PLACES as usize) as u32
}

fn statements(random: &mut Random, steps: &mut Vec<Step>, steps_left: &mut usize, depth: usize) {
    while *steps_left > 0 && !random.percent(15) {
        *steps_left -= 1;
        let (target, place) = (words::path(random), place(random));
        match random.below(10) {
            0..=3 => steps.push(Step::Set {
                target,
                value: words::basic(random, 1),
                place,
            }),
            4 | 5 => steps.push(Step::Link {
                target,
                reference: words::path(random),
                place,
            }),
            _ => {
                steps.push(Step::Make { target, place });
                prototypes(random, steps, steps_left, depth);
                steps.push(Step::Done);
            }
        }
    }
}

fn prototypes(random: &mut Random, steps: &mut Vec<Step>, steps_left: &mut usize, depth: usize) {
    for _ in 0..random.between(1, 2) {
        if depth > 8 || random.percent(40) {
            steps.push(Step::Take {
                reference: words::path(random),
                place: place(random),
            });
        } else {
            steps.push(Step::Enter);
            statements(random, steps, steps_left, depth + 1);
            steps.push(Step::Leave);
        }
    }
}

/// Gives steps other places, all below the limit.
pub fn scatter_places(random: &mut Random, steps: &mut [Step]) {
    for step in steps {
        if let Some(own) = place_of(step) {
            *own = place(random);
        }
    }
}

fn place_of(step: &mut Step) -> Option<&mut u32> {
    match step {
        Step::Make { place, .. }
        | Step::Take { place, .. }
        | Step::Set { place, .. }
        | Step::Link { place, .. } => Some(place),
        Step::Enter | Step::Leave | Step::Done => None,
    }
}

fn path_of(step: &mut Step) -> Option<&mut Path> {
    match step {
        Step::Make { target, .. } | Step::Set { target, .. } => Some(target),
        Step::Take { reference, .. } | Step::Link { reference, .. } => Some(reference),
        Step::Enter | Step::Leave | Step::Done => None,
    }
}

/// Spoils the nesting, a path, a place or a value.
pub fn spoil_steps(random: &mut Random, steps: &mut Vec<Step>) {
    let at = random.below(steps.len());
    let other = random.below(steps.len());
    match random.below(9) {
        _ if steps.is_empty() => steps.push(odd_step(random)),
        0 => drop(steps.remove(at)),
        1 => steps.insert(at, steps[at].clone()),
        2 => steps.swap(at, other),
        3 | 4 => steps.insert(at, odd_step(random)),
        5 => steps.truncate(at),
        6 => {
            if let Some(own) = place_of(&mut steps[at]) {
                *own = *random.pick(&[PLACES - 1, PLACES, PLACES + 1, u32::MAX]);
            }
        }
        _ => spoil_path(random, &mut steps[at]),
    }
}

fn spoil_path(random: &mut Random, step: &mut Step) {
    let Some(path) = path_of(step) else {
        return;
    };
    match random.below(4) {
        0 => *path = words::same_names("a", *random.pick(&[0, 32, 33, 255])),
        _ => path.push(odd_name(random)),
    }
}

fn odd_step(random: &mut Random) -> Step {
    let target = words::path(random);
    let place = place(random);
    match random.below(6) {
        0 => Step::Enter,
        1 => Step::Leave,
        2 => Step::Done,
        3 => Step::Make { target, place },
        4 => Step::Take {
            reference: target,
            place,
        },
        _ => Step::Set {
            target,
            value: odd_basic(random),
            place,
        },
    }
}
