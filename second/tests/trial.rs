//! The cases of run by name: their names say what they show.

use second::operations::run;
use second::trial::{trials, Trial};
use std::collections::HashSet;

/// The refusal number that a case's name begins with.
fn promised(trial: &Trial) -> Option<u32> {
    let first = trial.name.split(' ').next()?.trim_end_matches(',');
    let number = first.parse().ok()?;
    (8..=18).contains(&number).then_some(number)
}

#[test]
fn a_name_that_begins_with_a_number_is_refused_with_it() {
    let mut seen = HashSet::new();
    for trial in trials() {
        if let Some(number) = promised(&trial) {
            let refused = trial.call().answer.map_err(|refusal| refusal.number);
            assert_eq!(refused.err(), Some(number), "{}", trial.name);
            seen.insert(number);
        }
    }
    assert_eq!(seen.len(), 11, "each of 8 to 18 has its cases");
}

#[test]
fn at_a_bound_one_more_is_refused() {
    let rows = [
        ("nodes 1,023 and one more", "done"),
        ("nodes 1,024 and one more", "17 at 2"),
        ("nodes: a take refused by a passing excess", "17 at 31"),
        ("nodes: a take that passes at 1,024", "done"),
        ("nodes: a take whose first put makes room", "done"),
        ("nodes: a take of itself inside", "done"),
        ("nodes: a take of itself inside, one too many", "17 at 12"),
        ("text 16,382 and a name of one byte", "done"),
        ("text 16,383 and a name of one byte", "18 at 1"),
        ("text: a take refused by a passing excess", "18 at 1021"),
        ("text: a take that passes at 16,384", "done"),
        ("depth 32 and an empty vector", "done"),
        ("depth 32 and an element", "16 at 68"),
        ("extends what it sits inside, to depth 32", "done"),
        ("extends what it sits inside, to depth 33", "16 at 2262"),
        ("links what it sits inside, to depth 32", "done"),
        ("links what it sits inside, to depth 33", "16 at 214"),
        ("at every bound", "done"),
        ("the smallest slices", "done"),
        ("description 14", "done"),
    ];
    let trials = trials();
    for (name, wanted) in rows {
        let trial = trials.iter().find(|trial| trial.name == name).unwrap();
        let answer = match trial.call().answer {
            Ok(_) => "done".to_string(),
            Err(refusal) => format!("{} at {}", refusal.number, refusal.place),
        };
        assert_eq!(answer, wanted, "{name}");
    }
}

#[test]
fn no_name_stands_twice() {
    let trials = trials();
    let names: HashSet<&str> = trials.iter().map(|trial| trial.name.as_str()).collect();
    assert_eq!(names.len(), trials.len());
}

#[test]
fn a_list_without_steps_keeps_the_table() {
    let trials = trials();
    let trial = trials
        .iter()
        .find(|trial| trial.name == "no steps")
        .unwrap();
    assert_eq!(run(&trial.list, &trial.table), Ok(trial.table.clone()));
}
