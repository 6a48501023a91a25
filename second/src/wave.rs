//! Descriptions to measure with: waves of a study in three sizes, and worst cases by design.

use crate::generate::random::Random;
use crate::limits::{NODES, STEPS, TABLE_TEXT_BYTES};

const SUBJECTS: [&str; 24] = [
    "age", "sex", "bmi", "smoking", "alcohol", "sleep", "diet", "pain", "mood", "income", "school",
    "work", "height", "weight", "pulse", "insulin", "asthma", "stroke", "cancer", "falls", "grip",
    "gait", "iron", "lipids",
];
const ASPECTS: [&str; 16] = [
    "status", "ever", "now", "freq", "dose", "years", "onset", "score", "code", "unit", "src",
    "dx", "rx", "self", "proxy", "n",
];
const LABELS: [&str; 12] = [
    "Yes or no",
    "Per week",
    "In the last year",
    "Asked of all",
    "Self report",
    "Measured twice",
    "From records",
    "Years",
    "Interviewer",
    "Not asked in wave 1",
    "mmol/l",
    "See codebook",
];

/// Text bytes for each attribute that is left, below which names are short and labels left out.
const ROOMY: usize = 15;

/// What a wave has to keep: nodes and text bytes of the whole table, and steps.
struct Room {
    nodes: usize,
    text: usize,
    steps: usize,
}

/// One variable: its name, and its value as it is written.
struct Variable {
    name: String,
    value: String,
    elements: usize,
    text: usize,
}

/// A prototype, and what extends it: values for some of its attributes, and further ones.
struct Wave {
    prototype: Vec<Variable>,
    changed: Vec<Variable>,
    added: Vec<Variable>,
}

/// A prototype of so many attributes, and `sfConfig`, which extends it, overrides a fifth of it
/// and adds variables up to so many in all. Nothing where that cannot be within the bounds.
pub fn wave(variables: usize, prototype: usize, seed: u64) -> Option<String> {
    let wave = drawn(variables, prototype, seed)?;
    let lines = |variables: &[Variable]| -> String {
        let each = variables.iter();
        each.map(|Variable { name, value, .. }| format!("  {name} {value};\n"))
            .collect()
    };
    Some(format!(
        "// Wave 1: what every wave asks.\nwave1 extends {{\n{}}}\n\n\
         // Wave 2: changed and new variables.\nsfConfig extends wave1, {{\n{}{}}}\n",
        lines(&wave.prototype),
        lines(&wave.changed),
        lines(&wave.added)
    ))
}

/// The same wave for jsonnet, whose value is what `sfConfig` holds.
pub fn wave_for_jsonnet(variables: usize, prototype: usize, seed: u64) -> Option<String> {
    let wave = drawn(variables, prototype, seed)?;
    let lines = |variables: &[Variable]| -> String {
        let value = |value: &str| if value == "NULL" { "null" } else { value }.to_string();
        let each = variables.iter();
        each.map(|variable| format!("  {}: {},\n", variable.name, value(&variable.value)))
            .collect()
    };
    Some(format!(
        "// Wave 1: what every wave asks.\nlocal wave1 = {{\n{}}};\n\n\
         // Wave 2: changed and new variables.\nwave1 + {{\n{}{}}}\n",
        lines(&wave.prototype),
        lines(&wave.changed),
        lines(&wave.added)
    ))
}

fn drawn(variables: usize, prototype: usize, seed: u64) -> Option<Wave> {
    if prototype == 0 || variables < prototype {
        return None;
    }
    let overridden = prototype / 5;
    // Two components in all, and two braces with a make and a done for each, and a take.
    let mut room = Room {
        nodes: NODES.checked_sub(prototype + variables + 2)?,
        text: TABLE_TEXT_BYTES - 40,
        steps: STEPS.checked_sub(variables + overridden + 9)?,
    };
    let mut maker = Maker {
        random: Random::new(seed),
        named: 0,
        left: prototype + variables,
    };
    // What the prototype holds is held twice.
    let held = (0..prototype).map(|_| maker.variable(&mut room, 2));
    let held: Vec<Variable> = held.collect::<Option<_>>()?;
    let changed = held.iter().step_by(5).take(overridden);
    let changed = changed.map(|variable| {
        let code = maker.random.below(100) as i64;
        integer(variable.name.clone(), code)
    });
    let changed = changed.collect();
    let added = (prototype..variables).map(|_| maker.variable(&mut room, 1));
    Some(Wave {
        added: added.collect::<Option<_>>()?,
        prototype: held,
        changed,
    })
}

struct Maker {
    random: Random,
    named: usize,
    /// Attributes of the whole table that are still to be made.
    left: usize,
}

impl Maker {
    /// A variable that is held so many times, taken out of the room that is left.
    fn variable(&mut self, room: &mut Room, times: usize) -> Option<Variable> {
        let is_tight = room.text < self.left * ROOMY;
        self.left -= times;
        let name = self.name(is_tight);
        let plain = 1 + name.len();
        let mut variable = self.value(name, is_tight);
        if variable.elements * times > room.nodes || variable.elements > room.steps {
            variable = integer(variable.name, 0);
        }
        let text = (plain + variable.text) * times;
        room.text = room.text.checked_sub(text)?;
        room.nodes -= variable.elements * times;
        room.steps -= variable.elements;
        Some(variable)
    }

    /// `q12_smoking_status`, `q7_bmi`, `age31`: the number makes it the only one.
    fn name(&mut self, is_tight: bool) -> String {
        self.named += 1;
        let number = self.named;
        let subject = self.random.pick(&SUBJECTS);
        let aspect = self.random.pick(&ASPECTS);
        match self.random.below(8) {
            _ if is_tight => format!("q{number}"),
            0..=2 => format!("q{number}_{subject}_{aspect}"),
            3 | 4 => format!("q{number}_{subject}"),
            5 => format!("{subject}_{number}"),
            6 => format!("{subject}{number}"),
            _ => format!("q{number}"),
        }
    }

    /// Mostly codes; labels where there is room for them; some vectors of codes.
    fn value(&mut self, name: String, is_tight: bool) -> Variable {
        match self.random.below(24) {
            0 => {
                let codes = [-9, -8, -7];
                let count = 2 + self.random.below(2);
                let written: Vec<String> = codes[..count].iter().map(i32::to_string).collect();
                let value = format!("[{}]", written.join(", "));
                Variable {
                    name,
                    value,
                    elements: count,
                    text: 0,
                }
            }
            1..=5 if !is_tight => {
                let label = self.random.pick(&LABELS);
                let value = format!("\"{label}\"");
                Variable {
                    name,
                    value,
                    elements: 0,
                    text: 2 + label.len(),
                }
            }
            6 => word(name, "true"),
            7 => word(name, "NULL"),
            8 => integer(name, -1 - self.random.below(9) as i64),
            _ => {
                let code = self.random.below(1_000) as i64;
                integer(name, code)
            }
        }
    }
}

fn word(name: String, value: &str) -> Variable {
    Variable {
        name,
        value: value.to_string(),
        elements: 0,
        text: 0,
    }
}

fn integer(name: String, number: i64) -> Variable {
    word(name, &number.to_string())
}

/// The worst cases by name: `takes`, `siblings`, `paths`, `scopes`.
pub fn worst(name: &str) -> Option<String> {
    match name {
        "takes" => Some(takes()),
        "siblings" => Some(siblings()),
        "paths" => Some(paths()),
        "scopes" => Some(scopes()),
        _ => None,
    }
}

/// A prototype of 480 attributes, taken 500 times over.
fn takes() -> String {
    let prototype = numbered(480);
    let taken = vec!["p"; 500].join(", ");
    format!("p extends {{\n{prototype}}}\nsfConfig extends {taken};\n")
}

/// 1,024 attributes of the root.
fn siblings() -> String {
    numbered(NODES)
}

/// Components 31 deep, and 400 sets at depth 32 by paths of 32 names.
fn paths() -> String {
    let path = vec!["d"; 31].join(":");
    let sets: String = (0..400)
        .map(|number| format!("{path}:x{} {number};\n", number % 100))
        .collect();
    format!("{}\n{sets}", nested(31, ""))
}

/// From 31 components deep, 400 links by references of 32 names, which are found at the root only.
fn scopes() -> String {
    let path = vec!["d"; 31].join(":");
    let links: String = (0..400)
        .map(|number| format!("l{number} {path}:x; "))
        .collect();
    nested(31, &format!("x 1; {links}"))
}

fn numbered(count: usize) -> String {
    (0..count)
        .map(|number| format!("v{number} {number};\n"))
        .collect()
}

fn nested(depth: usize, inner: &str) -> String {
    (0..depth).fold(inner.to_string(), |inner, _| {
        format!("d extends {{ {inner} }}")
    })
}
