//! The descriptions to measure with keep the bounds and are what they say.

mod common;

use common::EMPTY_TABLE;
use second::dump::dump;
use second::json::json;
use second::layout_table::decode_table;
use second::operations::{resolve, run, translate};
use second::store::{measure, Basic, Store, Value};
use second::wave::{wave, wave_for_jsonnet, worst};

fn whole_of(source: &str) -> Store {
    let list = translate(source.as_bytes()).unwrap();
    decode_table(&run(&list, &EMPTY_TABLE).unwrap()).unwrap()
}

fn count(store: &Store, is_wanted: fn(&Basic) -> bool) -> usize {
    let values = store.attributes.iter().map(|(_, value)| value);
    values
        .filter(|value| matches!(value, Value::Basic(basic) if is_wanted(basic)))
        .count()
}

#[test]
fn a_wave_has_its_variables() {
    for (variables, prototype) in [(225, 25), (450, 50), (900, 100), (60, 10), (2, 1)] {
        for seed in 0..40 {
            let source = wave(variables, prototype, seed).unwrap();
            let whole = whole_of(&source);
            let main = resolve(source.as_bytes()).unwrap();
            let main = decode_table(&main).unwrap();
            assert_eq!(main.attributes.len(), variables);
            let Some(Value::Component(first)) = whole.get(b"wave1") else {
                panic!("no prototype in {source}");
            };
            assert_eq!(first.attributes.len(), prototype);
            let kept = first.attributes.iter().zip(&main.attributes);
            assert!(kept.clone().all(|((first, _), (name, _))| first == name));
            let changed = kept.filter(|(first, second)| first != second);
            assert!(changed.count() <= prototype / 5);
        }
    }
}

#[test]
fn the_largest_wave_is_mixed_and_near_the_bounds() {
    let main = resolve(wave(900, 100, 1).unwrap().as_bytes()).unwrap();
    let store = decode_table(&main).unwrap();
    assert!(measure(&store).text > 12_000);
    assert!(count(&store, |basic| matches!(basic, Basic::String(_))) > 100);
    assert!(count(&store, |basic| matches!(basic, Basic::Integer(_))) > 500);
    assert!(count(&store, |basic| matches!(basic, Basic::Vector(_))) > 2);
    assert_eq!(wave(900, 100, 1), wave(900, 100, 1));
    assert_ne!(wave(900, 100, 1), wave(900, 100, 2));
}

#[test]
fn the_same_wave_for_jsonnet() {
    let (source, other) = (
        wave(60, 10, 1).unwrap(),
        wave_for_jsonnet(60, 10, 1).unwrap(),
    );
    assert_eq!(source.lines().count(), other.lines().count());
    let pairs = source.lines().zip(other.lines());
    let inner = pairs.filter(|(line, _)| line.starts_with("  "));
    for (line, other) in inner {
        let line = line.replacen(' ', "", 2).replacen(' ', ": ", 1);
        let line = line.replace("NULL", "null").replace(';', ",");
        assert_eq!(format!("  {line}"), other);
    }
    assert!(other.contains("local wave1 = {") && other.contains("wave1 + {"));
    assert_eq!(wave_for_jsonnet(10, 0, 1), None);
}

#[test]
fn json_is_as_jsonnet_writes_it() {
    let source = br#"sfConfig extends { t true; n NULL; i -5; s "a\\"; v [1, [2], []]; c extends { b 1; a 2; } e extends {} }"#;
    let text = json(&resolve(source).unwrap()).unwrap();
    let wanted = r#"{
   "c": {
      "a": 2,
      "b": 1
   },
   "e": { },
   "i": -5,
   "n": null,
   "s": "a\\",
   "t": true,
   "v": [
      1,
      [
         2
      ],
      [ ]
   ]
}
"#;
    assert_eq!(String::from_utf8(text).unwrap(), wanted);
    assert_eq!(json(b"x").unwrap_err().number, 10);
}

#[test]
fn a_wave_over_the_bounds_is_none() {
    for (variables, prototype) in [(1_000, 100), (10, 0), (10, 11), (1_024, 1_024)] {
        assert_eq!(wave(variables, prototype, 1), None);
    }
}

#[test]
fn the_worst_cases_are_what_they_say() {
    let rows = [
        ("takes", 962, 2),
        ("siblings", 1_024, 1),
        ("paths", 131, 32),
        ("scopes", 432, 32),
    ];
    for (name, nodes, depth) in rows {
        let size = measure(&whole_of(&worst(name).unwrap()));
        assert_eq!((size.nodes, size.depth), (nodes, depth), "{name}");
    }
    assert_eq!(worst("other"), None);
}

#[test]
fn a_dump_says_every_kind() {
    let source = br#"sfConfig extends { t true; n NULL; i -5; d 1.50; s "a\"b\\\n\377"; r DATA a:b;
        v [1, ["x"], []]; c extends { e extends {} } }"#;
    let text = dump(&resolve(source).unwrap()).unwrap();
    let wanted = "t: boolean true\nn: null\ni: integer -5\nd: decimal 1.50\n\
        s: string \"a\\\"b\\\\\\012\\377\"\nr: data a:b\nv: vector\n  - integer 1\n  - vector\n    - string \"x\"\n  - vector\n\
        c: component\n  e: component\n";
    assert_eq!(String::from_utf8(text).unwrap(), wanted);
    assert_eq!(dump(b"x").unwrap_err().number, 10);
}
