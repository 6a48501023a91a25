//! Statements made with a store at hand, so that most targets and references lead somewhere.

use super::random::Random;
use super::words;
use crate::act;
use crate::grammar::{Prototype, Reference, Statement, StatementValue};
use crate::limits::OPENINGS;
use crate::operations::MAIN_NAME;
use crate::refusal::Refusal;
use crate::store::{join, Basic, Name, Path, Store, Value};

/// Places are not known before the statements are written out.
const NO_PLACE: u32 = 0;

struct Draft<'r> {
    random: &'r mut Random,
    store: Store,
    /// A refused change ends the watching of the store; the statements go on all the same.
    is_watched: bool,
    /// How many targets and references in a hundred are taken blindly.
    wild: usize,
    statements_left: usize,
}

impl<'r> Draft<'r> {
    fn new(random: &'r mut Random, start: &Store, size: usize) -> Draft<'r> {
        let wild = *random.pick(&[0, 0, 2, 8, 30]);
        Draft {
            random,
            store: start.clone(),
            is_watched: true,
            wild,
            statements_left: size,
        }
    }
}

/// Statements for a run over `start`, of about this size.
pub fn statements(random: &mut Random, start: &Store, size: usize) -> Vec<Statement> {
    Draft::new(random, start, size).block(&[], 0, size)
}

/// Statements that mostly end in a main component with something in it.
pub fn with_main(random: &mut Random, start: &Store, size: usize) -> Vec<Statement> {
    let mut draft = Draft::new(random, start, size / 2);
    let mut made = draft.block(&[], 0, size);
    match draft.random.below(100) {
        0..=91 => {
            draft.statements_left += size - size / 2;
            made.push(draft.main_statement(size));
        }
        92..=95 => made.push(Statement {
            target: reference_to(vec![MAIN_NAME.to_vec()]),
            value: draft.basic(&[MAIN_NAME.to_vec()]),
        }),
        _ => {}
    }
    made
}

pub fn reference_to(path: Path) -> Reference {
    Reference {
        path,
        place: NO_PLACE,
    }
}

impl Draft<'_> {
    fn apply(&mut self, change: impl FnOnce(&mut Store) -> Result<(), Refusal>) {
        if self.is_watched {
            self.is_watched = change(&mut self.store).is_ok();
        }
    }

    fn block(&mut self, scope: &[Name], open: usize, most: usize) -> Vec<Statement> {
        let mut statements = Vec::new();
        while statements.len() < most && self.statements_left > 0 {
            self.statements_left -= 1;
            statements.push(self.statement(scope, open));
        }
        statements
    }

    fn statement(&mut self, scope: &[Name], open: usize) -> Statement {
        let target = self.target(scope);
        let path = join(scope, &target);
        let value = match self.random.below(100) {
            0..=34 => self.basic(&path),
            35..=54 => self.link(scope, &path),
            _ => self.extends(scope, &path, open),
        };
        Statement {
            target: reference_to(target),
            value,
        }
    }

    /// `sfConfig extends` with some prototypes, the last of them a block of up to `most`.
    fn main_statement(&mut self, most: usize) -> Statement {
        let main = [MAIN_NAME.to_vec()];
        self.apply(|store| act::make(store, &main, NO_PLACE));
        let mut prototypes = Vec::new();
        if self.random.percent(40) {
            prototypes.push(self.prototype(&[], &main, 0));
        }
        prototypes.push(Prototype::Block(self.block(&main, 1, most)));
        Statement {
            target: reference_to(main.to_vec()),
            value: StatementValue::Extends(prototypes),
        }
    }

    fn target(&mut self, scope: &[Name]) -> Path {
        if self.random.percent(self.wild / 2) {
            return words::path(self.random);
        }
        let mut target = Path::new();
        if self.random.percent(30) {
            // Now and then the way leads to a basic value, where nothing can be bound.
            let to_component = !self.random.percent(2 * self.wild);
            target = self.walk(scope, to_component).unwrap_or_default();
        }
        target.push(words::name(self.random));
        target
    }

    /// A way down from the component at `from`: through components, to anything or a component.
    fn walk(&mut self, from: &[Name], to_component: bool) -> Option<Path> {
        let mut here = self.store.component(from)?;
        let mut path = Path::new();
        loop {
            if here.attributes.is_empty() {
                break;
            }
            let (name, value) = self.random.pick(&here.attributes);
            match value {
                Value::Component(inner) => here = inner,
                Value::Basic(_) if to_component => break,
                Value::Basic(_) => {
                    path.push(name.clone());
                    break;
                }
            }
            path.push(name.clone());
            if self.random.percent(50) {
                break;
            }
        }
        (!path.is_empty()).then_some(path)
    }

    /// A reference that is found from this scope, or nothing after some tries.
    fn known(&mut self, scope: &[Name], to_component: bool) -> Option<Path> {
        for _ in 0..6 {
            let kept = self.random.between(0, scope.len());
            let Some(path) = self.walk(&scope[..kept], to_component) else {
                continue;
            };
            // A component that holds nothing is seldom worth a copy.
            let is_fit = match self.store.resolve(scope, &path) {
                Some(Value::Component(found)) => {
                    !found.attributes.is_empty() || self.random.percent(25)
                }
                _ => !to_component,
            };
            if is_fit {
                return Some(path);
            }
        }
        None
    }

    fn reference(&mut self, scope: &[Name], to_component: bool) -> Option<Path> {
        if self.random.percent(self.wild) {
            return Some(words::path(self.random));
        }
        let to_component = to_component && !self.random.percent(self.wild);
        self.known(scope, to_component)
    }

    fn basic(&mut self, path: &[Name]) -> StatementValue {
        let basic = words::basic(self.random, 0);
        self.set(path, basic.clone());
        StatementValue::Basic(basic)
    }

    fn set(&mut self, path: &[Name], basic: Basic) {
        self.apply(|store| act::bind(store, path, Value::Basic(basic), NO_PLACE));
    }

    fn link(&mut self, scope: &[Name], path: &[Name]) -> StatementValue {
        let to_component = self.random.percent(50);
        let Some(reference) = self.reference(scope, to_component) else {
            return self.basic(path);
        };
        self.apply(|store| act::link(store, scope, path, &reference, NO_PLACE));
        StatementValue::Link(reference_to(reference))
    }

    fn extends(&mut self, scope: &[Name], path: &[Name], open: usize) -> StatementValue {
        self.apply(|store| act::make(store, path, NO_PLACE));
        let count = *self.random.pick(&[1, 1, 1, 2, 2, 3]);
        let prototypes = (0..count).map(|_| self.prototype(scope, path, open));
        StatementValue::Extends(prototypes.collect())
    }

    fn prototype(&mut self, scope: &[Name], path: &[Name], open: usize) -> Prototype {
        if self.random.percent(45) {
            if let Some(reference) = self.reference(scope, true) {
                self.apply(|store| act::inherit(store, scope, &reference, path, NO_PLACE));
                return Prototype::Reference(reference_to(reference));
            }
        }
        let most = if open < OPENINGS {
            self.random.between(0, 5)
        } else {
            0
        };
        Prototype::Block(self.block(path, open + 1, most))
    }
}
