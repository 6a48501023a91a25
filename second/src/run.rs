//! The step runner: a flat walk over steps with a stack of the components being made.

use crate::act;
use crate::refusal::Refusal;
use crate::steps::Step;
use crate::store::{join, Path, Store, Value};

/// A component being made: where its statement stands and where it lies itself.
struct Making {
    outer: Path,
    component: Path,
}

struct Runner {
    store: Store,
    scope: Path,
    making: Vec<Making>,
}

/// Runs well-formed steps over a starting store.
pub fn run_steps(steps: &[Step], store: Store) -> Result<Store, Refusal> {
    let mut runner = Runner {
        store,
        scope: Path::new(),
        making: Vec::new(),
    };
    for step in steps {
        runner.step(step)?;
    }
    Ok(runner.store)
}

impl Runner {
    fn step(&mut self, step: &Step) -> Result<(), Refusal> {
        match step {
            Step::Make { target, place } => self.make(join(&self.scope, target), *place),
            Step::Take { reference, place } => self.take(reference, *place),
            Step::Enter => {
                self.enter();
                Ok(())
            }
            Step::Leave => {
                self.leave();
                Ok(())
            }
            Step::Done => {
                self.making.pop();
                Ok(())
            }
            Step::Set {
                target,
                value,
                place,
            } => {
                let path = join(&self.scope, target);
                act::bind(&mut self.store, &path, Value::Basic(value.clone()), *place)
            }
            Step::Link {
                target,
                reference,
                place,
            } => {
                let path = join(&self.scope, target);
                act::link(&mut self.store, &self.scope, &path, reference, *place)
            }
        }
    }

    fn make(&mut self, component: Path, place: u32) -> Result<(), Refusal> {
        act::make(&mut self.store, &component, place)?;
        self.making.push(Making {
            outer: self.scope.clone(),
            component,
        });
        Ok(())
    }

    /// Resolved in the statement's own scope, outside the component. Well-formed steps have a
    /// make around every take, enter and leave, so nothing is left undone where none is open.
    fn take(&mut self, reference: &Path, place: u32) -> Result<(), Refusal> {
        match self.making.last() {
            Some(Making { outer, component }) => {
                act::inherit(&mut self.store, outer, reference, component, place)
            }
            None => Ok(()),
        }
    }

    fn enter(&mut self) {
        if let Some(making) = self.making.last() {
            self.scope = making.component.clone();
        }
    }

    fn leave(&mut self) {
        if let Some(making) = self.making.last() {
            self.scope = making.outer.clone();
        }
    }
}
