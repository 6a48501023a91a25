//! Document 002's valuation functions over statements, with document 01's refusals.
//!
//! Each function is one of 002's, from store to store. `ns` is the scope, `r` the bound path.

use crate::act;
use crate::grammar::{Prototype, Statement, StatementValue};
use crate::refusal::Refusal;
use crate::store::{join, Name, Store, Value};

type Valuation = Result<Store, Refusal>;

/// Evaluates a description in the root scope, over any starting store.
pub fn evaluate(statements: &[Statement], store: Store) -> Valuation {
    block(statements, &[], store)
}

/// Definition 26.
fn block(statements: &[Statement], ns: &[Name], mut store: Store) -> Valuation {
    for statement in statements {
        store = assignment(statement, ns, store)?;
    }
    Ok(store)
}

/// Definition 25.
fn assignment(statement: &Statement, ns: &[Name], store: Store) -> Valuation {
    let r = join(ns, &statement.target.path);
    value(statement, ns, &r, store)
}

/// Definition 24.
fn value(statement: &Statement, ns: &[Name], r: &[Name], mut store: Store) -> Valuation {
    let place = statement.target.place;
    match &statement.value {
        StatementValue::Basic(basic) => {
            act::bind(&mut store, r, Value::Basic(basic.clone()), place)?;
            Ok(store)
        }
        StatementValue::Extends(all) => {
            act::make(&mut store, r, place)?;
            prototypes(all, ns, r, store)
        }
        StatementValue::Link(reference) => {
            act::link(&mut store, ns, r, &reference.path, reference.place)?;
            Ok(store)
        }
    }
}

/// Definition 23, left to right.
fn prototypes(all: &[Prototype], ns: &[Name], r: &[Name], mut store: Store) -> Valuation {
    for prototype in all {
        store = match prototype {
            Prototype::Block(statements) => block(statements, r, store)?,
            Prototype::Reference(reference) => {
                act::inherit(&mut store, ns, &reference.path, r, reference.place)?;
                store
            }
        };
    }
    Ok(store)
}
