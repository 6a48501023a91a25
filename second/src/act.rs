//! The changes both evaluators make to a store, each with its refusals.

use crate::limits::{DEPTH, NODES, TABLE_TEXT_BYTES};
use crate::refusal::Refusal;
use crate::store::{join, measure, BindFault, Name, Store, Value};

/// One bind, then the bounds, which are measured after each single put.
pub fn bind(store: &mut Store, path: &[Name], value: Value, place: u32) -> Result<(), Refusal> {
    let bound = store.bind(path, value);
    bound.map_err(|fault| Refusal::new(bind_number(fault), place))?;
    keep_bounds(store, place)
}

fn bind_number(fault: BindFault) -> u32 {
    match fault {
        BindFault::Root => 21,
        BindFault::Absent => 14,
        BindFault::NoComponent => 15,
    }
}

fn keep_bounds(store: &Store, place: u32) -> Result<(), Refusal> {
    let size = measure(store);
    let over = [
        (16, size.depth > DEPTH),
        (17, size.nodes > NODES),
        (18, size.text > TABLE_TEXT_BYTES),
    ];
    match over.iter().find(|(_, is_over)| *is_over) {
        Some((number, _)) => Err(Refusal::new(*number, place)),
        None => Ok(()),
    }
}

/// Binds an empty component, as every `extends` does first.
pub fn make(store: &mut Store, path: &[Name], place: u32) -> Result<(), Refusal> {
    bind(store, path, Value::Component(Store::default()), place)
}

/// Binds the value that the reference has now; it is taken before the bind.
pub fn link(
    store: &mut Store,
    scope: &[Name],
    path: &[Name],
    reference: &[Name],
    place: u32,
) -> Result<(), Refusal> {
    let Some(value) = store.resolve(scope, reference).cloned() else {
        return Err(Refusal::new(11, place));
    };
    bind(store, path, value, place)
}

/// Document 002, definitions 17 and 18. The attributes copied are those before the first put.
pub fn inherit(
    store: &mut Store,
    scope: &[Name],
    reference: &[Name],
    component: &[Name],
    place: u32,
) -> Result<(), Refusal> {
    let prototype = match store.resolve(scope, reference) {
        Some(Value::Component(found)) => found.clone(),
        Some(Value::Basic(_)) => return Err(Refusal::new(13, place)),
        None => return Err(Refusal::new(12, place)),
    };
    for (name, value) in prototype.attributes {
        bind(store, &join(component, &[name]), value, place)?;
    }
    Ok(())
}
