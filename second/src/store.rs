//! Stores and what may be done with them: put, bind, find, resolve, measure.

pub type Name = Vec<u8>;
pub type Path = Vec<Name>;

/// The values that are not components.
#[derive(Clone, Debug, PartialEq, Eq)]
pub enum Basic {
    Boolean(bool),
    Null,
    Integer(i64),
    Decimal(Vec<u8>),
    String(Vec<u8>),
    Data(Path),
    Vector(Vec<Basic>),
}

#[derive(Clone, Debug, PartialEq, Eq)]
pub enum Value {
    Basic(Basic),
    Component(Store),
}

/// An ordered list of names with values.
#[derive(Clone, Debug, Default, PartialEq, Eq)]
pub struct Store {
    pub attributes: Vec<(Name, Value)>,
}

/// Why a bind cannot be made.
#[derive(Clone, Copy, Debug, PartialEq, Eq)]
pub enum BindFault {
    Root,
    Absent,
    NoComponent,
}

impl Store {
    pub fn get(&self, name: &[u8]) -> Option<&Value> {
        let mut found = self.attributes.iter().filter(|(own, _)| own == name);
        found.next().map(|(_, value)| value)
    }

    fn get_mut(&mut self, name: &[u8]) -> Option<&mut Value> {
        let mut found = self.attributes.iter_mut().filter(|(own, _)| own == name);
        found.next().map(|(_, value)| value)
    }

    /// A present name keeps its position; a new name goes to the end.
    pub fn put(&mut self, name: &[u8], value: Value) {
        match self.get_mut(name) {
            Some(old) => *old = value,
            None => self.attributes.push((name.to_vec(), value)),
        }
    }

    /// Document 002, definition 13. All names but the last must lead through components.
    pub fn bind(&mut self, path: &[Name], value: Value) -> Result<(), BindFault> {
        let Some((last, before)) = path.split_last() else {
            return Err(BindFault::Root);
        };
        let mut here = self;
        for name in before {
            here = match here.get_mut(name) {
                Some(Value::Component(inner)) => inner,
                Some(Value::Basic(_)) => return Err(BindFault::NoComponent),
                None => return Err(BindFault::Absent),
            };
        }
        here.put(last, value);
        Ok(())
    }

    /// The component that the names lead to; no names lead to this store itself.
    pub fn component(&self, names: &[Name]) -> Option<&Store> {
        let mut here = self;
        for name in names {
            let Some(Value::Component(inner)) = here.get(name) else {
                return None;
            };
            here = inner;
        }
        Some(here)
    }

    /// Document 002, definition 14, for paths of at least one name.
    pub fn find(&self, path: &[Name]) -> Option<&Value> {
        let (last, before) = path.split_last()?;
        self.component(before)?.get(last)
    }

    /// Document 002, definition 16: the whole reference is looked for in ever shorter scopes.
    pub fn resolve(&self, scope: &[Name], reference: &[Name]) -> Option<&Value> {
        let mut scopes = (0..=scope.len()).rev();
        scopes.find_map(|kept| self.find(&join(&scope[..kept], reference)))
    }
}

/// Document 002, definition 7.
pub fn join(scope: &[Name], path: &[Name]) -> Path {
    [scope, path].concat()
}

/// What the bounds of tables are counted in.
#[derive(Clone, Copy, Debug, Default, PartialEq, Eq)]
pub struct Measure {
    pub depth: usize,
    pub nodes: usize,
    pub text: usize,
}

impl Measure {
    fn beside(self, other: Measure) -> Measure {
        Measure {
            depth: self.depth.max(other.depth),
            nodes: self.nodes + other.nodes,
            text: self.text + other.text,
        }
    }

    /// One node with its own text bytes, and this beneath it.
    fn under_a_node(self, text: usize) -> Measure {
        Measure {
            depth: self.depth + 1,
            nodes: self.nodes + 1,
            text: self.text + text,
        }
    }
}

pub fn measure(store: &Store) -> Measure {
    let each = store.attributes.iter().map(|(name, value)| match value {
        Value::Component(inner) => measure(inner).under_a_node(name_text(name)),
        Value::Basic(basic) => measure_node(basic, name_text(name)),
    });
    each.fold(Measure::default(), Measure::beside)
}

/// A node that holds a basic value; an element has no name, so no name text.
fn measure_node(basic: &Basic, name_text: usize) -> Measure {
    let beneath = match basic {
        Basic::Vector(elements) => {
            let each = elements.iter().map(|element| measure_node(element, 0));
            each.fold(Measure::default(), Measure::beside)
        }
        _ => Measure::default(),
    };
    beneath.under_a_node(name_text + own_text(basic))
}

/// Text bytes of a name under Layouts.
pub fn name_text(name: &[u8]) -> usize {
    1 + name.len()
}

/// Text bytes of a path under Layouts.
pub fn path_text(path: &[Name]) -> usize {
    1 + path.iter().map(|name| name_text(name)).sum::<usize>()
}

/// Text bytes of a value itself; a vector's elements count for themselves.
fn own_text(basic: &Basic) -> usize {
    match basic {
        Basic::Decimal(text) | Basic::String(text) => 2 + text.len(),
        Basic::Data(path) => path_text(path),
        _ => 0,
    }
}

/// Nodes and text of a value alone, as a step list counts its set and items.
pub fn measure_basic(basic: &Basic) -> Measure {
    measure_node(basic, 0)
}
