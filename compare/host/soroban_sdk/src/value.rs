//! Host values: each value is a row of leaves, as keys, stored values and events.
use crate::host::{Address, Env};

#[derive(Clone, Copy, Debug, PartialEq, Eq, Hash)]
pub enum Leaf {
    Symbol(&'static str),
    Address(u8),
    I128(i128),
    U64(u64),
    U32(u32),
    Bool(bool),
    Length(u32),
}

pub type Leaves<'a> = std::slice::Iter<'a, Leaf>;

pub trait Value: Sized {
    fn write(&self, out: &mut std::vec::Vec<Leaf>);
    fn read(env: &Env, leaves: &mut Leaves<'_>) -> Self;

    fn leaves(&self) -> std::vec::Vec<Leaf> {
        let mut out = std::vec::Vec::with_capacity(4);
        self.write(&mut out);
        out
    }
}

/// The next leaf, which names a case of an enum.
pub fn symbol(leaves: &mut Leaves<'_>) -> &'static str {
    match leaves.next() {
        Some(Leaf::Symbol(name)) => name,
        other => panic!("a symbol was expected, not {other:?}"),
    }
}

macro_rules! leaf {
    ($type:ty, $case:ident) => {
        impl Value for $type {
            fn write(&self, out: &mut std::vec::Vec<Leaf>) {
                out.push(Leaf::$case(*self));
            }
            fn read(_: &Env, leaves: &mut Leaves<'_>) -> Self {
                match leaves.next() {
                    Some(Leaf::$case(v)) => *v,
                    other => panic!(concat!("a ", stringify!($type), " was expected, not {:?}"), other),
                }
            }
        }
    };
}
leaf!(i128, I128);
leaf!(u64, U64);
leaf!(u32, U32);
leaf!(bool, Bool);

impl Value for () {
    fn write(&self, _: &mut std::vec::Vec<Leaf>) {}
    fn read(_: &Env, _: &mut Leaves<'_>) -> Self {}
}

impl Value for Address {
    fn write(&self, out: &mut std::vec::Vec<Leaf>) {
        out.push(Leaf::Address(self.number()));
    }
    fn read(env: &Env, leaves: &mut Leaves<'_>) -> Self {
        match leaves.next() {
            Some(Leaf::Address(number)) => Address::new(env, *number),
            other => panic!("an address was expected, not {other:?}"),
        }
    }
}

macro_rules! tuple {
    ($($t:ident $i:tt),+) => {
        impl<$($t: Value),+> Value for ($($t,)+) {
            fn write(&self, out: &mut std::vec::Vec<Leaf>) {
                $(self.$i.write(out);)+
            }
            fn read(env: &Env, leaves: &mut Leaves<'_>) -> Self {
                ($($t::read(env, leaves),)+)
            }
        }
    };
}
tuple!(A 0);
tuple!(A 0, B 1);
tuple!(A 0, B 1, C 2);
tuple!(A 0, B 1, C 2, D 3);

#[derive(Clone, Copy, Debug, PartialEq, Eq)]
pub struct Symbol(&'static str);

impl Symbol {
    pub const fn short(name: &'static str) -> Symbol {
        assert!(name.len() <= 9, "a short symbol has at most nine letters");
        Symbol(name)
    }

    pub fn new(_: &Env, name: &'static str) -> Symbol {
        Symbol(name)
    }
}

impl Value for Symbol {
    fn write(&self, out: &mut std::vec::Vec<Leaf>) {
        out.push(Leaf::Symbol(self.0));
    }
    fn read(_: &Env, leaves: &mut Leaves<'_>) -> Self {
        Symbol(symbol(leaves))
    }
}

#[derive(Clone, Debug, PartialEq, Eq)]
pub struct Vec<T>(std::vec::Vec<T>);

impl<T: Value + Clone> Vec<T> {
    pub fn new(_: &Env) -> Vec<T> {
        Vec(std::vec::Vec::new())
    }

    pub fn len(&self) -> u32 {
        self.0.len() as u32
    }

    pub fn is_empty(&self) -> bool {
        self.0.is_empty()
    }

    pub fn get(&self, index: u32) -> Option<T> {
        self.0.get(index as usize).cloned()
    }

    pub fn push_back(&mut self, item: T) {
        self.0.push(item);
    }

    pub fn iter(&self) -> std::iter::Cloned<std::slice::Iter<'_, T>> {
        self.0.iter().cloned()
    }

    /// Two values are the same if their leaves are.
    pub fn contains(&self, item: &T) -> bool {
        let wanted = item.leaves();
        let mut leaves = std::vec::Vec::new();
        self.0.iter().any(|i| {
            leaves.clear();
            i.write(&mut leaves);
            leaves == wanted
        })
    }
}

impl<T: Value> Value for Vec<T> {
    fn write(&self, out: &mut std::vec::Vec<Leaf>) {
        out.push(Leaf::Length(self.0.len() as u32));
        for item in &self.0 {
            item.write(out);
        }
    }
    fn read(env: &Env, leaves: &mut Leaves<'_>) -> Self {
        match leaves.next() {
            Some(Leaf::Length(n)) => Vec((0..*n).map(|_| T::read(env, leaves)).collect()),
            other => panic!("a length was expected, not {other:?}"),
        }
    }
}
