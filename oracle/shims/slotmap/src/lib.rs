//! `SlotMap` without removal: a key is the number of the insertion that gave it, from 0.
use std::fmt::Debug;
use std::hash::Hash;
use std::marker::PhantomData;

pub trait Key: Copy + Debug + Default + Eq + Hash {
    fn from_number(number: usize) -> Self;
    fn number(self) -> usize;
}

#[macro_export]
macro_rules! new_key_type {
    ($(#[$attribute:meta])* $visibility:vis struct $name:ident;) => {
        $(#[$attribute])*
        #[derive(Clone, Copy, Debug, Default, PartialEq, Eq, Hash)]
        $visibility struct $name(usize);

        impl $crate::Key for $name {
            fn from_number(number: usize) -> Self {
                Self(number)
            }

            fn number(self) -> usize {
                self.0
            }
        }
    };
}

pub struct SlotMap<K: Key, V> {
    values: Vec<V>,
    key: PhantomData<K>,
}

impl<K: Key, V> SlotMap<K, V> {
    pub fn with_capacity_and_key(capacity: usize) -> Self {
        Self { values: Vec::with_capacity(capacity), key: PhantomData }
    }

    pub fn insert(&mut self, value: V) -> K {
        self.values.push(value);
        K::from_number(self.values.len() - 1)
    }

    pub fn get(&self, key: K) -> Option<&V> {
        self.values.get(key.number())
    }

    pub fn get_mut(&mut self, key: K) -> Option<&mut V> {
        self.values.get_mut(key.number())
    }

    /// `None` if a key is not in the map or comes twice.
    pub fn get_disjoint_mut<const N: usize>(&mut self, keys: [K; N]) -> Option<[&mut V; N]> {
        self.values.get_disjoint_mut(keys.map(K::number)).ok()
    }

    /// The values in the order of their insertion.
    pub fn values(&self) -> impl ExactSizeIterator<Item = &V> {
        self.values.iter()
    }
}
