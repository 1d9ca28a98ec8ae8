//! A map from keys to values, kept in a vector by the key's number.

use std::marker::PhantomData;
use std::ops::{Index, IndexMut};

use crate::Key;

#[derive(Debug, Clone)]
pub struct TinySecondaryMap<K: Key, V> {
    values: Vec<Option<V>>,
    keys: PhantomData<K>,
}

impl<K: Key, V> TinySecondaryMap<K, V> {
    pub fn new() -> Self {
        Self {
            values: Vec::new(),
            keys: PhantomData,
        }
    }

    /// Puts a value under a key and answers the value it replaced.
    #[inline]
    pub fn insert(&mut self, key: K, value: V) -> Option<V> {
        let index = key.index();
        if index >= self.values.len() {
            self.values.resize_with(index + 1, || None);
        }
        self.values[index].replace(value)
    }

    #[inline]
    pub fn get(&self, key: K) -> Option<&V> {
        self.values.get(key.index()).and_then(Option::as_ref)
    }

    /// The values in order of their keys.
    pub fn values(&self) -> impl Iterator<Item = &V> + '_ {
        self.values.iter().flatten()
    }
}

impl<K: Key, V> Default for TinySecondaryMap<K, V> {
    fn default() -> Self {
        Self::new()
    }
}

impl<K: Key, V> Index<K> for TinySecondaryMap<K, V> {
    type Output = V;

    #[inline]
    fn index(&self, key: K) -> &V {
        self.values[key.index()]
            .as_ref()
            .expect("the map has no value under this key")
    }
}

impl<K: Key, V> IndexMut<K> for TinySecondaryMap<K, V> {
    #[inline]
    fn index_mut(&mut self, key: K) -> &mut V {
        self.values[key.index()]
            .as_mut()
            .expect("the map has no value under this key")
    }
}

impl<K: Key, V> FromIterator<(K, V)> for TinySecondaryMap<K, V> {
    fn from_iter<I: IntoIterator<Item = (K, V)>>(pairs: I) -> Self {
        let mut map = Self::new();
        for (key, value) in pairs {
            map.insert(key, value);
        }
        map
    }
}
