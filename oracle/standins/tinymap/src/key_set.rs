//! A set of keys, one bit a key in words of 64.

use std::marker::PhantomData;

use crate::Key;

#[derive(Debug, Clone)]
pub struct KeySet<K: Key> {
    words: Vec<u64>,
    keys: PhantomData<K>,
}

impl<K: Key> KeySet<K> {
    /// An empty set with room for keys below `keys`.
    pub fn with_capacity(keys: usize) -> Self {
        Self {
            words: vec![0; (keys + 63) / 64],
            keys: PhantomData,
        }
    }

    #[inline]
    pub fn insert(&mut self, key: K) {
        let index = key.index();
        self.words[index / 64] |= 1 << (index % 64);
    }

    #[inline]
    pub fn is_empty(&self) -> bool {
        self.words.iter().all(|&word| word == 0)
    }

    #[inline]
    pub fn clear(&mut self) {
        self.words.fill(0);
    }

    /// The keys, ascending.
    #[inline]
    pub fn iter(&self) -> Iter<'_, K> {
        Iter {
            word: self.words.first().copied().unwrap_or(0),
            at: 0,
            words: &self.words,
            keys: PhantomData,
        }
    }
}

impl<K: Key> Default for KeySet<K> {
    fn default() -> Self {
        Self::with_capacity(0)
    }
}

impl<K: Key> Extend<K> for KeySet<K> {
    #[inline]
    fn extend<I: IntoIterator<Item = K>>(&mut self, keys: I) {
        for key in keys {
            self.insert(key);
        }
    }
}

impl<K: Key + std::fmt::Display> std::fmt::Display for KeySet<K> {
    fn fmt(&self, f: &mut std::fmt::Formatter<'_>) -> std::fmt::Result {
        for (place, key) in self.iter().enumerate() {
            if place > 0 {
                f.write_str(",")?;
            }
            write!(f, "{key}")?;
        }
        Ok(())
    }
}

/// Walks over a set's keys by the lowest bit still standing.
#[derive(Debug, Clone)]
pub struct Iter<'a, K: Key> {
    words: &'a [u64],
    /// Number of the word being walked.
    at: usize,
    /// What is left of it.
    word: u64,
    keys: PhantomData<K>,
}

impl<K: Key> Iterator for Iter<'_, K> {
    type Item = K;

    #[inline]
    fn next(&mut self) -> Option<K> {
        while self.word == 0 {
            self.at += 1;
            self.word = *self.words.get(self.at)?;
        }
        let bit = self.word.trailing_zeros() as usize;
        self.word &= self.word - 1;
        Some(K::from(self.at * 64 + bit))
    }
}
