//! Maps without an order.

use crate::shim::hasher::HashSecrets;
use crate::shim::std::alloc::{AllocError, AllocFailed, Global};
use std::borrow::Borrow;
use std::collections::hash_map;
use std::fmt;
use std::hash::Hash;

pub use std::collections::hash_map::{Iter, Keys, Values};

/// Rust's map. Each method that allocates returns an error when memory runs out.
pub struct HashMap<K, V>(hash_map::HashMap<K, V, HashSecrets>);

impl<K: Eq + Hash, V> HashMap<K, V> {
    /// An empty map, which has allocated nothing.
    pub fn new(_: Global) -> HashMap<K, V> {
        HashMap(hash_map::HashMap::with_hasher(HashSecrets::new()))
    }

    /// The map of Rust.
    pub fn into_std(self) -> hash_map::HashMap<K, V, HashSecrets> {
        self.0
    }

    /// Makes room for this many more entries.
    pub fn reserve(&mut self, additional: usize) -> Result<(), AllocError> {
        Ok(self.0.try_reserve(additional)?)
    }

    /// Sets the value of a key and returns the one before, or gives both back.
    pub fn insert(&mut self, key: K, value: V) -> Result<Option<V>, AllocFailed<(K, V)>> {
        if self.0.try_reserve(1).is_err() {
            return Err(AllocFailed { value: (key, value) });
        }
        Ok(self.0.insert(key, value))
    }

    /// The value of a key.
    pub fn get<Q: Eq + Hash + ?Sized>(&self, key: &Q) -> Option<&V>
    where
        K: Borrow<Q>,
    {
        self.0.get(key)
    }

    /// The value of a key, to be changed.
    pub fn get_mut<Q: Eq + Hash + ?Sized>(&mut self, key: &Q) -> Option<&mut V>
    where
        K: Borrow<Q>,
    {
        self.0.get_mut(key)
    }

    /// Whether a key has a value.
    pub fn contains_key<Q: Eq + Hash + ?Sized>(&self, key: &Q) -> bool
    where
        K: Borrow<Q>,
    {
        self.0.contains_key(key)
    }

    /// Removes a key and returns its value.
    pub fn remove<Q: Eq + Hash + ?Sized>(&mut self, key: &Q) -> Option<V>
    where
        K: Borrow<Q>,
    {
        self.0.remove(key)
    }
}

impl<K, V> HashMap<K, V> {
    /// The number of entries.
    pub fn len(&self) -> usize {
        self.0.len()
    }

    /// Whether there is no entry.
    pub fn is_empty(&self) -> bool {
        self.0.is_empty()
    }

    /// The entries, in no order.
    pub fn iter(&self) -> Iter<'_, K, V> {
        self.0.iter()
    }

    /// The keys, in no order.
    pub fn keys(&self) -> Keys<'_, K, V> {
        self.0.keys()
    }

    /// The values, in no order.
    pub fn values(&self) -> Values<'_, K, V> {
        self.0.values()
    }
}

impl<'a, K, V> IntoIterator for &'a HashMap<K, V> {
    type Item = (&'a K, &'a V);

    type IntoIter = Iter<'a, K, V>;

    fn into_iter(self) -> Self::IntoIter {
        self.0.iter()
    }
}

impl<K, V> IntoIterator for HashMap<K, V> {
    type Item = (K, V);

    type IntoIter = hash_map::IntoIter<K, V>;

    fn into_iter(self) -> Self::IntoIter {
        self.0.into_iter()
    }
}

impl<K: Eq + Hash, V: PartialEq> PartialEq for HashMap<K, V> {
    fn eq(&self, other: &HashMap<K, V>) -> bool {
        self.0 == other.0
    }
}

impl<K: Eq + Hash, V: Eq> Eq for HashMap<K, V> {}

impl<K: fmt::Debug, V: fmt::Debug> fmt::Debug for HashMap<K, V> {
    fn fmt(&self, f: &mut fmt::Formatter<'_>) -> fmt::Result {
        self.0.fmt(f)
    }
}
