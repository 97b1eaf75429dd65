//! Maps and sets in the order of insertion.

use super::hasher::HashSecrets;
use super::std::alloc::{AllocError, AllocFailed, Global};
use super::std::string::String;
use super::std::vec::Vec;
use ::std::fmt;
use ::std::hash::{BuildHasher, Hash};
use ::std::ops::{Index, IndexMut};
use ::std::slice;

/// The fewest places of a table.
const FIRST_PLACES: usize = 8;

/// What can be looked up among keys: it has the hash of the key that it is equivalent to.
pub trait Equivalent<K>: Hash {
    /// Whether it stands for a key.
    fn is_equivalent(&self, key: &K) -> bool;
}

impl<K: Eq + Hash> Equivalent<K> for K {
    #[inline]
    fn is_equivalent(&self, key: &K) -> bool {
        self == key
    }
}

// As for vectors, no elements aren't compared.
impl<T: Eq + Hash> Equivalent<Vec<T>> for [T] {
    #[inline]
    fn is_equivalent(&self, key: &Vec<T>) -> bool {
        self.len() == key.len() && (self.is_empty() || *self == **key)
    }
}

impl Equivalent<String> for str {
    #[inline]
    fn is_equivalent(&self, key: &String) -> bool {
        self.len() == key.len() && (self.is_empty() || *self == **key)
    }
}

// The positions of entries by the hashes of their keys: a table with open addressing. Entries aren't removed.
struct Table {
    // There are more places than entries, so each search ends.
    places: ::std::vec::Vec<Place>,
    secrets: HashSecrets,
}

// A part of the hash of an entry's key, and the entry's position plus 1, or 0. More entries than fit are no memory.
#[derive(Clone, Copy)]
struct Place {
    hash: u32,
    entry: u32,
}

impl Table {
    fn new() -> Table {
        Table {
            places: ::std::vec::Vec::new(),
            secrets: HashSecrets::new(),
        }
    }

    // The position of the entry with this hash of which `is_key` says so, or the free place for it.
    fn find(&self, hash: u32, is_key: impl Fn(usize) -> bool) -> Result<usize, usize> {
        let mask = self.places.len() - 1;
        let mut index = hash as usize & mask;
        loop {
            let place = self.places[index];
            if place.entry == 0 {
                return Err(index);
            }
            let position = place.entry as usize - 1;
            if place.hash == hash && is_key(position) {
                return Ok(position);
            }
            index = (index + 1) & mask;
        }
    }

    // The part of a key's hash that the places have.
    fn hash<Q: Hash + ?Sized>(&self, key: &Q) -> u32 {
        self.secrets.hash_one(key) as u32
    }

    // Makes room for one more entry than `len`.
    fn reserve(&mut self, len: usize) -> Result<(), AllocError> {
        if len >= u32::MAX as usize {
            return Err(AllocError);
        }
        if len < self.places.len() / 4 * 3 {
            return Ok(());
        }
        let count = (2 * self.places.len()).max(FIRST_PLACES);
        let mut places = ::std::vec::Vec::new();
        places.try_reserve_exact(count)?;
        places.resize(count, Place { hash: 0, entry: 0 });
        let old = ::std::mem::replace(&mut self.places, places);
        for place in old.into_iter().filter(|place| place.entry > 0) {
            self.put(place);
        }
        Ok(())
    }

    // Puts an entry, for which there is room, at its place.
    fn put(&mut self, place: Place) {
        if let Err(index) = self.find(place.hash, |_| false) {
            self.places[index] = place;
        }
    }
}

/// A map in the order of insertion.
pub struct IndexMap<K, V> {
    entries: ::std::vec::Vec<(K, V)>,
    table: Table,
}

impl<K: Eq + Hash, V> IndexMap<K, V> {
    /// An empty map, which has allocated nothing.
    pub fn new(_: Global) -> IndexMap<K, V> {
        IndexMap {
            entries: ::std::vec::Vec::new(),
            table: Table::new(),
        }
    }

    /// The position of a key.
    pub fn get_index_of<Q: Equivalent<K> + ?Sized>(&self, key: &Q) -> Option<usize> {
        if self.entries.is_empty() {
            return None;
        }
        self.position(self.table.hash(key), key)
    }

    // The position of a key with this hash.
    #[inline]
    fn position<Q: Equivalent<K> + ?Sized>(&self, hash: u32, key: &Q) -> Option<usize> {
        if self.entries.is_empty() {
            return None;
        }
        self.table.find(hash, |at| key.is_equivalent(&self.entries[at].0)).ok()
    }

    /// The value of a key.
    pub fn get<Q: Equivalent<K> + ?Sized>(&self, key: &Q) -> Option<&V> {
        self.get_index_of(key).map(|at| &self.entries[at].1)
    }

    /// The value of a key, to be changed.
    pub fn get_mut<Q: Equivalent<K> + ?Sized>(&mut self, key: &Q) -> Option<&mut V> {
        self.get_index_of(key).map(|at| &mut self.entries[at].1)
    }

    /// Whether a key has a value.
    pub fn contains_key<Q: Equivalent<K> + ?Sized>(&self, key: &Q) -> bool {
        self.get_index_of(key).is_some()
    }

    // Makes room for one more entry.
    fn reserve(&mut self) -> Result<(), AllocError> {
        self.table.reserve(self.entries.len())?;
        Ok(self.entries.try_reserve(1)?)
    }

    // Appends the entry of an absent key with this hash and returns its position, or gives both back.
    fn push(&mut self, hash: u32, key: K, value: V) -> Result<usize, AllocFailed<(K, V)>> {
        if self.reserve().is_err() {
            return Err(AllocFailed { value: (key, value) });
        }
        self.entries.push((key, value));
        let entry = self.entries.len() as u32;
        self.table.put(Place { hash, entry });
        Ok(self.entries.len() - 1)
    }

    /// Sets the value of a key and returns the one before, or gives both back.
    pub fn insert(&mut self, key: K, value: V) -> Result<Option<V>, AllocFailed<(K, V)>> {
        let hash = self.table.hash(&key);
        if let Some(at) = self.position(hash, &key) {
            return Ok(Some(::std::mem::replace(&mut self.entries[at].1, value)));
        }
        self.push(hash, key, value)?;
        Ok(None)
    }
}

impl<K, V> IndexMap<K, V> {
    /// The number of entries.
    pub fn len(&self) -> usize {
        self.entries.len()
    }

    /// Whether there is no entry.
    pub fn is_empty(&self) -> bool {
        self.entries.is_empty()
    }

    /// The entry at a position.
    pub fn get_index(&self, index: usize) -> Option<(&K, &V)> {
        self.entries.get(index).map(|entry| (&entry.0, &entry.1))
    }

    /// The value at a position, to be changed.
    pub fn get_index_mut(&mut self, index: usize) -> Option<&mut V> {
        self.entries.get_mut(index).map(|entry| &mut entry.1)
    }

    /// The entries in order.
    pub fn iter(&self) -> Iter<'_, K, V> {
        Iter(self.entries.iter())
    }

    /// The keys in order.
    pub fn keys(&self) -> impl ExactSizeIterator<Item = &K> {
        self.entries.iter().map(|entry| &entry.0)
    }

    /// The values in the order of their keys.
    pub fn values(&self) -> impl ExactSizeIterator<Item = &V> {
        self.entries.iter().map(|entry| &entry.1)
    }
}

/// The entries of a map in order.
pub struct Iter<'a, K, V>(slice::Iter<'a, (K, V)>);

impl<'a, K, V> Iterator for Iter<'a, K, V> {
    type Item = (&'a K, &'a V);

    fn next(&mut self) -> Option<(&'a K, &'a V)> {
        self.0.next().map(|entry| (&entry.0, &entry.1))
    }

    fn size_hint(&self) -> (usize, Option<usize>) {
        self.0.size_hint()
    }
}

impl<K, V> ExactSizeIterator for Iter<'_, K, V> {}

impl<K, V> DoubleEndedIterator for Iter<'_, K, V> {
    fn next_back(&mut self) -> Option<Self::Item> {
        self.0.next_back().map(|entry| (&entry.0, &entry.1))
    }
}

impl<'a, K, V> IntoIterator for &'a IndexMap<K, V> {
    type Item = (&'a K, &'a V);

    type IntoIter = Iter<'a, K, V>;

    fn into_iter(self) -> Iter<'a, K, V> {
        self.iter()
    }
}

impl<K, V> IntoIterator for IndexMap<K, V> {
    type Item = (K, V);

    type IntoIter = ::std::vec::IntoIter<(K, V)>;

    fn into_iter(self) -> Self::IntoIter {
        self.entries.into_iter()
    }
}

impl<K, V> Index<usize> for IndexMap<K, V> {
    type Output = V;

    fn index(&self, index: usize) -> &V {
        &self.entries[index].1
    }
}

impl<K, V> IndexMut<usize> for IndexMap<K, V> {
    fn index_mut(&mut self, index: usize) -> &mut V {
        &mut self.entries[index].1
    }
}

impl<K: fmt::Debug, V: fmt::Debug> fmt::Debug for IndexMap<K, V> {
    fn fmt(&self, f: &mut fmt::Formatter<'_>) -> fmt::Result {
        f.debug_map().entries(self).finish()
    }
}

impl<K: Eq + Hash, V: PartialEq> PartialEq for IndexMap<K, V> {
    fn eq(&self, other: &IndexMap<K, V>) -> bool {
        self.len() == other.len() && self.iter().all(|(key, value)| other.get(key) == Some(value))
    }
}

impl<K: Eq + Hash, V: Eq> Eq for IndexMap<K, V> {}

/// A set in the order of insertion.
pub struct IndexSet<T>(IndexMap<T, ()>);

impl<T: Eq + Hash> IndexSet<T> {
    /// An empty set, which has allocated nothing.
    pub fn new(alloc: Global) -> IndexSet<T> {
        IndexSet(IndexMap::new(alloc))
    }

    /// Adds a value. Returns its position and whether it wasn't there, or gives it back.
    pub fn insert_full(&mut self, value: T) -> Result<(usize, bool), AllocFailed<T>> {
        let hash = self.0.table.hash(&value);
        match self.0.position(hash, &value) {
            Some(at) => Ok((at, false)),
            None => match self.0.push(hash, value, ()) {
                Ok(at) => Ok((at, true)),
                Err(failed) => Err(AllocFailed { value: failed.value.0 }),
            },
        }
    }

    /// Adds a value. Returns whether it wasn't there, or gives it back.
    pub fn insert(&mut self, value: T) -> Result<bool, AllocFailed<T>> {
        self.insert_full(value).map(|inserted| inserted.1)
    }

    /// The position of a value.
    pub fn get_index_of<Q: Equivalent<T> + ?Sized>(&self, value: &Q) -> Option<usize> {
        self.0.get_index_of(value)
    }

    /// Whether the set contains a value.
    pub fn contains<Q: Equivalent<T> + ?Sized>(&self, value: &Q) -> bool {
        self.0.contains_key(value)
    }
}

impl<T> IndexSet<T> {
    /// The number of values.
    pub fn len(&self) -> usize {
        self.0.len()
    }

    /// Whether there is no value.
    pub fn is_empty(&self) -> bool {
        self.0.is_empty()
    }

    /// The value at a position.
    pub fn get_index(&self, index: usize) -> Option<&T> {
        self.0.get_index(index).map(|entry| entry.0)
    }

    /// The values in order.
    pub fn iter(&self) -> SetIter<'_, T> {
        SetIter(self.0.iter())
    }
}

/// The values of a set in order.
pub struct SetIter<'a, T>(Iter<'a, T, ()>);

impl<'a, T> Iterator for SetIter<'a, T> {
    type Item = &'a T;

    fn next(&mut self) -> Option<&'a T> {
        self.0.next().map(|entry| entry.0)
    }

    fn size_hint(&self) -> (usize, Option<usize>) {
        self.0.size_hint()
    }
}

impl<T> ExactSizeIterator for SetIter<'_, T> {}

/// The values of a set in order, by value.
pub struct SetIntoIter<T>(::std::vec::IntoIter<(T, ())>);

impl<T> Iterator for SetIntoIter<T> {
    type Item = T;

    fn next(&mut self) -> Option<T> {
        self.0.next().map(|entry| entry.0)
    }

    fn size_hint(&self) -> (usize, Option<usize>) {
        self.0.size_hint()
    }
}

impl<'a, T> IntoIterator for &'a IndexSet<T> {
    type Item = &'a T;

    type IntoIter = SetIter<'a, T>;

    fn into_iter(self) -> SetIter<'a, T> {
        self.iter()
    }
}

impl<T> IntoIterator for IndexSet<T> {
    type Item = T;

    type IntoIter = SetIntoIter<T>;

    fn into_iter(self) -> SetIntoIter<T> {
        SetIntoIter(self.0.into_iter())
    }
}

impl<T> Index<usize> for IndexSet<T> {
    type Output = T;

    fn index(&self, index: usize) -> &T {
        &self.0.entries[index].0
    }
}

impl<T: fmt::Debug> fmt::Debug for IndexSet<T> {
    fn fmt(&self, f: &mut fmt::Formatter<'_>) -> fmt::Result {
        f.debug_set().entries(self).finish()
    }
}
