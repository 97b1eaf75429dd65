//! Maps in the order of their keys.
//!
//! Rust's own ends the process when memory runs out. This is a B-tree whose nodes stand in one vector, and their values
//! in another: a search reads keys alone. A map of few entries has no tree.

use crate::shim::std::alloc::{AllocError, AllocFailed, Global};
use arrayvec::ArrayVec;
use std::borrow::Borrow;
use std::fmt;
use std::ops::Index;
use std::slice;

/// The fewest entries of a node that isn't the root.
const MIN: usize = 5;

/// The most entries of a node. Two nodes of `MIN` entries and the entry between them fill one node.
const CAPACITY: usize = 2 * MIN + 1;

/// The most levels: a tree of 2^32 nodes has fewer.
const MAX_DEPTH: usize = 16;

/// No node: the place of an entry that isn't in the tree.
const NONE: usize = u32::MAX as usize;

/// A map in the order of its keys.
pub struct BTreeMap<K, V> {
    /// The entries while they are at most those of a node, in memory that grows by and by. Then there are no nodes.
    few: Vec<(K, V)>,
    nodes: Vec<Node<K>>,
    /// The values of each node's keys.
    values: Vec<Values<V>>,
    len: usize,
    root: u32,
    /// The first of the nodes that aren't in use.
    free: u32,
}

// The keys in order. A node that isn't a leaf has a child before each key and one after the last.
struct Node<K> {
    keys: ArrayVec<K, CAPACITY>,
    children: ArrayVec<u32, { CAPACITY + 1 }>,
    /// The next node that isn't in use, if this one isn't.
    next_free: u32,
}

type Values<V> = ArrayVec<V, CAPACITY>;

impl<K> Node<K> {
    const EMPTY: Node<K> = Node {
        keys: ArrayVec::new_const(),
        children: ArrayVec::new_const(),
        next_free: NONE as u32,
    };

    fn is_leaf(&self) -> bool {
        self.children.is_empty()
    }

    fn is_full(&self) -> bool {
        self.keys.is_full()
    }

    #[inline]
    fn child(&self, position: usize) -> Option<usize> {
        self.children.get(position).map(|child| *child as usize)
    }
}

// Moves the elements from a position on to the end of another list, which has room for them.
fn move_to<T, const N: usize>(from: &mut ArrayVec<T, N>, position: usize, to: &mut ArrayVec<T, N>) {
    to.extend(from.drain(position..));
}

// Two elements of a list.
fn two<T>(list: &mut [T], first: usize, second: usize) -> [&mut T; 2] {
    list.get_disjoint_mut([first, second]).unwrap_or_else(|_| unreachable!())
}

impl<K, V> BTreeMap<K, V> {
    /// An empty map, which has allocated nothing.
    pub const fn new(_: Global) -> BTreeMap<K, V> {
        BTreeMap {
            few: Vec::new(),
            nodes: Vec::new(),
            values: Vec::new(),
            len: 0,
            root: 0,
            free: NONE as u32,
        }
    }

    /// The number of entries.
    pub fn len(&self) -> usize {
        self.len
    }

    /// Whether there is no entry.
    pub fn is_empty(&self) -> bool {
        self.len == 0
    }

    /// The entries in order.
    pub fn iter(&self) -> Iter<'_, K, V> {
        let mut iter = Iter {
            few: self.few.iter(),
            nodes: &self.nodes,
            values: &self.values,
            path: [(0, 0); MAX_DEPTH],
            depth: 0,
            left: self.len,
        };
        if !self.nodes.is_empty() {
            iter.descend(self.root);
        }
        iter
    }

    /// The keys in order.
    pub fn keys(&self) -> impl Iterator<Item = &K> {
        self.iter().map(|entry| entry.0)
    }

    /// The values in the order of their keys.
    pub fn values(&self) -> impl Iterator<Item = &V> {
        self.iter().map(|entry| entry.1)
    }

    /// The first entry.
    pub fn first_key_value(&self) -> Option<(&K, &V)> {
        self.iter().next()
    }

    /// The last entry.
    pub fn last_key_value(&self) -> Option<(&K, &V)> {
        if let Some((key, value)) = self.few.last() {
            return Some((key, value));
        }
        let mut at = self.root as usize;
        while let Some(child) = self.nodes.get(at)?.children.last() {
            at = *child as usize;
        }
        Some((self.nodes[at].keys.last()?, self.values[at].last()?))
    }

    // The value at a place that `find` or `make_room` returned.
    #[inline]
    fn value(&self, node: usize, position: usize) -> &V {
        match self.values.get(node) {
            Some(values) => &values[position],
            None => &self.few[position].1,
        }
    }

    #[inline]
    fn value_mut(&mut self, node: usize, position: usize) -> &mut V {
        match self.values.get_mut(node) {
            Some(values) => &mut values[position],
            None => &mut self.few[position].1,
        }
    }

    // Inserts an entry at a place that has room for it.
    fn insert_entry(&mut self, node: usize, position: usize, entry: (K, V)) {
        match self.nodes.get_mut(node) {
            Some(found) => {
                found.keys.insert(position, entry.0);
                self.values[node].insert(position, entry.1);
            }
            None => self.few.insert(position, entry),
        }
    }

    fn remove_entry(&mut self, node: usize, position: usize) -> (K, V) {
        (self.nodes[node].keys.remove(position), self.values[node].remove(position))
    }

    fn replace_entry(&mut self, node: usize, position: usize, entry: (K, V)) -> (K, V) {
        let key = std::mem::replace(&mut self.nodes[node].keys[position], entry.0);
        (key, std::mem::replace(&mut self.values[node][position], entry.1))
    }

    fn push_entry(&mut self, node: usize, entry: (K, V)) {
        self.nodes[node].keys.push(entry.0);
        self.values[node].push(entry.1);
    }

    fn pop_entry(&mut self, node: usize) -> Option<(K, V)> {
        Some((self.nodes[node].keys.pop()?, self.values[node].pop()?))
    }
}

impl<K: Ord, V> BTreeMap<K, V> {
    // Where a key is: its node and its position there.
    #[inline]
    fn find<Q: Ord + ?Sized>(&self, key: &Q) -> Option<(usize, usize)>
    where
        K: Borrow<Q>,
    {
        if self.nodes.is_empty() {
            let found = self.few.binary_search_by(|entry| entry.0.borrow().cmp(key));
            return found.ok().map(|position| (NONE, position));
        }
        let mut at = self.root as usize;
        loop {
            let node = self.nodes.get(at)?;
            match node.keys.binary_search_by(|found| found.borrow().cmp(key)) {
                Ok(position) => return Some((at, position)),
                Err(position) => at = node.child(position)?,
            }
        }
    }

    /// The value of a key.
    pub fn get<Q: Ord + ?Sized>(&self, key: &Q) -> Option<&V>
    where
        K: Borrow<Q>,
    {
        let (node, position) = self.find(key)?;
        Some(self.value(node, position))
    }

    /// The value of a key, to be changed.
    pub fn get_mut<Q: Ord + ?Sized>(&mut self, key: &Q) -> Option<&mut V>
    where
        K: Borrow<Q>,
    {
        let (node, position) = self.find(key)?;
        Some(self.value_mut(node, position))
    }

    /// Whether a key has a value.
    pub fn contains_key<Q: Ord + ?Sized>(&self, key: &Q) -> bool
    where
        K: Borrow<Q>,
    {
        self.find(key).is_some()
    }

    /// Sets the value of a key and returns the one before, or gives both back.
    pub fn insert(&mut self, key: K, value: V) -> Result<Option<V>, AllocFailed<(K, V)>> {
        if let Some(found) = self.get_mut(&key) {
            return Ok(Some(std::mem::replace(found, value)));
        }
        match self.make_room(&key) {
            Ok((node, position)) => {
                self.insert_entry(node, position, (key, value));
                self.len += 1;
                Ok(None)
            }
            Err(AllocError) => Err(AllocFailed { value: (key, value) }),
        }
    }

    /// The entry of a key, or the room for it. Gives the key back if there is no memory.
    pub fn entry(&mut self, key: K) -> Result<Entry<'_, K, V>, AllocFailed<K>> {
        if let Some((node, position)) = self.find(&key) {
            return Ok(Entry::Occupied(OccupiedEntry { map: self, node, position }));
        }
        match self.make_room(&key) {
            Ok((node, position)) => Ok(Entry::Vacant(VacantEntry { map: self, key, node, position })),
            Err(AllocError) => Err(AllocFailed { value: key }),
        }
    }

    // Returns the place of a key that is absent, which has room for it: a leaf and the position there.
    fn make_room(&mut self, key: &K) -> Result<(usize, usize), AllocError> {
        if self.nodes.is_empty() {
            if let Some(position) = self.make_room_in_few(key)? {
                return Ok((NONE, position));
            }
            self.make_tree()?;
        }
        if self.nodes[self.root as usize].is_full() {
            self.grow()?;
        }
        let mut at = self.root as usize;
        loop {
            let position = self.position(at, key);
            let Some(child) = self.nodes[at].child(position) else {
                return Ok((at, position));
            };
            if !self.nodes[child].is_full() {
                at = child;
                continue;
            }
            self.split(at, position)?;
            at = self.nodes[at].children[self.position(at, key)] as usize;
        }
    }

    // Returns the position of a key that is absent in a map without a tree, or `None` if that needs one.
    fn make_room_in_few(&mut self, key: &K) -> Result<Option<usize>, AllocError> {
        let len = self.few.len();
        if len == CAPACITY {
            return Ok(None);
        }
        if len == self.few.capacity() {
            self.few.try_reserve_exact((2 * len).clamp(1, CAPACITY) - len)?;
        }
        Ok(Some(self.few.partition_point(|entry| entry.0 < *key)))
    }

    // Moves all entries into the first node. There will be two more at once.
    fn make_tree(&mut self) -> Result<(), AllocError> {
        self.nodes.try_reserve_exact(3)?;
        self.values.try_reserve_exact(3)?;
        let (keys, values) = std::mem::take(&mut self.few).into_iter().unzip();
        self.nodes.push(Node { keys, ..Node::EMPTY });
        self.values.push(values);
        self.root = 0;
        Ok(())
    }

    // The number of a node's entries before a key.
    fn position(&self, node: usize, key: &K) -> usize {
        self.nodes[node].keys.partition_point(|found| found < key)
    }

    // Takes a node that isn't in use, or makes one.
    fn new_node(&mut self) -> Result<u32, AllocError> {
        if let Some(node) = self.nodes.get(self.free as usize) {
            return Ok(std::mem::replace(&mut self.free, node.next_free));
        }
        let made = self.nodes.len();
        if made == NONE {
            return Err(AllocError);
        }
        self.nodes.try_reserve(1)?;
        self.values.try_reserve(1)?;
        self.nodes.push(Node::EMPTY);
        self.values.push(ArrayVec::new());
        Ok(made as u32)
    }

    // Puts a new root above the full one, and splits that.
    fn grow(&mut self) -> Result<(), AllocError> {
        let old = self.root;
        let root = self.new_node()?;
        self.nodes[root as usize].children.push(old);
        self.root = root;
        if let Err(error) = self.split(root as usize, 0) {
            self.root = old;
            self.release(root);
            return Err(error);
        }
        Ok(())
    }

    // Splits the full child at a position of a node that has room.
    fn split(&mut self, parent: usize, position: usize) -> Result<(), AllocError> {
        let right = self.new_node()?;
        let left = self.nodes[parent].children[position] as usize;
        let [old, new] = two(&mut self.nodes, left, right as usize);
        move_to(&mut old.keys, MIN + 1, &mut new.keys);
        if !old.is_leaf() {
            move_to(&mut old.children, MIN + 1, &mut new.children);
        }
        let [old, new] = two(&mut self.values, left, right as usize);
        move_to(old, MIN + 1, new);
        if let Some(middle) = self.pop_entry(left) {
            self.insert_entry(parent, position, middle);
        }
        self.nodes[parent].children.insert(position + 1, right);
        Ok(())
    }

    // Puts a node without entries to those that aren't in use.
    fn release(&mut self, index: u32) {
        let node = &mut self.nodes[index as usize];
        node.children.clear();
        node.next_free = self.free;
        self.free = index;
    }

    /// Removes a key and returns its value.
    pub fn remove<Q: Ord + ?Sized>(&mut self, key: &Q) -> Option<V>
    where
        K: Borrow<Q>,
    {
        let (_, position) = self.find(key)?;
        self.len -= 1;
        if self.nodes.is_empty() {
            return Some(self.few.remove(position).1);
        }
        let removed = self.take(self.root as usize, key);
        let root = &self.nodes[self.root as usize];
        if let (true, Some(child)) = (root.keys.is_empty(), root.children.first().copied()) {
            self.release(self.root);
            self.root = child;
        }
        Some(removed.1)
    }

    // Removes a key that is at or below a node, which has more than `MIN` entries or is the root.
    fn take<Q: Ord + ?Sized>(&mut self, node: usize, key: &Q) -> (K, V)
    where
        K: Borrow<Q>,
    {
        let mut at = node;
        loop {
            match self.nodes[at].keys.binary_search_by(|found| found.borrow().cmp(key)) {
                Ok(position) if self.nodes[at].is_leaf() => return self.remove_entry(at, position),
                Ok(position) => {
                    if let Some(neighbor) = self.take_neighbor(at, position) {
                        return self.replace_entry(at, position, neighbor);
                    }
                    at = self.merge(at, position);
                }
                Err(position) => at = self.fill(at, position),
            }
        }
    }

    // Removes the entry before or after that at a position, if the child there can spare one.
    fn take_neighbor(&mut self, at: usize, position: usize) -> Option<(K, V)> {
        let left = self.nodes[at].children[position] as usize;
        let right = self.nodes[at].children[position + 1] as usize;
        if self.nodes[left].keys.len() > MIN {
            let mut last = left;
            while !self.nodes[last].is_leaf() {
                last = self.fill(last, self.nodes[last].keys.len());
            }
            return self.pop_entry(last);
        }
        if self.nodes[right].keys.len() > MIN {
            let mut first = right;
            while !self.nodes[first].is_leaf() {
                first = self.fill(first, 0);
            }
            return Some(self.remove_entry(first, 0));
        }
        None
    }

    // Returns the child at a position once it has more than `MIN` entries.
    fn fill(&mut self, at: usize, position: usize) -> usize {
        let child = self.nodes[at].children[position] as usize;
        if self.nodes[child].keys.len() > MIN {
            return child;
        }
        let len = |map: &Self, position: usize| {
            map.nodes[at].child(position).map_or(0, |index| map.nodes[index].keys.len())
        };
        if position > 0 && len(self, position - 1) > MIN {
            self.move_right(at, position - 1);
            return child;
        }
        if len(self, position + 1) > MIN {
            self.move_left(at, position);
            return child;
        }
        self.merge(at, position - usize::from(position + 1 == self.nodes[at].children.len()))
    }

    // Moves the last entry of the child before the entry at a position to the child after it.
    fn move_right(&mut self, at: usize, position: usize) {
        let left = self.nodes[at].children[position] as usize;
        let right = self.nodes[at].children[position + 1] as usize;
        let child = self.nodes[left].children.pop();
        if let Some(last) = self.pop_entry(left) {
            let middle = self.replace_entry(at, position, last);
            self.insert_entry(right, 0, middle);
        }
        if let Some(child) = child {
            self.nodes[right].children.insert(0, child);
        }
    }

    // Moves the first entry of the child after the entry at a position to the child before it.
    fn move_left(&mut self, at: usize, position: usize) {
        let left = self.nodes[at].children[position] as usize;
        let right = self.nodes[at].children[position + 1] as usize;
        let first = self.remove_entry(right, 0);
        let middle = self.replace_entry(at, position, first);
        self.push_entry(left, middle);
        if !self.nodes[right].is_leaf() {
            let child = self.nodes[right].children.remove(0);
            self.nodes[left].children.push(child);
        }
    }

    // Joins the two children of `MIN` entries at a position, and the entry between them. Returns the child.
    fn merge(&mut self, at: usize, position: usize) -> usize {
        let left = self.nodes[at].children[position] as usize;
        let right = self.nodes[at].children.remove(position + 1);
        let middle = self.remove_entry(at, position);
        self.push_entry(left, middle);
        let [joined, emptied] = two(&mut self.nodes, left, right as usize);
        move_to(&mut emptied.keys, 0, &mut joined.keys);
        move_to(&mut emptied.children, 0, &mut joined.children);
        let [joined, emptied] = two(&mut self.values, left, right as usize);
        move_to(emptied, 0, joined);
        self.release(right);
        left
    }
}

/// The entry of a key, or the room for it.
pub enum Entry<'a, K, V> {
    Occupied(OccupiedEntry<'a, K, V>),
    Vacant(VacantEntry<'a, K, V>),
}

/// The entry of a key.
pub struct OccupiedEntry<'a, K, V> {
    map: &'a mut BTreeMap<K, V>,
    node: usize,
    position: usize,
}

/// The room for a key.
pub struct VacantEntry<'a, K, V> {
    map: &'a mut BTreeMap<K, V>,
    key: K,
    node: usize,
    position: usize,
}

impl<'a, K, V> Entry<'a, K, V> {
    /// The value of the key, which is set if it has none.
    pub fn or_insert(self, value: V) -> &'a mut V {
        match self {
            Entry::Occupied(entry) => entry.into_mut(),
            Entry::Vacant(entry) => entry.insert(value),
        }
    }
}

impl<'a, K, V> OccupiedEntry<'a, K, V> {
    /// The value.
    pub fn get(&self) -> &V {
        self.map.value(self.node, self.position)
    }

    /// The value, to be changed for as long as the map is borrowed.
    pub fn into_mut(self) -> &'a mut V {
        self.map.value_mut(self.node, self.position)
    }
}

impl<'a, K, V> VacantEntry<'a, K, V> {
    /// Sets the value of the key.
    pub fn insert(self, value: V) -> &'a mut V {
        self.map.insert_entry(self.node, self.position, (self.key, value));
        self.map.len += 1;
        self.map.value_mut(self.node, self.position)
    }
}

/// The entries of a map in order.
pub struct Iter<'a, K, V> {
    few: slice::Iter<'a, (K, V)>,
    nodes: &'a [Node<K>],
    values: &'a [Values<V>],
    // The nodes from the root on, each with the position of its next entry.
    path: [(u32, u32); MAX_DEPTH],
    depth: usize,
    left: usize,
}

impl<K, V> Iter<'_, K, V> {
    // Goes from a node down to its first leaf.
    fn descend(&mut self, node: u32) {
        let mut at = node;
        loop {
            self.path[self.depth] = (at, 0);
            self.depth += 1;
            match self.nodes[at as usize].children.first() {
                Some(child) => at = *child,
                None => return,
            }
        }
    }
}

impl<'a, K, V> Iterator for Iter<'a, K, V> {
    type Item = (&'a K, &'a V);

    fn next(&mut self) -> Option<(&'a K, &'a V)> {
        let (nodes, values) = (self.nodes, self.values);
        while self.depth > 0 {
            let (index, position) = self.path[self.depth - 1];
            let node = &nodes[index as usize];
            let Some(key) = node.keys.get(position as usize) else {
                self.depth -= 1;
                continue;
            };
            self.path[self.depth - 1].1 += 1;
            if let Some(child) = node.children.get(position as usize + 1) {
                self.descend(*child);
            }
            self.left -= 1;
            return Some((key, &values[index as usize][position as usize]));
        }
        let (key, value) = self.few.next()?;
        self.left -= 1;
        Some((key, value))
    }

    fn size_hint(&self) -> (usize, Option<usize>) {
        (self.left, Some(self.left))
    }
}

impl<K, V> ExactSizeIterator for Iter<'_, K, V> {}

impl<'a, K, V> IntoIterator for &'a BTreeMap<K, V> {
    type Item = (&'a K, &'a V);

    type IntoIter = Iter<'a, K, V>;

    fn into_iter(self) -> Iter<'a, K, V> {
        self.iter()
    }
}

/// The entries of a map in order, by value.
pub struct IntoIter<K, V> {
    few: std::vec::IntoIter<(K, V)>,
    nodes: Vec<Node<K>>,
    values: Vec<Values<V>>,
    // The nodes from the root on, each with the position of the child after its next entry. Their entries are
    // in reverse, so that the next one is the last.
    path: [(u32, u32); MAX_DEPTH],
    depth: usize,
    left: usize,
}

impl<K, V> IntoIter<K, V> {
    // Goes from a node down to its first leaf.
    fn descend(&mut self, node: u32) {
        let mut at = node;
        loop {
            self.nodes[at as usize].keys.reverse();
            self.values[at as usize].reverse();
            self.path[self.depth] = (at, 1);
            self.depth += 1;
            match self.nodes[at as usize].children.first() {
                Some(child) => at = *child,
                None => return,
            }
        }
    }
}

impl<K, V> Iterator for IntoIter<K, V> {
    type Item = (K, V);

    fn next(&mut self) -> Option<(K, V)> {
        while self.depth > 0 {
            let (index, position) = self.path[self.depth - 1];
            let node = &mut self.nodes[index as usize];
            let (Some(key), Some(value)) = (node.keys.pop(), self.values[index as usize].pop()) else {
                self.depth -= 1;
                continue;
            };
            self.path[self.depth - 1].1 += 1;
            if let Some(child) = node.children.get(position as usize).copied() {
                self.descend(child);
            }
            self.left -= 1;
            return Some((key, value));
        }
        let entry = self.few.next()?;
        self.left -= 1;
        Some(entry)
    }

    fn size_hint(&self) -> (usize, Option<usize>) {
        (self.left, Some(self.left))
    }
}

impl<K, V> IntoIterator for BTreeMap<K, V> {
    type Item = (K, V);

    type IntoIter = IntoIter<K, V>;

    fn into_iter(self) -> IntoIter<K, V> {
        let mut iter = IntoIter {
            few: self.few.into_iter(),
            nodes: self.nodes,
            values: self.values,
            path: [(0, 0); MAX_DEPTH],
            depth: 0,
            left: self.len,
        };
        if !iter.nodes.is_empty() {
            iter.descend(self.root);
        }
        iter
    }
}

impl<K: Ord, V> Index<&K> for BTreeMap<K, V> {
    type Output = V;

    fn index(&self, key: &K) -> &V {
        match self.get(key) {
            Some(value) => value,
            None => panic!("no entry for the key"),
        }
    }
}

impl<K: fmt::Debug, V: fmt::Debug> fmt::Debug for BTreeMap<K, V> {
    fn fmt(&self, f: &mut fmt::Formatter<'_>) -> fmt::Result {
        f.debug_map().entries(self).finish()
    }
}

impl<K: PartialEq, V: PartialEq> PartialEq for BTreeMap<K, V> {
    fn eq(&self, other: &BTreeMap<K, V>) -> bool {
        self.len == other.len && self.iter().eq(other.iter())
    }
}
