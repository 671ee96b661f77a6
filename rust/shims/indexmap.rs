//! A map and a set that keep the order in which keys came, whose memory may be refused. They stand on the standard
//! library's table: `indexmap` can be refused memory from version 2 on, which Debian 12 does not have.
use kit::alloc::{AllocError, AllocFailed, Global};
use kit::vec::Vec;
use std::collections::HashMap;
use std::hash::{BuildHasherDefault, Hash, Hasher};
use std::iter::Zip;
use std::mem::replace;
use std::ops::Deref;
use std::slice::Iter;

/// A quick hash: the keys are small numbers, and nobody who could choose them gains by a slow map alone.
#[derive(Default)]
pub struct Quick(u64);

impl Hasher for Quick {
    #[inline]
    fn finish(&self) -> u64 {
        self.0 ^ (self.0 >> 32)
    }
    fn write(&mut self, bytes: &[u8]) {
        bytes.iter().for_each(|byte| self.write_u64((*byte).into()));
    }
    #[inline]
    fn write_u32(&mut self, number: u32) {
        self.write_u64(number.into());
    }
    #[inline]
    fn write_isize(&mut self, number: isize) {
        self.write_u64(number as u64);
    }
    #[inline]
    fn write_u64(&mut self, number: u64) {
        self.0 = (self.0.rotate_left(5) ^ number).wrapping_mul(0x9E37_79B9_7F4A_7C15);
    }
}

/// A set that keeps the order in which keys came, and is read as the list of them.
pub struct IndexSet<K> {
    keys: Vec<K>,
    places: HashMap<K, usize, BuildHasherDefault<Quick>>,
}

impl<K> Deref for IndexSet<K> {
    type Target = Vec<K>;
    fn deref(&self) -> &Vec<K> {
        &self.keys
    }
}

impl<K: Copy + Hash + Eq> IndexSet<K> {
    pub fn new(alloc: Global) -> IndexSet<K> {
        IndexSet { keys: Vec::new(alloc), places: HashMap::default() }
    }

    #[inline]
    pub fn get_index_of(&self, key: &K) -> Option<usize> {
        self.places.get(key).copied()
    }

    pub fn reserve(&mut self, more: usize) -> Result<(), AllocError> {
        self.places.try_reserve(more).map_err(|_| AllocError)?;
        self.keys.reserve(more)
    }

    /// Whether the key is new. A refused allocation leaves the set as it was.
    pub fn insert(&mut self, key: K) -> Result<bool, AllocFailed<K>> {
        if self.places.contains_key(&key) {
            return Ok(false);
        }
        if self.reserve(1).is_err() {
            return Err(AllocFailed { value: key });
        }
        self.places.insert(key, self.keys.len());
        self.keys.push_reserved(key);
        Ok(true)
    }
}

/// A map that keeps the order in which keys came, and gives the places of its keys as their set does.
pub struct IndexMap<K, V> {
    keys: IndexSet<K>,
    values: Vec<V>,
}

impl<K, V> Deref for IndexMap<K, V> {
    type Target = IndexSet<K>;
    fn deref(&self) -> &IndexSet<K> {
        &self.keys
    }
}

impl<K: Copy + Hash + Eq, V> IndexMap<K, V> {
    pub fn new(alloc: Global) -> IndexMap<K, V> {
        IndexMap { keys: IndexSet::new(alloc), values: Vec::new(alloc) }
    }

    pub fn with_capacity(alloc: Global, room: usize) -> Result<IndexMap<K, V>, AllocError> {
        let mut map = IndexMap::new(alloc);
        map.reserve(room)?;
        Ok(map)
    }

    pub fn reserve(&mut self, more: usize) -> Result<(), AllocError> {
        self.keys.reserve(more)?;
        self.values.reserve(more)
    }

    pub fn contains_key(&self, key: &K) -> bool {
        self.get_index_of(key).is_some()
    }

    #[inline]
    pub fn get_full(&self, key: &K) -> Option<(usize, &K, &V)> {
        self.get_index_of(key).map(|at| (at, &self.keys[at], &self.values[at]))
    }

    #[inline]
    pub fn get_index(&self, at: usize) -> Option<(&K, &V)> {
        self.keys.get(at).zip(self.values.get(at))
    }

    #[inline]
    pub fn get_index_mut(&mut self, at: usize) -> Option<&mut V> {
        self.values.get_mut(at)
    }

    /// A refused allocation leaves the map as it was.
    pub fn insert(&mut self, key: K, value: V) -> Result<Option<V>, AllocFailed<(K, V)>> {
        if let Some(at) = self.get_index_of(&key) {
            return Ok(Some(replace(&mut self.values[at], value)));
        }
        if self.values.reserve(1).is_err() || self.keys.insert(key).is_err() {
            return Err(AllocFailed { value: (key, value) });
        }
        self.values.push_reserved(value);
        Ok(None)
    }

    /// The place of a key, for which there is room if it is new.
    pub fn entry(&mut self, key: K) -> Result<Entry<'_, K, V>, AllocError> {
        self.reserve(1)?;
        Ok(Entry(self, key))
    }

    pub fn pop(&mut self) -> Option<(K, V)> {
        let (key, value) = (self.keys.keys.pop()?, self.values.pop()?);
        self.keys.places.remove(&key);
        Some((key, value))
    }
}

/// The place of a key.
pub struct Entry<'a, K, V>(&'a mut IndexMap<K, V>, K);

impl<'a, K: Copy + Hash + Eq, V> Entry<'a, K, V> {
    pub fn or_insert(self, value: V) -> &'a mut V {
        let Entry(map, key) = self;
        let at = map.get_index_of(&key).unwrap_or(map.len());
        if at == map.len() {
            // There is room for it.
            let _ = map.insert(key, value);
        }
        &mut map.values[at]
    }
}

impl<'a, K, V> IntoIterator for &'a IndexMap<K, V> {
    type Item = (&'a K, &'a V);
    type IntoIter = Zip<Iter<'a, K>, Iter<'a, V>>;
    fn into_iter(self) -> Self::IntoIter {
        self.keys.iter().zip(self.values.iter())
    }
}
