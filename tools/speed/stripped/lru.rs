//! The calls of the crate lru that the proved sources make.
use crate::shim::{AllocError, AllocFailed};
use std::collections::HashMap;
use std::hash::{BuildHasherDefault, Hash, Hasher};
use std::marker::PhantomData;
use std::num::NonZeroUsize;

/// A product for each part of a key, whose halves are folded, in the manner of the hasher of the kit.
#[derive(Default)]
pub struct Fold(u64);

impl Hasher for Fold {
    fn write(&mut self, bytes: &[u8]) {
        for byte in bytes {
            self.write_u32(*byte as u32);
        }
    }

    fn write_u32(&mut self, part: u32) {
        let product = (self.0 ^ part as u64 ^ 0x243f_6a88_85a3_08d3) as u128 * 0x1319_8a2e_0370_7345;
        self.0 = product as u64 ^ (product >> 64) as u64;
    }

    fn finish(&self) -> u64 {
        self.0
    }
}

pub type DefaultHasher = BuildHasherDefault<Fold>;

struct Node<K, V> {
    key: K,
    value: V,
    newer: usize,
    older: usize,
}

/// No place.
const NONE: usize = usize::MAX;

pub struct LruCache<K, V, S, A> {
    places: HashMap<K, usize, S>,
    nodes: Vec<Node<K, V>>,
    newest: usize,
    oldest: usize,
    room: usize,
    alloc: PhantomData<A>,
}

impl<K: Copy + Eq + Hash, V, A> LruCache<K, V, DefaultHasher, A> {
    pub fn new(_alloc: A, room: NonZeroUsize) -> Result<Self, AllocError> {
        let places = HashMap::with_capacity_and_hasher(room.get(), DefaultHasher::default());
        Ok(LruCache { places, nodes: Vec::new(), newest: NONE, oldest: NONE, room: room.get(), alloc: PhantomData })
    }

    pub fn len(&self) -> usize {
        self.nodes.len()
    }

    pub fn peek_mru(&self) -> Option<(&K, &V)> {
        let node = self.nodes.get(self.newest)?;
        Some((&node.key, &node.value))
    }

    pub fn get(&mut self, key: &K) -> Option<&V> {
        let at = *self.places.get(key)?;
        if at != self.newest {
            self.take_out(at);
            self.put_in_front(at);
        }
        Some(&self.nodes[at].value)
    }

    /// The key is not there yet, as the callers know.
    pub fn put(&mut self, key: K, value: V) -> Result<(), AllocFailed<(K, V)>> {
        let node = Node { key, value, newer: NONE, older: NONE };
        let mut at = self.nodes.len();
        if at < self.room {
            self.nodes.push(node);
        } else {
            at = self.oldest;
            self.take_out(at);
            self.places.remove(&self.nodes[at].key);
            self.nodes[at] = node;
        }
        self.places.insert(key, at);
        self.put_in_front(at);
        Ok(())
    }

    fn take_out(&mut self, at: usize) {
        let Node { newer, older, .. } = self.nodes[at];
        match self.nodes.get_mut(newer) {
            None => self.newest = older,
            Some(node) => node.older = older,
        }
        match self.nodes.get_mut(older) {
            None => self.oldest = newer,
            Some(node) => node.newer = newer,
        }
    }

    fn put_in_front(&mut self, at: usize) {
        self.nodes[at].newer = NONE;
        self.nodes[at].older = self.newest;
        match self.nodes.get_mut(self.newest) {
            None => self.oldest = at,
            Some(node) => node.newer = at,
        }
        self.newest = at;
    }
}
