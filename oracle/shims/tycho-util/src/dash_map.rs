//! The part of `dashmap` that `DagRound` uses, for one thread: a map in a cell.

use std::cell::{Ref, RefCell, RefMut};
use std::collections::HashMap;
use std::hash::{BuildHasher, Hash};

pub struct DashMap<K, V, S>(RefCell<HashMap<K, V, S>>);

impl<K: Hash + Eq + Clone, V, S: BuildHasher> DashMap<K, V, S> {
    pub fn with_capacity_and_hasher(capacity: usize, state: S) -> Self {
        Self(RefCell::new(HashMap::with_capacity_and_hasher(capacity, state)))
    }

    pub fn insert(&self, key: K, value: V) -> Option<V> {
        self.0.borrow_mut().insert(key, value)
    }

    pub fn get(&self, key: &K) -> Option<Ref<'_, V>> {
        Ref::filter_map(self.0.borrow(), |map| map.get(key)).ok()
    }

    pub fn get_mut(&self, key: &K) -> Option<ValueMut<'_, V>> {
        RefMut::filter_map(self.0.borrow_mut(), |map| map.get_mut(key)).ok().map(ValueMut)
    }

    pub fn entry(&self, key: K) -> Entry<'_, K, V, S> {
        Entry { map: self, key }
    }

    pub fn view<R>(&self, key: &K, view: impl FnOnce(&K, &V) -> R) -> Option<R> {
        self.0.borrow().get_key_value(key).map(|(key, value)| view(key, value))
    }

    pub fn iter(&self) -> impl Iterator<Item = Pair<'_, K, V>> {
        let keys: Vec<K> = self.0.borrow().keys().cloned().collect();
        keys.into_iter().map(|key| {
            let whole = self.0.borrow();
            let (key, value) = Ref::map_split(whole, |map| map.get_key_value(&key).expect("no key is ever removed"));
            Pair { key, value }
        })
    }
}

pub struct ValueMut<'a, V>(RefMut<'a, V>);

impl<V> ValueMut<'_, V> {
    pub fn value_mut(&mut self) -> &mut V {
        &mut self.0
    }
}

pub struct Entry<'a, K, V, S> {
    map: &'a DashMap<K, V, S>,
    key: K,
}

impl<'a, K: Hash + Eq + Clone, V, S: BuildHasher> Entry<'a, K, V, S> {
    pub fn or_insert(self, value: V) -> ValueMut<'a, V> {
        ValueMut(RefMut::map(self.map.0.borrow_mut(), |map| map.entry(self.key).or_insert(value)))
    }
}

pub struct Pair<'a, K, V> {
    key: Ref<'a, K>,
    value: Ref<'a, V>,
}

impl<K, V> Pair<'_, K, V> {
    pub fn pair(&self) -> (&K, &V) {
        (&self.key, &self.value)
    }
}
