//! The map and its entries.

#[derive(Clone, Debug)]
pub struct IndexMap<K, V> {
    entries: Vec<(K, V)>,
}

impl<K, V> Default for IndexMap<K, V> {
    fn default() -> Self {
        Self::of_capacity(0)
    }
}

impl<K, V> IndexMap<K, V> {
    pub fn of_capacity(capacity: usize) -> Self {
        Self { entries: Vec::with_capacity(capacity) }
    }

    pub fn len(&self) -> usize {
        self.entries.len()
    }

    pub fn is_empty(&self) -> bool {
        self.entries.is_empty()
    }

    pub fn clear(&mut self) {
        self.entries.clear();
    }

    pub fn values(&self) -> impl Iterator<Item = &V> {
        self.entries.iter().map(|(_, value)| value)
    }
}

impl<K: Eq, V> IndexMap<K, V> {
    fn place(&self, key: &K) -> Option<usize> {
        self.entries.iter().position(|(other, _)| other == key)
    }

    pub fn get(&self, key: &K) -> Option<&V> {
        self.place(key).map(|place| &self.entries[place].1)
    }

    pub fn get_mut(&mut self, key: &K) -> Option<&mut V> {
        self.place(key).map(|place| &mut self.entries[place].1)
    }

    /// One answer for each key. It panics if two keys are equal.
    pub fn get_disjoint_mut<const N: usize>(&mut self, keys: [&K; N]) -> [Option<&mut V>; N] {
        let mut found = [const { None }; N];

        for (other, value) in &mut self.entries {
            let mut asked = (0..N).filter(|&i| keys[i] == other);

            if let Some(i) = asked.next() {
                assert!(asked.next().is_none(), "two equal keys");
                found[i] = Some(value);
            }
        }

        found
    }

    /// The value that stood under the key before, if one did.
    pub fn insert(&mut self, key: K, value: V) -> Option<V> {
        match self.place(&key) {
            Some(place) => Some(std::mem::replace(&mut self.entries[place].1, value)),
            None => {
                self.entries.push((key, value));
                None
            },
        }
    }

    pub fn entry(&mut self, key: K) -> Entry<'_, K, V> {
        match self.place(&key) {
            Some(place) => Entry::Occupied(OccupiedEntry { value: &mut self.entries[place].1 }),
            None => Entry::Vacant(VacantEntry { entries: &mut self.entries, key }),
        }
    }
}

impl<K, V> IntoIterator for IndexMap<K, V> {
    type Item = (K, V);
    type IntoIter = std::vec::IntoIter<(K, V)>;

    fn into_iter(self) -> Self::IntoIter {
        self.entries.into_iter()
    }
}

pub enum Entry<'a, K, V> {
    Occupied(OccupiedEntry<'a, V>),
    Vacant(VacantEntry<'a, K, V>),
}

impl<'a, K, V: Default> Entry<'a, K, V> {
    pub fn or_default(self) -> &'a mut V {
        match self {
            Entry::Occupied(entry) => entry.value,
            Entry::Vacant(entry) => entry.insert(V::default()),
        }
    }
}

pub struct OccupiedEntry<'a, V> {
    value: &'a mut V,
}

impl<V> OccupiedEntry<'_, V> {
    pub fn get_mut(&mut self) -> &mut V {
        self.value
    }
}

pub struct VacantEntry<'a, K, V> {
    entries: &'a mut Vec<(K, V)>,
    key: K,
}

impl<'a, K, V> VacantEntry<'a, K, V> {
    pub fn insert(self, value: V) -> &'a mut V {
        self.entries.push((self.key, value));
        &mut self.entries.last_mut().unwrap().1
    }
}
