//! Maps that report failed allocations, and are then unchanged.

use super::memory::{AllocError, TryVec};
use alloc::vec::Vec;
use core::borrow::Borrow;

/// The largest number of entries in a part of a sorted map.
const PART: usize = 128;

/// A map that is sorted by its keys: sorted parts of few entries, one after another. No part is
/// empty.
#[derive(Clone, Debug)]
pub struct BTreeMap<K, V> {
    parts: Vec<Vec<(K, V)>>,
    count: usize,
}

impl<K: Ord, V> BTreeMap<K, V> {
    /// Returns an empty map. Does not allocate.
    pub fn new() -> Self {
        BTreeMap {
            parts: Vec::new(),
            count: 0,
        }
    }

    /// Returns the part that contains the key, or would.
    fn part_of<Q: Ord + ?Sized>(&self, key: &Q) -> usize
    where
        K: Borrow<Q>,
    {
        let above = self.parts.partition_point(|part| match part.first() {
            Some((first, _)) => first.borrow() <= key,
            None => true,
        });
        above.saturating_sub(1)
    }

    /// Returns the part and the position of a key, or as `Err` those where it would be inserted.
    fn place_of<Q: Ord + ?Sized>(&self, key: &Q) -> Result<(usize, usize), (usize, usize)>
    where
        K: Borrow<Q>,
    {
        let part = self.part_of(key);
        let Some(entries) = self.parts.get(part) else {
            return Err((0, 0));
        };
        match entries.binary_search_by(|(other, _)| other.borrow().cmp(key)) {
            Ok(place) => Ok((part, place)),
            Err(place) => Err((part, place)),
        }
    }

    /// Returns whether the map contains the key.
    pub fn contains_key<Q: Ord + ?Sized>(&self, key: &Q) -> bool
    where
        K: Borrow<Q>,
    {
        self.place_of(key).is_ok()
    }

    /// Returns the value of a key.
    pub fn get<Q: Ord + ?Sized>(&self, key: &Q) -> Option<&V>
    where
        K: Borrow<Q>,
    {
        let (part, place) = self.place_of(key).ok()?;
        Some(&self.parts[part][place].1)
    }

    /// Splits a full part into halves, or makes the first part.
    fn split(&mut self, part: usize) -> Result<(), AllocError> {
        self.parts.try_room(1)?;
        let mut upper = Vec::with_room(PART)?;
        if let Some(entries) = self.parts.get_mut(part) {
            upper.extend(entries.drain(PART / 2..));
            self.parts.insert(part + 1, upper);
        } else {
            self.parts.push(upper);
        }
        Ok(())
    }

    /// Returns the entry of a key. A key that is not in the map then has its position already, so only
    /// this can fail.
    pub fn entry(&mut self, key: K) -> Result<Entry<'_, K, V>, AllocError> {
        let (mut part, mut place) = match self.place_of(&key) {
            Ok((part, place)) => return Ok(Entry::Occupied(&mut self.parts[part][place].1)),
            Err(found) => found,
        };
        if self
            .parts
            .get(part)
            .is_none_or(|entries| entries.len() >= PART)
        {
            self.split(part)?;
            if place > PART / 2 {
                part += 1;
                place -= PART / 2;
            }
        }
        Ok(Entry::Vacant(VacantEntry {
            entries: &mut self.parts[part],
            count: &mut self.count,
            place,
            key,
        }))
    }

    /// Inserts an entry, and returns the value that the key had.
    pub fn try_insert(&mut self, key: K, value: V) -> Result<Option<V>, AllocError> {
        match self.entry(key)? {
            Entry::Occupied(held) => Ok(Some(core::mem::replace(held, value))),
            Entry::Vacant(entry) => {
                entry.insert_entry(value);
                Ok(None)
            }
        }
    }

    /// Returns the number of entries.
    pub fn len(&self) -> usize {
        self.count
    }

    /// Returns whether the map is empty.
    pub fn is_empty(&self) -> bool {
        self.count == 0
    }

    /// Returns the entries, by ascending keys.
    pub fn iter(&self) -> impl Iterator<Item = (&K, &V)> {
        self.parts.iter().flatten().map(|(key, value)| (key, value))
    }
}

/// The entry of a key.
pub enum Entry<'a, K, V> {
    /// The key is in the map: its value.
    Occupied(&'a mut V),
    /// The key is not in the map.
    Vacant(VacantEntry<'a, K, V>),
}

/// The position of a key that is not in the map.
pub struct VacantEntry<'a, K, V> {
    /// A part of the map with a capacity for one more entry.
    entries: &'a mut Vec<(K, V)>,
    /// The number of entries of the map.
    count: &'a mut usize,
    place: usize,
    key: K,
}

impl<K, V> VacantEntry<'_, K, V> {
    /// Inserts the key with this value.
    pub fn insert_entry(self, value: V) {
        self.entries.insert(self.place, (self.key, value));
        *self.count += 1;
    }
}

impl<'a, K: Ord, V> IntoIterator for &'a BTreeMap<K, V> {
    type Item = (&'a K, &'a V);
    type IntoIter = Entries<'a, K, V>;

    fn into_iter(self) -> Entries<'a, K, V> {
        Entries {
            inner: self.parts.iter().flatten(),
        }
    }
}

/// The entries of a map, by ascending keys.
pub struct Entries<'a, K, V> {
    inner: core::iter::Flatten<core::slice::Iter<'a, Vec<(K, V)>>>,
}

impl<'a, K, V> Iterator for Entries<'a, K, V> {
    type Item = (&'a K, &'a V);

    fn next(&mut self) -> Option<(&'a K, &'a V)> {
        let (key, value) = self.inner.next()?;
        Some((key, value))
    }
}

/// A map whose keys are hashes already: open addressing, at most half full.
#[derive(Debug)]
pub struct HashMap<K, V> {
    places: Vec<Option<(K, V)>>,
    count: usize,
}

impl<K: Copy + Eq + Into<u64>, V> HashMap<K, V> {
    /// Returns an empty map. Does not allocate.
    pub fn new() -> Self {
        HashMap {
            places: Vec::new(),
            count: 0,
        }
    }

    /// Returns the position of a key, or the free one where it would be. At least one is free.
    fn place_of(places: &[Option<(K, V)>], key: K) -> usize {
        let mixed = key.into().wrapping_mul(0x9E37_79B9_7F4A_7C15) >> 32;
        let mut place = mixed as usize & (places.len() - 1);
        while places[place]
            .as_ref()
            .is_some_and(|(other, _)| *other != key)
        {
            place = (place + 1) & (places.len() - 1);
        }
        place
    }

    /// Returns the value of a key.
    pub fn get(&self, key: &K) -> Option<&V> {
        if self.places.is_empty() {
            return None;
        }
        let place = Self::place_of(&self.places, *key);
        Some(&self.places[place].as_ref()?.1)
    }

    /// Doubles the capacity, to at least 16.
    fn grow(&mut self) -> Result<(), AllocError> {
        let count = (self.places.len() * 2).max(16);
        let mut wider = Vec::with_room(count)?;
        wider.resize_with(count, || None);
        for (key, value) in self.places.drain(..).flatten() {
            let place = Self::place_of(&wider, key);
            wider[place] = Some((key, value));
        }
        self.places = wider;
        Ok(())
    }

    /// Returns the position of a key, which is counted if it had no entry. It is then to get one.
    fn place_for(&mut self, key: K) -> Result<usize, AllocError> {
        if self.count * 2 >= self.places.len() {
            self.grow()?;
        }
        let place = Self::place_of(&self.places, key);
        self.count += usize::from(self.places[place].is_none());
        Ok(place)
    }

    /// Inserts an entry, or replaces that of its key.
    pub fn try_insert(&mut self, key: K, value: V) -> Result<(), AllocError> {
        let place = self.place_for(key)?;
        self.places[place] = Some((key, value));
        Ok(())
    }

    /// Returns the value of a key. If it has none, the default is inserted.
    // Only the program ucptrie uses it.
    #[allow(dead_code)]
    pub fn try_or_default(&mut self, key: K) -> Result<&mut V, AllocError>
    where
        V: Default,
    {
        let place = self.place_for(key)?;
        let (_, value) = self.places[place].get_or_insert_with(|| (key, V::default()));
        Ok(value)
    }
}
