//! The held items as a binary heap in the bytes of a state: the item of least key first, and of equal keys the lowest number. Beside the
//! items stands the place of each, so that one whose key changes is found without a search. How the heap is arranged is free.

use crate::plain::{STATE_BYTES, at};

/// The three rows of a state that the heap is made of.
pub struct Heap<'a> {
    keys: &'a [[u8; 8]; 256],
    items: &'a mut [u8; 256],
    places: &'a mut [u8; 256],
}

impl Heap<'_> {
    pub fn of(s: &mut [u8; STATE_BYTES]) -> Heap<'_> {
        let (keys, rest) = s[at::KEYS..].split_at_mut(at::HEAP - at::KEYS);
        let (items, places) = rest.split_at_mut(at::PLACES - at::HEAP);
        Heap {
            keys: keys.as_chunks().0.try_into().unwrap(),
            items: items.try_into().unwrap(),
            places: places.try_into().unwrap(),
        }
    }

    /// What decides which of two items goes before the other.
    fn order(&self, item: u8) -> (u64, u8) {
        let key = u64::from_le_bytes(self.keys[usize::from(item)]);
        (key, item)
    }

    fn put(&mut self, place: usize, item: u8) {
        self.items[place] = item;
        self.places[usize::from(item)] = place as u8;
    }

    /// Puts an item at a place, or above it if it goes before those that stand there.
    fn rise(&mut self, mut place: usize, item: u8) {
        let order = self.order(item);
        while place > 0 {
            let above = (place - 1) / 2;
            let other = self.items[above];
            if self.order(other) < order {
                break;
            }
            self.put(place, other);
            place = above;
        }
        self.put(place, item);
    }

    /// Puts an item at a place of a heap of so many, or below it if others that stand there go before it.
    fn sink(&mut self, size: usize, mut place: usize, item: u8) {
        let order = self.order(item);
        loop {
            let mut below = 2 * place + 1;
            if below >= size {
                break;
            }
            let mut other = self.items[below];
            let mut first = self.order(other);
            if below + 1 < size {
                let right = self.items[below + 1];
                if self.order(right) < first {
                    (below, other, first) = (below + 1, right, self.order(right));
                }
            }
            if order < first {
                break;
            }
            self.put(place, other);
            place = below;
        }
        self.put(place, item);
    }

    /// Puts an item at a place that is free, or where it goes from there.
    fn settle(&mut self, size: usize, place: usize, item: u8) {
        let rises = place > 0 && self.order(item) < self.order(self.items[(place - 1) / 2]);
        if rises {
            self.rise(place, item);
        } else {
            self.sink(size, place, item);
        }
    }

    /// Puts in an item that is not among the `size` of the heap.
    pub fn insert(&mut self, size: usize, item: usize) {
        self.rise(size, item as u8);
    }

    /// Takes an item out of a heap of `size`. The last place is free then, and bytes that are not in use are 0.
    pub fn remove(&mut self, size: usize, item: usize) {
        let place = usize::from(self.places[item]);
        let last = self.items[size - 1];
        self.items[size - 1] = 0;
        self.places[item] = 0;
        if place != size - 1 {
            self.settle(size - 1, place, last);
        }
    }

    /// Puts the heap of `size` in order again, where the key of one item has changed.
    pub fn mend(&mut self, size: usize, item: usize) {
        let place = usize::from(self.places[item]);
        self.settle(size, place, item as u8);
    }
}
