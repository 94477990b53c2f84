//! The held items in order of key, then of number, as a binary heap that also knows where each of them stands.

/// A key, and the number of an item.
type Entry = (u64, usize);

#[derive(Default)]
pub struct Heap {
    entries: Vec<Entry>,
    /// Where each item stands, if it is in the heap.
    places: Vec<Option<usize>>,
}

impl Heap {
    /// An empty heap, for the numbers below `count`.
    pub fn of(count: usize) -> Heap {
        Heap {
            entries: Vec::with_capacity(count),
            places: vec![None; count],
        }
    }

    /// One number more.
    pub fn grow(&mut self) {
        self.places.push(None);
    }

    pub fn has(&self, item: usize) -> bool {
        self.places[item].is_some()
    }

    /// The key and the number of the first item.
    pub fn first(&self) -> Option<Entry> {
        self.entries.first().copied()
    }

    /// The key of an item that is in the heap.
    pub fn key(&self, item: usize) -> u64 {
        self.entries[self.place(item)].0
    }

    fn place(&self, item: usize) -> usize {
        self.places[item].expect("the item is in the heap")
    }

    pub fn insert(&mut self, item: usize, key: u64) {
        self.entries.push((key, item));
        self.rise(self.entries.len() - 1, (key, item));
    }

    pub fn remove(&mut self, item: usize) {
        let place = self.place(item);
        self.places[item] = None;
        let last = self.entries.pop().expect("the item is in the heap");
        if last.1 != item {
            self.settle(place, last);
        }
    }

    /// Gives an item that is in the heap another key.
    pub fn set_key(&mut self, item: usize, key: u64) {
        self.settle(self.place(item), (key, item));
    }

    fn put(&mut self, place: usize, entry: Entry) {
        self.entries[place] = entry;
        self.places[entry.1] = Some(place);
    }

    /// Puts an entry at a place, or where it goes from there.
    fn settle(&mut self, place: usize, entry: Entry) {
        if place > 0 && entry < self.entries[(place - 1) / 2] {
            self.rise(place, entry);
        } else {
            self.sink(place, entry);
        }
    }

    fn rise(&mut self, mut place: usize, entry: Entry) {
        while place > 0 {
            let above = self.entries[(place - 1) / 2];
            if above < entry {
                break;
            }
            self.put(place, above);
            place = (place - 1) / 2;
        }
        self.put(place, entry);
    }

    fn sink(&mut self, mut place: usize, entry: Entry) {
        let count = self.entries.len();
        loop {
            let mut below = 2 * place + 1;
            if below >= count {
                break;
            }
            if below + 1 < count && self.entries[below + 1] < self.entries[below] {
                below += 1;
            }
            let first = self.entries[below];
            if entry < first {
                break;
            }
            self.put(place, first);
            place = below;
        }
        self.put(place, entry);
    }
}
