//! The pools of the major heap: free places, the list of free pools, and allocation.

use crate::heap::{CURSOR, Domain, LIST, LISTED, POOL_WORDS};
use crate::words::{Label, Value, ephemeron_head, plain_head, scanned};

pub const CLASS_COUNT: usize = 9;
const CLASSES: [u32; CLASS_COUNT] = [4, 8, 16, 32, 64, 128, 256, 512, 1024];

/// A place of a pool: the slot-th of its class.
#[derive(Clone, Copy, PartialEq, Eq, PartialOrd, Ord)]
pub struct Spot {
    pub pool: u32,
    pub slot: u32,
}

impl Spot {
    pub const FIRST: Spot = Spot { pool: 0, slot: 0 };

    pub fn of(address: u32, class: usize) -> Spot {
        Spot {
            pool: (address - 1) / POOL_WORDS,
            slot: (address - 1) % POOL_WORDS / CLASSES[class],
        }
    }
}

pub fn class_for(words: u32) -> usize {
    if words <= 4 {
        return 0;
    }
    words.next_power_of_two().trailing_zeros() as usize - 2
}

pub fn class_words(class: usize) -> u32 {
    CLASSES[class]
}

pub fn owner_word(domain: u32, class: usize) -> u64 {
    16 * u64::from(domain) + class as u64 + 1
}

/// The addresses of the places of a pool, from a slot on.
pub fn places(pool: u32, class: usize, slot: u32) -> impl Iterator<Item = u32> {
    let size = CLASSES[class];
    (slot..POOL_WORDS / size).map(move |slot| pool * POOL_WORDS + slot * size + 1)
}

fn scanned_if(is_scanned: bool, head: u64) -> u64 {
    if is_scanned { scanned(head) } else { head }
}

impl Domain<'_> {
    /// The colour of a new block, and whether a cycle goes on beside running domains.
    pub fn new_colour(&self) -> (u64, bool) {
        let colours = self.heap.colours();
        if self.heap.is_armed() {
            (colours.marked, true)
        } else {
            (colours.unmarked, false)
        }
    }

    /// The class of a pool whose owner is this domain.
    pub fn own_class(&self, pool: u32) -> Option<usize> {
        let word = self.heap.load(self.heap.owner(pool));
        let class = word.wrapping_sub(owner_word(self.number, 0)) as usize;
        (class < CLASS_COUNT).then_some(class)
    }

    fn find_free(&mut self, class: usize) -> Option<u32> {
        let heap = self.heap;
        let own = owner_word(self.number, class);
        while self.looked[class].pool < heap.sizes.pools {
            let Spot { pool, slot } = self.looked[class];
            if heap.load(heap.owner(pool)) == own
                && let Some(at) = places(pool, class, slot).find(|at| heap.load(heap.at(*at)) == 0)
            {
                self.looked[class] = Spot::of(at, class);
                return Some(at);
            }
            self.looked[class] = Spot {
                pool: pool + 1,
                slot: 0,
            };
        }
        None
    }

    /// Makes the pool at this place of the list its own, and answers its first place.
    fn sign(&mut self, class: usize, place: u64) -> u32 {
        let heap = self.heap;
        let pool = heap.load(LIST + place as usize) as u32;
        for at in places(pool, class, 0) {
            heap.store(heap.at(at), 0);
        }
        heap.store(heap.owner(pool), owner_word(self.number, class));
        self.looked[class] = Spot { pool, slot: 0 };
        pool * POOL_WORDS + 1
    }

    fn draw(&mut self, class: usize) -> Option<u32> {
        let heap = self.heap;
        let limit = heap.draw_limit(heap.load(LISTED));
        if heap.load(CURSOR) >= limit {
            return None;
        }
        let place = heap.add(CURSOR, 1);
        (place < limit).then(|| self.sign(class, place))
    }

    fn take(&mut self, class: usize) -> Option<u32> {
        if let Some(at) = self.find_free(class).or_else(|| self.draw(class)) {
            return Some(at);
        }
        self.sweep();
        self.find_free(class)
    }

    pub fn take_for_copy(&mut self, class: usize) -> u32 {
        if let Some(at) = self.find_free(class) {
            return at;
        }
        let place = self.heap.add(CURSOR, 1);
        self.sign(class, place)
    }

    /// Writes the words behind a head.
    fn write_words(&self, at: u32, word: u64, count: u32) -> Label {
        let heap = self.heap;
        let label = self.next_label();
        heap.store(heap.at(at + 1), label.word());
        for i in 0..count {
            heap.store(heap.at(at + 2 + i), word);
        }
        label
    }

    /// Writes the head of a new block, which the register then holds.
    fn write_head(&mut self, at: u32, head: u64, dst: u8) {
        self.heap.store(self.heap.at(at), head);
        self.serial += 1;
        self.registers[dst as usize] = Value::Ref(at);
    }

    pub fn alloc_major(&mut self, dst: u8, tag: u8, fields: u16) -> Option<Label> {
        let at = self.take(class_for(u32::from(fields) + 2))?;
        let (colour, is_scanned) = self.new_colour();
        let label = self.write_words(at, Value::Int(0).word(), u32::from(fields));
        self.write_head(at, scanned_if(is_scanned, plain_head(fields, tag, colour)), dst);
        Some(label)
    }

    pub fn create_ephemeron(&mut self, dst: u8, keys: u16) -> Option<Label> {
        let at = self.take(class_for(u32::from(keys) + 3))?;
        let (colour, is_scanned) = self.new_colour();
        let label = self.write_words(at, Value::Nothing.word(), u32::from(keys) + 1);
        self.write_head(at, scanned_if(is_scanned, ephemeron_head(keys, colour)), dst);
        self.ephemerons.push(at);
        Some(label)
    }

    /// Writes the list of free pools anew, and answers how many there are.
    pub fn write_list(&mut self) -> u32 {
        let heap = self.heap;
        heap.store(LISTED, 0);
        let mut count = 0;
        for pool in 0..heap.sizes.pools {
            if heap.load(heap.owner(pool)) == 0 {
                heap.store(LIST + count as usize, u64::from(pool));
                count += 1;
            }
        }
        heap.store(CURSOR, 0);
        heap.store(LISTED, u64::from(count));
        count
    }

    pub fn set_cursor_back(&mut self) {
        let heap = self.heap;
        let limit = heap.draw_limit(heap.load(LISTED));
        if heap.load(CURSOR) > limit {
            heap.store(CURSOR, limit);
        }
    }
}
