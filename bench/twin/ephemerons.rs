//! Ephemerons: the commands on keys and data, and their part in a collection.

use crate::heap::{CHANGED, Domain, WANT};
use crate::replies::Reply;
use crate::words::{Colours, Value, has_colour, key_count};

impl Domain<'_> {
    pub fn refuse(&mut self) -> Reply {
        self.heap.load(WANT);
        Reply::BadType
    }

    /// The address of a key, or of the data, and of its ephemeron.
    fn find(&mut self, ephe: u8, key: Option<u16>) -> Result<(u32, u32), Reply> {
        let heap = self.heap;
        let Value::Ref(block) = self.registers[ephe as usize] else {
            return Err(self.refuse());
        };
        let keys = key_count(heap.load(heap.at(block))).ok_or(Reply::BadType)?;
        match key.map(u32::from) {
            None => Ok((block + 2, block)),
            Some(index) if index < keys => Ok((block + 3 + index, block)),
            Some(_) => Err(Reply::BadIndex),
        }
    }

    pub fn put(&mut self, ephe: u8, key: Option<u16>, value: Value) -> Reply {
        let (at, block) = match self.find(ephe, key) {
            Ok(found) => found,
            Err(refusal) => return refusal,
        };
        self.store_word(block, at, value);
        Reply::Done
    }

    pub fn set_key(&mut self, ephe: u8, index: u16, item: u8) -> Reply {
        match self.registers[item as usize] {
            value @ Value::Ref(_) => self.put(ephe, Some(index), value),
            _ => self.refuse(),
        }
    }

    pub fn set_data(&mut self, ephe: u8, item: u8) -> Reply {
        match self.registers[item as usize] {
            Value::Nothing => self.refuse(),
            value => self.put(ephe, None, value),
        }
    }

    pub fn get(&mut self, dst: u8, ephe: u8, key: Option<u16>) -> Reply {
        match self.find(ephe, key) {
            Ok((at, _)) => {
                let reply = self.load_word(dst, at);
                if self.heap.is_armed() {
                    self.darken_beside(self.registers[dst as usize]);
                }
                reply
            }
            Err(refusal) => refusal,
        }
    }

    pub fn check(&mut self, ephe: u8, key: Option<u16>) -> Reply {
        match self.find(ephe, key) {
            Ok((at, _)) if self.heap.load(self.heap.at(at)) == 0 => Reply::No,
            Ok(_) => Reply::Yes,
            Err(refusal) => refusal,
        }
    }

    /// The count of keys of an ephemeron, if it is marked.
    fn marked_keys(&self, at: u32, colours: Colours) -> Option<u32> {
        let head = self.heap.load(self.heap.at(at));
        key_count(head).filter(|_| has_colour(head, colours.marked))
    }

    /// Whether the key at an address is full and its block isn't marked.
    fn is_dead(&self, key: u32, colours: Colours) -> bool {
        let heap = self.heap;
        match Value::of(heap.load(heap.at(key))) {
            Value::Ref(block) => !has_colour(heap.load(heap.at(block)), colours.marked),
            _ => false,
        }
    }

    /// Marks the datum of a marked ephemeron whose full keys are all marked.
    fn follow_keys(&mut self, at: u32, colours: Colours) -> bool {
        let Some(keys) = self.marked_keys(at, colours) else {
            return false;
        };
        if (0..keys).any(|i| self.is_dead(at + 3 + i, colours)) {
            return false;
        }
        match Value::of(self.heap.load(self.heap.at(at + 2))) {
            Value::Ref(datum) => self.darken(datum, colours),
            _ => false,
        }
    }

    fn look_through(&mut self, colours: Colours) -> bool {
        let mut darkened = false;
        for i in 0..self.ephemerons.len() {
            darkened |= self.follow_keys(self.ephemerons[i], colours);
        }
        darkened
    }

    pub fn follow_ephemerons(&mut self) {
        let colours = self.heap.colours();
        if self.look_through(colours) {
            while self.look_through(colours) {}
            self.heap.store(CHANGED, 1);
        }
    }

    fn clean(&mut self, at: u32, keys: u32, colours: Colours) {
        let heap = self.heap;
        let mut emptied = false;
        for key in at + 3..at + 3 + keys {
            if self.is_dead(key, colours) {
                heap.store(heap.at(key), 0);
                emptied = true;
            }
        }
        if emptied {
            heap.store(heap.at(at + 2), 0);
        } else {
            heap.load(heap.at(at + 2));
        }
    }

    pub fn clean_ephemerons(&mut self) {
        let colours = self.heap.colours();
        for i in 0..self.ephemerons.len() {
            let at = self.ephemerons[i];
            if let Some(keys) = self.marked_keys(at, colours) {
                self.clean(at, keys, colours);
            }
        }
    }

    pub fn prune_ephemerons(&mut self, colours: Colours) {
        let heap = self.heap;
        let mut i = 0;
        while let Some(at) = self.ephemerons.get(i).copied() {
            if has_colour(heap.load(heap.at(at)), colours.garbage) {
                self.ephemerons.swap_remove(i);
            } else {
                i += 1;
            }
        }
    }
}
