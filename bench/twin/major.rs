//! Marking and sweeping.

use crate::finalisers::Waiting;
use crate::heap::{CHANGED, Domain, LIVE_BLOCKS, LIVE_WORDS, POOL_WORDS};
use crate::pools::{Spot, places};
use crate::words::{
    Colours, Value, darkened, field_count, has_colour, is_scanned, scanned, words_of,
};

/// How many hints may lead nowhere in a slice.
const VAIN_LOOKS: u32 = 8192;

impl Domain<'_> {
    /// Marks a block, and tells whether it was this domain that did.
    pub fn darken(&mut self, at: u32, colours: Colours) -> bool {
        let heap = self.heap;
        let head = heap.load(heap.at(at));
        if !has_colour(head, colours.unmarked) {
            return false;
        }
        heap.exchange(heap.at(at), head, darkened(head, colours.marked)) == head
    }

    /// Marks a block of the pools beside running domains.
    pub fn darken_beside(&mut self, value: Value) {
        if let Value::Ref(at) = value
            && at <= self.heap.pools_end()
        {
            let colours = self.heap.colours();
            if self.darken(at, colours) {
                self.note(at);
            }
        }
    }

    /// Marks what the queue keeps alive, and tells whether it marked anything.
    fn mark_queue(&mut self) -> bool {
        let colours = self.heap.colours();
        let mut darkened = false;
        for i in 0..self.finalisers.queue.len() {
            if let Waiting::Fin(registered) = self.finalisers.queue[i]
                && self.darken(registered.address, colours)
            {
                self.note(registered.address);
                darkened = true;
            }
        }
        darkened
    }

    pub fn mark_queued(&mut self) {
        if self.mark_queue() {
            self.heap.store(CHANGED, 1);
        }
    }

    pub fn mark_roots(&mut self) {
        let colours = self.heap.colours();
        for register in 0..16 {
            if let Value::Ref(at) = self.registers[register]
                && self.darken(at, colours)
            {
                self.note(at);
            }
        }
        self.mark_queue();
    }

    /// Scans the block at a place if it is grey.
    fn scan(&mut self, at: u32, colours: Colours) {
        let heap = self.heap;
        let head = heap.load(heap.at(at));
        if !has_colour(head, colours.marked) || is_scanned(head) {
            return;
        }
        for i in 0..field_count(head).unwrap_or(0) {
            if let Value::Ref(address) = Value::of(heap.load(heap.at(at + 2 + i)))
                && self.darken(address, colours)
            {
                self.follow(address);
            }
        }
        heap.store(heap.at(at), scanned(head));
    }

    fn mark_pool(&mut self, pool: u32, class: usize, colours: Colours) {
        for at in places(pool, class, 0) {
            self.scan(at, colours);
            while let Some(hint) = self.trail.pop() {
                self.scan(hint, colours);
            }
        }
    }

    /// Scans what is grey at own places, and what it darkens. The walk finds all of it, so hints are let go.
    pub fn mark_round(&mut self) {
        let colours = self.heap.colours();
        self.heap.hints[self.number as usize].lock().unwrap().clear();
        self.lost = false;
        for pool in 0..self.heap.sizes.pools {
            if let Some(class) = self.own_class(pool) {
                self.mark_pool(pool, class, colours);
            }
        }
        if self.lost {
            self.heap.store(CHANGED, 1);
        }
    }

    /// Scans the block at an address beside running domains, if a grey one begins there.
    fn scan_beside(&mut self, at: u32, colours: Colours) -> bool {
        let heap = self.heap;
        let owner = heap.load(heap.owner((at - 1) / POOL_WORDS));
        let head = heap.load(heap.at(at));
        if owner == 0 || !has_colour(head, colours.marked) || is_scanned(head) {
            return false;
        }
        for i in 0..field_count(head).unwrap_or(0) {
            self.darken_beside(Value::of(heap.load(heap.at(at + 2 + i))));
        }
        heap.store(heap.at(at), scanned(head));
        true
    }

    /// Scans so many blocks of which there are hints, and tells whether no domain had one more.
    pub fn slice(&mut self, most: u32) -> bool {
        let colours = self.heap.colours();
        let (mut count, mut vain) = (0, 0);
        while count < most && vain < VAIN_LOOKS {
            let Some(hint) = self.next_hint() else {
                return true;
            };
            if self.scan_beside(hint, colours) {
                count += 1;
            } else {
                vain += 1;
            }
        }
        false
    }

    fn sweep_place(&mut self, at: u32, class: usize, colours: Colours) {
        let heap = self.heap;
        if has_colour(heap.load(heap.at(at)), colours.garbage) {
            heap.store(heap.at(at), 0);
            self.looked[class] = self.looked[class].min(Spot::of(at, class));
        }
    }

    /// Looks at so many of the next own places, and frees what is garbage there.
    pub fn sweep_slice(&mut self, most: u32) {
        let pools = self.heap.sizes.pools;
        let colours = self.heap.colours();
        if !self.is_pruned {
            self.prune_ephemerons(colours);
            self.is_pruned = true;
        }
        let mut left = most;
        while left > 0 && self.swept.pool < pools {
            let Spot { pool, slot } = self.swept;
            if let Some(class) = self.own_class(pool) {
                let mut count = 0;
                for at in places(pool, class, slot).take(left as usize) {
                    self.sweep_place(at, class, colours);
                    count += 1;
                }
                self.swept.slot = slot + count;
                left -= count;
                if left == 0 {
                    return;
                }
            }
            self.swept = Spot {
                pool: pool + 1,
                slot: 0,
            };
        }
    }

    pub fn sweep(&mut self) {
        self.sweep_slice(u32::MAX);
    }

    /// Nothing is swept, once the colours are rotated.
    pub fn sweep_anew(&mut self) {
        self.swept = Spot::FIRST;
        self.is_pruned = false;
    }

    /// Adds the own blocks and their words to those of all domains.
    pub fn count(&mut self) {
        let heap = self.heap;
        let (mut blocks, mut words) = (0, 0);
        for pool in 0..heap.sizes.pools {
            let Some(class) = self.own_class(pool) else {
                continue;
            };
            for at in places(pool, class, 0) {
                let head = heap.load(heap.at(at));
                if head != 0 {
                    blocks += 1;
                    words += u64::from(words_of(head));
                }
            }
        }
        heap.add(LIVE_BLOCKS, blocks);
        heap.add(LIVE_WORDS, words);
    }

    pub fn return_pools(&mut self) {
        let heap = self.heap;
        for pool in 0..heap.sizes.pools {
            let Some(class) = self.own_class(pool) else {
                continue;
            };
            if places(pool, class, 0).all(|at| heap.load(heap.at(at)) == 0) {
                heap.store(heap.owner(pool), 0);
            }
        }
    }
}
