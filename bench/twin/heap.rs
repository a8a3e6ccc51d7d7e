//! The table of words that the domains share, and what a domain has for itself.

use crate::finalisers::Finalisers;
use crate::pools::{CLASS_COUNT, Spot};
use crate::script::Command;
use crate::words::{Colours, Label, Value, plain_head};
use std::collections::VecDeque;
use std::sync::Mutex;
use std::sync::atomic::AtomicU64;
use std::sync::atomic::Ordering::SeqCst;

pub const WANT: usize = 0;
pub const BARRIER: usize = 1;
pub const PLAN: usize = 2;
pub const CHANGED: usize = 3;
pub const ARMED: usize = 4;
pub const COLOURS: usize = 5;
pub const LISTED: usize = 6;
pub const CURSOR: usize = 7;
pub const ENDED: usize = 8;
pub const LIVE_BLOCKS: usize = 9;
pub const LIVE_WORDS: usize = 10;
pub const LIST: usize = 11;

pub const POOL_WORDS: u32 = 4096;
const REMEMBERED_ROOM: usize = 4096;
pub const HINTS_ROOM: usize = 4096;

#[derive(Clone, Copy)]
pub struct Sizes {
    pub domains: u32,
    pub minor_words: u32,
    pub pools: u32,
}

impl Sizes {
    pub fn are_in_range(self) -> bool {
        (1..=8).contains(&self.domains)
            && (4096..=65_536).contains(&self.minor_words)
            && self.minor_words % 4096 == 0
            && (self.reserve() + CLASS_COUNT as u32 * self.domains + 1..=2048).contains(&self.pools)
    }

    /// How many pools are kept free for copies of young blocks.
    pub fn reserve(self) -> u32 {
        self.domains * (self.minor_words / POOL_WORDS + CLASS_COUNT as u32)
    }
}

pub struct Heap {
    words: Box<[AtomicU64]>,
    pub sizes: Sizes,
    /// Of each domain the blocks that are to be scanned beside running domains.
    pub hints: Vec<Mutex<VecDeque<u32>>>,
}

impl Heap {
    pub fn new(sizes: Sizes) -> Heap {
        let pools = sizes.pools as usize;
        let areas = sizes.domains as usize * sizes.minor_words as usize;
        let zeros = vec![0u64; LIST + 2 * pools + pools * POOL_WORDS as usize + areas];
        let zeros = Box::into_raw(zeros.into_boxed_slice()) as *mut [AtomicU64];
        // SAFETY: the words are as large and as aligned, and no other pointer leads to them.
        let words = unsafe { Box::from_raw(zeros) };
        let hints = (0..sizes.domains)
            .map(|_| Mutex::new(VecDeque::with_capacity(HINTS_ROOM)))
            .collect();
        let heap = Heap {
            words,
            sizes,
            hints,
        };
        heap.fill();
        heap
    }

    /// Writes the first words that aren't 0.
    fn fill(&self) {
        let colours = Colours {
            marked: 0,
            unmarked: 1,
            garbage: 2,
        };
        self.store(COLOURS, colours.word());
        self.store(LISTED, u64::from(self.sizes.pools) - 1);
        for i in 1..self.sizes.pools as usize {
            self.store(LIST + i - 1, i as u64);
        }
        self.store(self.owner(0), 4);
        self.store(self.at(1), plain_head(16, 0, colours.unmarked));
        for i in 0..16 {
            self.store(self.at(3 + i), Value::Int(0).word());
        }
    }

    pub fn load(&self, index: usize) -> u64 {
        self.words[index].load(SeqCst)
    }

    pub fn store(&self, index: usize, word: u64) {
        self.words[index].store(word, SeqCst);
    }

    pub fn add(&self, index: usize, amount: u64) -> u64 {
        self.words[index].fetch_add(amount, SeqCst)
    }

    pub fn or(&self, index: usize, bits: u64) -> u64 {
        self.words[index].fetch_or(bits, SeqCst)
    }

    /// The word as it was: the exchange is made where it is `old`.
    pub fn exchange(&self, index: usize, old: u64, new: u64) -> u64 {
        match self.words[index].compare_exchange(old, new, SeqCst, SeqCst) {
            Ok(found) | Err(found) => found,
        }
    }

    /// The index of an address.
    pub fn at(&self, address: u32) -> usize {
        10 + 2 * self.sizes.pools as usize + address as usize
    }

    /// The index of a pool's owner.
    pub fn owner(&self, pool: u32) -> usize {
        LIST + self.sizes.pools as usize + pool as usize
    }

    /// The last address of the pools. Those of the minor areas lie behind.
    pub fn pools_end(&self) -> u32 {
        self.sizes.pools * POOL_WORDS
    }

    /// How many of the listed pools running domains may draw.
    pub fn draw_limit(&self, listed: u64) -> u64 {
        listed.saturating_sub(u64::from(self.sizes.reserve()))
    }

    pub fn colours(&self) -> Colours {
        Colours::of(self.load(COLOURS))
    }

    /// Whether a cycle goes on beside running domains.
    pub fn is_armed(&self) -> bool {
        self.load(ARMED) != 0
    }

    pub fn label(&self, block: u32) -> Label {
        Label::of(self.load(self.at(block + 1)))
    }
}

/// A copy of a young block, which lies at `source`.
#[derive(Clone, Copy)]
pub struct Copied {
    pub copy: u32,
    pub source: u32,
}

pub struct Domain<'h> {
    pub heap: &'h Heap,
    pub number: u32,
    pub registers: [Value; 16],
    /// The words of the young blocks.
    pub used: u32,
    pub serial: u32,
    pub arrivals: u64,
    /// The place before which no own place of a class is free.
    pub looked: [Spot; CLASS_COUNT],
    /// The next own place to be swept, and whether no listed ephemeron is garbage.
    pub swept: Spot,
    pub is_pruned: bool,
    pub remembered: Vec<u32>,
    /// The place of a class that is prepared for a copy.
    pub prepared: [Option<u32>; CLASS_COUNT],
    pub pending: Vec<Copied>,
    pub ephemerons: Vec<u32>,
    pub finalisers: Finalisers,
    /// Blocks that were darkened in this phase of a pause and are still to be scanned, and whether one
    /// was let go for want of room.
    pub trail: Vec<u32>,
    pub lost: bool,
}

impl<'h> Domain<'h> {
    pub fn new(heap: &'h Heap, number: u32, commands: &[Command]) -> Domain<'h> {
        let mut registers = [Value::Nothing; 16];
        registers[0] = Value::Ref(1);
        let areas = heap.sizes.domains as usize * heap.sizes.minor_words as usize;
        let is_ephemeron = |command: &&Command| matches!(command, Command::Ephe { .. });
        Domain {
            heap,
            number,
            registers,
            used: 0,
            serial: 0,
            arrivals: 0,
            looked: [Spot::FIRST; CLASS_COUNT],
            swept: Spot {
                pool: heap.sizes.pools,
                slot: 0,
            },
            is_pruned: true,
            remembered: Vec::with_capacity(REMEMBERED_ROOM),
            prepared: [None; CLASS_COUNT],
            pending: Vec::with_capacity(areas / 4),
            ephemerons: Vec::with_capacity(commands.iter().filter(is_ephemeron).count()),
            finalisers: Finalisers::for_commands(commands),
            trail: Vec::with_capacity(HINTS_ROOM),
            lost: false,
        }
    }

    pub fn next_label(&self) -> Label {
        Label {
            domain: self.number,
            serial: self.serial + 1,
        }
    }

    pub fn has_room_to_remember(&self) -> bool {
        self.remembered.len() < REMEMBERED_ROOM
    }

    /// Keeps a block of the pools that is to be scanned in this phase, where there is room.
    pub fn follow(&mut self, block: u32) {
        if self.trail.len() < HINTS_ROOM && block <= self.heap.pools_end() {
            self.trail.push(block);
        } else {
            self.lost = true;
        }
    }

    /// Notes a block that is to be scanned beside running domains, where there is room.
    pub fn note(&self, block: u32) {
        let mut hints = self.heap.hints[self.number as usize].lock().unwrap();
        if hints.len() < HINTS_ROOM {
            hints.push_back(block);
        }
    }

    /// A block of which this domain has a hint, or else another one.
    pub fn next_hint(&self) -> Option<u32> {
        let domains = self.heap.sizes.domains;
        (0..domains)
            .map(|i| (self.number + i) % domains)
            .find_map(|d| self.heap.hints[d as usize].lock().unwrap().pop_front())
    }
}
