//! The minor areas: allocation, promotion, and emptying them.

use crate::commands::Attempt;
use crate::heap::{CURSOR, Copied, Domain, LISTED};
use crate::pools::{CLASS_COUNT, Spot, class_for, class_words};
use crate::replies::Reply;
use crate::turns::Want;
use crate::words::{Value, copy_of, forward_head, plain_head, words_of};

/// The head of a place that is taken, and holds no block yet.
const TAKEN: u64 = 1;

impl Domain<'_> {
    /// The address of the domain's next young block.
    fn next_address(&self) -> u32 {
        self.heap.pools_end() + self.number * self.heap.sizes.minor_words + 1 + self.used
    }

    pub fn alloc_young(&mut self, dst: u8, tag: u8, fields: u16) -> Attempt {
        let heap = self.heap;
        let words = class_words(class_for(u32::from(fields) + 2));
        if words > heap.sizes.minor_words - self.used {
            return Attempt::Needs(Want::Minor);
        }
        let listed = heap.load(LISTED);
        let drawn = heap.load(CURSOR).min(heap.draw_limit(listed));
        if listed - drawn < u64::from(heap.sizes.reserve()) {
            return Attempt::NoRoom;
        }
        let (colour, _) = self.new_colour();
        let label = self.next_label();
        let at = self.next_address();
        heap.store(heap.at(at + 1), label.word());
        for i in 0..u32::from(fields) {
            heap.store(heap.at(at + 2 + i), Value::Int(0).word());
        }
        heap.store(heap.at(at), plain_head(fields, tag, colour));
        self.used += words;
        self.serial += 1;
        self.registers[dst as usize] = Value::Ref(at);
        Attempt::Made(Reply::Block(label))
    }

    fn prepare(&mut self, class: usize) -> u32 {
        if let Some(at) = self.prepared[class] {
            return at;
        }
        let at = self.take_for_copy(class);
        self.heap.store(self.heap.at(at), TAKEN);
        self.prepared[class] = Some(at);
        at
    }

    /// The copy of a young block, which is made where there is none.
    pub fn claim(&mut self, young: u32) -> u32 {
        let heap = self.heap;
        heap.colours();
        heap.is_armed();
        let head = heap.load(heap.at(young));
        if let Some(copy) = copy_of(head) {
            return copy;
        }
        let class = class_for(words_of(head));
        let copy = self.prepare(class);
        heap.store(heap.at(copy + 1), heap.load(heap.at(young + 1)));
        heap.store(heap.at(copy), head);
        let found = heap.exchange(heap.at(young), head, forward_head(copy));
        if found != head {
            return copy_of(found).expect("a young head changes once, to lead to the copy");
        }
        self.pending.push(Copied {
            copy,
            source: young,
        });
        self.prepared[class] = None;
        copy
    }

    /// The same value, which refers to a copy in place of a young block.
    fn forwarded(&mut self, value: Value) -> Value {
        match value {
            Value::Ref(address) if address > self.heap.pools_end() => {
                Value::Ref(self.claim(address))
            }
            _ => value,
        }
    }

    /// What a root is to hold, where it holds a young block.
    pub fn moved(&mut self, address: u32) -> Option<u32> {
        if address <= self.heap.pools_end() {
            return None;
        }
        let copy = self.claim(address);
        self.heap.load(self.heap.at(address));
        Some(copy)
    }

    fn move_registers(&mut self) {
        for register in 0..16 {
            if let Value::Ref(address) = self.registers[register]
                && let Some(copy) = self.moved(address)
            {
                self.registers[register] = Value::Ref(copy);
            }
        }
    }

    fn rewrite_fields(&mut self) {
        let heap = self.heap;
        for i in 0..self.remembered.len() {
            let index = heap.at(self.remembered[i]);
            let value = self.forwarded(Value::of(heap.load(index)));
            heap.store(index, value.word());
        }
    }

    fn fill(&mut self, Copied { copy, source }: Copied) {
        let heap = self.heap;
        let size = words_of(heap.load(heap.at(copy))) - 2;
        for i in 2..size + 2 {
            let value = self.forwarded(Value::of(heap.load(heap.at(source + i))));
            heap.store(heap.at(copy + i), value.word());
        }
        heap.load(heap.at(copy));
    }

    fn release_prepared(&mut self) {
        for class in 0..CLASS_COUNT {
            if let Some(at) = self.prepared[class].take() {
                self.heap.store(self.heap.at(at), 0);
                self.looked[class] = self.looked[class].min(Spot::of(at, class));
            }
        }
    }

    pub fn promote(&mut self) {
        self.move_registers();
        self.move_finalisers();
        self.rewrite_fields();
        let mut next = 0;
        while let Some(copied) = self.pending.get(next).copied() {
            self.fill(copied);
            next += 1;
        }
        self.release_prepared();
    }

    pub fn reset(&mut self) {
        let first = self.next_address() - self.used;
        self.heap.store(self.heap.at(first), 0);
        self.used = 0;
        self.remembered.clear();
    }
}
