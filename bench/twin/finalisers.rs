//! Finalisers: registrations, the queue, and their part in a collection.

use crate::heap::{Domain, WANT};
use crate::replies::Reply;
use crate::script::Command;
use crate::words::{Value, has_colour};
use std::collections::VecDeque;

/// A finaliser of a block, and the register that is given the block.
#[derive(Clone, Copy)]
pub struct Registered {
    pub address: u32,
    pub number: u32,
    pub register: u8,
}

#[derive(Clone, Copy)]
pub struct RegisteredLast {
    pub address: u32,
    pub number: u32,
}

#[derive(Clone, Copy)]
pub enum Waiting {
    Fin(Registered),
    Last { number: u32 },
}

pub struct Finalisers {
    pub finals: VecDeque<Registered>,
    pub lasts: VecDeque<RegisteredLast>,
    pub queue: VecDeque<Waiting>,
}

impl Finalisers {
    pub fn for_commands(commands: &[Command]) -> Finalisers {
        let registers = |command: &&Command| {
            matches!(
                command,
                Command::Finalise { .. } | Command::FinaliseLast { .. }
            )
        };
        let room = commands.iter().filter(registers).count();
        Finalisers {
            finals: VecDeque::with_capacity(room),
            lasts: VecDeque::with_capacity(room),
            queue: VecDeque::with_capacity(room),
        }
    }
}

impl Domain<'_> {
    pub fn finalise(&mut self, item: u8, number: u32, register: u8) -> Reply {
        let Value::Ref(address) = self.registers[item as usize] else {
            return self.refuse();
        };
        self.heap.load(WANT);
        self.finalisers.finals.push_back(Registered {
            address,
            number,
            register,
        });
        Reply::Done
    }

    pub fn finalise_last(&mut self, item: u8, number: u32) -> Reply {
        let Value::Ref(address) = self.registers[item as usize] else {
            return self.refuse();
        };
        self.heap.load(WANT);
        self.finalisers
            .lasts
            .push_back(RegisteredLast { address, number });
        Reply::Done
    }

    /// Runs the finaliser that has waited longest.
    pub fn run_finaliser(&mut self) -> Option<Reply> {
        let first = self.finalisers.queue.pop_front()?;
        self.heap.load(WANT);
        match first {
            Waiting::Fin(registered) => {
                self.registers[registered.register as usize] = Value::Ref(registered.address);
                Some(Reply::Fin {
                    number: registered.number,
                    label: self.heap.label(registered.address),
                })
            }
            Waiting::Last { number } => Some(Reply::Last { number }),
        }
    }

    pub fn move_finalisers(&mut self) {
        for i in 0..self.finalisers.finals.len() {
            if let Some(copy) = self.moved(self.finalisers.finals[i].address) {
                self.finalisers.finals[i].address = copy;
            }
        }
        for i in 0..self.finalisers.lasts.len() {
            if let Some(copy) = self.moved(self.finalisers.lasts[i].address) {
                self.finalisers.lasts[i].address = copy;
            }
        }
        for i in 0..self.finalisers.queue.len() {
            if let Waiting::Fin(registered) = self.finalisers.queue[i]
                && let Some(address) = self.moved(registered.address)
            {
                self.finalisers.queue[i] = Waiting::Fin(Registered {
                    address,
                    ..registered
                });
            }
        }
    }

    fn is_marked(&self, at: u32, marked: u64) -> bool {
        has_colour(self.heap.load(self.heap.at(at)), marked)
    }

    /// Queues those of `finalise` whose blocks aren't marked, the newest first.
    pub fn decide(&mut self) {
        let marked = self.heap.colours().marked;
        for i in (0..self.finalisers.finals.len()).rev() {
            let registered = self.finalisers.finals[i];
            if !self.is_marked(registered.address, marked) {
                self.finalisers.finals.remove(i);
                self.finalisers.queue.push_back(Waiting::Fin(registered));
            }
        }
    }

    /// The same for `finalise_last`.
    pub fn decide_last(&mut self) {
        let marked = self.heap.colours().marked;
        for i in (0..self.finalisers.lasts.len()).rev() {
            let RegisteredLast { address, number } = self.finalisers.lasts[i];
            if !self.is_marked(address, marked) {
                self.finalisers.lasts.remove(i);
                self.finalisers.queue.push_back(Waiting::Last { number });
            }
        }
    }
}
