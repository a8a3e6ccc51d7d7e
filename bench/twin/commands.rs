//! Trying a command.

use crate::heap::{Domain, WANT};
use crate::replies::Reply;
use crate::script::Command;
use crate::turns::Want;
use crate::words::{Label, Value, field_count, is_raw};

pub enum Attempt {
    Made(Reply),
    Needs(Want),
    NoRoom,
}

impl From<Option<Label>> for Attempt {
    fn from(label: Option<Label>) -> Attempt {
        match label {
            Some(label) => Attempt::Made(Reply::Block(label)),
            None => Attempt::NoRoom,
        }
    }
}

impl Domain<'_> {
    /// The reply that tells what is in a register.
    fn shown(&self, register: u8) -> Reply {
        match self.registers[register as usize] {
            Value::Int(v) => Reply::Int(v),
            Value::Ref(block) => Reply::Block(self.heap.label(block)),
            Value::Nothing => Reply::Empty,
        }
    }

    pub fn load_word(&mut self, dst: u8, at: u32) -> Reply {
        self.registers[dst as usize] = Value::of(self.heap.load(self.heap.at(at)));
        self.shown(dst)
    }

    /// Remembers a word of a block, where the value that it was given is young and the block isn't.
    fn remember(&mut self, block: u32, at: u32, value: Value) {
        let pools_end = self.heap.pools_end();
        if let Value::Ref(address) = value
            && block <= pools_end
            && pools_end < address
        {
            self.remembered.push(at);
        }
    }

    /// Stores to a word of a block, and remembers it where it must.
    pub fn store_word(&mut self, block: u32, at: u32, value: Value) {
        self.heap.store(self.heap.at(at), value.word());
        self.remember(block, at, value);
    }

    /// The address of a field of a block with this head.
    fn field(&self, block: u32, head: u64, index: u16) -> Result<u32, Reply> {
        let size = field_count(head).ok_or(Reply::BadType)?;
        if u32::from(index) < size {
            Ok(block + 2 + u32::from(index))
        } else {
            Err(Reply::BadIndex)
        }
    }

    /// The address of a field of a block that is to hold a value.
    fn field_for(&self, block: u32, index: u16, value: Value) -> Result<u32, Reply> {
        let head = self.heap.load(self.heap.at(block));
        if is_raw(head) && matches!(value, Value::Ref(_)) {
            return Err(Reply::BadType);
        }
        self.field(block, head, index)
    }

    /// Stores to a field. While a cycle goes on what the field refers to is marked before.
    fn store_field(&mut self, block: u32, at: u32, value: Value) {
        if self.heap.is_armed() {
            self.darken_beside(Value::of(self.heap.load(self.heap.at(at))));
        }
        self.store_word(block, at, value);
    }

    fn load(&mut self, dst: u8, src: u8, index: u16) -> Reply {
        let Value::Ref(block) = self.registers[src as usize] else {
            return self.refuse();
        };
        let head = self.heap.load(self.heap.at(block));
        match self.field(block, head, index) {
            Ok(at) => self.load_word(dst, at),
            Err(refusal) => refusal,
        }
    }

    fn store(&mut self, block: u8, index: u16, item: u8) -> Reply {
        let Value::Ref(block) = self.registers[block as usize] else {
            return self.refuse();
        };
        let value = self.registers[item as usize];
        if value == Value::Nothing {
            return self.refuse();
        }
        match self.field_for(block, index, value) {
            Ok(at) => self.store_field(block, at, value),
            Err(refusal) => return refusal,
        }
        Reply::Done
    }

    /// Exchanges a field that holds what is expected.
    fn exchange(&mut self, block: u32, at: u32, expected: Value, value: Value) -> Reply {
        let heap = self.heap;
        if heap.is_armed() {
            self.darken_beside(expected);
        }
        if heap.exchange(heap.at(at), expected.word(), value.word()) != expected.word() {
            return Reply::No;
        }
        self.remember(block, at, value);
        Reply::Yes
    }

    fn cas(&mut self, block: u8, index: u16, expected: u8, item: u8) -> Reply {
        let Value::Ref(block) = self.registers[block as usize] else {
            return self.refuse();
        };
        let expected = self.registers[expected as usize];
        let value = self.registers[item as usize];
        if expected == Value::Nothing || value == Value::Nothing {
            return self.refuse();
        }
        match self.field_for(block, index, value) {
            Ok(at) => self.exchange(block, at, expected, value),
            Err(refusal) => refusal,
        }
    }

    fn put_register(&mut self, dst: u8, value: Value) -> Reply {
        self.heap.load(WANT);
        self.registers[dst as usize] = value;
        Reply::Done
    }

    /// Makes a command that needs neither room nor a pause.
    fn make(&mut self, command: Command) -> Reply {
        match command {
            Command::Int { dst, value } => self.put_register(dst, Value::Int(value)),
            Command::Move { dst, src } => self.put_register(dst, self.registers[src as usize]),
            Command::Drop { dst } => self.put_register(dst, Value::Nothing),
            Command::Load { dst, src, index } => self.load(dst, src, index),
            Command::Store { block, index, item } => self.store(block, index, item),
            Command::Cas {
                block,
                index,
                expected,
                item,
            } => self.cas(block, index, expected, item),
            Command::SetKey { ephe, index, item } => self.set_key(ephe, index, item),
            Command::UnsetKey { ephe, index } => self.put(ephe, Some(index), Value::Nothing),
            Command::GetKey { dst, ephe, index } => self.get(dst, ephe, Some(index)),
            Command::CheckKey { ephe, index } => self.check(ephe, Some(index)),
            Command::SetData { ephe, item } => self.set_data(ephe, item),
            Command::UnsetData { ephe } => self.put(ephe, None, Value::Nothing),
            Command::GetData { dst, ephe } => self.get(dst, ephe, None),
            Command::CheckData { ephe } => self.check(ephe, None),
            Command::Finalise { item, number, dst } => self.finalise(item, number, dst),
            Command::FinaliseLast { item, number } => self.finalise_last(item, number),
            _ => {
                self.heap.load(WANT);
                Reply::Done
            }
        }
    }

    /// Tries a command. `served` says whether the pause that it asked for has been.
    pub fn attempt(&mut self, command: Command, served: bool) -> Attempt {
        match command {
            Command::Alloc { dst, tag, fields } | Command::Raw { dst, tag, fields } => {
                self.alloc_young(dst, tag, fields)
            }
            Command::AllocMaj { dst, tag, fields } => self.alloc_major(dst, tag, fields).into(),
            Command::Ephe { dst, keys } => self.create_ephemeron(dst, keys).into(),
            Command::Store { .. }
            | Command::Cas { .. }
            | Command::SetKey { .. }
            | Command::SetData { .. }
                if !self.has_room_to_remember() =>
            {
                Attempt::Needs(Want::Minor)
            }
            Command::Minor if !served => Attempt::Needs(Want::Minor),
            Command::Major if !served => Attempt::Needs(Want::Cycle),
            Command::FullMajor => Attempt::Needs(Want::Full),
            _ => Attempt::Made(self.make(command)),
        }
    }
}
