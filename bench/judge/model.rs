//! The object graph of the definitions, in which nothing moves and nothing is freed, and what each command does to it.

use crate::script::Command;
use std::collections::{BTreeMap, VecDeque};

/// A block, by the domain that made it and its number among the blocks of that domain.
#[derive(Clone, Copy, PartialEq, Eq, PartialOrd, Ord, Hash, Debug)]
pub struct Label {
    pub domain: u8,
    pub serial: u32,
}

#[derive(Clone, Copy, PartialEq, Eq, Hash, Debug)]
pub enum Value {
    Int(i64),
    Block(Label),
    Nothing,
}

/// A block. The fields that aren't listed hold 0.
#[derive(Clone, PartialEq, Eq, Hash)]
pub enum Node {
    Fields {
        raw: bool,
        count: u16,
        held: BTreeMap<u16, Value>,
    },
    Ephemeron {
        keys: Vec<Option<Label>>,
        data: Value,
    },
}

impl Node {
    fn with_fields(raw: bool, count: u16) -> Node {
        Node::Fields {
            raw,
            count,
            held: BTreeMap::new(),
        }
    }

    fn with_keys(count: u16) -> Node {
        Node::Ephemeron {
            keys: vec![None; count as usize],
            data: Value::Nothing,
        }
    }

    pub fn words(&self) -> u64 {
        match self {
            Node::Fields { count, .. } => u64::from(*count) + 2,
            Node::Ephemeron { keys, .. } => keys.len() as u64 + 3,
        }
    }
}

/// What a command answers, or why it is refused.
type Made = Result<String, &'static str>;

/// A registration of `finalise` with its register, or of `finalise_last` with none.
#[derive(Clone, Copy, PartialEq, Eq, Hash)]
pub struct Registration {
    pub value: Label,
    pub number: u32,
    pub register: Option<u8>,
}

#[derive(Clone, PartialEq, Eq, Hash)]
pub struct Domain {
    pub registers: [Value; 16],
    pub serial: u32,
    pub ended: bool,
    pub finals: Vec<Registration>,
    pub lasts: Vec<Registration>,
    pub queue: VecDeque<Registration>,
    /// How long the queue was that the domain's last own entry left.
    pub due: usize,
    /// How many of its commands and of its lines are made.
    pub commands: usize,
    pub lines: usize,
}

#[derive(Clone, PartialEq, Eq, Hash)]
pub struct State {
    pub domains: Vec<Domain>,
    pub graph: BTreeMap<Label, Node>,
}

const SHARED: Label = Label {
    domain: 0,
    serial: 0,
};

impl State {
    pub fn opening(domains: usize) -> State {
        let mut registers = [Value::Nothing; 16];
        registers[0] = Value::Block(SHARED);
        let domain = Domain {
            registers,
            serial: 0,
            ended: false,
            finals: Vec::new(),
            lasts: Vec::new(),
            queue: VecDeque::new(),
            due: 0,
            commands: 0,
            lines: 0,
        };
        let shared = Node::Fields {
            raw: false,
            count: 16,
            held: BTreeMap::new(),
        };
        State {
            domains: vec![domain; domains],
            graph: BTreeMap::from([(SHARED, shared)]),
        }
    }

    fn held(&self, domain: usize, register: u8) -> Value {
        self.domains[domain].registers[register as usize]
    }

    fn node(&self, domain: usize, register: u8) -> Option<(Label, &Node)> {
        match self.held(domain, register) {
            Value::Block(label) => self.graph.get(&label).map(|node| (label, node)),
            _ => None,
        }
    }

    fn put(&mut self, domain: usize, register: u8, value: Value) -> String {
        self.domains[domain].registers[register as usize] = value;
        shown(value)
    }

    fn keep(&mut self, domain: usize, register: u8, value: Value) -> String {
        self.put(domain, register, value);
        "ok".into()
    }

    fn create(&mut self, domain: usize, register: u8, node: Node) -> String {
        self.domains[domain].serial += 1;
        let label = Label {
            domain: domain as u8,
            serial: self.domains[domain].serial,
        };
        self.graph.insert(label, node);
        self.put(domain, register, Value::Block(label))
    }

    /// What a field holds, and whether its block is raw; or the refusal.
    fn field(&self, domain: usize, block: u8, index: u16) -> Result<(Label, Value), &'static str> {
        match self.node(domain, block) {
            Some((_, Node::Fields { count, .. })) if index >= *count => Err("bounds"),
            Some((label, Node::Fields { held, .. })) => {
                Ok((label, held.get(&index).copied().unwrap_or(Value::Int(0))))
            }
            _ => Err("type"),
        }
    }

    /// The same for a field that is to hold a value.
    fn field_for(
        &self,
        domain: usize,
        block: u8,
        index: u16,
        item: Value,
    ) -> Result<(Label, Value), &'static str> {
        let is_raw = matches!(
            self.node(domain, block),
            Some((_, Node::Fields { raw: true, .. }))
        );
        if item == Value::Nothing || is_raw && matches!(item, Value::Block(_)) {
            return Err("type");
        }
        self.field(domain, block, index)
    }

    fn set_field(&mut self, label: Label, index: u16, value: Value) {
        if let Some(Node::Fields { held, .. }) = self.graph.get_mut(&label) {
            if value == Value::Int(0) {
                held.remove(&index);
            } else {
                held.insert(index, value);
            }
        }
    }

    fn store(&mut self, domain: usize, block: u8, index: u16, item: Value) -> Made {
        let (label, _) = self.field_for(domain, block, index, item)?;
        self.set_field(label, index, item);
        done()
    }

    fn exchange(
        &mut self,
        domain: usize,
        block: u8,
        index: u16,
        expected: Value,
        item: Value,
    ) -> Made {
        if expected == Value::Nothing {
            return Err("type");
        }
        let (label, found) = self.field_for(domain, block, index, item)?;
        if found != expected {
            return Ok("no".into());
        }
        self.set_field(label, index, item);
        Ok("yes".into())
    }

    fn ephemeron(
        &mut self,
        domain: usize,
        register: u8,
    ) -> Result<(&mut Vec<Option<Label>>, &mut Value), &'static str> {
        let Value::Block(label) = self.held(domain, register) else {
            return Err("type");
        };
        match self.graph.get_mut(&label) {
            Some(Node::Ephemeron { keys, data }) => Ok((keys, data)),
            _ => Err("type"),
        }
    }

    fn key(
        &mut self,
        domain: usize,
        register: u8,
        index: u16,
    ) -> Result<&mut Option<Label>, &'static str> {
        self.ephemeron(domain, register)?
            .0
            .get_mut(index as usize)
            .ok_or("bounds")
    }

    fn set_key(&mut self, domain: usize, ephe: u8, index: u16, item: Value) -> Made {
        let Value::Block(label) = item else {
            return Err("type");
        };
        *self.key(domain, ephe, index)? = Some(label);
        done()
    }

    fn set_data(&mut self, domain: usize, ephe: u8, item: Value) -> Made {
        if item == Value::Nothing {
            return Err("type");
        }
        *self.ephemeron(domain, ephe)?.1 = item;
        done()
    }

    fn register(&mut self, domain: usize, item: u8, number: u32, register: Option<u8>) -> Made {
        let Value::Block(value) = self.held(domain, item) else {
            return Err("type");
        };
        let domain = &mut self.domains[domain];
        let list = if register.is_some() {
            &mut domain.finals
        } else {
            &mut domain.lasts
        };
        list.push(Registration {
            value,
            number,
            register,
        });
        done()
    }

    /// Makes a command of a domain, and answers its reply.
    pub fn make(&mut self, domain: usize, command: Command) -> String {
        self.try_to_make(domain, command)
            .unwrap_or_else(str::to_owned)
    }

    fn try_to_make(&mut self, domain: usize, command: Command) -> Made {
        match command {
            Command::Int { dst, value } => Ok(self.keep(domain, dst, Value::Int(value))),
            Command::Move { dst, src } => Ok(self.keep(domain, dst, self.held(domain, src))),
            Command::Drop { dst } => Ok(self.keep(domain, dst, Value::Nothing)),
            Command::Alloc { dst, fields, .. } | Command::AllocMaj { dst, fields, .. } => {
                Ok(self.create(domain, dst, Node::with_fields(false, fields)))
            }
            Command::Raw { dst, fields, .. } => {
                Ok(self.create(domain, dst, Node::with_fields(true, fields)))
            }
            Command::Ephe { dst, keys } => Ok(self.create(domain, dst, Node::with_keys(keys))),
            Command::Finalise { item, number, dst } => {
                self.register(domain, item, number, Some(dst))
            }
            Command::FinaliseLast { item, number } => self.register(domain, item, number, None),
            Command::Load { .. } | Command::Store { .. } | Command::Cas { .. } => {
                self.use_field(domain, command)
            }
            Command::Poll | Command::Minor | Command::Major => done(),
            _ => self.use_ephemeron(domain, command),
        }
    }

    fn use_field(&mut self, domain: usize, command: Command) -> Made {
        match command {
            Command::Load { dst, src, index } => {
                let found = self.field(domain, src, index)?.1;
                Ok(self.put(domain, dst, found))
            }
            Command::Store { block, index, item } => {
                self.store(domain, block, index, self.held(domain, item))
            }
            Command::Cas {
                block,
                index,
                expected,
                item,
            } => {
                let (expected, item) = (self.held(domain, expected), self.held(domain, item));
                self.exchange(domain, block, index, expected, item)
            }
            _ => Err("no command on a field"),
        }
    }

    fn use_ephemeron(&mut self, domain: usize, command: Command) -> Made {
        match command {
            Command::SetKey { ephe, index, item } => {
                self.set_key(domain, ephe, index, self.held(domain, item))
            }
            Command::UnsetKey { ephe, index } => {
                *self.key(domain, ephe, index)? = None;
                done()
            }
            Command::GetKey { dst, ephe, index } => {
                let found = *self.key(domain, ephe, index)?;
                Ok(self.put(domain, dst, found.map_or(Value::Nothing, Value::Block)))
            }
            Command::CheckKey { ephe, index } => {
                Ok(yes_or_no(self.key(domain, ephe, index)?.is_some()))
            }
            Command::SetData { ephe, item } => self.set_data(domain, ephe, self.held(domain, item)),
            Command::UnsetData { ephe } => {
                *self.ephemeron(domain, ephe)?.1 = Value::Nothing;
                done()
            }
            Command::GetData { dst, ephe } => {
                let found = *self.ephemeron(domain, ephe)?.1;
                Ok(self.put(domain, dst, found))
            }
            Command::CheckData { ephe } => {
                let found = *self.ephemeron(domain, ephe)?.1;
                Ok(yes_or_no(found != Value::Nothing))
            }
            _ => Err("no command on an ephemeron"),
        }
    }

    /// Runs the first finaliser of a domain's queue, and answers its line.
    pub fn run_finaliser(&mut self, domain: usize) -> Option<String> {
        let Registration {
            value,
            number,
            register,
        } = self.domains[domain].queue.pop_front()?;
        self.domains[domain].due = self.domains[domain].queue.len();
        Some(match register {
            Some(register) => {
                self.put(domain, register, Value::Block(value));
                format!("fin {number} {}:{}", value.domain, value.serial)
            }
            None => format!("last {number}"),
        })
    }

    pub fn end(&mut self, domain: usize) {
        let domain = &mut self.domains[domain];
        domain.registers = [Value::Nothing; 16];
        domain.finals.clear();
        domain.lasts.clear();
        domain.ended = true;
    }
}

/// The block by which sections begin each other, wait and pass values: a flag, an argument and a result for each of eight.
const HIDDEN: u8 = 15;
const ARGUMENTS: usize = 8;
const RESULTS: usize = 16;

#[allow(dead_code)]
impl State {
    /// The state of so many domains of which each has the hidden block.
    pub fn with_hidden(domains: usize) -> State {
        let mut state = State::opening(domains);
        state.create(0, HIDDEN, Node::with_fields(false, 24));
        let hidden = state.held(0, HIDDEN);
        for domain in &mut state.domains {
            domain.registers[HIDDEN as usize] = hidden;
        }
        state
    }

    fn slot(&self, domain: usize, slot: usize) -> Value {
        self.field(domain, HIDDEN, slot as u16)
            .map_or(Value::Nothing, |found| found.1)
    }

    fn set_slot(&mut self, domain: usize, slot: usize, value: Value) {
        if let Value::Block(hidden) = self.held(domain, HIDDEN) {
            self.set_field(hidden, slot as u16, value);
        }
    }

    /// Whether a section's flag is this number.
    pub fn flag_is(&self, domain: usize, section: usize, number: i64) -> bool {
        self.slot(domain, section) == Value::Int(number)
    }

    pub fn spawn(&mut self, domain: usize, section: usize, item: u8) -> String {
        let argument = match self.held(domain, item) {
            Value::Nothing => Value::Int(0),
            held => held,
        };
        self.set_slot(domain, ARGUMENTS + section, argument);
        self.set_slot(domain, section, Value::Int(1));
        "ok".into()
    }

    pub fn take_argument(&mut self, domain: usize, dst: u8) -> String {
        self.put(domain, dst, self.slot(domain, ARGUMENTS + domain))
    }

    pub fn put_result(&mut self, domain: usize, item: u8) -> String {
        match self.held(domain, item) {
            Value::Nothing => "type".into(),
            held => {
                self.set_slot(domain, RESULTS + domain, held);
                "ok".into()
            }
        }
    }

    pub fn take_result(&mut self, domain: usize, dst: u8, section: usize) -> String {
        self.put(domain, dst, self.slot(domain, RESULTS + section))
    }

    pub fn tell_end(&mut self, domain: usize) {
        self.set_slot(domain, domain, Value::Int(2));
    }
}

fn done() -> Made {
    Ok("ok".into())
}

fn shown(value: Value) -> String {
    match value {
        Value::Int(number) => format!("int {number}"),
        Value::Block(label) => format!("blk {}:{}", label.domain, label.serial),
        Value::Nothing => "none".into(),
    }
}

fn yes_or_no(answer: bool) -> String {
    if answer { "yes" } else { "no" }.into()
}
