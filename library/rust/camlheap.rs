//! A heap with the rules of OCaml 5's, proved, for programs in plain Rust.
//!
//! A heap has 1 to 8 domains, each with 16 registers, which are its roots. [`start`] answers a [`Seat`] for each: a value
//! that moves between threads, and that one thread at a time calls on, which the types see to. A pause of the collector
//! needs all domains, so each seat makes commands, or takes a [`turn`](Seat::turn) now and then, until all are
//! [finished](Seat::finish).
//!
//! ```no_run
//! use camlheap::{Command, Config, start};
//!
//! let config = Config { domains: 1, minor_words: 4096, pools: 64, finals: 8, ephes: 8 };
//! let mut seat = start(config)?.remove(0);
//! seat.perform(Command::Alloc { dst: 1, tag: 0, fields: 2 })?;
//! seat.finalise_last(1, |_| println!("it is gone"))?;
//! seat.perform(Command::Forget { dst: 1 })?;
//! seat.perform(Command::FullMajor)?;
//! seat.perform(Command::Poll)?; // a collection only has a finaliser wait: it runs before the next command
//! seat.finish()?;
//! # Ok::<(), camlheap::Refused>(())
//! ```
use camlheap_sys as sys;
use std::cell::Cell;
use std::collections::HashMap;
use std::fmt;
use std::marker::PhantomData;
use std::mem;
use std::panic::{AssertUnwindSafe, catch_unwind};
use std::thread;

pub use camlheap_sys::{Config, Stats};

/// The label of a block, which no other block of the heap ever has.
#[derive(Clone, Copy, Debug, PartialEq, Eq, Hash)]
pub struct Label {
    pub domain: u32,
    pub serial: u32,
}

/// A register: 0 to 15.
pub type Register = u8;

/// What a seat may be asked to do. The table of commands in `camlheap.h` says of each what it does and replies, with the operands in
/// this order: its `ok` is [`Reply::Done`] and its `none` [`Reply::Empty`], and `expected` is its `dst`.
#[derive(Clone, Copy, Debug, PartialEq, Eq)]
pub enum Command {
    PutInt { dst: Register, value: i64 },
    Copy { dst: Register, src: Register },
    Forget { dst: Register },
    Alloc { dst: Register, tag: u8, fields: u16 },
    AllocMajor { dst: Register, tag: u8, fields: u16 },
    Raw { dst: Register, tag: u8, fields: u16 },
    Load { dst: Register, block: Register, index: u16 },
    Store { block: Register, index: u16, item: Register },
    Cas { block: Register, index: u16, expected: Register, item: Register },
    Ephe { dst: Register, keys: u16 },
    SetKey { ephe: Register, index: u16, item: Register },
    UnsetKey { ephe: Register, index: u16 },
    GetKey { dst: Register, ephe: Register, index: u16 },
    CheckKey { ephe: Register, index: u16 },
    SetData { ephe: Register, item: Register },
    UnsetData { ephe: Register },
    GetData { dst: Register, ephe: Register },
    CheckData { ephe: Register },
    Poll, Minor, Major, FullMajor,
    Finalise { item: Register, number: u32, dst: Register },
    FinaliseLast { item: Register, number: u32 },
}

impl Command {
    // What C has for it.
    fn raw(self) -> sys::Command {
        let none = sys::Command::default();
        match self {
            Command::PutInt { dst, value } => sys::Command { op: 0, dst, value, ..none },
            Command::Copy { dst, src: a } => sys::Command { op: 1, dst, a, ..none },
            Command::Forget { dst } => sys::Command { op: 2, dst, ..none },
            Command::Alloc { dst, tag, fields: n } => sys::Command { op: 3, dst, tag, n, ..none },
            Command::AllocMajor { dst, tag, fields: n } => sys::Command { op: 4, dst, tag, n, ..none },
            Command::Raw { dst, tag, fields: n } => sys::Command { op: 5, dst, tag, n, ..none },
            Command::Load { dst, block: a, index: n } => sys::Command { op: 6, dst, a, n, ..none },
            Command::Store { block: a, index: n, item: b } => sys::Command { op: 7, a, n, b, ..none },
            Command::Cas { block: a, index: n, expected: dst, item: b } => sys::Command { op: 8, dst, a, n, b, ..none },
            Command::Ephe { dst, keys: n } => sys::Command { op: 9, dst, n, ..none },
            Command::SetKey { ephe: a, index: n, item: b } => sys::Command { op: 10, a, n, b, ..none },
            Command::UnsetKey { ephe: a, index: n } => sys::Command { op: 11, a, n, ..none },
            Command::GetKey { dst, ephe: a, index: n } => sys::Command { op: 12, dst, a, n, ..none },
            Command::CheckKey { ephe: a, index: n } => sys::Command { op: 13, a, n, ..none },
            Command::SetData { ephe: a, item: b } => sys::Command { op: 14, a, b, ..none },
            Command::UnsetData { ephe: a } => sys::Command { op: 15, a, ..none },
            Command::GetData { dst, ephe: a } => sys::Command { op: 16, dst, a, ..none },
            Command::CheckData { ephe: a } => sys::Command { op: 17, a, ..none },
            Command::Poll => sys::Command { op: 18, ..none },
            Command::Minor => sys::Command { op: 19, ..none },
            Command::Major => sys::Command { op: 20, ..none },
            Command::FullMajor => sys::Command { op: 21, ..none },
            Command::Finalise { item: a, number, dst } => sys::Command { op: 22, dst, a, number, ..none },
            Command::FinaliseLast { item: a, number } => sys::Command { op: 23, a, number, ..none },
        }
    }
}

/// What a command replies, or a finaliser that ran.
#[derive(Clone, Copy, Debug, PartialEq, Eq)]
pub enum Reply {
    Done, Int(i64), Block(Label), BadType, BadIndex, Empty, Yes, No,
    /// No room after a complete collection; no block was made.
    Full,
    Live { blocks: u64, words: u64 },
    /// A `finalise` ran, of this block.
    Fin { number: u32, label: Label },
    /// A `finalise_last` ran.
    Last { number: u32 },
}

impl Reply {
    fn of(raw: &sys::Reply) -> Reply {
        let label = Label { domain: raw.domain, serial: raw.serial };
        match raw.kind {
            0 => Reply::Done,
            1 => Reply::Int(raw.value),
            2 => Reply::Block(label),
            3 => Reply::BadType,
            4 => Reply::BadIndex,
            5 => Reply::Empty,
            6 => Reply::Yes,
            7 => Reply::No,
            8 => Reply::Full,
            9 => Reply::Live { blocks: raw.blocks, words: raw.words },
            10 => Reply::Fin { number: raw.number, label },
            11 => Reply::Last { number: raw.number },
            other => unreachable!("the library has no reply {other}"),
        }
    }
}

/// What leads to a block.
#[derive(Clone, Debug, PartialEq, Eq)]
pub enum Why {
    /// This register does, through these fields, one behind the other.
    Way { register: Register, fields: Vec<u16> },
    Nothing,
    /// No field does; an ephemeron is there whose data may.
    NoField,
}

/// Why something wasn't done. Nothing has changed then.
#[derive(Clone, Copy, Debug, PartialEq, Eq)]
pub enum Refused {
    Closed, Busy, Unfit, NoEphemeron, NoFinaliser, NoLabel, NoRegister, Memory,
    /// There are more blocks than were to be looked into.
    MoreBlocks,
    /// A pause is wanted, or a finaliser waits: take a [turn](Seat::turn), and ask anew.
    NotNow,
    /// The first field of the configuration outside its range, counted from 1.
    Outside(u32),
}

/// The refusals in the order of their numbers, with what they say.
const REFUSALS: [(Refused, &str); 8] = [
    (Refused::Closed, "the seat takes no command any more"),
    (Refused::Busy, "the command before isn't made yet"),
    (Refused::Unfit, "a register or number is outside its range"),
    (Refused::NoEphemeron, "no room for the ephemeron"),
    (Refused::NoFinaliser, "no room for the finaliser"),
    (Refused::NoLabel, "no label is left"),
    (Refused::NoRegister, "no such register"),
    (Refused::Memory, "memory ran out"),
];

/// The fields of a configuration, in order, each with its range.
const RANGES: [&str; 5] = [
    "domains, 1 to 8,",
    "minor_words, 4096 to 65536 in steps of 4096,",
    "pools, domains * (minor_words / 4096 + 18) + 1 to 2048,",
    "finals, at most 200000,",
    "ephes, at most 200000,",
];

impl Refused {
    fn of(told: u32) -> Refused {
        if told == sys::AGAIN {
            return Refused::NotNow;
        }
        match REFUSALS.get((told - sys::CLOSED) as usize) {
            Some((refused, _)) => *refused,
            None if told == sys::NO_MORE => Refused::MoreBlocks,
            None => Refused::Outside(told - sys::OUTSIDE),
        }
    }
}

impl fmt::Display for Refused {
    fn fmt(&self, out: &mut fmt::Formatter<'_>) -> fmt::Result {
        match (self, REFUSALS.iter().find(|(refused, _)| refused == self)) {
            (Refused::MoreBlocks, _) => out.write_str("there are more blocks than were to be looked into"),
            (Refused::NotNow, _) => out.write_str("a pause is wanted, or a finaliser waits"),
            (Refused::Outside(field), _) => write!(out, "{} is outside its range", RANGES[*field as usize - 1]),
            (_, said) => out.write_str(said.map_or("", |(_, text)| text)),
        }
    }
}

impl std::error::Error for Refused {}

// What a call answered: its reply, or why there is none.
fn answered(told: u32, reply: &sys::Reply) -> Result<Reply, Refused> {
    if told == sys::DONE { Ok(Reply::of(reply)) } else { Err(Refused::of(told)) }
}

/// What is called as a finaliser has run, with its reply.
type Call = Box<dyn FnOnce(Reply) + Send>;

// The finalisers that have something called have the numbers from this one on.
const CALLED: u32 = 1 << 31;

/// A domain of a heap, with a bed. It moves between threads; one at a time calls on it. One that is dropped before it has
/// finished, as where its thread panics, is left to the others: they turn it to its end where they wait for it. Nobody hears of
/// finalisers of it that run then.
pub struct Seat {
    raw: sys::Domain,
    bed: sys::Bed,
    calls: HashMap<u32, Call>,
    next_call: u32,
    // The finalisers that have run, with nothing to be called, and weren't asked for yet.
    told: Vec<Reply>,
    // Two threads don't share one, not even to read.
    _alone: PhantomData<Cell<()>>,
}

// The domain may be driven by any thread, as long as one at a time does: it is proved so of the crate that it stands on.
unsafe impl Send for Seat {}

/// A heap of this size: a seat for each of its domains, in order. [`Config`] has the number of `domains`, 1 to 8; the `minor_words` of
/// the minor area of each, 4096 to 65536 in steps of 4096; the `pools` of 4096 words, `domains * (minor_words / 4096 + 18) + 1` to
/// 2048; and for each domain the room for `finals`, finalisers that are registered or weren't called yet, and for `ephes`, ephemerons,
/// one for each key that a weak map binds; at most 200000 each.
pub fn start(config: Config) -> Result<Vec<Seat>, Refused> {
    if config.domains > 8 {
        return Err(Refused::Outside(1));
    }
    let mut raw: Vec<sys::Domain> = (0..config.domains).map(|_| sys::Domain::NONE).collect();
    match unsafe { sys::camlheap_start(&config, raw.as_mut_ptr(), raw.len()) } {
        sys::DONE => (),
        told => return Err(Refused::of(told)),
    }
    let mut seats: Vec<Seat> = raw.into_iter().map(Seat::of).collect();
    let (first, others) = seats.split_first_mut().expect("a heap has a domain");
    let mut told = unsafe { sys::camlheap_first_bed(&mut first.bed) };
    for seat in others {
        told = told.max(unsafe { sys::camlheap_another_bed(&mut first.bed, &mut seat.bed) });
    }
    if told == sys::DONE { Ok(seats) } else { Err(Refused::Memory) }
}

/// A seat whose thread does something else for long, or blocks: the others needn't wait for it, and turn it where they wait.
pub struct Resting(Seat);

impl Resting {
    /// The seat, which has made no command meanwhile. Finalisers of its domain may have [run](Seat::ran).
    pub fn resume(mut self) -> Seat {
        while unsafe { sys::camlheap_resume(&mut self.0.raw, &mut self.0.bed) } == sys::AGAIN {
            thread::yield_now();
        }
        self.0.hear();
        self.0
    }
}

impl Seat {
    fn of(raw: sys::Domain) -> Seat {
        Seat { raw, bed: sys::Bed::NONE, calls: HashMap::new(), next_call: CALLED, told: Vec::new(), _alone: PhantomData }
    }

    /// Makes a command, and answers its reply. Where a pause is wanted it waits for the other seats of the heap.
    /// A finaliser's number is below 2^31: the others are those of [`finalise`](Seat::finalise).
    pub fn perform(&mut self, command: Command) -> Result<Reply, Refused> {
        match command {
            Command::Finalise { number: CALLED.., .. } | Command::FinaliseLast { number: CALLED.., .. } => Err(Refused::Unfit),
            _ => self.make(command),
        }
    }

    fn make(&mut self, command: Command) -> Result<Reply, Refused> {
        const TURNS: u32 = 64;
        let mut reply = sys::Reply::default();
        let mut told = unsafe { sys::camlheap_call(&mut self.raw, &command.raw(), TURNS, &mut reply) };
        while told == sys::AGAIN || told == sys::WAITING {
            if told == sys::WAITING {
                self.wait();
            }
            told = unsafe { sys::camlheap_run(&mut self.raw, TURNS, &mut reply) };
        }
        self.hear();
        answered(told, &reply)
    }

    // Takes the finalisers that have run, and has called what is to be called; the others are kept until they are asked for. A call
    // that panics has said so on standard error, and the next one is made all the same.
    fn hear(&mut self) {
        let mut reply = sys::Reply::default();
        while unsafe { sys::camlheap_take_ran(&mut self.raw, &mut reply) } == sys::DONE {
            let ran = Reply::of(&reply);
            match self.calls.remove(&reply.number) {
                Some(call) => drop(catch_unwind(AssertUnwindSafe(|| call(ran)))),
                None => self.told.push(ran),
            }
        }
    }

    // Registers a finaliser with what is to be called.
    fn register(&mut self, call: Call, command: impl Fn(u32) -> Command) -> Result<Reply, Refused> {
        let number = self.next_call;
        self.next_call = number.checked_add(1).unwrap_or(CALLED);
        self.calls.insert(number, call);
        let made = self.make(command(number));
        if made != Ok(Reply::Done) {
            self.calls.remove(&number);
        }
        made
    }

    /// Has `call` be called, on the thread that calls on this seat, once nothing leads to the block in `item` any more; register `dst`
    /// holds it again then. A collection only finds that: the finaliser runs before the next command or in a [turn](Seat::turn), and
    /// each registration is called once, behind the call on the seat in which it ran; its place in `finals` is free then.
    /// [`Reply::Done`], or [`Reply::BadType`] where `item` holds no block.
    pub fn finalise(&mut self, item: Register, dst: Register, call: impl FnOnce(Reply) + Send + 'static) -> Result<Reply, Refused> {
        self.register(Box::new(call), |number| Command::Finalise { item, number, dst })
    }

    /// The same, once the block in `item` is gone for good. The reply is [`Reply::Last`] with a number of this library's own, which
    /// names no block: `call` captures what it has to know, such as the [`Label`].
    pub fn finalise_last(&mut self, item: Register, call: impl FnOnce(Reply) + Send + 'static) -> Result<Reply, Refused> {
        self.register(Box::new(call), |number| Command::FinaliseLast { item, number })
    }

    /// What a register holds: an integer, a block, or nothing.
    pub fn show(&mut self, register: Register) -> Result<Reply, Refused> {
        let mut reply = sys::Reply::default();
        answered(unsafe { sys::camlheap_show(&mut self.raw, register, &mut reply) }, &reply)
    }

    /// The finalisers registered by a number of one's own, by [`Command::Finalise`] and [`Command::FinaliseLast`], that have run and
    /// weren't told yet, in order. None is lost, in whichever call of the seat it ran.
    pub fn ran(&mut self) -> Vec<Reply> {
        self.hear();
        mem::take(&mut self.told)
    }

    /// A new weak map into a register below 8: its block, or [`Reply::Full`].
    pub fn make_map(&mut self, dst: Register) -> Result<Reply, Refused> {
        self.ask(|domain, reply| unsafe { sys::camlheap_map_make(domain, dst, reply) })
    }

    /// The weak map in a register below 8, which this seat or another has made. The register isn't looked at. Where it holds no map
    /// `get` and `remove` answer [`Reply::Empty`] and `insert` [`Refused::NotNow`]; `count` and `sweep` tell, by [`Reply::BadType`].
    pub fn map(&mut self, register: Register) -> WeakMap<'_> {
        WeakMap { seat: self, register }
    }

    // Asks a call on a map anew while that helps: behind turns, and then behind collections, which make room.
    fn ask(&mut self, call: impl Fn(*mut sys::Domain, *mut sys::Reply) -> u32) -> Result<Reply, Refused> {
        let mut told = self.ask_often(&call);
        for room in [Command::Minor, Command::FullMajor] {
            if !matches!(told, Err(Refused::NotNow | Refused::NoEphemeron)) {
                break;
            }
            self.perform(room)?;
            told = self.ask_often(&call);
        }
        told
    }

    // Asks it a few times, each time behind as many turns as there is something to do for.
    fn ask_often(&mut self, call: &impl Fn(*mut sys::Domain, *mut sys::Reply) -> u32) -> Result<Reply, Refused> {
        const TIMES: u32 = 8;
        let mut reply = sys::Reply::default();
        for _ in 0..TIMES {
            match call(&mut self.raw, &mut reply) {
                sys::AGAIN => self.settle(),
                told => return answered(told, &reply),
            }
        }
        Err(Refused::NotNow)
    }

    // Turns until nothing is left to do.
    fn settle(&mut self) {
        loop {
            match unsafe { sys::camlheap_turn(&mut self.raw) } {
                sys::AGAIN => (),
                sys::WAITING => self.wait(),
                _ => return self.hear(),
            }
        }
    }

    /// What the domain counts.
    pub fn stats(&mut self) -> Stats {
        let mut stats = Stats::default();
        unsafe { sys::camlheap_stats(&mut self.raw, &mut stats) };
        stats
    }

    /// What leads to a block from registers 0 to 13, through fields. It looks into at most `most` blocks, by loads into registers 14
    /// and 15. It is exact where no other seat makes a command meanwhile.
    pub fn why(&mut self, block: Label, most: u32) -> Result<Why, Refused> {
        let mut fields = vec![0; 64];
        loop {
            let mut way = sys::Way::default();
            let told = unsafe {
                sys::camlheap_why(&mut self.raw, block.domain, block.serial, most, &mut way, fields.as_mut_ptr(), fields.len())
            };
            match (told, way.kind) {
                (sys::DONE, 0) if way.fields > fields.len() => fields.resize(way.fields, 0),
                (sys::DONE, 0) => {
                    fields.truncate(way.fields);
                    return Ok(Why::Way { register: way.register as Register, fields });
                }
                (sys::DONE, kind) => return Ok(if kind == 1 { Why::Nothing } else { Why::NoField }),
                _ => return Err(Refused::of(told)),
            }
        }
    }

    /// One turn, for a thread that has no command now: takes part in the pause that goes on, if there is one. Answers
    /// whether the traces of all seats have ended.
    pub fn turn(&mut self) -> bool {
        let told = unsafe { sys::camlheap_turn(&mut self.raw) };
        self.hear();
        if told == sys::WAITING {
            self.wait();
        }
        told == sys::ENDED
    }

    // Turns a domain that rests, or lets another thread run.
    fn wait(&mut self) {
        if unsafe { sys::camlheap_attend(&mut self.bed) } != sys::AGAIN {
            thread::yield_now();
        }
    }

    /// Puts the seat to rest, until it is [resumed](Resting::resume).
    pub fn rest(mut self) -> Resting {
        while unsafe { sys::camlheap_rest(&mut self.raw, &mut self.bed) } == sys::AGAIN {
            thread::yield_now();
        }
        Resting(self)
    }

    /// No command comes any more. Waits until the other seats are finished too, and frees the domain. Finalisers that wait are called
    /// first; what no collection has found is never called.
    pub fn finish(mut self) -> Result<(), Refused> {
        let told = unsafe { sys::camlheap_close(&mut self.raw) };
        if told != sys::DONE {
            return Err(Refused::of(told));
        }
        while !self.turn() {}
        unsafe { sys::camlheap_free(&mut self.raw) };
        Ok(())
    }
}

/// A weak map, which keeps neither its keys nor, for a key that nothing else leads to, what the key is bound to. It is a block:
/// seats share one through a field, and use it by these calls alone. Keys and data are in registers below 8. Keep nothing in
/// registers 8 to 15 meanwhile: `get` and `remove` use 8 to 11, and `insert`, `sweep`, `clean` and `count` may empty 8 to 15. A call
/// waits for the other seats in a pause, and may collect where it lacks room. [`Refused::NotNow`] where others have won each time.
pub struct WeakMap<'a> {
    seat: &'a mut Seat,
    register: Register,
}

impl WeakMap<'_> {
    /// What the key in a register is bound to, into another: [`Reply::Int`] or [`Reply::Block`]. [`Reply::Empty`] where it isn't
    /// bound, and then `dst` holds nothing; and [`Reply::BadType`] where `key` holds no block.
    pub fn get(&mut self, dst: Register, key: Register) -> Result<Reply, Refused> {
        let map = self.register;
        self.seat.ask(|domain, reply| unsafe { sys::camlheap_map_get(domain, dst, map, key, reply) })
    }

    /// Binds the key in a register to what another holds: [`Reply::Done`], or [`Reply::BadType`] where the first holds no block or the
    /// other nothing. Where room is short it sweeps and collects first; then [`Refused::NoEphemeron`] where more keys live than there
    /// is room for (one that is bound anew takes a place too), and [`Reply::Full`] or [`Refused::NotNow`] where there is none for a
    /// block. No binding has changed then.
    pub fn insert(&mut self, key: Register, item: Register) -> Result<Reply, Refused> {
        let map = self.register;
        self.walk(|domain, bed, reply| unsafe { sys::camlheap_wrapped_map_bind(domain, bed, map, key, item, reply) })
    }

    /// Takes out what is left of keys that are dead, and answers how much: [`Reply::Int`], or [`Reply::BadType`] where the register
    /// holds no map. [`insert`](WeakMap::insert) does so by itself where room is short. Registers 8 to 15 are used between.
    pub fn sweep(&mut self) -> Result<Reply, Refused> {
        let map = self.register;
        self.walk(|domain, bed, reply| unsafe { sys::camlheap_wrapped_map_sweep(domain, bed, map, reply) })
    }

    /// The same of a map that no other seat uses meanwhile: blocks of it that hold nothing go too. [`Reply::Yes`] where the map holds
    /// nothing then, or [`Reply::No`].
    pub fn clean(&mut self) -> Result<Reply, Refused> {
        let map = self.register;
        self.walk(|domain, bed, reply| unsafe { sys::camlheap_wrapped_map_clean(domain, bed, map, reply) })
    }

    /// How many keys are bound: [`Reply::Int`], or [`Reply::BadType`] where the register holds no map. A key that is dead counts until
    /// a collection has found that.
    pub fn count(&mut self) -> Result<Reply, Refused> {
        let map = self.register;
        self.walk(|domain, bed, reply| unsafe { sys::camlheap_wrapped_map_count(domain, bed, map, reply) })
    }

    // A call that makes commands until it is done.
    fn walk(&mut self, call: impl FnOnce(*mut sys::Domain, *mut sys::Bed, *mut sys::Reply) -> u32) -> Result<Reply, Refused> {
        let mut reply = sys::Reply::default();
        let told = call(&mut self.seat.raw, &mut self.seat.bed, &mut reply);
        self.seat.hear();
        answered(told, &reply)
    }

    /// Takes out what the key in a register is bound to: [`Reply::Done`]. [`Reply::Empty`] where it isn't bound, and
    /// [`Reply::BadType`] where the register holds no block.
    pub fn remove(&mut self, key: Register) -> Result<Reply, Refused> {
        let map = self.register;
        self.seat.ask(|domain, reply| unsafe { sys::camlheap_map_take(domain, map, key, reply) })
    }
}

impl Drop for Seat {
    fn drop(&mut self) {
        unsafe {
            // One that rests is taken back first; one that was finished holds nothing to leave.
            while sys::camlheap_resume(&mut self.raw, &mut self.bed) == sys::AGAIN
                || sys::camlheap_leave(&mut self.raw, &mut self.bed) == sys::AGAIN
            {
                thread::yield_now();
            }
            sys::camlheap_free(&mut self.raw);
            while sys::camlheap_free_bed(&mut self.bed) == sys::AGAIN {
                thread::yield_now();
            }
        }
    }
}
