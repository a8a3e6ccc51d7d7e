//! Small random histories: of a map that is right, and of maps that are wrong in one way.

use crate::history::{Call, History, Kind};
use crate::random::Dice;

/// How a map is wrong.
#[derive(Clone, Copy, PartialEq, Eq, Debug)]
pub enum Wrong {
    /// It isn't.
    Nothing,
    /// A put that is done puts nothing.
    LostPut,
    /// A lookup of a key that is bound answers that it isn't.
    MissedKey,
    /// A put overwrites what another put since.
    LatePut,
    /// A take that is done takes what was put anew, too.
    LateTake,
    /// A lookup answers what the key was bound to before that was changed last.
    OldValue,
    /// A binding goes, though the key may be kept.
    LostBinding,
}

pub const ALL: [Wrong; 7] =
    [Wrong::Nothing, Wrong::LostPut, Wrong::MissedKey, Wrong::LatePut, Wrong::LateTake, Wrong::OldValue, Wrong::LostBinding];

/// Where a domain is in its call.
#[derive(Clone, Copy)]
enum Phase {
    Idle,
    /// Begun with this stamp.
    Begun(u64),
    /// Had its point.
    Passed(u64),
}

struct Domain {
    phase: Phase,
    call: Call,
    left: usize,
}

/// A map on which domains make calls, of which each goes on for a while.
struct Table {
    wrong: Wrong,
    /// What each key is bound to, and what it was before that was changed last.
    bound: Vec<Option<u64>>,
    past: Vec<Option<u64>>,
    domains: Vec<Domain>,
    stamp: u64,
    value: u64,
    calls: Vec<Call>,
}

impl Table {
    fn draw(&mut self, dice: &mut Dice, domain: usize) -> Call {
        let kind = match dice.below(3) {
            0 => {
                self.value += 1;
                Kind::Put { value: self.value }
            }
            1 => Kind::Get { found: None },
            _ => Kind::Take { was_bound: false },
        };
        Call { domain, key: dice.below(self.bound.len()), kind, before: 0, after: 0 }
    }

    fn bind(&mut self, key: usize, value: Option<u64>) {
        self.past[key] = std::mem::replace(&mut self.bound[key], value);
    }

    /// The call happens. Answers it with its answer.
    fn happens(&mut self, call: Call, is_wrong: bool) -> Kind {
        let bound = self.bound[call.key];
        match (call.kind, self.wrong) {
            (Kind::Put { .. }, Wrong::LostPut) if is_wrong => call.kind,
            (Kind::Get { .. }, Wrong::MissedKey) if is_wrong => Kind::Get { found: None },
            (Kind::Get { .. }, Wrong::OldValue) if is_wrong => Kind::Get { found: self.past[call.key] },
            (Kind::Put { value }, _) => {
                self.bind(call.key, Some(value));
                call.kind
            }
            (Kind::Get { .. }, _) => Kind::Get { found: bound },
            (Kind::Take { .. }, _) => {
                self.bind(call.key, None);
                Kind::Take { was_bound: bound.is_some() }
            }
            (Kind::Refused, _) => call.kind,
        }
    }

    /// What a wrong call does as it ends.
    fn happens_late(&mut self, call: Call) {
        match (call.kind, self.wrong) {
            (Kind::Put { value }, Wrong::LatePut) => self.bind(call.key, Some(value)),
            (Kind::Take { was_bound: true }, Wrong::LateTake) => self.bind(call.key, None),
            (Kind::Put { .. }, Wrong::LostBinding) => self.bind(call.key, None),
            _ => {}
        }
    }

    /// A domain begins a call, or has its point, or ends it.
    fn step(&mut self, dice: &mut Dice, number: usize) {
        match self.domains[number].phase {
            Phase::Idle if self.domains[number].left == 0 => return,
            Phase::Idle => {
                let call = self.draw(dice, number);
                self.domains[number].call = call;
                self.domains[number].left -= 1;
                self.domains[number].phase = Phase::Begun(self.stamp);
            }
            Phase::Begun(before) => {
                let is_wrong = dice.below(3) == 0;
                self.domains[number].call.kind = self.happens(self.domains[number].call, is_wrong);
                self.domains[number].phase = Phase::Passed(before);
                return;
            }
            Phase::Passed(before) => {
                let call = self.domains[number].call;
                self.happens_late(call);
                self.calls.push(Call { before, after: self.stamp, ..call });
                self.domains[number].phase = Phase::Idle;
            }
        }
        self.stamp += 1;
    }

    fn is_over(&self) -> bool {
        self.domains.iter().all(|domain| domain.left == 0 && matches!(domain.phase, Phase::Idle))
    }
}

/// A history of two to four domains with a few calls each, on one or two keys, of which the last isn't kept at times.
pub fn sample(dice: &mut Dice, wrong: Wrong) -> History {
    let (count, keys) = (2 + dice.below(3), 1 + dice.below(4) / 3);
    let call = Call { domain: 0, key: 0, kind: Kind::Refused, before: 0, after: 0 };
    let left = [5, 4, 3][count - 2];
    let domains = (0..count).map(|_| Domain { phase: Phase::Idle, call, left }).collect();
    let (bound, past) = (vec![None; keys], vec![None; keys]);
    let mut table = Table { wrong, bound, past, domains, stamp: 0, value: 0, calls: Vec::new() };
    while !table.is_over() {
        let number = dice.below(count);
        table.step(dice, number);
    }
    let mut kept = vec![true; keys];
    kept[keys - 1] = dice.below(4) > 0;
    History { domains: count, calls: table.calls, kept }
}
