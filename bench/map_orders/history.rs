//! Histories of calls on a map, as `bench/map_threads` prints them.

use std::collections::{HashMap, HashSet};

/// A call that is over, with its answer.
#[derive(Clone, Copy, PartialEq, Eq, Debug)]
pub enum Kind {
    /// A put of a value that no other has.
    Put { value: u64 },
    /// A put that was refused, and so changed nothing.
    Refused,
    /// A lookup, and what it found.
    Get { found: Option<u64> },
    /// A take, and whether the key was bound.
    Take { was_bound: bool },
}

/// A call of a domain on a key, and the stamps before and after it. Its point, at which it happens, lies between these.
#[derive(Clone, Copy, PartialEq, Eq, Debug)]
pub struct Call {
    pub domain: usize,
    pub key: usize,
    pub kind: Kind,
    pub before: u64,
    pub after: u64,
}

impl Call {
    /// What the key is bound to behind this call, where it was bound so before and that allows the call's answer. Of a key that isn't kept
    /// a collection may have taken the binding before the call.
    pub fn applied(&self, bound: Option<u64>, is_kept: bool) -> Option<Option<u64>> {
        match self.kind {
            Kind::Put { value } => Some(Some(value)),
            Kind::Refused => Some(bound),
            Kind::Get { found: Some(value) } => (bound == Some(value)).then_some(bound),
            Kind::Take { was_bound: true } => bound.map(|_| None),
            Kind::Get { found: None } | Kind::Take { was_bound: false } => (bound.is_none() || !is_kept).then_some(None),
        }
    }

    /// Whether it answers that the key isn't bound.
    pub fn finds_none(&self) -> bool {
        matches!(self.kind, Kind::Get { found: None } | Kind::Take { was_bound: false })
    }
}

/// The calls of all domains, each domain's in its order.
#[derive(Clone)]
pub struct History {
    pub calls: Vec<Call>,
    pub domains: usize,
    /// Of each key whether it is reached all the while.
    pub kept: Vec<bool>,
}

/// Why an output tells no history.
pub type Fault = String;

/// The key's number, which is the next where it wasn't met before.
fn number_of(keys: &mut HashMap<String, usize>, word: &str) -> usize {
    let next = keys.len();
    *keys.entry(word.to_owned()).or_insert(next)
}

/// The kind of a call, and how many words behind the key say it.
fn kind_of(words: &[&str]) -> Option<(Kind, usize)> {
    let value = |word: &str| word.parse::<u64>().ok();
    match words {
        ["put", _, item, "ok", ..] => Some((Kind::Put { value: value(item)? }, 4)),
        ["put", _, _, "full", ..] => Some((Kind::Refused, 4)),
        ["get", _, "none", ..] => Some((Kind::Get { found: None }, 3)),
        ["get", _, item, ..] => Some((Kind::Get { found: Some(value(item)?) }, 3)),
        ["take", _, "ok", ..] => Some((Kind::Take { was_bound: true }, 3)),
        ["take", _, "none", ..] => Some((Kind::Take { was_bound: false }, 3)),
        _ => None,
    }
}

fn call_of(line: &str, domain: usize, keys: &mut HashMap<String, usize>) -> Option<Call> {
    let words: Vec<&str> = line.split(' ').collect();
    let (kind, told) = kind_of(&words)?;
    let [before, after] = words.get(told..)? else {
        return None;
    };
    let key = number_of(keys, words[1]);
    let (before, after) = (before.parse().ok()?, after.parse().ok()?);
    Some(Call { domain, key, kind, before, after })
}

impl History {
    /// Reads an output. Its last section looks the keys up that are kept, and is one more domain's.
    pub fn read(text: &str) -> Result<History, Fault> {
        let (mut calls, mut keys, mut sections, mut last) = (Vec::new(), HashMap::new(), 0usize, HashSet::new());
        let mut is_last = false;
        let mut lines = text.lines();
        let head = lines.next().ok_or("it is empty")?;
        for line in lines {
            if line == format!("domain {sections}") && !is_last {
                sections += 1;
            } else if line == "last" && !is_last {
                is_last = true;
            } else {
                let domain = if is_last { sections } else { sections.checked_sub(1).ok_or("a call before any domain")? };
                let call = call_of(line, domain, &mut keys).ok_or_else(|| format!("no call: {line}"))?;
                if is_last {
                    last.insert(call.key);
                }
                calls.push(call);
            }
        }
        if !is_last || !head.starts_with(&format!("domains {sections} ")) {
            return Err("a section is missing".to_owned());
        }
        let kept = (0..keys.len()).map(|key| last.contains(&key)).collect();
        Ok(History { calls, domains: sections + 1, kept })
    }

    /// Why the stamps aren't those of calls that each domain makes one after another, if they aren't. Each stamp is given once, and where
    /// no line is missing each number below the count of stamps is one.
    pub fn stamp_fault(&self, has_gaps: bool) -> Option<Fault> {
        let mut stamps: Vec<u64> = self.calls.iter().flat_map(|call| [call.before, call.after]).collect();
        stamps.sort_unstable();
        if stamps.windows(2).any(|pair| pair[0] == pair[1]) {
            return Some("a stamp is given twice".to_owned());
        }
        if !has_gaps && stamps.last().is_some_and(|last| last + 1 != stamps.len() as u64) {
            return Some("a stamp is missing".to_owned());
        }
        let mut ends = vec![None; self.domains];
        for call in &self.calls {
            if call.after < call.before || ends[call.domain].is_some_and(|end| call.before < end) {
                return Some(format!("{call:?} isn't behind the call before it"));
            }
            ends[call.domain] = Some(call.after);
        }
        None
    }

    /// Why a put's value isn't its own, if one isn't.
    pub fn value_fault(&self) -> Option<Fault> {
        let mut values = HashSet::new();
        let twice = self.calls.iter().find(|call| matches!(call.kind, Kind::Put { value } if !values.insert(value)))?;
        Some(format!("{twice:?} puts a value that was put before"))
    }

    /// The numbers of the calls on each key, by their first stamps.
    pub fn by_keys(&self) -> Vec<Vec<usize>> {
        let mut by_keys = vec![Vec::new(); self.kept.len()];
        for (number, call) in self.calls.iter().enumerate() {
            by_keys[call.key].push(number);
        }
        for calls in &mut by_keys {
            calls.sort_unstable_by_key(|&number| self.calls[number].before);
        }
        by_keys
    }
}
