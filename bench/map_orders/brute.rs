//! Tries all orders of few calls, all keys together: a second decider, which shares nothing with the search but what a call does.

use crate::history::History;

/// How far an order has come: of each domain how many calls are in it, and what each key is bound to.
struct Tried<'a> {
    history: &'a History,
    by_domains: Vec<Vec<usize>>,
    done: Vec<usize>,
    bound: Vec<Option<u64>>,
    loses_none: bool,
}

impl Tried<'_> {
    fn next(&self, domain: usize) -> Option<usize> {
        self.by_domains[domain].get(self.done[domain]).copied()
    }

    /// Whether no call that is left was over before this one began.
    fn may_come(&self, number: usize) -> bool {
        let before = self.history.calls[number].before;
        (0..self.history.domains).filter_map(|domain| self.next(domain)).all(|left| before < self.history.calls[left].after)
    }

    fn goes_on(&mut self) -> bool {
        let nexts: Vec<usize> = (0..self.history.domains).filter_map(|domain| self.next(domain)).collect();
        nexts.is_empty() || nexts.into_iter().any(|number| self.may_come(number) && self.goes_on_with(number))
    }

    fn goes_on_with(&mut self, number: usize) -> bool {
        let call = self.history.calls[number];
        let was = self.bound[call.key];
        let Some(bound) = call.applied(was, self.loses_none || self.history.kept[call.key]) else {
            return false;
        };
        self.done[call.domain] += 1;
        self.bound[call.key] = bound;
        let ends = self.goes_on();
        self.done[call.domain] -= 1;
        self.bound[call.key] = was;
        ends
    }
}

/// Whether there is an order of all calls.
pub fn has_order(history: &History, loses_none: bool) -> bool {
    let mut by_domains = vec![Vec::new(); history.domains];
    for (number, call) in history.calls.iter().enumerate() {
        by_domains[call.domain].push(number);
    }
    let done = vec![0; history.domains];
    let bound = vec![None; history.kept.len()];
    Tried { history, by_domains, done, bound, loses_none }.goes_on()
}
