//! Looks for one order of all calls.
//!
//! A history has such an order exactly where the calls on each key have one, since calls on different keys don't meet and each call's point
//! lies between its stamps: points that do for each key do for all. So an order is looked for key by key, and the points of all keys, sorted,
//! are the order of all calls.
//!
//! The search of a key goes along its stamps. Kept are all states in which the calls so far may have left the key: what it is bound to, and
//! which of the calls that go on have had their point. Where a call ends those states are left in which it has had its point, after as many
//! points of other calls that go on as it takes. No more than one call of each domain goes on, so there are at most a few hundred states at
//! a time, and none is left out: where none is left there is no order. So the search is complete, and nothing has to be tried again.

use crate::history::{Call, Fault, History};
use std::collections::HashMap;

/// A state: of each domain whether its call that goes on has had its point, and what the key is bound to.
#[derive(Clone, Copy, PartialEq, Eq, Hash)]
struct State {
    passed: u16,
    bound: Option<u64>,
}

/// How a state came to be: by the point of this call behind another state.
struct Link {
    call: usize,
    behind: usize,
}

/// No state lies behind the first one.
const FIRST: usize = usize::MAX;

/// The search of one key.
struct Search<'a> {
    history: &'a History,
    is_kept: bool,
    links: Vec<Link>,
    /// The states, and by which link each came to be.
    states: HashMap<State, usize>,
    /// The call of each domain that goes on.
    going: Vec<Option<usize>>,
}

impl Search<'_> {
    fn call(&self, number: usize) -> &Call {
        &self.history.calls[number]
    }

    /// The states in which one call more of those that go on has had its point.
    fn nexts(&self, state: State) -> Vec<(State, usize)> {
        let open = self.going.iter().flatten().filter(|&&number| state.passed & (1 << self.call(number).domain) == 0);
        open.filter_map(|&number| {
            let call = self.call(number);
            let bound = call.applied(state.bound, self.is_kept)?;
            let passed = state.passed | 1 << call.domain;
            Some((State { passed, bound }, number))
        })
        .collect()
    }

    /// The call ends: leaves the states in which it has had its point.
    fn end(&mut self, number: usize) {
        let bit = 1 << self.call(number).domain;
        let (mut left, mut seen) = (HashMap::new(), std::mem::take(&mut self.states));
        let mut open: Vec<(State, usize)> = seen.iter().map(|(state, link)| (*state, *link)).collect();
        while let Some((state, link)) = open.pop() {
            if state.passed & bit != 0 {
                left.insert(State { passed: state.passed & !bit, ..state }, link);
                continue;
            }
            for (next, call) in self.nexts(state) {
                if !seen.contains_key(&next) {
                    self.links.push(Link { call, behind: link });
                    seen.insert(next, self.links.len() - 1);
                    open.push((next, self.links.len() - 1));
                }
            }
        }
        self.states = left;
        self.going[self.history.calls[number].domain] = None;
    }

    /// The calls in the order of their points, by which one of the states came to be.
    fn order(&self) -> Vec<usize> {
        let mut order = Vec::new();
        let mut at = self.states.values().next().copied().unwrap_or(FIRST);
        while at != FIRST {
            order.push(self.links[at].call);
            at = self.links[at].behind;
        }
        order.reverse();
        order
    }
}

/// An order of a key's calls. Where there is none, the call up to whose end there is none.
fn order_of_key(history: &History, calls: &[usize], is_kept: bool) -> Result<Vec<usize>, usize> {
    let mut stamps: Vec<(u64, usize, bool)> = Vec::with_capacity(2 * calls.len());
    for &number in calls {
        let call = &history.calls[number];
        stamps.extend([(call.before, number, false), (call.after, number, true)]);
    }
    stamps.sort_unstable();
    let first = State { passed: 0, bound: None };
    let states = HashMap::from([(first, FIRST)]);
    let mut search = Search { history, is_kept, links: Vec::new(), states, going: vec![None; history.domains] };
    for (_, number, ends) in stamps {
        if ends {
            search.end(number);
        } else {
            search.going[history.calls[number].domain] = Some(number);
        }
        if search.states.is_empty() {
            return Err(number);
        }
    }
    Ok(search.order())
}

/// Gives each call of a key its point: the stamp right behind which it happens.
fn put_points(history: &History, order: &[usize], points: &mut Vec<(u64, usize)>) {
    let mut point = 0;
    for &number in order {
        point = point.max(history.calls[number].before);
        points.push((point, number));
    }
}

/// An order of all calls, or why there is none. With `loses_none` no collection takes a binding that is looked up later.
pub fn order_of(history: &History, loses_none: bool) -> Result<Vec<usize>, Fault> {
    let mut points = Vec::with_capacity(history.calls.len());
    for (key, calls) in history.by_keys().iter().enumerate() {
        let is_kept = loses_none || history.kept[key];
        let order = order_of_key(history, calls, is_kept).map_err(|number| format!("no order up to {:?}", history.calls[number]))?;
        put_points(history, &order, &mut points);
    }
    // Calls on one key stay in their order where their points are one.
    points.sort_by_key(|&(point, _)| point);
    Ok(points.into_iter().map(|(_, number)| number).collect())
}
