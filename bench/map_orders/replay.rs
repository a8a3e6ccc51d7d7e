//! Plays an order of calls again on a plain map. What is called legal was played so, whatever found the order.

use crate::history::{Fault, History};
use std::collections::HashMap;

/// Plays the calls in this order. Answers how many bindings of keys that aren't kept a collection must have taken, or why the order isn't one
/// of all calls that keeps each domain's own, has each point between its call's stamps, and gives the answers.
pub fn replay(history: &History, order: &[usize]) -> Result<usize, Fault> {
    let mut map: HashMap<usize, u64> = HashMap::new();
    let mut nexts: Vec<std::vec::IntoIter<usize>> = by_domains(history).into_iter().map(Vec::into_iter).collect();
    let (mut begun, mut lost) = (0, 0);
    for &number in order {
        let call = history.calls.get(number).ok_or("no such call")?;
        if nexts[call.domain].next() != Some(number) {
            return Err(format!("{call:?} isn't the next of its domain"));
        }
        // A call that begins behind the end of this one can't have been before it.
        begun = call.before.max(begun);
        if call.after < begun {
            return Err(format!("{call:?} was over before"));
        }
        let was = map.get(&call.key).copied();
        let bound = call.applied(was, history.kept[call.key]).ok_or_else(|| format!("{call:?} while it was bound to {was:?}"))?;
        lost += usize::from(was.is_some() && call.finds_none());
        match bound {
            Some(value) => map.insert(call.key, value),
            None => map.remove(&call.key),
        };
    }
    match nexts.iter_mut().any(|left| left.next().is_some()) {
        true => Err("a call is missing".to_owned()),
        false => Ok(lost),
    }
}

fn by_domains(history: &History) -> Vec<Vec<usize>> {
    let mut by_domains = vec![Vec::new(); history.domains];
    for (number, call) in history.calls.iter().enumerate() {
        by_domains[call.domain].push(number);
    }
    by_domains
}
