//! What is reachable, and the collections of a collector that marks and then takes what is unmarked. All of them are legal. One that
//! marks more than it must leaves some of what it could take.

use crate::model::{Label, Node, Registration, State, Value};
use std::collections::BTreeSet;

/// No more than these are chosen from to be marked besides.
const MOST_CHOICES: usize = 7;

type Marked = BTreeSet<Label>;

impl State {
    /// The registers, and the values of the finalisers that wait to run.
    fn roots(&self) -> Marked {
        let held = self
            .domains
            .iter()
            .flat_map(|domain| domain.registers)
            .filter_map(block_of);
        let queued = self
            .domains
            .iter()
            .flat_map(|domain| &domain.queue)
            .filter(|entry| entry.register.is_some());
        held.chain(queued.map(|entry| entry.value)).collect()
    }

    /// The least set that has these and what each block of it keeps alive: an ephemeron its data, where all its full keys are alive.
    fn closed(&self, mut marked: Marked) -> Marked {
        let mut rest: Vec<Label> = marked.iter().copied().collect();
        loop {
            while let Some(label) = rest.pop() {
                if let Some(Node::Fields { held, .. }) = self.graph.get(&label) {
                    rest.extend(
                        held.values()
                            .copied()
                            .filter_map(block_of)
                            .filter(|next| marked.insert(*next)),
                    );
                }
            }
            for node in marked.iter().filter_map(|label| self.graph.get(label)) {
                if let Node::Ephemeron {
                    keys,
                    data: Value::Block(data),
                } = node
                    && !marked.contains(data)
                    && keys.iter().flatten().all(|key| marked.contains(key))
                {
                    rest.push(*data);
                }
            }
            if rest.is_empty() {
                return marked;
            }
            marked.extend(&rest);
        }
    }

    fn reach(&self) -> Marked {
        self.closed(self.roots())
    }

    /// The reply of `full_major`.
    pub fn live(&self) -> String {
        let reach = self.reach();
        let words: u64 = reach.iter().map(|label| self.graph[label].words()).sum();
        format!("live {} {words}", reach.len())
    }

    /// A collection that marks what is reachable and these. It queues the finalisers of what is unmarked, marks them, empties the keys
    /// that are unmarked then with the data beside them, and queues the last finalisers of what is unmarked.
    fn collect_but(&mut self, besides: &[Label]) {
        let marked = self.closed(
            self.roots()
                .into_iter()
                .chain(besides.iter().copied())
                .collect(),
        );
        for domain in &mut self.domains {
            let queued = newest_first(&mut domain.finals, &marked);
            domain.queue.extend(queued);
        }
        let marked = self.closed(marked.into_iter().chain(self.roots()).collect());
        for label in &marked {
            if let Some(Node::Ephemeron { keys, data }) = self.graph.get_mut(label) {
                for key in keys
                    .iter_mut()
                    .filter(|key| key.is_some_and(|key| !marked.contains(&key)))
                {
                    *key = None;
                    *data = Value::Nothing;
                }
            }
        }
        for domain in &mut self.domains {
            let queued = newest_first(&mut domain.lasts, &marked);
            domain.queue.extend(queued);
        }
        self.graph.retain(|label, _| marked.contains(label));
    }

    pub fn collect(&mut self) {
        self.collect_but(&[]);
    }

    /// What each collection leaves that takes something, the one that takes most first. None where there are too many.
    pub fn collections(&self) -> Option<Vec<State>> {
        let reach = self.reach();
        let keys = self.graph.values().flat_map(|node| match node {
            Node::Ephemeron { keys, .. } => keys.as_slice(),
            Node::Fields { .. } => &[],
        });
        let ephemerons = self
            .graph
            .iter()
            .filter(|(_, node)| matches!(node, Node::Ephemeron { .. }))
            .map(|(label, _)| *label);
        let registered = self
            .domains
            .iter()
            .flat_map(|domain| domain.finals.iter().chain(&domain.lasts))
            .map(|entry| entry.value);
        let choices: Marked = keys
            .flatten()
            .copied()
            .chain(ephemerons)
            .chain(registered)
            .filter(|label| !reach.contains(label))
            .collect();
        let choices: Vec<Label> = choices.into_iter().collect();
        if choices.len() > MOST_CHOICES {
            return None;
        }
        Some(
            (0..1usize << choices.len())
                .map(|chosen| {
                    let besides: Vec<Label> = (0..choices.len())
                        .filter(|at| chosen >> at & 1 == 1)
                        .map(|at| choices[at])
                        .collect();
                    let mut next = self.clone();
                    next.collect_but(&besides);
                    next
                })
                .collect(),
        )
    }
}

fn block_of(value: Value) -> Option<Label> {
    match value {
        Value::Block(label) => Some(label),
        _ => None,
    }
}

/// Takes the registrations of what is unmarked off a list.
fn newest_first(list: &mut Vec<Registration>, marked: &Marked) -> Vec<Registration> {
    let (stay, mut go): (Vec<_>, Vec<_>) = list
        .iter()
        .copied()
        .partition(|entry| marked.contains(&entry.value));
    *list = stay;
    go.reverse();
    go
}
