//! A search for a legal history that prints an output.

use crate::model::{State, Value};
use crate::script::Command;
use std::collections::HashSet;

/// A command, or one of those by which sections begin each other, wait and pass values.
#[derive(Clone, Copy)]
#[allow(dead_code)]
#[rustfmt::skip]
pub enum Step {
    Make(Command),
    Spawn { section: usize, item: u8 },
    Argument { dst: u8 },
    PutResult { item: u8 },
    Join { dst: u8, section: usize },
    /// A section that is spawned waits for it, and tells its end. Neither prints anything.
    Begin,
    Finish,
}

pub struct Question {
    pub opening: State,
    pub sections: Vec<Vec<Step>>,
    /// The lines of each domain, without its heading.
    pub lines: Vec<Vec<String>>,
}

#[derive(PartialEq, Eq)]
pub enum Verdict {
    Legal,
    NoneFound,
    GaveUp,
}

impl Question {
    /// Whether these commands may print these lines.
    pub fn of_commands(sections: Vec<Vec<Command>>, lines: Vec<Vec<String>>) -> Question {
        Question {
            opening: State::opening(sections.len()),
            sections: sections
                .into_iter()
                .map(|commands| commands.into_iter().map(Step::Make).collect())
                .collect(),
            lines,
        }
    }

    fn next(&self, state: &State, domain: usize) -> (Option<Step>, Option<&str>) {
        let at = &state.domains[domain];
        (
            self.sections[domain].get(at.commands).copied(),
            self.lines[domain].get(at.lines).map(String::as_str),
        )
    }

    fn is_answered(&self, state: &State) -> bool {
        state.domains.iter().all(|domain| domain.ended)
    }

    /// The state behind a domain's next entries, where they are of a step that prints nothing and may be made.
    fn silent_step(&self, state: &State, domain: usize, step: Step) -> Option<State> {
        let may = match step {
            Step::Begin => state.flag_is(domain, domain, 1),
            Step::Finish => true,
            _ => false,
        };
        (may && state.domains[domain].queue.is_empty()).then(|| {
            let mut next = state.clone();
            if matches!(step, Step::Finish) {
                next.tell_end(domain);
            }
            next.domains[domain].commands += 1;
            next.domains[domain].due = 0;
            next
        })
    }

    /// The state behind a domain's next entry, where it prints the domain's next line.
    fn step(&self, state: &State, domain: usize) -> Option<State> {
        let at = &state.domains[domain];
        let (step, line) = self.next(state, domain);
        if let Some(step @ (Step::Begin | Step::Finish)) = step
            && at.queue.is_empty()
        {
            return self.silent_step(state, domain, step);
        }
        let mut next = state.clone();
        let Some(line) = line else {
            let may_end = !at.ended && at.queue.is_empty() && step.is_none();
            return may_end.then(|| {
                next.end(domain);
                next
            });
        };
        let is_full_major =
            matches!(step, Some(Step::Make(Command::FullMajor))) && line.starts_with("live ");
        let printed = if is_full_major && at.due == 0 {
            next.collect();
            next.domains[domain].commands += 1;
            next.domains[domain].due = next.domains[domain].queue.len();
            next.live()
        } else if !at.queue.is_empty() {
            next.run_finaliser(domain)?
        } else {
            next.domains[domain].commands += 1;
            next.domains[domain].due = 0;
            made(&mut next, domain, step?)?
        };
        next.domains[domain].lines += 1;
        (printed == line).then_some(next)
    }

    /// Whether nobody else sees a domain's next entry: it may be made at once, whatever the others do.
    fn is_own(&self, state: &State, domain: usize) -> bool {
        let at = &state.domains[domain];
        let holds_block = |register: u8| matches!(at.registers[register as usize], Value::Block(_));
        let (step, line) = self.next(state, domain);
        at.queue.is_empty()
            && match step {
                Some(Step::Make(Command::Poll | Command::Minor | Command::Major)) => {
                    line == Some("ok")
                }
                Some(Step::Make(
                    Command::Int { dst, .. } | Command::Move { dst, .. } | Command::Drop { dst },
                )) => !holds_block(dst),
                Some(Step::Make(_)) => line == Some("type") || line == Some("bounds"),
                _ => false,
            }
    }

    /// The states that may come next, the likeliest last. None where there are too many.
    fn followers(&self, state: &State) -> Option<Vec<State>> {
        let domains = 0..state.domains.len();
        for domain in domains.clone().filter(|domain| self.is_own(state, *domain)) {
            if let Some(next) = self.step(state, domain) {
                return Some(vec![next]);
            }
        }
        let mut followers = state.collections()?;
        followers.retain(|next| next.domains != state.domains || next.graph != state.graph);
        followers.reverse();
        followers.extend(domains.rev().filter_map(|domain| self.step(state, domain)));
        Some(followers)
    }

    /// Looks through no more than so many states.
    pub fn verdict(&self, limit: usize) -> Verdict {
        let mut stack = vec![self.opening.clone()];
        let mut seen = HashSet::new();
        let mut cut_short = false;
        while let Some(state) = stack.pop() {
            if self.is_answered(&state) {
                return Verdict::Legal;
            }
            if seen.len() == limit {
                return Verdict::GaveUp;
            }
            match self.followers(&state) {
                Some(followers) => {
                    stack.extend(followers.into_iter().filter(|next| !seen.contains(next)))
                }
                None => cut_short = true,
            }
            seen.insert(state);
        }
        if cut_short {
            Verdict::GaveUp
        } else {
            Verdict::NoneFound
        }
    }
}

/// What a step that isn't silent prints, where it may be made and is no `full_major`.
fn made(state: &mut State, domain: usize, step: Step) -> Option<String> {
    match step {
        Step::Make(Command::FullMajor) | Step::Begin | Step::Finish => None,
        Step::Make(command) => Some(state.make(domain, command)),
        Step::Spawn { section, item } => Some(state.spawn(domain, section, item)),
        Step::Argument { dst } => Some(state.take_argument(domain, dst)),
        Step::PutResult { item } => Some(state.put_result(domain, item)),
        Step::Join { dst, section } => {
            (state.flag_is(domain, section, 2)).then(|| state.take_result(domain, dst, section))
        }
    }
}
