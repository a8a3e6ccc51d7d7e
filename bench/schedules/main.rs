//! Replays random scripts under random schedules, three times each, and compares each output with those of two plain simulations of the
//! scheduled history: one on the proved slow heap, by the program `slow_schedules`, which also says whether an entry isn't legal, and one
//! over the object graph of bench/judge, which isn't proved. `bench/schedules.sh` builds and runs it.

#[allow(dead_code)]
#[path = "../judge/collector.rs"]
mod collector;
#[path = "../judge/model.rs"]
mod model;
#[allow(dead_code)]
#[path = "../judge/random.rs"]
mod random;
#[allow(dead_code)]
#[path = "../twin/script.rs"]
mod script;

use model::State;
use random::Dice;
use std::fmt::Write as _;
use std::io::Write as _;
use std::process::{Command, ExitCode, Stdio};
use std::time::{Duration, Instant};

const RUNS: usize = 3;

/// What a schedule is made of.
#[derive(Clone, Copy)]
enum Item {
    Turn(usize),
    Collect,
}

/// Of each twelve items one is a collection.
fn items(dice: &mut Dice, domains: usize) -> Vec<Item> {
    let count = dice.below(60 * domains);
    (0..count)
        .map(|_| match dice.below(12) {
            0 => Item::Collect,
            _ => Item::Turn(dice.below(domains)),
        })
        .collect()
}

fn schedule_of(items: &[Item]) -> String {
    let mut text = String::from("schedule 1\n");
    for item in items {
        match item {
            Item::Turn(domain) => writeln!(text, "turn {domain}").expect("a string"),
            Item::Collect => text.push_str("collect\n"),
        }
    }
    text + "end\n"
}

/// A script with no `major`, which no schedule decides.
fn without_major(text: &str) -> String {
    text.lines()
        .flat_map(|line| [if line == "major" { "minor" } else { line }, "\n"])
        .collect()
}

/// The run of a script under a schedule, as the definition has it.
struct Simulation {
    sections: Vec<Vec<script::Command>>,
    state: State,
    lines: Vec<String>,
}

impl Simulation {
    fn begin(sections: Vec<Vec<script::Command>>) -> Simulation {
        Simulation {
            state: State::opening(sections.len()),
            lines: vec![String::new(); sections.len()],
            sections,
        }
    }

    fn print(&mut self, domain: usize, line: &str) {
        self.lines[domain].push_str(line);
        self.lines[domain].push('\n');
    }

    /// The finalisers of a domain's queue run, and then its next command is made, or its end.
    fn turn(&mut self, domain: usize) {
        if self.state.domains[domain].ended {
            return;
        }
        while let Some(line) = self.state.run_finaliser(domain) {
            self.print(domain, &line);
        }
        let made = self.state.domains[domain].commands;
        self.state.domains[domain].commands += 1;
        match self.sections[domain].get(made).copied() {
            Some(script::Command::FullMajor) => {
                self.state.collect();
                let line = self.state.live();
                self.print(domain, &line);
            }
            Some(command) => {
                let line = self.state.make(domain, command);
                self.print(domain, &line);
            }
            None => self.state.end(domain),
        }
    }

    fn take(&mut self, item: Item) {
        match item {
            Item::Turn(domain) => self.turn(domain),
            Item::Collect if self.has_ended() => {}
            Item::Collect => self.state.collect(),
        }
    }

    fn has_ended(&self) -> bool {
        self.state.domains.iter().all(|domain| domain.ended)
    }

    /// The items, and then turns of all in rotation until all have ended. Answers what is printed.
    fn output(mut self, items: &[Item]) -> String {
        for item in items {
            self.take(*item);
        }
        while !self.has_ended() {
            (0..self.sections.len()).for_each(|domain| self.turn(domain));
        }
        let sections = self.lines.iter().enumerate();
        sections
            .map(|(domain, lines)| format!("domain {domain}\n{lines}"))
            .collect()
    }
}

/// What a program prints for an input behind these words, and its status.
fn printed(program: &str, words: &[&str], input: &str) -> std::io::Result<(String, Option<i32>)> {
    let mut run = Command::new(program)
        .args(words)
        .stdin(Stdio::piped())
        .stdout(Stdio::piped())
        .spawn()?;
    run.stdin
        .take()
        .expect("a pipe")
        .write_all(input.as_bytes())?;
    let done = run.wait_with_output()?;
    Ok((String::from_utf8_lossy(&done.stdout).into_owned(), done.status.code()))
}

/// The programs: `camlheap`, and the one that plays a schedule on the slow heap.
struct Programs {
    camlheap: String,
    slow: String,
}

/// What was found of one script and its schedule.
struct Found {
    /// Each run prints what the simulation on the slow heap does.
    as_slow: bool,
    /// Both simulations print the same.
    both: bool,
    /// How long the slow heap took.
    took: Duration,
}

/// Replays a random script under a random schedule.
fn replayed(programs: &Programs, seed: u64) -> Found {
    let mut dice = Dice::new(seed);
    let domains = 1 + seed as usize % random::WHOLE.lengths.len();
    let text = without_major(&random::script_for(&mut dice, &random::of_length(&[60; 8]), domains));
    let items = items(&mut dice, domains);
    let sections = script::read(text.as_bytes(), domains as u32).expect("a script without a fault");
    let over_graph = (Simulation::begin(sections).output(&items), Some(0));
    let input = schedule_of(&items) + &text;
    let (count, begun) = (domains.to_string(), Instant::now());
    let slow = printed(&programs.slow, &[&count], &input).expect("the slow heap's program runs");
    let took = begun.elapsed();
    let words = ["replay", "--domains", &count];
    let as_slow = slow.1 == Some(0)
        && (0..RUNS).all(|_| printed(&programs.camlheap, &words, &input).expect("the program runs") == slow);
    let both = slow == over_graph;
    if !as_slow || !both {
        println!("on the slow heap, with status {:?}:\n{}over the graph:\n{}", slow.1, slow.0, over_graph.0);
        println!("for {domains} domains and\n{input}");
    }
    Found { as_slow, both, took }
}

fn main() -> ExitCode {
    let words: Vec<String> = std::env::args().collect();
    let [_, camlheap, slow, count] = &words[..] else {
        eprintln!("usage: schedules CAMLHEAP SLOW_SCHEDULES COUNT");
        return ExitCode::from(1);
    };
    let programs = Programs {
        camlheap: camlheap.clone(),
        slow: slow.clone(),
    };
    let count: u64 = count.parse().expect("a number of scripts");
    let (mut wrong, mut apart, mut slowest) = (0, 0, Duration::ZERO);
    for seed in 1..=count {
        let found = replayed(&programs, seed);
        wrong += u64::from(!found.as_slow);
        apart += u64::from(!found.both);
        slowest = slowest.max(found.took);
    }
    println!("{count} scripts with a schedule each, replayed {RUNS} times: {wrong} with another output than the scheduled history's on the slow heap");
    println!("{apart} for which the simulation over the graph prints another one; the slow heap took {slowest:.1?} at most");
    ExitCode::from(u8::from(wrong + apart > 0))
}
