//! Runs random texts of a table with a section for each domain, and looks for one order of all lines in which a plain map and plain slots
//! give the replies: each domain's lines in their order, and a key gone at any time at which no register holds it. `bench/sections.sh` builds
//! and runs it. What it says rests on this program alone, which isn't proved.

#[allow(dead_code)]
#[path = "../judge/random.rs"]
mod random;

use random::Dice;
use std::collections::{BTreeMap, HashSet};
use std::io::Write;
use std::process::{Command, ExitCode, Stdio};

const REGISTERS: usize = 5;
const SLOTS: usize = 16;
const MOST_STATES: usize = 2_000_000;
/// A run that takes more seconds hangs.
const SECONDS: &str = "60";

/// A line of a section.
#[derive(Clone, Copy, PartialEq, Eq)]
enum Line {
    Key(usize),
    Forget(usize),
    Put(usize, i64),
    Get(usize),
    Del(usize),
    SetWeak(usize, usize),
    GetWeak(usize, usize),
    FullMajor,
}

impl Line {
    /// A random line. Most are of three registers and two slots, so that domains meet.
    fn random(dice: &mut Dice) -> Line {
        let register = 1 + dice.below(3);
        let slot = [0, 7, 15][dice.below(3)];
        match dice.below(16) {
            0 | 1 => Line::Key(register),
            2 | 3 => Line::Forget(register),
            4 | 5 | 6 => Line::Put(register, dice.below(9) as i64),
            7 | 8 => Line::Get(register),
            9 => Line::Del(register),
            10 | 11 => Line::SetWeak(slot, register),
            12 | 13 | 14 => Line::GetWeak(register, slot),
            _ => Line::FullMajor,
        }
    }

    fn text(self) -> String {
        match self {
            Line::Key(r) => format!("key {r}"),
            Line::Forget(r) => format!("forget {r}"),
            Line::Put(r, value) => format!("put {r} {value}"),
            Line::Get(r) => format!("get {r}"),
            Line::Del(r) => format!("del {r}"),
            Line::SetWeak(slot, r) => format!("wset {slot} {r}"),
            Line::GetWeak(r, slot) => format!("wget {r} {slot}"),
            Line::FullMajor => "full_major".into(),
        }
    }
}

/// All that the domains share and hold. Keys are counted as they are made.
#[derive(Clone, PartialEq, Eq, Hash)]
struct State {
    next: Vec<usize>,
    registers: Vec<[Option<u32>; REGISTERS + 1]>,
    slots: [Option<u32>; SLOTS],
    bindings: BTreeMap<u32, i64>,
    made: u32,
}

impl State {
    fn is_held(&self, key: u32) -> bool {
        self.registers.iter().flatten().any(|held| *held == Some(key))
    }

    /// A key that nothing holds goes, with all that is weak.
    fn lose(&mut self, key: u32) {
        self.bindings.remove(&key);
        self.slots.iter_mut().filter(|slot| **slot == Some(key)).for_each(|slot| *slot = None);
    }

    fn lose_unheld(&mut self) {
        let weak: Vec<u32> = self.slots.iter().flatten().copied().chain(self.bindings.keys().copied()).collect();
        weak.into_iter().filter(|key| !self.is_held(*key)).collect::<Vec<_>>().into_iter().for_each(|key| self.lose(key));
    }

    /// Makes a line, if it is answered so.
    fn make(&mut self, domain: usize, line: Line, reply: &str) -> bool {
        let held = |state: &State, r: usize| state.registers[domain][r];
        match line {
            Line::Key(r) if reply == "ok" => {
                self.registers[domain][r] = Some(self.made);
                self.made += 1;
                true
            }
            Line::Key(_) => reply == "full",
            Line::Forget(r) => {
                self.registers[domain][r] = None;
                reply == "ok"
            }
            Line::Put(r, value) => match (held(self, r), reply) {
                (None, _) => reply == "type",
                (Some(key), "ok") => {
                    self.bindings.insert(key, value);
                    true
                }
                (Some(_), _) => reply == "full",
            },
            Line::Get(r) => match held(self, r) {
                None => reply == "type",
                Some(key) => self.bindings.get(&key).map_or("none".into(), |value| format!("int {value}")) == reply,
            },
            Line::Del(r) => match held(self, r) {
                None => reply == "type",
                Some(key) => (if self.bindings.remove(&key).is_some() { "ok" } else { "none" }) == reply,
            },
            Line::SetWeak(slot, r) => match held(self, r) {
                None => reply == "type",
                Some(key) => {
                    self.slots[slot] = Some(key);
                    reply == "ok"
                }
            },
            Line::GetWeak(r, slot) => self.find(domain, r, slot, reply),
            Line::FullMajor => {
                self.lose_unheld();
                reply == "ok"
            }
        }
    }

    /// A slot that is read: its key may be gone where nothing holds it.
    fn find(&mut self, domain: usize, r: usize, slot: usize, reply: &str) -> bool {
        match (self.slots[slot], reply) {
            (Some(key), "yes") => {
                self.registers[domain][r] = Some(key);
                true
            }
            (Some(key), "none") if !self.is_held(key) => {
                self.lose(key);
                self.registers[domain][r] = None;
                true
            }
            (None, "none") => {
                self.registers[domain][r] = None;
                true
            }
            _ => false,
        }
    }
}

#[derive(Clone, Copy, PartialEq, Eq)]
enum Verdict {
    Legal,
    NoneFound,
    GivenUp,
}

/// Looks for an order of all lines in which they are answered so.
fn verdict(sections: &[Vec<Line>], replies: &[Vec<&str>]) -> Verdict {
    if sections.iter().zip(replies).any(|(lines, told)| lines.len() != told.len()) {
        return Verdict::NoneFound;
    }
    let opening = State {
        next: vec![0; sections.len()],
        registers: vec![[None; REGISTERS + 1]; sections.len()],
        slots: [None; SLOTS],
        bindings: BTreeMap::new(),
        made: 0,
    };
    let (mut open, mut seen) = (vec![opening], HashSet::new());
    while let Some(state) = open.pop() {
        if state.next.iter().zip(sections).all(|(next, lines)| *next == lines.len()) {
            return Verdict::Legal;
        }
        if seen.len() > MOST_STATES {
            return Verdict::GivenUp;
        }
        for domain in 0..sections.len() {
            let at = state.next[domain];
            let Some(line) = sections[domain].get(at) else { continue };
            let mut after = state.clone();
            if after.make(domain, *line, replies[domain][at]) {
                after.next[domain] += 1;
                if seen.insert(after.clone()) {
                    open.push(after);
                }
            }
        }
    }
    Verdict::NoneFound
}

fn text_of(sections: &[Vec<Line>]) -> String {
    let mut text = String::from("table 2\n");
    for (number, lines) in sections.iter().enumerate() {
        text += &format!("domain {number}\n");
        lines.iter().for_each(|line| text += &(line.text() + "\n"));
    }
    text
}

/// The replies below each heading.
fn replies_of(output: &str, domains: usize) -> Option<Vec<Vec<&str>>> {
    let mut replies: Vec<Vec<&str>> = Vec::new();
    for line in output.lines() {
        if line == format!("domain {}", replies.len()) && replies.len() < domains {
            replies.push(Vec::new());
        } else {
            replies.last_mut()?.push(line);
        }
    }
    (replies.len() == domains).then_some(replies)
}

/// What the program prints for a text, and its status, which is 124 where it hangs.
fn output(program: &str, domains: usize, text: &str) -> std::io::Result<(String, Option<i32>)> {
    let mut run = Command::new("timeout")
        .args([SECONDS, program, "table", "--domains", &domains.to_string()])
        .stdin(Stdio::piped())
        .stdout(Stdio::piped())
        .spawn()?;
    run.stdin.take().expect("a pipe").write_all(text.as_bytes())?;
    let done = run.wait_with_output()?;
    Ok((String::from_utf8_lossy(&done.stdout).into_owned(), done.status.code()))
}

fn judged(sections: &[Vec<Line>], output: &str) -> Verdict {
    replies_of(output, sections.len()).map_or(Verdict::NoneFound, |replies| verdict(sections, &replies))
}

/// The same output with one reply in it changed.
fn spoilt(dice: &mut Dice, output: &str) -> String {
    let mut lines: Vec<String> = output.lines().map(str::to_owned).collect();
    let places: Vec<usize> = (0..lines.len()).filter(|at| !lines[*at].starts_with("domain ")).collect();
    if !places.is_empty() {
        let at = places[dice.below(places.len())];
        lines[at] = match lines[at].as_str() {
            "ok" => "type",
            "none" => "int 4",
            "yes" => "none",
            "type" => "ok",
            _ => "none",
        }
        .to_owned();
    }
    lines.join("\n") + "\n"
}

fn main() -> ExitCode {
    let words: Vec<String> = std::env::args().collect();
    let (Some(program), Some(count)) = (words.get(1), words.get(2).and_then(|word| word.parse::<u64>().ok())) else {
        eprintln!("usage: sections PROGRAM COUNT");
        return ExitCode::from(1);
    };
    let (mut found, mut spoilt_found, mut wrong) = ([0; 3], [0; 3], 0);
    for seed in 1..=count {
        let dice = &mut Dice::new(seed);
        let domains = 2 + dice.below(3);
        let length = [0, 0, 14, 9, 7][domains] + dice.below(6);
        let sections: Vec<Vec<Line>> = (0..domains).map(|_| (0..length).map(|_| Line::random(dice)).collect()).collect();
        let text = text_of(&sections);
        let (output, status) = output(program, domains, &text).expect("the program runs");
        let said = judged(&sections, &output);
        if status != Some(0) || said == Verdict::NoneFound {
            wrong += 1;
            println!("status {status:?}; no order of\n{output}found for\n{text}");
        }
        found[said as usize] += 1;
        spoilt_found[judged(&sections, &spoilt(dice, &output)) as usize] += 1;
    }
    println!("as printed: {} legal, {} with no order, {} given up; {wrong} wrong", found[0], found[1], found[2]);
    println!("with one reply changed: {} legal, {} with no order, {} given up", spoilt_found[0], spoilt_found[1], spoilt_found[2]);
    ExitCode::from(u8::from(wrong > 0))
}
