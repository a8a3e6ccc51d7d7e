//! Runs random scripts of version 3, whose sections spawn and join one another, and looks for a legal history of each output by the
//! search of bench/judge. `bench/spawns.sh` builds and runs it. What it says rests on this program alone, which isn't proved.

#[path = "../judge/collector.rs"]
mod collector;
#[path = "../judge/model.rs"]
mod model;
#[path = "../judge/outputs.rs"]
mod outputs;
#[allow(dead_code)]
#[path = "../judge/random.rs"]
mod random;
#[allow(dead_code)]
#[path = "../twin/script.rs"]
mod script;
#[allow(dead_code)]
#[path = "../judge/search.rs"]
mod search;

use model::State;
use outputs::sections;
use random::Dice;
use search::{Question, Step, Verdict};
use std::io::Write;
use std::process::{Command, ExitCode, Stdio};

const MOST_STATES: usize = 1_000_000;
/// Of each so many outputs one is judged with a changed line too.
const SPOILT_EVERY: u64 = 10;
/// A run that takes more seconds hangs.
const SECONDS: &str = "60";

/// A line of a section.
#[derive(Clone)]
enum Line {
    Plain(String),
    Told(Step),
}

impl Line {
    fn text(&self) -> String {
        match self {
            Line::Plain(text) => text.clone(),
            Line::Told(Step::Spawn { section, item }) => format!("spawn {section} {item}"),
            Line::Told(Step::Argument { dst }) => format!("argument {dst}"),
            Line::Told(Step::PutResult { item }) => format!("result {item}"),
            Line::Told(Step::Join { dst, section }) => format!("join {dst} {section}"),
            Line::Told(_) => unreachable!("a step with no line"),
        }
    }
}

/// A script: the lines of the sections that have a heading. Each but the first is spawned by a lower one.
struct Script {
    domains: usize,
    sections: Vec<Vec<Line>>,
}

/// Puts a line into a section at a place drawn from a first one on, and answers the place.
fn insert(dice: &mut Dice, section: &mut Vec<Line>, from: usize, step: Step) -> usize {
    let at = from + dice.below(section.len() - from + 1);
    section.insert(at, Line::Told(step));
    at
}

impl Script {
    fn random(dice: &mut Dice) -> Script {
        let lengths = random::WHOLE.lengths;
        let domains = 1 + dice.below(lengths.len());
        let spawned = 1 + dice.below(domains);
        let plain = |dice: &mut Dice| Line::Plain(random::command(dice, &random::WHOLE));
        let mut sections: Vec<Vec<Line>> = (0..spawned)
            .map(|_| (0..lengths[spawned - 1]).map(|_| plain(dice)).collect())
            .collect();
        for section in 1..spawned {
            let parent = dice.below(section);
            let register = |dice: &mut Dice| dice.below(5) as u8;
            let (item, dst) = (register(dice), register(dice));
            // A parent that another section spawns may itself spawn at any place of its own.
            let at = insert(dice, &mut sections[parent], 0, Step::Spawn { section, item });
            if dice.below(4) > 0 {
                insert(dice, &mut sections[parent], at + 1, Step::Join { dst, section });
            }
            let (dst, item) = (register(dice), register(dice));
            if dice.below(4) > 0 {
                insert(dice, &mut sections[section], 0, Step::Argument { dst });
            }
            if dice.below(4) > 0 {
                insert(dice, &mut sections[section], 0, Step::PutResult { item });
            }
        }
        Script { domains, sections }
    }

    /// The text, with another line in place of those that `plain` can't read, where it is of version 2.
    fn text(&self, version: u32) -> String {
        let mut text = format!("heap {version}\n");
        for (number, section) in self.sections.iter().enumerate() {
            text += &format!("domain {number}\n");
            for line in section {
                let told = matches!(line, Line::Told(_)) && version == 2;
                text += &if told { "poll".into() } else { line.text() };
                text.push('\n');
            }
        }
        text
    }

    /// The steps of each domain.
    fn steps(&self) -> Vec<Vec<Step>> {
        let plain = script::read(self.text(2).as_bytes(), self.domains as u32).expect("a script without a fault");
        let mut steps: Vec<Vec<Step>> = vec![Vec::new(); self.domains];
        for (number, section) in self.sections.iter().enumerate() {
            steps[number].extend((number > 0).then_some(Step::Begin));
            steps[number].extend(section.iter().zip(&plain[number]).map(|(line, command)| match line {
                Line::Plain(_) => Step::Make(*command),
                Line::Told(step) => *step,
            }));
            steps[number].extend((number > 0).then_some(Step::Finish));
        }
        steps
    }
}

/// What the program prints for a script, and its status, which is 124 where it hangs.
fn output(program: &str, script: &Script) -> std::io::Result<(String, Option<i32>)> {
    let mut run = Command::new("timeout")
        .args([SECONDS, program, "run", "--domains", &script.domains.to_string()])
        .stdin(Stdio::piped())
        .stdout(Stdio::piped())
        .spawn()?;
    run.stdin
        .take()
        .expect("a pipe")
        .write_all(script.text(3).as_bytes())?;
    let done = run.wait_with_output()?;
    Ok((String::from_utf8_lossy(&done.stdout).into_owned(), done.status.code()))
}

fn judged(script: &Script, output: &str) -> Verdict {
    match sections(output, script.domains) {
        Some(lines) => Question {
            opening: State::with_hidden(script.domains),
            sections: script.steps(),
            lines,
        }
        .verdict(MOST_STATES),
        None => Verdict::NoneFound,
    }
}

/// The same output with one integer in it changed.
fn spoilt(output: &str) -> String {
    match output.split_once("int ") {
        Some((front, behind)) => {
            let rest = behind.trim_start_matches(|it: char| it != '\n');
            format!("{front}int 77{rest}")
        }
        None => output.to_owned(),
    }
}

fn main() -> ExitCode {
    let words: Vec<String> = std::env::args().collect();
    let (Some(program), Some(count)) = (words.get(1), words.get(2).and_then(|word| word.parse::<u64>().ok())) else {
        eprintln!("usage: spawns PROGRAM COUNT");
        return ExitCode::from(1);
    };
    let (mut found, mut spoilt_found, mut wrong) = ([0; 3], [0; 3], 0);
    for seed in 1..=count {
        let script = Script::random(&mut Dice::new(seed));
        let (output, status) = output(program, &script).expect("the program runs");
        let verdict = judged(&script, &output);
        if status != Some(0) || verdict == Verdict::NoneFound {
            wrong += 1;
            println!("status {status:?}; no history of\n{output}found for\n{}", script.text(3));
        }
        found[verdict as usize] += 1;
        let changed = spoilt(&output);
        if seed % SPOILT_EVERY == 0 && changed != output {
            spoilt_found[judged(&script, &changed) as usize] += 1;
        }
    }
    println!("as printed: {} legal, {} with no history, {} given up; {wrong} wrong", found[0], found[1], found[2]);
    println!(
        "with one integer changed: {} legal, {} with no history, {} given up",
        spoilt_found[0], spoilt_found[1], spoilt_found[2]
    );
    ExitCode::from(u8::from(wrong > 0))
}
