//! Has outputs judged by the program history_check, and compares what it says with what is known. `bench/check_outputs.sh` builds and
//! runs it. What it says rests on this program and on the search of bench/judge alone, which aren't proved.

#[path = "../judge/collector.rs"]
mod collector;
#[path = "../judge/model.rs"]
mod model;
#[path = "../judge/outputs.rs"]
mod outputs;
#[allow(dead_code)]
#[path = "../judge/random.rs"]
mod random;
#[allow(dead_code)]
#[path = "../twin/script.rs"]
mod script;
#[path = "../judge/search.rs"]
mod search;

use outputs::sections;
use random::{Dice, Kind};
use search::{Question, Verdict};
use std::io::Write;
use std::process::{Command, ExitCode, Stdio};
use std::time::{Duration, Instant};

const MOST_STATES: usize = 30_000;
/// So many states history_check looks at.
const STATES: &str = "2000000";

/// The statuses of history_check.
const LEGAL: i32 = 0;
const NONE_FOUND: i32 = 6;
const GAVE_UP: i32 = 7;

/// What a command prints for this input, and its status.
fn piped(command: &mut Command, input: &str) -> std::io::Result<(String, i32)> {
    let mut run = command
        .stdin(Stdio::piped())
        .stdout(Stdio::piped())
        .stderr(Stdio::null())
        .spawn()?;
    run.stdin
        .take()
        .expect("a pipe")
        .write_all(input.as_bytes())?;
    let done = run.wait_with_output()?;
    let text = String::from_utf8_lossy(&done.stdout).into_owned();
    Ok((text, done.status.code().unwrap_or(-1)))
}

/// The programs that are run.
struct Programs {
    player: String,
    checker: String,
}

/// A script or a replay, and for how many domains it is.
struct Script {
    text: String,
    domains: usize,
}

impl Script {
    /// The word of the player that runs it.
    fn word(&self) -> &'static str {
        if self.text.starts_with("schedule ") { "replay" } else { "run" }
    }
}

impl Programs {
    fn output(&self, script: &Script) -> String {
        let mut command = Command::new(&self.player);
        command.args([script.word(), "--domains", &script.domains.to_string()]);
        piped(&mut command, &script.text).expect("the program runs").0
    }

    /// The status of history_check, and how long it took.
    fn judged(&self, script: &Script, output: &str) -> (i32, Duration) {
        let mut command = Command::new(&self.checker);
        command.args(["--domains", &script.domains.to_string(), "--states", STATES]);
        let begun = Instant::now();
        let input = format!("{}---\n{output}", script.text);
        let status = piped(&mut command, &input).expect("history_check runs").1;
        (status, begun.elapsed())
    }
}

/// The status that bench/judge would have, or `None` where it gives up.
fn known(script: &Script, output: &str) -> Option<i32> {
    let Some(lines) = sections(output, script.domains) else {
        return Some(NONE_FOUND);
    };
    let sections = script::read(script.text.as_bytes(), script.domains as u32).expect("a script without a fault");
    match Question::of_commands(sections, lines).verdict(MOST_STATES) {
        Verdict::Legal => Some(LEGAL),
        Verdict::NoneFound => Some(NONE_FOUND),
        Verdict::GaveUp => None,
    }
}

/// Another reply in place of one.
fn changed(line: &str) -> Option<String> {
    Some(match line.split(' ').next()? {
        "yes" => "no".into(),
        "no" => "yes".into(),
        "none" => "int 0".into(),
        "int" => "int 7".into(),
        "blk" => "none".into(),
        "live" => "live 1 18".into(),
        "fin" | "last" => "ok".into(),
        _ => return None,
    })
}

/// The same output with one of its replies changed.
fn spoilt(output: &str, seed: u64) -> String {
    let mut lines: Vec<String> = output.lines().map(str::to_owned).collect();
    let places: Vec<usize> = (0..lines.len())
        .filter(|at| changed(&lines[*at]).is_some_and(|new| new != lines[*at]))
        .collect();
    if let Some(at) = places.get((seed as usize).wrapping_mul(7919) % places.len().max(1)) {
        lines[*at] = changed(&lines[*at]).expect("a reply that can be changed");
    }
    lines.join("\n") + "\n"
}

/// How many outputs had each status, and how many were not judged as they should be.
#[derive(Default)]
struct Counts {
    legal: u32,
    none_found: u32,
    gave_up: u32,
    unknown: u32,
    wrong: u32,
    slowest: Duration,
}

impl Counts {
    fn add(&mut self, script: &Script, output: &str, (status, took): (i32, Duration), wanted: Option<i32>) {
        match status {
            LEGAL => self.legal += 1,
            NONE_FOUND => self.none_found += 1,
            GAVE_UP => self.gave_up += 1,
            _ => {}
        }
        self.unknown += u32::from(wanted.is_none());
        self.slowest = self.slowest.max(took);
        if wanted.is_some_and(|wanted| wanted != status) {
            self.wrong += 1;
            println!("history_check ends with {status} on\n{}---\n{output}", script.text);
        }
    }

    fn tell(&self, what: &str) {
        println!(
            "{what}: {} legal, {} with no history found, {} given up; {} not as they should be; of {} nothing else is known; \
             the slowest took {:.2} s",
            self.legal,
            self.none_found,
            self.gave_up,
            self.wrong,
            self.unknown,
            self.slowest.as_secs_f64()
        );
    }
}

/// Judges outputs as they were printed: each must be legal.
fn as_printed(programs: &Programs, kind: &Kind, domains: Option<usize>, count: u64) -> Counts {
    let mut counts = Counts::default();
    for seed in 1..=count {
        let mut dice = Dice::new(seed);
        let domains = domains.unwrap_or(1 + seed as usize % kind.lengths.len());
        let text = random::script_for(&mut dice, kind, domains);
        let script = Script { text, domains };
        let output = programs.output(&script);
        let judged = programs.judged(&script, &output);
        counts.add(&script, &output, judged, Some(LEGAL));
    }
    counts
}

/// Judges outputs with one reply changed, as bench/judge judges them.
fn with_one_changed(programs: &Programs, count: u64) -> Counts {
    let mut counts = Counts::default();
    for seed in 1..=count {
        let domains = 1 + seed as usize % 4;
        let text = random::script_for(&mut Dice::new(seed), &random::WHOLE, domains);
        let script = Script { text, domains };
        let output = spoilt(&programs.output(&script), seed);
        let judged = programs.judged(&script, &output);
        counts.add(&script, &output, judged, known(&script, &output));
    }
    counts
}

/// A random replay: a schedule of up to 80 items, of which each tenth is a collection, and a script with no `major`.
fn replay(seed: u64) -> Script {
    let mut dice = Dice::new(seed);
    let domains = 1 + seed as usize % 4;
    let mut text = String::from("schedule 1\n");
    for _ in 0..dice.below(80) {
        match dice.below(10) {
            0 => text.push_str("collect\n"),
            _ => text.push_str(&format!("turn {}\n", dice.below(domains))),
        }
    }
    text.push_str("end\n");
    for line in random::script_for(&mut dice, &random::of_length(&[60; 4]), domains).lines() {
        text.push_str(if line == "major" { "minor" } else { line });
        text.push('\n');
    }
    Script { text, domains }
}

/// Judges the outputs of replays: as they were printed each must be legal, and with one reply changed none may be.
fn replays(programs: &Programs, count: u64) -> [Counts; 2] {
    let mut counts = [Counts::default(), Counts::default()];
    for seed in 1..=count {
        let script = replay(seed);
        let output = programs.output(&script);
        let other = spoilt(&output, seed);
        counts[0].add(&script, &output, programs.judged(&script, &output), Some(LEGAL));
        let wanted = if other == output { LEGAL } else { NONE_FOUND };
        counts[1].add(&script, &other, programs.judged(&script, &other), Some(wanted));
    }
    counts
}

fn main() -> ExitCode {
    let words: Vec<String> = std::env::args().collect();
    let count = |at: usize| words.get(at).and_then(|word| word.parse::<u64>().ok());
    let (Some(player), Some(checker), Some(what), Some(count)) = (words.get(1), words.get(2), words.get(3), count(4)) else {
        eprintln!("usage: check_outputs PLAYER CHECKER camlheap|replays|ocaml|speed COUNT");
        return ExitCode::from(1);
    };
    let programs = Programs {
        player: player.clone(),
        checker: checker.clone(),
    };
    let all = match what.as_str() {
        "ocaml" => vec![("outputs of OCaml 5", as_printed(&programs, &random::OF_OCAML, None, count))],
        "replays" => {
            let [printed, changed] = replays(&programs, count);
            vec![("replays as printed", printed), ("replays with one reply changed", changed)]
        }
        "speed" => vec![
            ("three domains with 40 commands each", as_printed(&programs, &random::of_length(&[0, 0, 40]), Some(3), count)),
            ("one domain with 2,000 commands", as_printed(&programs, &random::of_length(&[2000]), Some(1), count)),
        ],
        _ => vec![
            ("as printed", as_printed(&programs, &random::of_length(&[60; 4]), None, count)),
            ("with one reply changed", with_one_changed(&programs, count)),
        ],
    };
    for (what, counts) in &all {
        counts.tell(what);
    }
    ExitCode::from(u8::from(all.iter().any(|(_, counts)| counts.wrong > 0)))
}
