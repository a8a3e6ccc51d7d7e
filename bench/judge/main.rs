//! Runs random scripts and looks for a legal history of each output. `bench/judge.sh` and `bench/ocaml5.sh` build and run it.
//! What it says rests on this program alone, which isn't proved.

mod collector;
mod model;
mod outputs;
mod random;
#[allow(dead_code)]
#[path = "../twin/script.rs"]
mod script;
mod search;

use outputs::sections;
use random::Dice;
use search::{Question, Verdict};
use std::io::Write;
use std::process::{Command, ExitCode, Stdio};

const MOST_STATES: usize = 100_000;
/// Of each so many scripts one is judged with a changed line too.
const SPOILT_EVERY: u64 = 10;

/// What the program prints for a script.
fn output(program: &str, script: &str, domains: usize) -> std::io::Result<String> {
    let mut run = Command::new(program)
        .args(["run", "--domains", &domains.to_string()])
        .stdin(Stdio::piped())
        .stdout(Stdio::piped())
        .spawn()?;
    run.stdin
        .take()
        .expect("a pipe")
        .write_all(script.as_bytes())?;
    let done = run.wait_with_output()?;
    Ok(String::from_utf8_lossy(&done.stdout).into_owned())
}

fn judged(script: &str, output: &str, domains: usize) -> Verdict {
    let commands =
        script::read(script.as_bytes(), domains as u32).expect("a script without a fault");
    match sections(output, domains) {
        Some(lines) => Question::of_commands(commands, lines).verdict(MOST_STATES),
        None => Verdict::NoneFound,
    }
}

/// The same output with one of its lines changed.
fn spoilt(output: &str, seed: u64) -> String {
    let mut lines: Vec<String> = output.lines().map(str::to_owned).collect();
    let told: Vec<usize> = (0..lines.len())
        .filter(|at| lines[*at].starts_with("int ") || lines[*at] == "yes" || lines[*at] == "no")
        .collect();
    if let Some(at) = told.get(seed as usize % told.len().max(1)) {
        lines[*at] = match lines[*at].as_str() {
            "yes" => "no".into(),
            "no" => "yes".into(),
            _ => "int 7".into(),
        };
    }
    lines.join("\n") + "\n"
}

fn main() -> ExitCode {
    let words: Vec<String> = std::env::args().collect();
    let number = |at: usize| words.get(at).and_then(|word| word.parse::<u64>().ok());
    let (Some(program), Some(first), Some(end)) = (words.get(1), number(2), number(3)) else {
        eprintln!("usage: judge PROGRAM FIRST END [ocaml]");
        return ExitCode::from(1);
    };
    let kind = match words.get(4).map(String::as_str) {
        Some("ocaml") => &random::OF_OCAML,
        _ => &random::WHOLE,
    };
    let mut found = [0; 3];
    let mut spoilt_found = [0; 3];
    for seed in first..end {
        let (text, domains) = random::script(&mut Dice::new(seed), kind);
        let output = output(program, &text, domains).expect("the program runs");
        let verdict = judged(&text, &output, domains);
        if verdict == Verdict::NoneFound {
            println!("no history found of script {seed}:\n{text}with the output\n{output}");
        }
        found[verdict as usize] += 1;
        let changed = spoilt(&output, seed);
        if seed % SPOILT_EVERY == 0 && changed != output {
            spoilt_found[judged(&text, &changed, domains) as usize] += 1;
        }
    }
    println!(
        "as printed: {} legal, {} with no history, {} given up",
        found[0], found[1], found[2]
    );
    println!(
        "with one line changed: {} legal, {} with no history, {} given up",
        spoilt_found[0], spoilt_found[1], spoilt_found[2]
    );
    if found[1] == 0 {
        ExitCode::SUCCESS
    } else {
        ExitCode::from(1)
    }
}
