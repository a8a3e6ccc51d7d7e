//! Decides whether an output of bench/map_threads is that of one order of all calls, in which each domain keeps its own order, each call lies
//! between its stamps, and a lookup answers what was put last and not taken since, else none. It isn't proved, and what it calls legal it has
//! played again in the order that it found. bench/map_threads.sh builds and runs it.
//!
//!   map_orders [--gaps] [--brute] FILE     the verdict. With --gaps stamps may be missing; --brute tries all orders of few calls instead
//!   map_orders --spoil COUNT SEED FILE     how many of so many changed outputs of each kind are refused
//!   map_orders --self-test COUNT           compares the search with the trial of all orders, on so many small histories of each kind
//!
//! status  0  legal, or as it should be   1  not so   2  no output, or the words aren't as above

mod brute;
mod history;
mod order;
#[allow(dead_code)]
#[path = "../judge/random.rs"]
mod random;
mod replay;
mod samples;
mod spoil;

use history::{Call, Fault, History, Kind};
use random::Dice;
use std::process::ExitCode;

/// A legal history: how many bindings a collection must have taken.
struct Legal {
    lost: usize,
}

/// Decides by the search: first without any binding that is lost.
fn judge(history: &History, has_gaps: bool) -> Result<Legal, Fault> {
    if let Some(fault) = history.stamp_fault(has_gaps).or_else(|| history.value_fault()) {
        return Err(fault);
    }
    let order = order::order_of(history, true).or_else(|_| order::order_of(history, false))?;
    let lost = replay::replay(history, &order).map_err(|fault| format!("the order that was found isn't one: {fault}"))?;
    Ok(Legal { lost })
}

fn judge_by_brute(history: &History, has_gaps: bool) -> Result<Legal, Fault> {
    if let Some(fault) = history.stamp_fault(has_gaps).or_else(|| history.value_fault()) {
        return Err(fault);
    }
    match brute::has_order(history, false) {
        true => Ok(Legal { lost: 0 }),
        false => Err("no order of all".to_owned()),
    }
}

/// How many calls go on while another domain calls on the same key.
fn count_meetings(history: &History) -> usize {
    let mut count = 0;
    for calls in history.by_keys() {
        let ends = calls.iter().scan(0, |end, &number| {
            let was = *end;
            *end = history.calls[number].after.max(was);
            Some(was)
        });
        count += calls.iter().zip(ends).filter(|&(&number, end)| history.calls[number].before < end).count();
    }
    count
}

fn count(history: &History, is: impl Fn(&Call) -> bool) -> usize {
    history.calls.iter().filter(|call| is(call)).count()
}

fn mix(history: &History) -> String {
    let puts = count(history, |call| matches!(call.kind, Kind::Put { .. }));
    let full = count(history, |call| call.kind == Kind::Refused);
    let found = count(history, |call| matches!(call.kind, Kind::Get { found: Some(_) }));
    let none = count(history, |call| call.kind == Kind::Get { found: None });
    let taken = count(history, |call| call.kind == Kind::Take { was_bound: true });
    let missed = count(history, |call| call.kind == Kind::Take { was_bound: false });
    let kept = history.kept.iter().filter(|&&kept| kept).count();
    format!(
        "{} calls, {} keys of which {kept} kept, puts {puts}, full {full}, found {found}, none {none}, taken {taken}, not bound {missed}, met {}",
        history.calls.len(),
        history.kept.len(),
        count_meetings(history)
    )
}

fn told(file: &str, verdict: impl Fn(&History) -> Result<Legal, Fault>) -> Result<ExitCode, Fault> {
    let history = read(file)?;
    match verdict(&history) {
        Ok(Legal { lost }) => {
            println!("legal: {}, lost {lost}", mix(&history));
            Ok(ExitCode::SUCCESS)
        }
        Err(fault) => {
            println!("not legal: {fault}");
            Ok(ExitCode::from(1))
        }
    }
}

fn read(file: &str) -> Result<History, Fault> {
    let text = std::fs::read_to_string(file).map_err(|error| format!("{file}: {error}"))?;
    History::read(&text)
}

/// Counts how many changed outputs are refused, and how many are legal only where a collection took a binding, of so many of each kind.
fn spoil_all(tries: u64, seed: u64, file: &str) -> Result<ExitCode, Fault> {
    let history = read(file)?;
    let mut dice = Dice::new(seed);
    for spoilt in spoil::ALL {
        let (mut made, mut refused, mut losing) = (0, 0, 0);
        for _ in 0..tries {
            let Some(changed) = spoil::spoil(&mut dice, &history, spoilt) else {
                continue;
            };
            made += 1;
            match judge(&changed, spoilt.has_gaps()) {
                Ok(Legal { lost }) => losing += usize::from(lost > 0),
                Err(_) => refused += 1,
            }
        }
        println!("spoilt {spoilt:?} {made} refused {refused} losing {losing}");
    }
    Ok(ExitCode::SUCCESS)
}

/// Compares the two deciders on one history. Answers whether it is legal, or what is wrong.
fn compare(history: &History) -> Result<bool, Fault> {
    for loses_none in [true, false] {
        let order = order::order_of(history, loses_none);
        if let Ok(order) = &order {
            let lost = replay::replay(history, order)?;
            if loses_none && lost > 0 {
                return Err("a binding is lost that mustn't be".to_owned());
            }
        }
        if order.is_ok() != brute::has_order(history, loses_none) {
            return Err(format!("the search says {}, the trial of all orders not so", order.is_ok()));
        }
    }
    Ok(order::order_of(history, false).is_ok())
}

fn self_test(tries: u64) -> ExitCode {
    let mut status = ExitCode::SUCCESS;
    for wrong in samples::ALL {
        let (mut legal, mut refused) = (0, 0);
        for seed in 1..=tries {
            let history = samples::sample(&mut Dice::new(seed), wrong);
            match compare(&history) {
                Ok(true) => legal += 1,
                Ok(false) if wrong != samples::Wrong::Nothing => refused += 1,
                Ok(false) => {
                    println!("{wrong:?} {seed}: no order of {:?}", history.calls);
                    status = ExitCode::from(1);
                }
                Err(fault) => {
                    println!("{wrong:?} {seed}: {fault}, of {:?}", history.calls);
                    status = ExitCode::from(1);
                }
            }
        }
        println!("{wrong:?}: {legal} legal, {refused} refused, by both");
    }
    status
}

fn run(words: &[&str]) -> Result<ExitCode, Fault> {
    let number = |word: &str| word.parse::<u64>().map_err(|_| format!("{word} is no number"));
    match words {
        ["--self-test", tries] => Ok(self_test(number(tries)?)),
        ["--spoil", tries, seed, file] => spoil_all(number(tries)?, number(seed)?, file),
        ["--gaps", "--brute", file] => told(file, |history| judge_by_brute(history, true)),
        ["--brute", file] => told(file, |history| judge_by_brute(history, false)),
        ["--gaps", file] => told(file, |history| judge(history, true)),
        [file] => told(file, |history| judge(history, false)),
        _ => Err("usage: map_orders [--gaps] [--brute] FILE | --spoil COUNT SEED FILE | --self-test COUNT".to_owned()),
    }
}

fn main() -> ExitCode {
    let words: Vec<String> = std::env::args().skip(1).collect();
    let words: Vec<&str> = words.iter().map(String::as_str).collect();
    run(&words).unwrap_or_else(|fault| {
        eprintln!("map_orders: {fault}");
        ExitCode::from(2)
    })
}
